#!/bin/sh
# Starts `run` with the learning switch on a loopback port, and lets bench/run_sender.c send it packets over 1, 8 and 64 sessions, each with
# 16 packets that wait for an answer. It prints how many packets are answered a second, the 50th and 99th percentile of the answer's time,
# and the processor time of a packet, the best of three; and beside them, in turn, the same of ovs-testcontroller where that is
# installed, which serves 16 switches at most. Of what `run` prints it checks that each packet is in the journal, and how each
# session ended. It then does so with peers that vanish in the middle of a frame beside the sessions, and with `--entries N` until a
# history has N entries, over 8 sessions. More packets a second than ovs-testcontroller are wanted, with 1 session and with 8.
# Use: bench/run.sh [--seconds S] [--window W] [--rounds R] [--sessions N ..] [--entries N]
. "$(dirname "$0")/common.sh"
cc -O2 -o "$work/sender" "$here/run_sender.c"
python3 "$here/run.py" "$work" "$vericon" "$here/../examples/learning.csdn" "$@"
