#!/bin/sh
# Runs every transcript in README.md and docs/ and compares what the built program prints with what stands there. A transcript is a
# block with lines `$ ./vericon ..` or `$ cat ..`; what it writes lies in a copy of examples/. A line `status N` behind a command's
# output is its status, which is 0 where no such line stands.
# Use: bench/transcripts.sh [--write] [FILE..]; with --write the pages get what was printed.
. "$(dirname "$0")/common.sh"
VERICON=$vericon python3 "$here/transcripts.py" "$work" "$@"
