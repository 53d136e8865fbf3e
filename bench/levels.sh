#!/bin/sh
# Times `make 60`, and `conditions` and `check` of the firewall and of the learning switch at the levels 0 to 9, with the most
# memory that each call took. Says whether `make` took at most 1 s, and `conditions --strengthen 9` of the firewall at most 10 s
# and 1 GiB. Use: bench/levels.sh [PROGRAM]; the default is the built program.
. "$(dirname "$0")/common.sh"
[ $# -gt 0 ] || set -- "$vericon"
python3 - "$here/../examples" "$work/made.csdn" "$1" <<'PY'
import os, subprocess, sys, time
examples, made, program = sys.argv[1:]
missed = False

# how long the call takes, the most KiB that it takes, its status and its lines
def call(*words):
    start = time.perf_counter()
    run = subprocess.Popen([program, *words], stdout=subprocess.PIPE)
    lines = run.stdout.read().decode().splitlines()
    _, status, used = os.wait4(run.pid, 0)
    return time.perf_counter() - start, used.ru_maxrss, os.waitstatus_to_exitcode(status), lines

# prints a line of a call, and whether it kept to what it may take
def tell(name, said, taken, memory, status, seconds=None, kib=None):
    global missed
    late = seconds is not None and taken > seconds or kib is not None and memory > kib
    missed = missed or late
    print(f"{name}: {said}, status {status}, {taken:.3f} s, {memory} KiB{', too much' if late else ''}")

taken, memory, status, lines = call("make", "60", made)
tell("make 60", ", ".join(lines), taken, memory, status, seconds=1)
missed = missed or status != 0

for name in ("firewall.csdn", "learning.csdn"):
    path = os.path.join(examples, name)
    for level in range(10):
        taken, memory, status, lines = call("conditions", "--strengthen", str(level), path)
        inside = sum(line.endswith(" inside") for line in lines)
        may = {"seconds": 10, "kib": 1 << 20} if (name, level) == ("firewall.csdn", 9) else {}
        tell(f"conditions --strengthen {level} {name}", f"{len(lines)} conditions, {inside} inside", taken, memory, status, **may)
        missed = missed or status != 0
    for level in range(10):
        taken, memory, status, lines = call("check", "--strengthen", str(level), path)
        tell(f"check --strengthen {level} {name}", lines[0] if lines else "nothing", taken, memory, status)
sys.exit(1 if missed else 0)
PY
