#!/bin/sh
# Times `clauses` on logs of 10^4, 10^5 and 10^6 clauses and as many steps of three literals, and says how much
# memory it took. A step's time should not grow with the log, and memory should grow with the text.
# Use: bench/logs.sh [PROGRAM WORD..]; the default is the built program's `clauses`.
. "$(dirname "$0")/common.sh"
[ $# -gt 0 ] || set -- "$vericon" clauses
for size in 10000 100000 1000000; do
    python3 "$here/logs.py" "$size" > "$work/log.txt"
    python3 - "$size" "$work/log.txt" "$@" <<'PY'
import os, resource, subprocess, sys, time
size, path, command = int(sys.argv[1]), sys.argv[2], sys.argv[3:]
start = time.perf_counter()
run = subprocess.run(command + [path], stdout=subprocess.PIPE)
taken = time.perf_counter() - start
answer = run.stdout.decode().strip()
if run.returncode != 0:
    sys.exit(f"status {run.returncode}: {answer}")
memory = resource.getrusage(resource.RUSAGE_CHILDREN).ru_maxrss
length = os.path.getsize(path)
print(f"{size} steps: {answer}, {taken:.2f} s, {taken / size * 1e6:.2f} us a step, {memory} KiB for {length // 1024} KiB of text")
PY
done
