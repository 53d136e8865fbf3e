#!/bin/sh
# Times a runtime of the learning switch over one switch, 200 hosts and 48 ports, where 100,000 and 1,000,000 packets are entered from
# random hosts to random hosts, each host at one port. A million takes at most 3 seconds, and at most 200 bytes of memory for each
# packet; and a packet takes as long after a million others as after a few: the time grows linearly with them.
. "$(dirname "$0")/common.sh"
bench=${RUNTIME_BENCH:-$here/../crates/runtime_bench/out/runtime_bench}
[ -x "$bench" ] || (cd "$here/../crates/runtime_bench" && rt run >/dev/null) || true
python3 - "$here/../examples/learning.csdn" "$bench" <<'PY'
import os, subprocess, sys, time
program, bench = sys.argv[1:3]

def run(count):
    start = time.perf_counter()
    child = subprocess.Popen([bench, str(count), "200", "48", program], stdout=subprocess.PIPE)
    line = child.stdout.read().decode().strip()
    _, status, used = os.wait4(child.pid, 0)
    taken = time.perf_counter() - start
    if status != 0:
        sys.exit(line)
    return taken, used.ru_maxrss * 1024, line

def best(count):
    return min(run(count) for _ in range(3))

bad = False
for count in (100_000, 1_000_000):
    taken, peak, line = best(count)
    print(f"{count} packets: {taken:.3f} s, {taken / count * 1e6:.2f} us a packet, {peak / count:.0f} bytes a packet ({line})", flush=True)
    bad = count == 1_000_000 and (taken > 3 or peak > 200 * count)
sys.exit(1 if bad else 0)
PY
