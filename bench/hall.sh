#!/bin/sh
# Times 1,000,000 acts in all of 1, 2, 4 and 64 seats on threads, beside as many threads that take the same runtime from under a mutex,
# and beside a runtime that is written by hand in Rust, under a mutex too. For each it prints the acts per second and the processor time
# per act, the best of five. A hall takes at most three times as long, and three times the processor time, as the same runtime under a mutex.
. "$(dirname "$0")/common.sh"
bench=${HALL_BENCH:-$here/../crates/hall_bench/out/hall_bench}
[ -x "$bench" ] || (cd "$here/../crates/hall_bench" && rt run >/dev/null) || true
rustc -O -o "$work/lock" "$here/lock.rs"
python3 - "$work" "$bench" <<'PY'
import os, resource, subprocess, sys, time
work, bench = sys.argv[1:3]
count = 1_000_000
def best(*command):
    shortest, least = None, None
    for _ in range(5):
        before = resource.getrusage(resource.RUSAGE_CHILDREN)
        start = time.perf_counter()
        run = subprocess.run(command, stdout=subprocess.PIPE, check=True)
        taken = time.perf_counter() - start
        after = resource.getrusage(resource.RUSAGE_CHILDREN)
        spent = after.ru_utime + after.ru_stime - before.ru_utime - before.ru_stime
        if run.stdout.decode().strip() != f"entered {count}":
            sys.exit(f"{' '.join(command)}: {run.stdout.decode().strip()}")
        shortest = taken if shortest is None else min(shortest, taken)
        least = spent if least is None else min(least, spent)
    return shortest, least
slow = False
for seats in (1, 2, 4, 64):
    row = [("hall", best(bench, "hall", str(seats), str(count))),
           ("the same runtime under a mutex", best(bench, "lock", str(seats), str(count))),
           ("by hand in Rust", best(os.path.join(work, "lock"), str(seats), str(count)))]
    print(f"seats {seats}: " + "; ".join(f"{name} {count / taken:,.0f} acts/s, {spent / count * 1e6:.2f} us each" for name, (taken, spent) in row), end="")
    (taken, spent), (other, cost) = row[0][1], row[1][1]
    within = taken <= 3 * other and spent <= 3 * cost
    slow = slow or not within
    print(f"; ratio {taken / other:.2f} in time, {spent / cost:.2f} in processor time{'' if within else ', too long'}", flush=True)
sys.exit(1 if slow else 0)
PY
