#!/bin/sh
# Times `check` of whole programs, and where z3 or cvc5 is installed, these solvers on the same conditions: all of a program's conditions up to a
# level in one text of SMT-LIB (bench/smt.py) and one process, whose start is counted on both sides. The least of RUNS is told (3).
# A line for each program and level: the first line of `check`, its time and its greatest memory, and the solvers' times.
# The end is 1 where a small program took more than 0.1 s, or a solver was faster. Use: bench/decide.sh [PROGRAM WORD..]; the default is the
# built program's `check`.
. "$(dirname "$0")/common.sh"
[ $# -gt 0 ] || set -- "$vericon" check
RUNS="${RUNS:-3}" python3 - "$here" "$work" "$@" <<'PY'
import os, resource, shutil, subprocess, sys, time
here, work, command = sys.argv[1], sys.argv[2], sys.argv[3:]
runs = int(os.environ["RUNS"])
examples = os.path.join(here, "..", "examples")
bare = os.path.join(work, "bare.csdn")
text = open(os.path.join(examples, "firewall.csdn")).read()
with open(bare, "w") as f:
    f.write(text.replace("if tr(s, src) {", "").replace("  }\n}", "}"))
made = os.path.join(work, "made60.csdn")
subprocess.run([command[0], "make", "60", made], stdout=subprocess.DEVNULL)
large = "9007199254740992"
programs = [(os.path.join(examples, name), levels, ["--log", os.path.join(work, "log.txt")] if logged else [])
            for name, levels, logged in [("firewall.csdn", [0, 1, 2], False), ("firewall.csdn", [1], True), ("learning.csdn", [0, 1, 2], False), ("learning.csdn", [0], True)]]
programs += [(bare, [0, 1, 2], []), (made, [0], [])]
programs += [(os.path.join(here, "programs", name), [0, 1], ["--instances", large]) for name in sorted(os.listdir(os.path.join(here, "programs")))]

def timed(words, stdin=None):
    best, answer, peak = None, "", 0
    for _ in range(runs):
        start = time.perf_counter()
        run = subprocess.Popen(words, stdin=open(stdin) if stdin else None, stdout=subprocess.PIPE, stderr=subprocess.STDOUT)
        output = run.stdout.read()
        _, _, used = os.wait4(run.pid, 0)
        taken = time.perf_counter() - start
        run.returncode = 0
        best = taken if best is None else min(best, taken)
        peak = max(peak, used.ru_maxrss)
        answer = output.decode(errors="replace").splitlines()[0] if output else ""
    return best, answer, peak

# a solver's time, and how many conditions it doesn't answer; it is cut off after LIMIT seconds (60)
def solved(words, smt):
    wanted = open(smt).read().count("(check-sat)")
    limit = float(os.environ.get("LIMIT", "60"))
    best, answered = None, 0
    for _ in range(runs):
        start = time.perf_counter()
        try:
            output = subprocess.run(words, stdin=open(smt), stdout=subprocess.PIPE, stderr=subprocess.STDOUT, timeout=limit).stdout
        except subprocess.TimeoutExpired as cut:
            output = cut.stdout or b""
        taken = time.perf_counter() - start
        best = taken if best is None else min(best, taken)
        answered = max(answered, sum(line in ("sat", "unsat") for line in output.decode().splitlines()))
        if taken >= limit:
            break
    return best, wanted - answered

solvers = [(name, words) for name, words in [("z3", ["z3", "-in"]), ("cvc5", ["cvc5", "--incremental", "--lang", "smt2", "--finite-model-find"])] if shutil.which(name)]
behind = False
for path, levels, options in programs:
    for level in levels:
        best, answer, peak = timed(command + ["--strengthen", str(level)] + options + [path])
        line = f"{os.path.basename(path)} {' '.join(['--strengthen', str(level)] + options[:1])}: {answer}, {best:.3f} s, {peak / 1024:.1f} MB"
        for name, words in solvers:
            smt = os.path.join(work, "conditions.smt2")
            with open(smt, "w") as f:
                for below in range(level + 1):
                    part = subprocess.run([sys.executable, os.path.join(here, "smt.py"), path, str(below)], stdout=subprocess.PIPE).stdout.decode()
                    f.write(part if below == level else part + "(reset)\n")
            other, open_ones = solved(words, smt)
            behind = behind or other < best
            line += f", {name} {other:.3f} s" + (f" with {open_ones} unanswered" if open_ones else "")
        behind = behind or ("programs" not in path and level <= 1 and best > 0.1 and not solvers)
        print(line, flush=True)
if not solvers:
    print("neither z3 nor cvc5 is installed")
sys.exit(1 if behind else 0)
PY
