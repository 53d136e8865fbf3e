# Shared by the scripts here: the built program, a folder for generated files, and seconds of wall time.
set -eu
here=$(cd "$(dirname "$0")" && pwd)
vericon=${VERICON:-$here/../vericon}
work=$(mktemp -d)
trap 'rm -rf "$work"' EXIT

# seconds COMMAND..: runs it with its output thrown away, and prints how long it took. Where its status is none of those in
# $wanted, 0 where that isn't set, it says so and fails; so call it as VALUE=$(seconds ..), which ends the script then.
seconds() {
    python3 - "${wanted:-0}" "$@" <<'PY'
import subprocess, sys, time
wanted = [int(status) for status in sys.argv[1].split()]
start = time.perf_counter()
status = subprocess.run(sys.argv[2:], stdout=subprocess.DEVNULL, stderr=subprocess.DEVNULL).returncode
taken = time.perf_counter() - start
if status not in wanted:
    sys.exit(f"status {status}, not {sys.argv[1]}: {' '.join(sys.argv[2:])}")
print(f"{taken:.3f}")
PY
}

# ratio A B: A / B with one digit
ratio() {
    python3 -c "print(f'{$1 / max($2, 0.0005):.1f}')"
}
