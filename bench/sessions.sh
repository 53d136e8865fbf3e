#!/bin/sh
# Times a session that hears 1,000,000 ECHO_REQUESTs, which come in pieces of 1, 7, 1,448 and 65,536 bytes, beside two C loops over the
# same pieces: one copies the bytes, the other puts the frames together by hand and copies each as its reply. The requests have no
# body, and 56 bytes of it. A session takes at most three times as long as the loop that copies.
. "$(dirname "$0")/common.sh"
bench=${SESSION_BENCH:-$here/../crates/session_bench/out/session_bench}
[ -x "$bench" ] || (cd "$here/../crates/session_bench" && rt run >/dev/null) || true
cc -O2 -o "$work/copy" "$here/copy.c"
python3 - "$work" "$bench" <<'PY'
import os, struct, subprocess, sys, time
work, bench = sys.argv[1:3]
count = 1_000_000
def best(*command):
    shortest, line = None, None
    for _ in range(5):
        start = time.perf_counter()
        run = subprocess.run(command, stdout=subprocess.PIPE, check=True)
        taken = time.perf_counter() - start
        shortest = taken if shortest is None else min(shortest, taken)
        line = run.stdout.decode().strip()
    return shortest, line
slow = False
for body in (0, 56):
    width = 8 + body
    name = os.path.join(work, f"echoes-{body}")
    with open(name, "wb") as file:
        file.write(struct.pack(">BBHI", 1, 0, 8, 1))
        file.write(b"".join(struct.pack(">BBHI", 1, 2, width, k) + bytes(body) for k in range(count)))
    # HELLO and FEATURES_REQUEST are said beside the replies
    wanted = f"said {16 + count * width}"
    for size in (1, 7, 1448, 65536):
        ours, said = best(bench, str(size), name)
        if said != wanted:
            sys.exit(f"{said}, not {wanted}")
        copy, _ = best(os.path.join(work, "copy"), "copy", str(size), name)
        echo, _ = best(os.path.join(work, "copy"), "echo", str(size), name)
        within = ours <= 3 * copy
        slow = slow or not within
        print(f"bodies of {body}, pieces of {size}: {ours:.3f} s, copied {copy:.3f} s (ratio {ours / copy:.1f}), echoed {echo:.3f} s (ratio {ours / echo:.1f}){'' if within else ', too long'}", flush=True)
sys.exit(1 if slow else 0)
PY
