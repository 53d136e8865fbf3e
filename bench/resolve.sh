#!/bin/sh
# Times names and sorts on the largest programs: 64 relations, 64 constants and 64 invariants, whose atoms name the last
# of each, in texts of 16, 32 and 64 KiB. Beside each stands the same text with a byte behind it that is no token, which is
# read to its end and not resolved. The time must grow linearly with the text. `show` does both, and prints.
. "$(dirname "$0")/common.sh"
python3 - "$vericon" "$work" <<'PY'
import os, subprocess, sys, time
vericon, work = sys.argv[1:]
head = "".join(f"rel r{i:02}(SW, HO);\n" for i in range(64)) + "".join(f"const c{i:02}:HO;\n" for i in range(64))

def seconds(name, text):
    path = os.path.join(work, name)
    open(path, "w").write(text)
    start = time.perf_counter()
    for _ in range(20):
        run = subprocess.run([vericon, "show", path], stdout=subprocess.PIPE)
        answer = run.stdout.decode().split("\n")[0]
        if run.returncode not in (0, 3):
            sys.exit(f"status {run.returncode}: {answer}")
    return (time.perf_counter() - start) / 20, answer.replace(work, "..")

for kib in (16, 32, 64):
    each = (kib * 1024 - len(head)) // 64
    text = head
    for i in range(64):
        item = f"safety s{i:02}: forall X:SW, Y:HO. r63(X, Y)"
        while len(item) + 18 <= each:
            item += " and r63(X, c63)"
        text += item + ";\n"
    whole, answer = seconds(str(kib), text)
    read, _ = seconds(f"{kib}.read", text[:65535] + "$")
    print(f"{len(text)} bytes: {whole * 1e3:.1f} ms ({answer}), read alone {read * 1e3:.1f} ms")
PY
