#!/bin/sh
# Times reading texts of 65,536 bytes, nested and flat, by `show`, which prints what was read, against `wc -c` on the same
# file. Whether it is refused is not asked.
. "$(dirname "$0")/common.sh"
python3 - "$work" <<'PY'
import sys
work = sys.argv[1]
size = 65536
def write(name, text):
    open(f"{work}/{name}", "w").write(text + " " * (size - len(text)))
flat = "rel p(); safety A: p();"
item = " pktIn(s, a->b, i) { skip; }"
while len(flat) + len(item) <= size: flat += item
write("flat", flat)
deep = "rel p();"
n = 0
while len(deep) + 330 < size:
    n += 1
    deep += f" safety A{n}: " + "not " * 62 + "p();"
write("nested", deep)
write("broken", "rel p(); safety A: " + "(" * 65000)
write("comment", "//" + "x" * 65000)
PY
for text in flat nested broken comment; do
    ours=$(wanted='0 3' seconds "$vericon" show "$work/$text")
    count=$(seconds wc -c "$work/$text")
    echo "$text: $ours s, wc $count s, ratio $(ratio "$ours" "$count")"
done
