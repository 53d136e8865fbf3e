#!/bin/sh
# Times `check` on a program without arguments: a chain of 12 relations, about 300 tokens.
. "$(dirname "$0")/common.sh"
python3 - "$work/large.csdn" <<'PY'
import sys
rel = [f"p{i}" for i in range(12)]
text = [f"rel {r}();" for r in rel]                                  # 60 tokens
chain = " and ".join(f"(not {a}() or {b}())" for a, b in zip(rel, rel[1:]))
text.append(f"safety chain: {chain};")                               # each member 11 tokens
body = " ".join(f"{r}.insert();" for r in reversed(rel))             # 72 tokens
text.append(f"pktIn(s, src->dst, i) {{ {body} }}")
open(sys.argv[1], "w").write("\n".join(text) + "\n")
PY
"$vericon" check "$work/large.csdn" || true
taken=$(wanted='0 1' seconds "$vericon" check "$work/large.csdn")
echo "12 relations: $taken s"
