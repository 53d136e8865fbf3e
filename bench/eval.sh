#!/bin/sh
# Times `eval` on generated networks: 100 hosts, and switches, each of which trusts every host, so that a relation has 10^3,
# 10^4 and 10^5 tuples. One program asks for each tuple, the other for nothing, so that its time is that of reading.
. "$(dirname "$0")/common.sh"
cat > "$work/each.csdn" <<'CSDN'
rel tr(SW, HO);
topology two: not prt(1) = prt(2);
safety every: forall S:SW, A:HO. tr(S, A);
safety found: forall S:SW. exists A:HO. tr(S, A);
CSDN
cat > "$work/none.csdn" <<'CSDN'
rel tr(SW, HO);
safety nothing: true;
CSDN
for tuples in 1000 10000 100000; do
    python3 - "$tuples" > "$work/net.txt" <<'PY'
import sys
switches = int(sys.argv[1]) // 100
print("vericon-net 1")
print("sw", *range(1, switches + 1))
print("ho", *range(1, 101))
print("pr 1 2")
print("state")
for s in range(1, switches + 1):
    for a in range(1, 101):
        print("t tr", s, a)
print("end")
PY
    answer=$("$vericon" eval "$work/each.csdn" "$work/net.txt" | tr '\n' ' ')
    whole=$(seconds "$vericon" eval "$work/each.csdn" "$work/net.txt")
    read=$(seconds "$vericon" eval "$work/none.csdn" "$work/net.txt")
    echo "$tuples tuples: $whole s, of which reading $read s ($answer)"
done
