#!/bin/sh
# Times `clauses` on the kinds of clauses of clauses.py; beside minisat and cadical, where they are installed.
. "$(dirname "$0")/common.sh"
hard=""
for seed in 0 1 2 3 4 5 6 7 8 9 10 11 12 13 14 15 16 17 18 19; do hard="$hard|dense 150 $seed"; done
cases="random 150 0|random 175 0|random 200 0|random 200 1|random 200 2|sparse 200 0$hard|pigeons 6 0|pigeons 7 0|pigeons 8 0|pigeons 9 0|pigeons 10 0"
cases="$cases|pairs 32000 0|blocked 20 0|chain 100000 0|started 100000 0|units 100000 0|colours 40000 0"
old=$IFS
IFS="|"
for case in $cases; do
    IFS=$old
    set -- $case
    python3 "$here/clauses.py" text "$@" > "$work/log.txt"
    "$vericon" clauses "$work/log.txt" > "$work/answer.txt" || true
    answer=$(head -1 "$work/answer.txt" | cut -d: -f2 | cut -c2-8)
    steps=$(grep -c '^s ' "$work/answer.txt" || true)
    bytes=$(wc -c < "$work/answer.txt")
    ours=$(seconds "$vericon" clauses "$work/log.txt")
    line="$1 $2, seed $3: $answer, $steps steps, $bytes bytes, $ours s"
    python3 "$here/clauses.py" dimacs "$@" > "$work/clauses.cnf"
    for other in minisat cadical; do
        if command -v "$other" > /dev/null; then
            theirs=$(wanted='10 20' seconds "$other" "$work/clauses.cnf")
            line="$line; $other $theirs s, ratio $(ratio "$ours" "$theirs")"
        fi
    done
    echo "$line"
done
