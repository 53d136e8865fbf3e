"""Prints clauses: `clauses.py text KIND N SEED` as a log text of one block, `clauses.py dimacs KIND N SEED` for other solvers.

KIND is, with N
- `random`: N atoms and 4.26 clauses of three literals for each, the hard ratio; `dense`: N atoms and 640 clauses
- `pigeons`: N birds in N - 1 holes
- `pairs`: N clauses of two atoms each, no atom twice
- `blocked`: N pairs, and the four clauses of two more atoms, which refute
- `chain`: N clauses `-i i+1`, without a unit; `started`: the same with the unit 1 and the last atom false
- `units`: N clauses of one literal
- `sparse`: N atoms as `random`, the greatest of them 2^62 - 1
- `colours`: a graph of N edges, three colours, drawn so that colours can be given
"""
import random
import sys

form, kind, n, seed = sys.argv[1], sys.argv[2], int(sys.argv[3]), int(sys.argv[4])
chance = random.Random(seed)


def three(atoms, count):
    return [[a * chance.choice((1, -1)) for a in chance.sample(range(1, atoms + 1), 3)] for _ in range(count)]


def pigeons(birds):
    holes = birds - 1
    sits = lambda bird, hole: bird * holes + hole + 1
    each = [[sits(bird, hole) for hole in range(holes)] for bird in range(birds)]
    return each + [[-sits(a, hole), -sits(b, hole)] for hole in range(holes) for a in range(birds) for b in range(a + 1, birds)]


def colours(edges):
    nodes = edges // 2
    given = [chance.randrange(3) for _ in range(nodes)]
    has = lambda node, colour: node * 3 + colour + 1
    clauses = [[has(node, colour) for colour in range(3)] for node in range(nodes)]
    drawn = 0
    while drawn < edges:
        a, b = chance.randrange(nodes), chance.randrange(nodes)
        if given[a] != given[b]:
            drawn += 1
            clauses += [[-has(a, colour), -has(b, colour)] for colour in range(3)]
    return clauses


if kind == "random" or kind == "sparse":
    clauses = three(n, n * 426 // 100)
elif kind == "dense":
    clauses = three(n, 640)
elif kind == "pigeons":
    clauses = pigeons(n)
elif kind == "pairs" or kind == "blocked":
    clauses = [[2 * i + 1, 2 * i + 2] for i in range(n)]
    if kind == "blocked":
        a, b = 2 * n + 1, 2 * n + 2
        clauses += [[a, b], [a, -b], [-a, b], [-a, -b]]
elif kind == "chain" or kind == "started":
    clauses = [[-i, i + 1] for i in range(1, n)]
    if kind == "started":
        clauses = [[1]] + clauses + [[-n]]
elif kind == "units":
    clauses = [[i] for i in range(1, n + 1)]
elif kind == "colours":
    clauses = colours(n)
atoms = max(abs(l) for clause in clauses for l in clause)
if kind == "sparse":
    far = lambda l: (1 if l > 0 else -1) * ((1 << 62) - 1 - (atoms - abs(l)) * 1_000_003)
    if form == "text":
        clauses = [[far(l) for l in clause] for clause in clauses]
        atoms = (1 << 62) - 1
if form == "text":
    print(f"vericon-log 1\nblock {kind} {n}\natoms {atoms}")
    for clause in clauses:
        print("c", *clause, 0)
    print("end")
else:
    print("p cnf", atoms, len(clauses))
    for clause in clauses:
        print(*clause, 0)
