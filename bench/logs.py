"""Prints a log text with one accepted block of N clauses and N steps, nearly all of three literals.

The clauses are (not a_i or a_i+1 or b) for a chain of atoms, and one atom and its negation. A step follows from two
neighbours in the chain: (not a_i or a_i+2 or b). Steps go through the chain in a scattered order, so that their
hints name clauses all over the list. The last step refutes the last atom.
"""
import sys

count = int(sys.argv[1])
chain = count - 2                            # clauses of three literals
other = chain + 2                            # the atom b
last = chain + 3
stride = 7919
lines = ["vericon-log 1", f"block {count} steps", f"atoms {last}"]
lines += [f"c -{i} {i + 1} {other} 0" for i in range(1, chain + 1)]
lines += [f"c {last} 0", f"c -{last} 0"]
for k in range(count - 1):
    i = 1 + k * stride % (chain - 1)
    lines.append(f"s -{i} {i + 2} {other} 0 {i} {i + 1} 0")
lines.append(f"s 0 {chain + 1} {chain + 2} 0")
lines.append("end")
print("\n".join(lines))
