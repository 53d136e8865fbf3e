"""What is to be answered of programs that are decided, for fuzz.py: the form of the answer, the kinds of conditions and the truth of a
counterexample by a second account (smt.py), and, where z3 is installed, which conditions are broken, as z3 finds them in that account."""
import collections
import re
import shutil
import subprocess
import sys

import smt
from expected import PROGRAM_REFUSED

FORMS = {
    0: re.compile(rb"yes level \d\n\Z"),
    1: re.compile(rb"counterexample level \d condition \d+ (init \d \w+|(step|trans) \w+ (pktIn|pktFlow|expire))\nvericon-net 1\n(sw|ho|pr).*\nend\n\Z", re.S),
    2: re.compile(rb"unknown level \d condition \d+ [\w ]+: (nodes|outside|instances \d+)\n\Z"),
    3: PROGRAM_REFUSED,
    4: re.compile(rb"no network\n\Z"),
}
FIRST = re.compile(rb"\w+ level (\d)(?: condition (\d+) ([\w ]+))?")
# a level doubles the formulas at each branch
MOST_BRANCHES = (8, 3)

sys.setrecursionlimit(10000)


class Solver:
    """z3 in a process of its own. It says of each condition whether it is broken (`sat`) or not (`unsat`), or neither."""

    def __init__(self):
        self.process = subprocess.Popen(["z3", "-in"], stdin=subprocess.PIPE, stdout=subprocess.PIPE, text=True)

    def answers(self, text):
        self.process.stdin.write(f'(reset)\n(set-option :timeout 1000)\n{text}\n(echo "over")\n')
        self.process.stdin.flush()
        lines = []
        while (line := self.process.stdout.readline().strip()) != "over":
            if line not in ("sat", "unsat", "unknown"):
                raise ValueError(f"z3 says {line!r}")
            lines.append(line)
        return lines


class Account:
    """The second account. `told` counts what z3 answered; `doubtful` holds, by program, a level and its conditions that z3 finds broken where the
    answer says nothing of them: none of these may be one that can be decided."""

    def __init__(self):
        self.solver = Solver() if shutil.which("z3") else None
        self.told, self.doubtful = collections.Counter(), {}

    def differs(self, given, status, text):
        """`given` is what is asked, the program, a level, and more."""
        if given[0] == "eval":
            return None if status == 0 and text.endswith(b"hypothesis true\ngoal false\n") else f"condition {given[4]!r} isn't broken: {text[-200:]!r}"
        if given[0] == "log":
            return None if status == 0 and FORMS[0].match(text) else f"status {status}, {text[:200]!r}"
        if given[0] == "clauses":
            lines = text.split(b"\n")[:-1]
            return None if status == 0 and all(it.endswith(b": accepted") for it in lines) else f"the log isn't accepted: {text[-200:]!r}"
        if given[0] == "conditions":
            inside = [it for it in given[3] if text.split(b"\n")[it].endswith(b" inside")]
            return f"broken, and can be decided: {inside}" if inside else None
        form = FORMS.get(status)
        if not form or not form.match(text) or status == 3 and given[0] == "drawn":
            return f"status {status}, {text[:200]!r}"
        return None if status == 3 else self.program_differs(given[1], given[2], status, text)

    def program_differs(self, given, most, status, text):
        """Of a program that is decided at the levels from 0 to `most`."""
        first = FIRST.match(text)
        level = int(first[1]) if first else 0
        if level > most or status in (1, 2) and level < most:
            return f"level {level}, not {most}"
        if given.count(b"if") + given.count(b"pick") > MOST_BRANCHES[level]:
            return None
        program = smt.Program(given.decode("latin-1"))
        kinds = [kind for kind, _, _ in program.conditions(level)]
        index = int(first[2]) if status in (1, 2) else 0
        if status in (1, 2) and (index >= len(kinds) or kinds[index] != first[3].decode()):
            return f"there is no such condition: {first[0]!r}"
        if status == 1 and smt.judged(program, level, index, text.partition(b"\n")[2].decode()) != (True, False):
            return f"condition {index} isn't broken by the second account"
        return self.solver and self.solved_differs(given, program, level, status, index)

    def solved_differs(self, given, program, level, status, index):
        answers = self.solver.answers("\n".join(smt.smt_lines(program, level)))
        self.told.update(answers)
        broken = [place for place, it in enumerate(answers) if place and it == "sat"]
        if status == 0 and (broken or answers[0] == "unsat"):
            return f"z3 finds the network condition {answers[0]}, and these broken: {broken}"
        if status == 1 and "unsat" in (answers[0], answers[index]):
            return f"z3 finds the network condition {answers[0]}, and condition {index} {answers[index]}"
        if status == 4 and answers[0] == "sat":
            return "z3 finds a network"
        doubtful = [it for it in broken if status == 2 or status == 1 and it < index]
        if status == 2 and answers[0] == "unsat":
            doubtful.append(0)
        if doubtful:
            self.doubtful[given] = level, doubtful
        return None

    def said(self):
        """What z3 answered, for the reader's line."""
        return "".join(f", z3 {word}: {count}" for word, count in sorted(self.told.items()))
