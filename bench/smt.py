#!/usr/bin/env python3
"""The conditions of a program as SMT-LIB 2, for solvers beside `check`. It shares no code with the program.

Use: bench/smt.py PROGRAM LEVEL        all conditions in one text, each between push and pop
     bench/smt.py --kinds PROGRAM LEVEL  their kinds, as `conditions` prints them
     bench/smt.py --judge PROGRAM LEVEL INDEX NET  the truth of hypothesis and goal in a network, as `eval` prints it
"""
import re
import sys

SORTS = {"SW": "SW", "HO": "HO", "PR": "PR"}
FLOW = ["SW", "HO", "HO", "PR", "PR"]


class Reader:
    """A program's text, token by token. The text is taken to be one that `check` reads."""

    def __init__(self, text):
        text = re.sub(r"//[^\n]*", "", text)
        self.tokens = re.findall(r"[A-Za-z]\w*|\d+|<->|->|[(){},;:.=]", text)
        self.at = 0
        self.bound = 0

    def peek(self, ahead=0):
        return self.tokens[self.at + ahead] if self.at + ahead < len(self.tokens) else None

    def next(self):
        self.at += 1
        return self.tokens[self.at - 1]

    def take(self, *words):
        for word in words:
            got = self.next()
            assert got == word, (got, word, self.at)

    def is_next(self, word):
        if self.peek() == word:
            self.at += 1
            return True
        return False

    def many(self, one, end=")"):
        found = []
        while self.peek() != end:
            found.append(one())
            self.is_next(",")
        self.take(end)
        return found

    def fresh(self, name):
        self.bound += 1
        return f"{name}!{self.bound}"

    # ---- terms and formulas; a scope gives each name in the text the variable that it is
    def term(self, scope):
        word = self.next()
        if word == "prt":
            self.take("(")
            number = int(self.next())
            self.take(")")
            return number
        return scope.get(word, word)

    def packet(self, scope, has_out):
        """(a -> b, i) or (a -> b, i -> o)"""
        self.take("(")
        terms = [self.term(scope)]
        self.take("->")
        terms.append(self.term(scope))
        self.take(",")
        terms.append(self.term(scope))
        if has_out:
            self.take("->")
            terms.append(self.term(scope))
        self.take(")")
        return terms

    def formula(self, scope):
        if self.peek() in ("forall", "exists"):
            kind = self.next()
            scope = dict(scope)
            names = []
            while True:
                name = self.next()
                self.take(":")
                sort = self.next()
                scope[name] = self.fresh(name)
                names.append((scope[name], sort))
                if not self.is_next(","):
                    break
            self.take(".")
            body = self.formula(scope)
            for name, sort in reversed(names):
                body = (kind, name, sort, body)
            return body
        return self.chain(scope, 0)

    CHAIN = [("<->", "iff"), ("->", "imp"), ("or", "or"), ("and", "and")]

    def chain(self, scope, level):
        if level == len(self.CHAIN):
            return self.unary(scope)
        word, kind = self.CHAIN[level]
        left = self.chain(scope, level + 1)
        if not self.is_next(word):
            return left
        right = self.chain(scope, level + 1 if kind == "iff" else level)
        return (kind, left, right)

    def unary(self, scope):
        if self.is_next("not"):
            return ("not", self.unary(scope))
        if self.is_next("("):
            inner = self.formula(scope)
            self.take(")")
            return inner
        if self.peek() in ("true", "false"):
            return (self.next(),)
        if self.peek(1) == "(" and self.peek() != "prt":
            name = self.next()
            self.take("(")
            return ("row", name, self.many(lambda: self.term(scope)))
        if self.peek(1) == "." and self.peek(2) in ("ft", "sent", "rcv_this"):
            switch = self.term(scope)
            self.take(".")
            name = self.next()
            return ("row", name, [switch] + self.packet(scope, name != "rcv_this"))
        left = self.term(scope)
        self.take("=")
        return ("=", left, self.term(scope))

    # ---- commands
    def block(self, scope):
        self.take("{")
        commands = []
        while self.peek() != "}":
            commands.append(self.command(scope))
        self.take("}")
        return commands

    def otherwise(self, scope):
        return self.block(scope) if self.is_next("else") else []

    def command(self, scope):
        if self.is_next("skip"):
            self.take(";")
            return ("skip",)
        if self.is_next("if"):
            test = self.formula(scope)
            return ("if", test, self.block(scope), self.otherwise(scope))
        if self.is_next("pick"):
            name = self.next()
            self.take(":")
            sort = self.next()
            self.take("where")
            inner = dict(scope)
            inner[name] = self.fresh(name)
            test = self.formula(inner)
            return ("pick", inner[name], sort, test, self.block(inner), self.otherwise(scope))
        name = self.next()
        self.take(".")
        word = self.next()
        if word in ("insert", "remove"):
            self.take("(")
            done = (word, name, self.many(lambda: self.term(scope)))
        elif word == "flood":
            done = (word, [scope.get(name, name)] + self.packet(scope, False))
        else:
            done = (word, [scope.get(name, name)] + self.packet(scope, True))
        self.take(";")
        return done


class Program:
    def __init__(self, text):
        read = Reader(text)
        self.read = read
        self.relations, self.statics, self.constants = [], [], []
        self.invariants = {"topology": [], "safety": [], "trans": []}
        self.handlers, self.has_timeout = [], False
        while read.peek() is not None:
            self.item(read, read.next())
        numerals = set()
        self.numerals_of(text, numerals)
        self.numerals = sorted(numerals)

    def numerals_of(self, text, numerals):
        for found in re.finditer(r"prt\s*\(\s*(\d+)\s*\)", re.sub(r"//[^\n]*", "", text)):
            numerals.add(int(found.group(1)))

    def item(self, read, word):
        if word in ("rel", "static"):
            name = read.next()
            read.take("(")
            sorts = read.many(read.next)
            rows = []
            if read.is_next("="):
                read.take("{")
                rows = read.many(lambda: (read.take("("), read.many(lambda: read.term({})))[1], "}")
            (self.relations if word == "rel" else self.statics).append((name, sorts, rows))
        elif word == "const":
            name = read.next()
            read.take(":")
            self.constants.append((name, read.next()))
        elif word == "timeout":
            read.next()
            self.has_timeout = True
        elif word == "pktIn":
            self.handler(read)
            return
        else:
            name = read.next()
            read.take(":")
            self.invariants[word].append((name, read.formula({})))
        read.take(";")

    def handler(self, read):
        read.take("(")
        names = [read.next()]
        read.take(",")
        names.append(read.next())
        read.take("->")
        names.append(read.next())
        read.take(",")
        scope = {name: read.fresh(name) for name in names}
        variables = [scope[name] for name in names]
        port = None
        if read.peek() == "prt":
            port = read.term({})
            variables.append(read.fresh("i"))
        else:
            name = read.next()
            scope[name] = read.fresh(name)
            variables.append(scope[name])
        read.take(")")
        self.handlers.append((variables, port, read.block(scope)))

    # ---- preconditions
    def renamed(self, f, names):
        """With new bound variables."""
        kind = f[0]
        see = lambda t: names.get(t, t)
        if kind in ("forall", "exists"):
            name = self.read.fresh(f[1].split("!")[0])
            return (kind, name, f[2], self.renamed(f[3], {**names, f[1]: name}))
        if kind == "row":
            return (kind, f[1], [see(t) for t in f[2]])
        if kind == "=":
            return (kind, see(f[1]), see(f[2]))
        return (kind,) + tuple(self.renamed(g, names) for g in f[1:])

    def wp_all(self, commands, goal):
        for command in reversed(commands):
            goal = self.wp(command, goal)
        return goal

    def wp(self, command, goal):
        kind = command[0]
        if kind == "skip":
            return goal
        if kind == "if":
            _, test, first, second = command
            return ("and", ("imp", test, self.wp_all(first, goal)), ("imp", ("not", test), self.wp_all(second, goal)))
        if kind == "pick":
            _, name, sort, test, first, second = command
            found = ("forall", name, sort, ("imp", test, self.wp_all(first, goal)))
            none = ("not", ("exists", name, sort, test))
            return ("and", found, ("imp", none, self.wp_all(second, goal)))
        if kind == "insert":
            return at_rows(goal, command[1], lambda row: ("or", row, same(row[2], command[2])))
        if kind == "remove":
            return at_rows(goal, command[1], lambda row: ("and", row, ("not", same(row[2], command[2]))))
        if kind == "install":
            return at_rows(goal, "ft", lambda row: ("or", row, same(row[2], command[1])))
        if kind == "uninstall":
            return at_rows(goal, "ft", lambda row: ("and", row, ("not", same(row[2], command[1]))))
        if kind == "forward":
            return at_rows(goal, "sent", lambda row: ("or", row, same(row[2], command[1])))
        assert kind == "flood", kind
        out = lambda row: ("and", same(row[2][:4], command[1]), ("not", ("=", row[2][4], command[1][3])))
        return at_rows(goal, "sent", lambda row: ("or", row, out(row)))

    def packet_in(self, goal):
        members, before = [], []
        for variables, port, body in self.handlers:
            tests = [("not", ("=", variables[3], k)) for k in before]
            if port is not None:
                tests.append(("=", variables[3], port))
            members.append(self.member(variables, tests, body, goal))
            if port is None:
                return conjunction(members)
            before.append(port)
        variables = [self.read.fresh(name) for name in ("s", "a", "b", "i")]
        tests = [("not", ("=", variables[3], k)) for k in before]
        return conjunction(members + [self.member(variables, tests, [], goal)])

    def member(self, variables, tests, body, goal):
        inner = self.wp_all(body, at_rows(goal, "rcv_this", lambda row: same(row[2], variables)))
        if tests:
            inner = ("imp", conjunction(tests), inner)
        for name, sort in reversed(list(zip(variables, FLOW))):
            inner = ("forall", name, sort, inner)
        return inner

    def flow_events(self, goal, change):
        variables = [self.read.fresh(name) for name in ("s", "a", "b", "i", "o")]
        inner = ("imp", ("row", "ft", variables), change(goal, variables))
        for name, sort in reversed(list(zip(variables, FLOW))):
            inner = ("forall", name, sort, inner)
        return inner

    def after(self, event, goal):
        goal = self.renamed(goal, {})
        if event == "pktIn":
            return self.renamed(self.packet_in(goal), {})
        if event == "pktFlow":
            change = lambda q, v: at_rows(at_rows(q, "rcv_this", lambda row: same(row[2], v[:4])), "sent", lambda row: ("or", row, same(row[2], v)))
            return self.flow_events(goal, change)
        change = lambda q, v: at_rows(at_rows(q, "rcv_this", lambda row: ("false",)), "ft", lambda row: ("and", row, ("not", same(row[2][:4], v[:4]))))
        return self.flow_events(goal, change)

    # ---- conditions
    def events(self):
        return ["pktIn", "pktFlow"] + (["expire"] if self.has_timeout else [])

    def levels(self, n):
        """W(0..n, v), by levels."""
        found = [[f for _, f in self.invariants["safety"]]]
        for _ in range(n):
            found.append([conjunction([self.after(e, f) for e in self.events()]) for f in found[-1]])
        return found

    def start(self):
        formulas = []
        for name, sorts, rows in self.relations + [("ft", FLOW, []), ("sent", FLOW, [])]:
            variables = [self.read.fresh("x") for _ in sorts]
            body = ("iff", ("row", name, variables), disjunction([same(variables, row) for row in rows]))
            for variable, sort in reversed(list(zip(variables, sorts))):
                body = ("forall", variable, sort, body)
            formulas.append(body)
        return formulas

    def conditions(self, n):
        """Triples: kind, hypotheses by names of named lists, goal."""
        w = self.levels(n)
        safety = [name for name, _ in self.invariants["safety"]]
        yield "network", ["topo"], ("false",)
        for k in range(n + 1):
            for v, name in enumerate(safety):
                yield f"init {k} {name}", ["topo", "start"], w[k][v]
        for v, name in enumerate(safety):
            for event in self.events():
                yield f"step {name} {event}", ["topo", "kept"], self.after(event, w[n][v])
        for name, f in self.invariants["trans"]:
            for event in self.events():
                yield f"trans {name} {event}", ["topo", "kept"], self.after(event, f)

    def hypotheses(self, n):
        return {"topo": [f for _, f in self.invariants["topology"]], "start": self.start(), "kept": [f for level in self.levels(n) for f in level]}


def same(terms, others):
    return conjunction([("=", t, u) for t, u in zip(terms, others)])


def conjunction(formulas):
    return joined("and", formulas, ("true",))


def disjunction(formulas):
    return joined("or", formulas, ("false",))


def joined(kind, formulas, none):
    if not formulas:
        return none
    whole = formulas[-1]
    for f in reversed(formulas[:-1]):
        whole = (kind, f, whole)
    return whole


def at_rows(f, name, change):
    """With each row of a relation changed."""
    kind = f[0]
    if kind == "row":
        return change(f) if f[1] == name else f
    if kind in ("forall", "exists"):
        return (kind, f[1], f[2], at_rows(f[3], name, change))
    if kind == "=":
        return f
    return (kind,) + tuple(at_rows(g, name, change) for g in f[1:])


# ---- SMT-LIB
def smt_term(t):
    return f"prt_{t}" if isinstance(t, int) else "c_" + t.replace("!", "_x")


def smt(f):
    kind = f[0]
    if kind in ("true", "false"):
        return kind
    if kind == "row":
        return f"(r_{f[1]} {' '.join(smt_term(t) for t in f[2])})" if f[2] else f"r_{f[1]}"
    if kind == "=":
        return f"(= {smt_term(f[1])} {smt_term(f[2])})"
    if kind in ("forall", "exists"):
        return f"({kind} (({smt_term(f[1])} {f[2]})) {smt(f[3])})"
    word = {"imp": "=>", "iff": "="}.get(kind, kind)
    return f"({word} {' '.join(smt(g) for g in f[1:])})"


def smt_lines(program, n):
    yield "(set-logic UF)"
    for sort in SORTS:
        yield f"(declare-sort {sort} 0)"
    for name, sort in program.constants:
        yield f"(declare-fun {smt_term(name)} () {sort})"
    for k in program.numerals:
        yield f"(declare-fun prt_{k} () PR)"
    if len(program.numerals) > 1:
        yield f"(assert (distinct {' '.join(f'prt_{k}' for k in program.numerals)}))"
    declared = [(name, sorts) for name, sorts, _ in program.relations + program.statics]
    for name, sorts in declared + [("ft", FLOW), ("sent", FLOW), ("rcv_this", FLOW[:4])]:
        yield f"(declare-fun r_{name} ({' '.join(sorts)}) Bool)"
    yield f"(assert (forall ((s SW) (a HO) (b HO) (i PR)) (not (r_rcv_this s a b i))))"
    hypotheses = program.hypotheses(n)
    for kind, names, goal in program.conditions(n):
        yield f"; {kind}"
        yield "(push 1)"
        for name in names:
            for f in hypotheses[name]:
                yield f"(assert {smt(f)})"
        yield f"(assert (not {smt(goal)}))"
        yield "(check-sat)"
        yield "(pop 1)"


# ---- truth in a network
class Case:
    def __init__(self, program, text):
        self.elements, self.values, self.rows, self.packet = {}, {}, set(), None
        for line in text.splitlines():
            words = line.split()
            if not words or words[0].startswith("#"):
                continue
            if words[0] in ("sw", "ho", "pr"):
                self.elements[words[0].upper()] = [int(w) for w in words[1:]]
            elif words[0] == "c":
                self.values[words[1]] = int(words[2])
            elif words[0] == "t":
                self.rows.add((words[1], tuple(int(w) for w in words[2:])))
            elif words[0] in ("ft", "sent"):
                self.rows.add((words[0], tuple(int(w) for w in words[1:])))

    def value(self, t, env):
        return t if isinstance(t, int) else env[t] if t in env else self.values[t]

    def is_true(self, f, env):
        kind = f[0]
        if kind in ("true", "false"):
            return kind == "true"
        if kind == "row":
            return (f[1], tuple(self.value(t, env) for t in f[2])) in self.rows
        if kind == "=":
            return self.value(f[1], env) == self.value(f[2], env)
        if kind in ("forall", "exists"):
            every = all if kind == "forall" else any
            return every(self.is_true(f[3], {**env, f[1]: m}) for m in self.elements[f[2]])
        if kind == "not":
            return not self.is_true(f[1], env)
        if kind == "and":
            return self.is_true(f[1], env) and self.is_true(f[2], env)
        if kind == "or":
            return self.is_true(f[1], env) or self.is_true(f[2], env)
        if kind == "imp":
            return not self.is_true(f[1], env) or self.is_true(f[2], env)
        return self.is_true(f[1], env) == self.is_true(f[2], env)


def judged(program, n, index, text):
    """Whether the hypothesis of a condition is true in a network with its state, and whether its goal is."""
    case = Case(program, text)
    hypotheses = program.hypotheses(n)
    _, names, goal = list(program.conditions(n))[index]
    return all(case.is_true(f, {}) for name in names for f in hypotheses[name]), case.is_true(goal, {})


def judge(program, n, index, text):
    word = lambda b: "true" if b else "false"
    holds, goal = judged(program, n, index, text)
    print(f"hypothesis {word(holds)}\ngoal {word(goal)}")


def main(words):
    sys.setrecursionlimit(100000)
    option = words.pop(0) if words[0].startswith("--") else None
    program = Program(open(words[0]).read())
    n = int(words[1])
    if option == "--kinds":
        for i, (kind, _, _) in enumerate(program.conditions(n)):
            print(i, kind)
    elif option == "--judge":
        judge(program, n, int(words[2]), open(words[3]).read())
    else:
        print("\n".join(smt_lines(program, n)))


if __name__ == "__main__":
    main(sys.argv[1:])
