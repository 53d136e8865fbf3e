"""Programs drawn at random for fuzz.py. Each is well-formed: it is read, and its names and sorts are right."""

SORTS = ("SW", "HO", "PR")
FLOW = ("SW", "HO", "HO", "PR", "PR")
WRITES = ("insert", "remove", "install", "uninstall", "forward", "flood")


class Drawing:
    """A program in the making: what is declared so far, and how many variables were named."""

    def __init__(self, chance):
        self.chance, self.variables = chance, 0
        self.constants = {f"c{place}": self.one(SORTS) for place in range(self.one((0, 0, 1, 2)))}
        self.statics = {f"t{place}": self.sorts(1) for place in range(self.one((0, 0, 1)))}
        self.kept = {f"r{place}": self.sorts(0) for place in range(self.one((1, 1, 2, 3)))}

    def one(self, among):
        return among[int(self.chance.random() * len(among))]

    def often(self, share):
        return self.chance.random() < share

    def sorts(self, least):
        return tuple(self.one(SORTS) for _ in range(least + self.one((0, 1, 1, 2))))

    def name(self):
        self.variables += 1
        return f"v{self.variables}"

    def term(self, sort, scope):
        """A term of a sort; None where there is none."""
        named = [name for name, its in {**self.constants, **scope}.items() if its == sort]
        if sort == "PR" and self.often(0.3):
            named = [f"prt({self.one((1, 2))})"]
        return self.one(named) if named else None

    def terms(self, sorts, scope):
        found = [self.term(sort, scope) for sort in sorts]
        return None if None in found else found

    # ---- formulas
    def atom(self, scope, words):
        """An atom over the declared relations of `words`, and those of ft, sent and rcv_this that stand in it."""
        word = self.one([*words, "="])
        sorts = {**self.statics, **self.kept}.get(word) or {"ft": FLOW, "sent": FLOW, "rcv_this": FLOW[:4]}.get(word, ())
        if word == "=":
            sorts = (self.one(SORTS),) * 2
        terms = self.terms(sorts, scope)
        if terms is None:
            return self.one(("true", "false"))
        if word == "=":
            return " = ".join(terms)
        return flow_atom(word, terms) if word in ("ft", "sent", "rcv_this") else f"{word}({', '.join(terms)})"

    def formula(self, scope, words, depth):
        kind = self.chance.random()
        if depth == 0 or kind < 0.1:
            return self.atom(scope, words)
        if kind < 0.3:
            return f"not ({self.formula(scope, words, depth - 1)})"
        if kind < 0.4:
            return f"({self.quantified(scope, words, depth - 1)})"
        first, second = self.formula(scope, words, depth - 1), self.formula(scope, words, depth - 1)
        return f"({first}) {self.one(('and', 'or', '->', '->', '<->'))} ({second})"

    def quantified(self, scope, words, depth, sorts=None):
        new = {self.name(): sort for sort in sorts or [self.one(SORTS) for _ in range(self.one((1, 1, 2)))]}
        kind = "forall" if self.often(0.8) else "exists"
        return f"{kind} {', '.join(f'{name}:{sort}' for name, sort in new.items())}. {self.formula({**scope, **new}, words, depth)}"

    def invariant(self, words):
        if self.often(0.15):
            return self.formula({}, words, 2)
        sorts = FLOW[: self.one((1, 2, 4, 5))] if self.often(0.6) else None
        return self.quantified({}, words, self.one((1, 2, 2, 3)), sorts)

    # ---- handlers
    def write(self, own, scope):
        """A command that changes a relation."""
        switch, source, to, port = own
        word = self.one(WRITES)
        if word in ("insert", "remove"):
            name = self.one(list(self.kept))
            terms = self.terms(self.kept[name], scope)
            return "skip;" if terms is None else f"{name}.{word}({', '.join(terms)});"
        if word == "flood":
            return f"{switch}.flood({source}->{to}, {port});"
        if word == "forward" or self.often(0.7):
            return f"{switch}.{word}({source}->{to}, {port}->{self.term('PR', {**scope, 'prt(2)': 'PR'})});"
        a, b, i, o = self.terms(FLOW[1:], {**scope, "prt(2)": "PR"})
        return f"{switch}.{word}({a}->{b}, {i}->{o});"

    def commands(self, own, scope, depth):
        return " ".join(self.command(own, scope, depth) for _ in range(self.one((1, 1, 2, 3))))

    def otherwise(self, own, scope, depth):
        return f" else {{ {self.commands(own, scope, depth)} }}" if self.often(0.5) else ""

    def command(self, own, scope, depth):
        kind = self.chance.random()
        words = [*self.statics, *self.kept, "ft"]
        if depth == 0 or kind < 0.6:
            return self.write(own, scope)
        if kind < 0.85:
            test = self.formula(scope, words, self.one((0, 1)))
            return f"if ({test}) {{ {self.commands(own, scope, depth - 1)} }}{self.otherwise(own, scope, depth - 1)}"
        new = {self.name(): self.one(SORTS)}
        inner = {**scope, **new}
        (name, sort), = new.items()
        test = self.formula(inner, words, self.one((0, 1)))
        return f"pick {name}:{sort} where ({test}) {{ {self.commands(own, inner, depth - 1)} }}{self.otherwise(own, scope, depth - 1)}"

    def handler(self):
        names = [self.name() for _ in range(4)]
        port = f"prt({self.one((1, 2))})" if self.often(0.5) else names[3]
        scope = dict(zip(names, FLOW)) if port == names[3] else dict(zip(names[:3], FLOW))
        own = (*names[:3], port)
        return f"pktIn({own[0]}, {own[1]}->{own[2]}, {port}) {{ {self.commands(own, scope, 2)} }}"

    # ---- the whole
    def items(self):
        yield from (f"const {name}:{sort};" for name, sort in self.constants.items())
        yield from (f"static {name}({', '.join(sorts)});" for name, sorts in self.statics.items())
        for name, sorts in self.kept.items():
            rows = [self.terms(sorts, {}) for _ in range(self.one((0, 0, 0, 1, 2)))]
            first = ", ".join(f"({', '.join(row)})" for row in rows if row is not None)
            yield f"rel {name}({', '.join(sorts)}){' = {' + first + '}' if first else ''};"
        words = [*self.statics, *self.kept, "sent", "ft"]
        if self.often(0.3):
            yield f"topology T: {self.invariant(list(self.statics))};"
        yield from (f"safety A{place}: {self.invariant(words)};" for place in range(self.one((1, 1, 2))))
        if self.often(0.3):
            yield f"trans B: {self.invariant([*words, 'rcv_this', 'rcv_this'])};"
        if self.often(0.2):
            yield "timeout 30;"
        yield from (self.handler() for _ in range(self.one((1, 1, 2))))


def flow_atom(word, terms):
    switch, a, b, i, *out = terms
    return f"{switch}.{word}({a}->{b}, {i}{''.join('->' + o for o in out)})"


def draw(chance):
    """A program."""
    return "\n".join(Drawing(chance).items()).encode()
