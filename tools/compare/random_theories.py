"""Random theories of the other reading (`larchref`), whose equations make rules."""
OPERATORS = [("0", "", "S"), ("1", "", "S"), ("s", "S", "S"), ("f", "S", "S"), ("g", "S", "S"), ("__ + __", "S S", "S"),
             ("__ * __", "S S", "S"), ("e", "", "T"), ("h", "T", "T"), ("k", "S", "T"), ("push", "T S", "T"),
             ("top", "T", "S"), ("p", "S", "Bool"), ("q", "S T", "Bool")]
# Theories that are the beginning of random ones: operators, and equations as terms in lists.
X, Y, Z, T = ("x", "S"), ("y", "S"), ("z", "S"), ("t", "T")
FOUR = ("+", ("+", X, X), ("+", X, X))
KNOWN = [
    ([("+", X, "0"), X], [("+", X, ("s", Y)), ("s", ("+", X, Y))], [("+", "0", X), X]),
    ([("+", "0", X), X], [("+", ("f", X), X), "0"], [("+", ("+", X, Y), Z), ("+", X, ("+", Y, Z))]),
    ([("*", X, X), X], [("*", ("*", X, Y), Z), ("*", X, ("*", Y, Z))]),
    ([("f", ("f", X)), ("g", X)], [("g", ("f", X)), "1"], [("f", ("g", X)), ("f", X)]),
    ([("top", ("push", T, X)), X], [("h", ("push", T, X)), T], [("h", "e"), "e"]),
    ([("p", "0"), ("true",)], [("p", ("s", X)), ("~", ("p", X))], [("p", ("f", X)), ("p", X)]),
    ([("=", ("f", X), Y), ("=", X, ("g", Y))], [("f", ("g", X)), X]),
    ([("f", ("s", X)), ("+", ("f", X), ("f", X))], [("f", ("s", ("s", ("s", "0")))), "1"]),
    ([("f", X), ("+", ("+", FOUR, FOUR), ("+", FOUR, ("+", FOUR, FOUR)))], [("f", ("f", ("f", "0"))), "1"]),
    ([("if", ("p", X), X, Y), ("f", X)], [("p", "0"), ("true",)]),
]


class Maker:
    """Random theories."""

    def __init__(self, base, pick):
        self.base, self.pick = base, pick
        self.own = {name.replace("__", "").strip(): base.Operator(name, tuple(domain.split()), sort)
                    for name, domain, sort in OPERATORS}

    def term_of(self, spelled):
        """The term that a text or a tuple spells."""
        if spelled in (X, Y, Z, T):
            return self.base.Var(*spelled)
        head, *arguments = (spelled,) if isinstance(spelled, str) else spelled
        arguments = tuple(map(self.term_of, arguments))
        built_in = {"true": self.base.TRUE_OP, "~": self.base.NOT_OP, "=": self.base.eq_op("S"),
                    "if": self.base.if_op("S")}
        return self.base.App(built_in.get(head) or self.own[head], arguments)

    def term(self, sort, depth, own):
        pick = self.pick
        if pick.random() < (.35 if depth else .7):
            return self.base.Var(pick.choice("xyz") if sort == "S" else "tuv"[pick.randrange(2)], sort)
        fits = [o for o in own if o.range == sort and (depth or not o.domain)]
        if pick.random() < .1 or not fits:
            fits = [self.base.if_op(sort)] if sort != "Bool" else [
                *self.base.PROPOSITIONAL, self.base.eq_op("S"), self.base.ne_op("S"), self.base.eq_op("T")]
        if not depth:
            fits = [o for o in fits if not o.domain]
        if not fits:
            return self.base.Var("w", sort)
        operator = pick.choice(fits)
        return self.base.App(operator, tuple(self.term(d, max(0, depth - 1), own) for d in operator.domain))

    def equation(self, own):
        sort = self.pick.choice("SSSSST") if self.pick.random() < .85 else "Bool"
        return self.base.Equation(self.term(sort, self.pick.choice([1, 2, 2, 3]), own),
                                  self.term(sort, self.pick.choice([0, 1, 1, 2]), own))

    def theory(self):
        pick = self.pick
        names = pick.sample(sorted(self.own), pick.randint(2, 7))
        statements = []
        if pick.random() < .5:
            for left, right in pick.choice(KNOWN):
                if pick.random() < .8:
                    statements.append(self.base.Equation(self.term_of(left), self.term_of(right)))
            names = sorted(self.own)
            pick.shuffle(names)
        own = [self.own[name] for name in names]
        for _ in range(pick.randint(0 if statements else 1, 3 if statements else 8)):
            statements.append(self.equation(own))
        if pick.random() < .1:
            statements.append(self.base.Generated("S", tuple(o for o in own if o.range == "S")[:1]))
        pick.shuffle(statements)
        used = [o for o in self.own.values() if o in own]
        pick.shuffle(used)
        return self.base.Theory(tuple(used), tuple(statements))
