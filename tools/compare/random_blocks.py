"""Random blocks for duties: lines are chosen one by one, by what another reading (`larchref`) says of the proof so
far."""
import re

LIMITS = [1, 2, 3, 5, 8, 15, 30, 60, 200, *[1000] * 9, 20000]
NAMES = ["x", "y", "z", "w", "x1", "l", "H1", "q2"]
BAD_LINES = ["foo", "prove", "prove x +", "prove (x", "prove x ]", "prove x + y - z", "prove \x80", "prove x == y == z",
             "prove x /\\ y \\/ z", "prove " + "(" * 201 + "x" + ")" * 201, "set rewriting-limit 0", "declare x: N",
             "set rewriting-limit 100001", "set box-checking yes", "register height 0 < s", "register status up s",
             "declare variables x y: N", "qed qed", "prove trait", "proves x", "resume", "resume by magic",
             "prove " + "x = " * 30 + "x", "resume by cases x == y", "resume by induction", "normalize A1.1.1",
             "normalize A0123", "instantiate x in A1", "instantiate x by y == y in A1", "critical-pairs A1, A2",
             "critical-pairs A1 with", "resume by induction on for", "instantiate by x in A1", "normalise A1"]
# Lines in which bytes begin no token.
NO_TOKENS = ["prove \x80", "prove a_", "resume by cases `x", "instantiate x by \"y\" in A1", "qed \x7f", "normalize _"]
WAYS = ["left-to-right", "right-to-left", "multiset"]
MARKS = {True: "[]", False: "<>"}
BAD_FACTS = ["A0", "L1", "L4294967295", "H77", "D9", "A1.0", "A1.2", "H1.2", "A999999", "D1.3"]
# Codes that come up seldom, so that a block ends with them where it can.
SELDOM = {"LEX", "SIZE", "OPERATOR", "UNKNOWN-SORT", "AMBIGUOUS", "GENERATED", "PARTITIONED"}


class Writer:
    """Writes lines for a state of the other reading."""

    # Each kind of command, and how often it is written: a method of the same name writes one. So a further command
    # needs a row here and a method, and nothing else.
    PLAIN = [("declare", 5), ("limit", 5), ("boxes", 6), ("height", 6), ("status", 5), ("prove", 40), ("qed", 4),
             ("bad", 5), ("nothing", 2), ("many", 0.2)]
    METHODS = [("cases", 12), ("implication", 5), ("conjunction", 5), ("contradiction", 5), ("induction", 10),
               ("partition", 5)]
    ON_FACTS = [("instantiate", 12), ("pairs", 10), ("normalize", 8)]
    KINDS = [*PLAIN, *METHODS, *ON_FACTS]
    # Those that may stand in a preamble, and a few that may not.
    FIRST_KINDS = [("declare", 12), ("limit", 6), ("boxes", 12), ("height", 8), ("status", 8), ("prove", 1),
                   ("bad", 1), ("qed", 1)]

    def __init__(self, pick, reference, duty):
        self.pick, self.duty, self.state = pick, duty, None
        self.base, self.term_of, self.nodes, self.norm = reference.base, reference.term, reference.nodes, reference.norm
        self.sorts = [self.base.BOOL]
        for operator in duty.theory.operators:
            self.sorts += [s for s in (*operator.domain, operator.range) if s not in self.sorts]

    def line(self, kinds):
        """A line of one of these kinds of commands."""
        kind = self.pick.choices([kind for kind, _ in kinds], [weight for _, weight in kinds])[0]
        return getattr(self, kind)()

    # Terms ---------------------------------------------------------------------------------------

    def operators(self):
        return [*self.duty.theory.operators, *(self.state.constants if self.state else ())]

    def scope(self):
        return self.state.scope if self.state else {}

    def built_in(self, sort):
        if sort == self.base.BOOL:
            one = self.pick.choice(self.sorts)
            return [*self.base.PROPOSITIONAL, self.base.eq_op(one), self.base.ne_op(one)]
        return [self.base.if_op(sort)]

    def some(self, sort, depth):
        """A random term of a sort."""
        variables = [name for name, its in self.scope().items() if its == sort]
        own = [f for f in self.operators() if f.range == sort and (depth > 0 or not f.domain)]
        if variables and self.pick.random() < (0.25 if depth and own else 0.6):
            return self.base.Var(self.pick.choice(variables), sort)
        if not own or depth and self.pick.random() < 0.2:
            own = self.built_in(sort) if depth > 0 else own
        if not own:
            if sort == self.base.BOOL:
                return self.pick.choice([self.base.TRUE, self.base.FALSE])
            return self.base.Var(self.pick.choice(variables or NAMES), sort)
        operator = self.pick.choice(own)
        return self.base.App(operator, tuple(self.some(part, depth - 1) for part in operator.domain))

    def instance(self, statement):
        """An instance of an equation."""
        by = {v: self.some(v.sort, self.pick.randint(0, 1)) for v in self.term_of.statement_variables(statement)}
        return self.base.Equation(*(self.term_of.substitute(side, by) for side in statement))

    def equations(self, statements):
        return [s for s in statements if isinstance(s, self.base.Equation)]

    def equation(self):
        """An equation to prove: one that the theory states or that follows at once, one of the duties, or any."""
        pick, kind = self.pick, self.pick.random()
        stated = self.equations(self.duty.theory.statements)
        claimed = self.equations([self.duty.statement, *(other for _, other in self.duty.others)])
        if kind < 0.25 and stated:
            return self.instance(pick.choice(stated))
        if kind < 0.4 and claimed:
            return self.instance(pick.choice(claimed))
        if kind < 0.5 and self.state and self.state.outcome[0] == "suspended":
            return self.base.Equation(self.state.levels[-1].goal.term(), self.base.TRUE)
        sort = pick.choice(self.sorts)
        one = self.some(sort, pick.randint(0, 2))
        if kind < 0.6:
            return self.base.Equation(one, one)
        if kind < 0.65:
            return self.base.Equation(pick.choice([self.base.TRUE, self.base.FALSE]), self.base.TRUE)
        if kind < 0.75:
            formula = self.some(self.base.BOOL, 1)
            denied = self.base.App(self.base.NOT_OP, (formula,))
            either = self.base.App(self.base.OR_OP, (formula, denied))
            return self.base.Equation(either, self.base.TRUE)
        if kind < 0.9:
            return self.base.Equation(self.joined(pick.randint(1, 2)), self.base.TRUE)
        return self.base.Equation(one, self.some(sort, pick.randint(0, 2)))

    def joined(self, depth):
        """Formulas joined by signs that methods take apart."""
        if depth == 0:
            sort = self.pick.choice(self.sorts)
            left, right = self.some(sort, 1), self.some(sort, 1)
            if self.pick.random() < 0.5:
                return self.base.App(self.base.eq_op(sort), (left, right))
            return self.some(self.base.BOOL, self.pick.randint(1, 2))
        operator = self.pick.choice([self.base.AND_OP, self.base.AND_OP, self.base.IMP_OP, self.base.IFF_OP])
        return self.base.App(operator, (self.joined(depth - 1), self.joined(depth - 1)))

    # Commands ------------------------------------------------------------------------------------

    def declare(self):
        names = self.pick.sample(NAMES, self.pick.choice([1, 1, 2, 3]))
        if self.pick.random() < 0.1:
            names[-1] = self.pick.choice([*(f.name for f in self.operators()), names[0], "gen", "lc"])
        sort = self.pick.choice(self.sorts if self.pick.random() < 0.85 else ["Q", "Bool"])
        return f"declare variables {', '.join(names)}: {sort}"

    def limit(self):
        return f"set rewriting-limit {self.pick.choice(LIMITS)}"

    def boxes(self):
        return f"set box-checking {self.pick.choice(['on', 'on', 'off'])}"

    def reference(self):
        """A reference to an operator, with its signature where another has the name, and not always right."""
        if self.pick.random() < 0.06:
            return self.pick.choice(["nobody", "true", "__ /\\ __", "__ = __"])
        operator = self.pick.choice(self.operators())
        several = [f.name for f in self.operators()].count(operator.name) > 1
        if self.pick.random() < (0.85 if several else 0.15):
            return self.term_of.print_operator_form(operator)
        return operator.name

    def height(self):
        return f"register height {self.reference()} > {self.reference()}"

    def status(self):
        return f"register status {self.pick.choice(WAYS)} {self.reference()}"

    def prove(self):
        equation = self.equation()
        if self.pick.random() < 0.5:
            line = "prove " + self.term_of.print_statement(equation)
        else:
            line = "prove " + " == ".join(map(self.term_of.print_term, equation))
        return re.sub(r":\w+", "", line) if self.pick.random() < 0.35 else line

    def prove_joined(self):
        """Formulas that stay open, mostly."""
        return "prove " + self.term_of.print_term(self.joined(self.pick.randint(1, 2)))

    def qed(self):
        return "qed"

    def bad(self):
        return self.pick.choice(BAD_LINES if self.pick.random() < 0.7 else NO_TOKENS)

    def many(self):
        """Nearly as many commands as a block may have, or a few more."""
        return "\n".join(["[]"] * self.pick.randint(985, 1003))

    def nothing(self):
        return self.pick.choice(["", "  % a comment", "\t"])

    def mark(self, is_proved):
        return MARKS[is_proved]

    # Methods -------------------------------------------------------------------------------------

    def has_goal(self):
        return bool(self.state.levels) and self.state.levels[-1].goal is not None

    def goal(self):
        return self.state.levels[-1].goal

    def cases(self):
        """On a formula of the goal, or on any."""
        formulas = [part for _, part in self.nodes.places(self.goal()) if part.sort == self.base.BOOL]
        if formulas and self.pick.random() < 0.6:
            formula = self.pick.choice(formulas).term()
        else:
            formula = self.some(self.base.BOOL, self.pick.choice([0, 1, 1, 2]))
        return self.declared([formula], f"resume by cases {self.term_of.print_term(formula)}")

    def declared(self, terms, line):
        """A line with terms; mostly the variables that aren't in scope are declared in front of it."""
        lacking = [v for term in terms for v in self.term_of.variables(term) if v.name not in self.scope()]
        if self.pick.random() < 0.3:
            lacking = []
        declarations = dict.fromkeys(f"declare variable {v.name}: {v.sort}" for v in lacking)
        return "\n".join([*declarations, line])

    def implication(self):
        return "resume by =>"

    def conjunction(self):
        return "resume by /\\"

    def contradiction(self):
        return "resume by contradiction"

    def partition(self):
        return "resume by partition"

    def induction(self):
        """On a variable of the goal, mostly one whose sort has a clause."""
        names = [v.head.name for v in self.nodes.variables(self.goal())]
        chosen = self.generated_variables() or names
        if not chosen or self.pick.random() < 0.1:
            chosen = [*names, *NAMES]
        return f"resume by induction on {self.pick.choice(chosen)}"

    def clauses(self, kind):
        """The sorts that have a clause of a kind."""
        return {clause.sort for clause in self.state._clauses() if isinstance(clause, kind)}

    def generated_variables(self):
        sorts = self.clauses(self.base.Generated)
        return [v.head.name for v in self.nodes.variables(self.goal()) if v.head.sort in sorts]

    def fitting(self):
        """A line of a kind of command that fits the goal."""
        goal = self.goal()
        head = None if goal.is_var else goal.head
        is_false = head == self.base.FALSE_OP
        fits = [("prove", 2), ("prove_joined", 3), ("cases", 2), ("contradiction", 0.1 if is_false else 1)]
        if head == self.base.IMP_OP:
            fits.append(("implication", 16))
        if head == self.base.AND_OP:
            fits.append(("conjunction", 16))
        if head and self.norm.is_equality(head) and head.domain[0] in self.clauses(self.base.Partitioned):
            fits.append(("partition", 16))
        if self.generated_variables():
            fits.append(("induction", 16))
        if self.facts():
            fits += [("instantiate", 3), ("pairs", 2), ("normalize", 1)]
        return self.line(fits)

    # Commands on facts -----------------------------------------------------------------------------

    def facts(self):
        return self.state.levels[-1].facts.entries

    def spelled(self, fact):
        letter, number, part = fact[0]
        return f"{letter}{number}" + (f".{part}" if part != 1 or self.pick.random() < 0.1 else "")

    def a_fact(self):
        """A fact, mostly one of the last, and its name; seldom none, and a name that no fact has, mostly."""
        facts = self.facts()
        if not facts or self.pick.random() < 0.05:
            return None, self.pick.choice(BAD_FACTS)
        fact = self.pick.choice(facts[-4:] if self.pick.random() < 0.5 else facts)
        return fact, self.spelled(fact)

    def normalize(self):
        return f"normalize {self.a_fact()[1]}"

    def pairs(self):
        one, name = self.a_fact()
        other = name if self.pick.random() < 0.2 else self.a_fact()[1]
        return f"critical-pairs {name} with {other}"

    def instantiate(self):
        """Some of the variables of a fact, where it has any."""
        fact, name = self.a_fact()
        for _ in range(3):
            if fact is None or self.nodes.variables(*fact[1:]):
                break
            fact, name = self.a_fact()
        variables = [v.head for v in self.nodes.variables(*fact[1:])] if fact else []
        chosen = self.pick.sample(variables, self.pick.randint(1, len(variables))) if variables else []
        if not chosen or self.pick.random() < 0.05:
            chosen.append(self.base.Var(self.pick.choice(NAMES), self.pick.choice(self.sorts)))
        terms = [self.for_variable(variable) for variable in chosen]
        pairs = [f"{v.name} by {self.term_of.print_term(term)}" for v, term in zip(chosen, terms)]
        return self.declared(terms, f"instantiate {', '.join(pairs)} in {name}")

    def for_variable(self, variable):
        """A term in the place of a variable: a part of the goal with its sort, or any term."""
        parts = [part for _, part in self.nodes.places(self.goal()) if part.sort == variable.sort]
        if parts and self.pick.random() < 0.4:
            return self.pick.choice(parts).term()
        sort = variable.sort if self.pick.random() < 0.97 else self.pick.choice(self.sorts)
        return self.some(sort, self.pick.choice([0, 0, 1, 2]))


class Walk:
    """A block, and the way of the other reading through it. A careful one drops most lines that are refused, so that
    it comes to the end of more proofs."""

    def __init__(self, pick, reference, given, count):
        self.pick, self.reference, self.given, self.lines = pick, reference, given, []
        self.is_careful, self.writer = pick.random() < 0.6, Writer(pick, reference, given.duty)
        self.begin()
        self.walk(count)

    def begin(self):
        given = self.given
        self.state = self.writer.state = self.reference.prove.ProofState(
            given.duty.theory, given.duty.statement, given.lemmas, given.preamble, given.limit)

    def is_refused(self):
        return self.state.outcome[0] == "refused"

    def walk(self, count):
        """Writes lines, and carries them out until one is refused."""
        for _ in range(count):
            refused = self.is_refused()
            if self.has_enough(refused):
                return
            line = self.next_line()
            if refused:
                self.lines.append(line)
            else:
                self.try_line(line)

    def has_enough(self, refused):
        """Whether the block ends: mostly where it is refused, and often where all is proved."""
        often = 0.7 if refused else 0.4 if self.state.outcome[0] == "proved" and not self.state.waiting else 0
        return self.pick.random() < often

    def try_line(self, line):
        self.carry_out(line)
        seldom = self.is_refused() and self.state.outcome[2] in SELDOM
        if self.is_refused() and self.is_careful and not seldom and self.pick.random() < 0.85:
            self.begin()
            for earlier in self.lines:
                self.carry_out(earlier)
        else:
            self.lines.append(line)

    def carry_out(self, line):
        for command in self.reference.script.read_script(f"duty imply.1\n{line}", False).blocks[0].commands:
            if not self.is_refused():
                self.state.step(command)

    def next_line(self):
        """The mark that waits, mostly, and behind the end `qed`, often."""
        chance, waiting = self.pick.random(), self.state.waiting
        if waiting and chance < 0.85:
            return self.writer.mark(waiting[0] if chance < 0.8 else not waiting[0])
        if chance < 0.05:
            return self.writer.mark(self.pick.random() < 0.5)
        if self.state.outcome[0] == "proved" and chance < 0.8:
            return self.writer.qed()
        if self.state.outcome[0] == "suspended" and chance < 0.6:
            return self.writer.fitting()
        return self.writer.line(Writer.KINDS if self.writer.has_goal() else Writer.PLAIN)
