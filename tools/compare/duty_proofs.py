"""Certificates for the duties of traits, as far as a few lines show them: statements that are axioms, rows or
instances of these, and equations of which both sides are rewritten to one term, which is how operators that are
defined or exempted are shown to be determined. Theories and statements are given as the package `larchref` has them;
terms and lines are those of random_certificates.py. `proof(pick, theory, statement, tables)` has the lines."""
import random_certificates as certificates

BUILT_IN = {"true": "true", "false": "false", "~ __": "~", "__ /\\ __": "/\\", "__ \\/ __": "\\/", "__ => __": "=>",
            "__ <=> __": "<=>", "__ = __": "=", "__ ~= __": "~=", "if __ then __ else __": "if"}
ROWS, STEPS, PLACES = 40, 8, 60


class Theory(certificates.Theory):
    """The theory of a duty."""

    def __init__(self, pick, theory):
        self.pick = pick
        self.numbers = {operator: number for number, operator in enumerate(theory.operators, 1)}
        self.operators = [(operator.name, list(operator.domain), operator.range) for operator in theory.operators]
        sorts = {sort for _, domain, range_ in self.operators for sort in (*domain, range_)}
        self.sorts = [*sorted(sorts - {certificates.BOOL}), certificates.BOOL]
        self.statements = [self.statement(one) for one in theory.statements]

    def spelled(self, term):
        """The pair of a symbol and arguments that a term is."""
        if not hasattr(term, "args"):
            return certificates.variable(term.name, term.sort)
        number = self.numbers.get(term.op)
        symbol = f"#{number}" if number else BUILT_IN[term.op.name]
        return symbol, tuple(self.spelled(argument) for argument in term.args)

    def statement(self, statement):
        """An equation or a clause; a clause with a built-in operator is nothing that a line speaks of."""
        if hasattr(statement, "left"):
            return "eq", self.spelled(statement.left), self.spelled(statement.right)
        numbers = [self.numbers.get(operator) for operator in statement.ops]
        kind = "generated" if type(statement).__name__ == "Generated" else "partitioned"
        return (kind, statement.sort, numbers) if all(numbers) else ("other", kind, statement)


def matched(theory, pattern, term, by):
    """Whether a term is an instance of a pattern by these bindings and more, which are added."""
    symbol, arguments = pattern
    if arguments is None:
        sort = term[0].split(":")[1] if term[1] is None else certificates.sort_in(theory, term, {})
        return symbol.split(":")[1] == sort and by.setdefault(symbol, term) == term
    return term[0] == symbol and term[1] is not None and len(term[1]) == len(arguments) and all(
        matched(theory, part, of, by) for part, of in zip(arguments, term[1]))


def facts(theory, tables):
    """Each equation that one line says: the line, and both sides."""
    found = [(f"axiom {number}", *one[1:]) for number, one in enumerate(theory.statements, 1) if one[0] == "eq"]
    for number in range(1, ROWS + 1):
        for sort in theory.sorts if tables.is_sorted(number) else [certificates.BOOL]:
            row = theory.statement(tables.row_statement(number, sort))
            found.append((f"row {number} {sort}" if tables.is_sorted(number) else f"row {number}", *row[1:]))
    return found


class Prover:
    """Shows one statement, behind a few lines that don't matter."""

    def __init__(self, pick, theory, tables):
        self.theory, self.facts = theory, facts(theory, tables)
        self.writer = certificates.Writer(pick, theory)
        self.writer.steps(pick.choice([0, 0, 1, 2, 4]))

    def instance(self, fact, by):
        """A line that says an instance of a fact."""
        line = self.writer.line(fact[0], ("eq", *fact[1:]))
        return self.writer.inst(line, {name: term for name, term in by.items() if (name, None) != term})

    def one_line(self, left, right):
        """A line that says the equation, where it is an instance of a fact, or of one with its sides exchanged."""
        for fact in self.facts:
            for sides in ((left, right), (right, left)):
                by = {}
                if matched(self.theory, fact[1], sides[0], by) and matched(self.theory, fact[2], sides[1], by):
                    line = self.instance(fact, by)
                    return line if sides[0] == left else self.writer.sym(line)
        return None

    def step(self, term):
        """A fact that rewrites a term to another one, with the place and the bindings."""
        for place, there in list(certificates.places(term))[:PLACES]:
            for fact in self.facts:
                by = {}
                grows = certificates.variables(fact[2]) - certificates.variables(fact[1])
                if fact[1][1] is not None and not grows and matched(self.theory, fact[1], there, by):
                    if certificates.substituted(fact[2], by) != there:
                        return fact, place, by
        return None

    def rewritten(self, term):
        """A line that says that the term equals one to which it is rewritten, and that one."""
        line = self.writer.refl(term)
        for _ in range(STEPS):
            found = self.step(term)
            if not found:
                break
            fact, place, by = found
            line = self.writer.repl(line, place, self.instance(fact, by))
            term = self.writer.said[line][1][2]
        return line, term

    def shown(self, statement):
        """Whether the last line says the statement now."""
        if statement[0] != "eq":
            known = [number for number, one in enumerate(self.theory.statements, 1) if one == statement]
            if statement[0] == "other" and {operator.name for operator in statement[2].ops} == {"true", "false"}:
                known.append(0)
            if known:
                self.writer.line(f"axiom {known[0]}")
            return bool(known)
        _, left, right = statement
        if left == right:
            return bool(self.writer.refl(left))
        if self.one_line(left, right):
            return True
        one, to = self.rewritten(left)
        other, same = self.rewritten(right)
        if to == same:
            self.writer.repl(one, (), self.writer.sym(other))
        return to == same


def proof(pick, theory, statement, tables):
    """The lines of a certificate, and whether they are to show the statement."""
    made = Theory(pick, theory)
    prover = Prover(pick, made, tables)
    shown = prover.shown(made.statement(statement))
    return prover.writer.lines, shown
