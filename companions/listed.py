"""What `larch obligations` lists of a trait: its operators, its statements and what it claims over them, with the terms
read. Variables are listed without their sorts, so a line may have more than one reading; all are kept.

A term is a tuple that begins with what it is: `("variable", n)` by its number, `("value", n)` of Bool, `("operator", n,
terms)` by its number from 0, or a built-in operator's sign with the terms: `~`, `/\\`, `\\/`, `=>`, `<=>`, `=`, `~=`,
`if`."""
import dataclasses
import itertools
import re

from . import terms
from .tokens import CONNECTIVES, EQUALITIES, Text

BOOL = "Bool"
MOST_READINGS = 8
LABEL = re.compile(r"(?:assume|imply)\.[0-9]+")
CLAUSE = re.compile(r"(\S+) (generated|partitioned) by (.*)")
STATEMENT = re.compile(r"A[0-9]+ (?:asserted|assumed) ")
ADDED = re.compile(r"convert\.|A[0-9]+ (?:copied|exempt) ")
TRUTH = {"false": 0, "true": 1}


@dataclasses.dataclass(frozen=True)
class Operator:
    """An operator as it is listed."""
    name: str
    domain: tuple
    range: str


@dataclasses.dataclass(frozen=True)
class Equation:
    """A reading of an equation: the sorts of its variables, and its sides."""
    sorts: tuple
    left: tuple
    right: tuple


@dataclasses.dataclass(frozen=True)
class Clause:
    """A reading of a clause: `generated` or `partitioned`, its sort, and the numbers of its operators."""
    kind: str
    sort: str
    operators: tuple


@dataclasses.dataclass
class Listing:
    """The operators, the readings of each statement in order, and those of each claim by its label. `unread` has the
    lines that have no reading here, or too many."""
    operators: list
    statements: list
    claims: dict
    unread: list

    def sorts(self):
        """The sorts but Bool, in the order in which the operators have them."""
        named = [sort for operator in self.operators for sort in (*operator.domain, operator.range)]
        return [sort for sort in dict.fromkeys(named) if sort != BOOL]


def lines_of(text, trait):
    """The lines that are listed of a trait, without the line that names it; nothing where it isn't listed, or is
    wrong."""
    lines = text.splitlines()
    if f"trait {trait}" not in lines:
        return None
    start = lines.index(f"trait {trait}") + 1
    return list(itertools.takewhile(lambda line: line != "end" and not line.startswith("trait "), lines[start:]))


def operator_of(words):
    """The operator of a line `op FORM: SIGNATURE`, without its first word."""
    name, signature = words.rsplit(": ", 1)
    domain, result = signature.rsplit("-> ", 1)
    return Operator(name, tuple(sort for sort in domain.strip().split(", ") if sort), result)


def listing(text, trait):
    """What is listed of a trait in a text; nothing where it isn't there, or something is wrong with it."""
    lines = lines_of(text, trait)
    if lines is None:
        return None
    own, copies = own_lines(lines)
    heads = [line for line in own if line.startswith("op ")]
    found = Listing([operator_of(line[3:]) for line in heads[:len(heads) - copies]], [], {}, [])
    reader = Reader(found.operators)
    for line in own:
        if STATEMENT.match(line):
            found.statements.append(read(reader, line.split(" ", 2)[2], line, found.unread))
        elif LABEL.match(line):
            label, statement = line.split(" ", 1)
            found.claims[label] = read(reader, statement, line, found.unread)
    return found


def own_lines(lines):
    """The lines before what the first clause `converts` adds, but for its copies, which are the last operators of
    these; and how many copies there are: as many as it has duties."""
    place = next((number for number, line in enumerate(lines) if ADDED.match(line)), len(lines))
    block = itertools.takewhile(lambda line: not line.startswith("op "), lines[place:])
    return lines[:place], sum(line.startswith("convert.") for line in block)


def read(reader, statement, line, unread):
    """The readings of a statement; where there are none or too many, its line is unread."""
    found = reader.statement(statement)
    if not found or len(found) > MOST_READINGS:
        unread.append(line)
        return []
    return found


class Reader:
    """Reads what is listed, by the operators."""

    def __init__(self, operators):
        self.operators, self.named, self.hides = operators, {}, False
        for number, operator in enumerate(operators):
            self.named.setdefault(operator.name, []).append((number, operator))
        named = [sort for operator in operators for sort in (*operator.domain, operator.range)]
        self.all_sorts = list(dict.fromkeys([*named, BOOL]))

    def statement(self, text):
        """The readings of a statement, each once. A variable is called as a constant is only where nothing else is
        read."""
        clause = CLAUSE.fullmatch(text)
        if clause:
            return list(self.clause(clause[1], clause[2], forms(clause[3])))
        for self.hides in (False, True):
            found = list(itertools.islice(dict.fromkeys(self.equation(text)), MOST_READINGS + 1))
            if found:
                return found
        return []

    def clause(self, sort, kind, names):
        """The readings of a clause: operators of one name may differ by their signatures."""
        def suits(operator):
            return operator.range == sort if kind == "generated" else sort in operator.domain
        choices = [[number for number, one in self.named.get(name, ()) if suits(one)] for name in names]
        for chosen in itertools.product(*choices):
            if len(set(chosen)) == len(chosen):
                yield Clause(kind, sort, chosen)

    def equation(self, text):
        """The readings of an equation. Where one side stands alone, it is said to be true."""
        tokens = Text(text.encode())
        found = terms.equation(tokens, 0, len(tokens.tokens))
        if found is None:
            return
        for sort in self.all_sorts if found.right else [BOOL]:
            for left, known in self.term(found.left, sort, {}):
                sides = self.term(found.right, sort, known) if found.right else [(("value", 1), known)]
                for right, names in sides:
                    yield numbered(left, right, names)

    def term(self, node, sort, known):
        """The readings of a term with a sort, each with the sorts of variables, where some are known."""
        if node.name == "if":
            yield from self.built_in("if", node.arguments, (BOOL, sort, sort), known)
        elif node.name in EQUALITIES and sort == BOOL:
            for both in self.all_sorts:
                yield from self.built_in(node.name, node.arguments, (both, both), known)
        elif (node.name in CONNECTIVES or node.name == "~") and sort == BOOL:
            yield from self.built_in(node.name, node.arguments, (BOOL,) * len(node.arguments), known)
        elif node.name in TRUTH and not node.arguments:
            if sort == BOOL:
                yield ("value", TRUTH[node.name]), known
        else:
            yield from self.applied(node, sort, known)

    def built_in(self, sign, arguments, sorts, known):
        for parts, names in self.together(arguments, sorts, known):
            yield (sign, *parts), names

    def applied(self, node, sort, known):
        """The readings of a term of a declared operator, or of a variable."""
        fitting = [(number, operator) for number, operator in self.named.get(node.name, ())
                   if operator.range == sort and len(operator.domain) == len(node.arguments)]
        for number, operator in fitting:
            for parts, names in self.together(node.arguments, operator.domain, known):
                yield ("operator", number, parts), names
        is_word = re.fullmatch(r"[A-Za-z0-9_']+", node.name) and not node.arguments
        may_be = is_word and (self.hides or all(one.domain for _, one in self.named.get(node.name, ())))
        if may_be and known.get(node.name, sort) == sort:
            yield ("variable", node.name), {**known, node.name: sort}

    def together(self, arguments, sorts, known):
        """The readings of several terms, each with its sort."""
        if not arguments:
            yield (), known
            return
        for first, names in self.term(arguments[0], sorts[0], known):
            for rest, more in self.together(arguments[1:], sorts[1:], names):
                yield (first, *rest), more


def forms(text):
    """The forms of a clause: the commas in brackets are of a form."""
    pieces = re.findall(r"(?:[\[{][^\]}]*[\]}]|[^,\[{])+", text)
    return [piece.strip() for piece in pieces]


def numbered(left, right, names):
    """The equation of two sides, its variables by numbers."""
    numbers = {name: number for number, name in enumerate(names)}

    def again(term):
        if term[0] == "variable":
            return ("variable", numbers[term[1]])
        if term[0] == "operator":
            return ("operator", term[1], tuple(again(part) for part in term[2]))
        return term if term[0] == "value" else (term[0], *(again(part) for part in term[1:]))

    return Equation(tuple(names.values()), again(left), again(right))
