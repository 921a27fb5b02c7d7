"""Terms with names, as goals and facts are printed: read by the operators that are listed, written as a command takes
them, taken apart, matched.

A term is a tuple as in `listed`, but that a variable has its name: `("variable", name)`. A constant that a proof has
made is read as such a variable too, since only its name is known."""
import itertools

from . import terms
from .listed import BOOL, Reader, operator_of
from .tokens import Text

TRUE, FALSE = ("value", 1), ("value", 0)
JOINING = ("/\\", "\\/", "=>", "<=>")


class Language:
    """The operators of a trait, by which terms are read and written."""

    def __init__(self, operators):
        self.operators, self.reader = list(operators), Reader(operators)
        self.named = {operator.name: number for number, operator in reversed(list(enumerate(self.operators)))}

    def formula(self, text, known=None):
        """A printed formula and the sorts of the names in it that are no operators; nothing where it isn't read. Of
        several readings it is the first one."""
        return self.term(text, BOOL, known)

    def term(self, text, sort, known=None):
        tokens = Text(text.encode())
        found = terms.equation(tokens, 0, len(tokens.tokens))
        if found is None or found.right is not None:
            return None
        return self.first(self.reader.term(found.left, sort, dict(known or {})))

    def first(self, readings):
        """The first reading; one in which a name hides an operator comes behind the others."""
        for self.reader.hides in (False, True):
            found = next(readings, None)
            if found is not None:
                return found
        return None

    def equations(self, text):
        """The readings of a listed equation: each has two sides and the sorts of its variables."""
        tokens = Text(text.encode())
        found = terms.equation(tokens, 0, len(tokens.tokens))
        if found is None:
            return
        self.reader.hides = False
        for sort in self.reader.all_sorts if found.right else [BOOL]:
            for left, known in self.reader.term(found.left, sort, {}):
                sides = self.reader.term(found.right, sort, known) if found.right else [(TRUE, known)]
                yield from ((left, right, names) for right, names in sides)

    def sort(self, term, sorts):
        """The sort of a term, where those of its names are known; else nothing."""
        if term[0] == "operator":
            return self.operators[term[1]].range
        if term[0] == "variable":
            return sorts.get(term[1])
        if term[0] == "if":
            return self.sort(term[2], sorts) or self.sort(term[3], sorts)
        return BOOL

    def shown(self, term):
        """A term as a command takes it."""
        if term[0] == "variable":
            return term[1]
        if term[0] == "value":
            return "true" if term[1] else "false"
        if term[0] == "if":
            return "if {} then {} else {}".format(*map(self.shown, term[1:]))
        if term[0] == "~":
            return "~" + self.closed(term[1])
        if term[0] != "operator":
            return f"{self.closed(term[1])} {term[0]} {self.closed(term[2])}"
        return self.applied(self.operators[term[1]].name, term[2])

    def applied(self, name, parts):
        if "__" not in name:
            return f"{name}({', '.join(map(self.shown, parts))})" if parts else name
        pieces = name.split("__")
        inside = [piece.rstrip()[-1:] in ("[", "{", ",") and piece.strip() != "" for piece in pieces[:-1]]
        shown = [self.shown(part) if is_inside else self.closed(part) for part, is_inside in zip(parts, inside)]
        return "".join(itertools.chain(*zip(pieces, shown), pieces[-1:]))

    def closed(self, term):
        """A term as it stands beside a symbol: in parentheses, unless it is a word or one with arguments."""
        text = self.shown(term)
        is_alone = term[0] in ("variable", "value") or (
            term[0] == "operator" and ("__" not in self.operators[term[1]].name))
        return text if is_alone else f"({text})"


def parts_of(term):
    """The arguments of a term."""
    if term[0] == "operator":
        return term[2]
    return () if term[0] in ("variable", "value") else term[1:]


def with_parts(term, parts):
    """A term with other arguments."""
    return (*term[:2], tuple(parts)) if term[0] == "operator" else (term[0], *parts) if parts else term


def subterms(term):
    """A term's parts, the term itself first."""
    yield term
    for part in parts_of(term):
        yield from subterms(part)


def names(*several):
    """The names in some terms, in the order in which they come first."""
    return list(dict.fromkeys(part[1] for term in several for part in subterms(term) if part[0] == "variable"))


def size(term):
    return 1 + sum(map(size, parts_of(term)))


def replaced(term, by):
    """A term with terms in the place of names."""
    if term[0] == "variable":
        return by.get(term[1], term)
    return with_parts(term, [replaced(part, by) for part in parts_of(term)])


def atoms(term):
    """The formulas that connectives join to a formula, each once and from the left."""
    if term[0] in JOINING or term[0] == "~":
        return list(dict.fromkeys(atom for part in term[1:] for atom in atoms(part)))
    return [] if term[0] == "value" else [term]


def conjuncts(term):
    return [part for side in term[1:] for part in conjuncts(side)] if term[0] == "/\\" else [term]


def conditions(term):
    """The conditions of the `if`s in a term, those of inner ones first."""
    found = []
    for part in parts_of(term):
        found += conditions(part)
    return list(dict.fromkeys(found + ([term[1]] if term[0] == "if" else [])))


def matches(pattern, term, by, fixed=frozenset()):
    """The terms for a pattern's names by which it is a term, with those that are known; nothing where there are none.
    Names in `fixed` stand for themselves."""
    if pattern[0] == "variable" and pattern[1] not in fixed:
        if pattern[1] in by:
            return by if by[pattern[1]] == term else None
        return {**by, pattern[1]: term}
    if pattern[0] != term[0] or (pattern[0] in ("operator", "variable", "value") and pattern[1] != term[1]):
        return None
    for one, other in zip(parts_of(pattern), parts_of(term)):
        by = matches(one, other, by, fixed)
        if by is None:
            return None
    return by


def operators_of(text):
    """All operators that are listed of a trait, the copies of converted ones too."""
    return [operator_of(line[3:]) for line in text if line.startswith("op ")]
