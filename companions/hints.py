"""Hints at what is well formed and yet suspect: `hints(files, trait)` for a trait that the program takes.

A comment `%% larch: no hint unused-variable` in the file switches the hints of a name off there, several names stand
between commas, and `%% larch: no hints` switches off all."""
import dataclasses
import functools
import re

from . import terms
from .declarations import file_of, trait_of
from .scope import BUILT_IN, Scope, reached, sorts_of
from .spelling import nearest
from .tokens import CONNECTIVES
from .wording import listed, meant

OFF = re.compile(rb"%+\s*larch:\s*no hint(s\s*$|s?\s+([\w, -]+))")


@dataclasses.dataclass(frozen=True)
class Hint:
    """A hint: its file, the place from 1 and in bytes, the offsets of what it is about, its name, and what it says."""
    file: str
    line: int
    column: int
    start: int
    end: int
    name: str
    says: str


def hints(files, trait, without=()):
    """The hints at a trait, named with or without `.lsl`, in the order of their places. `files` are the trait's own and
    those that it refers to, and the folder's scripts; hints of the names in `without` are left out."""
    name = trait if trait.endswith(".lsl") else file_of(trait)
    if name not in files:
        return []
    return list(found_in(name, looked_at(files, name), frozenset(without)))


def looked_at(files, name):
    """The files that the hints at one are of, with their names: those that it reaches, its script and certificates."""
    base = name.removesuffix("lsl")
    near = [*reached(files, name), *sorted(other for other in files if other.startswith(base) and other != name)]
    return tuple((other, files[other]) for other in near)


@functools.lru_cache(1000)
def found_in(name, near, without):
    """The hints at a trait among the files that it reaches and its scripts; they stay known as long as these stay."""
    look = Look(dict(near), name)
    off = without | switched_off(look.text)
    found = [look.hint(*said, rule) for rule, finder in RULES.items() if rule not in off and "all" not in off
             for said in finder(look)]
    return sorted(found, key=lambda hint: (hint.start, hint.name))


def switched_off(text):
    """The names that the file's comments switch off; `all` for all."""
    names = set()
    for comment in text.comments:
        found = OFF.match(comment)
        if found:
            names |= {name.strip().decode() for name in found[2].split(b",")} if found[2] else {"all"}
    return names


class Look:
    """What the rules look at: the trait, its operators, and its asserted equations as terms."""

    def __init__(self, files, name):
        self.files, self.name, self.trait = files, name, trait_of(files[name])
        self.text, self.tokens, self.scope = self.trait.text, self.trait.tokens, Scope(files)
        self.operators = [*self.scope.operators(name), *BUILT_IN]
        self.own, self.known = self.trait.own_operators(), {}
        self.asserted = [item for item in self.trait.items if item.part == "asserts"]
        self.read = [(item, span, *self.equation(item, span)) for item in self.asserted for span in item.equations]
        self.exempted = [self.equation(item, span) for item in self.trait.items if item.kind == "exempting"
                         for span in item.equations]
        self.left = self.left_nodes((found, chosen) for _, _, found, chosen in self.read)
        self.left_exempted = self.left_nodes(self.exempted)

    @staticmethod
    def left_nodes(equations):
        """The nodes of left sides and of formulas with the operators that stand in them, by the operator."""
        nodes = {}
        for found, chosen in equations:
            for node in terms.nodes(found.left) if found else ():
                if node.head in chosen and node.name != ":":
                    nodes.setdefault(chosen[node.head], []).append((node, chosen))
        return nodes

    def readings(self, item):
        """The readings of an item, made once."""
        if id(item) not in self.known:
            variables = {self.text.text(name): self.text.text(sort) for name, sort in item.variables}
            self.known[id(item)] = terms.Readings(self.operators, variables)
        return self.known[id(item)]

    def equation(self, item, span):
        """An equation with the operators of its nodes; nothing where it can't be read."""
        readings, chosen = self.readings(item), {}
        found = terms.equation(self.text, *span)
        if found and item.kind == "exempting":
            sorts = sorted(readings.sorts(found.left))
            chosen = dict(next(readings.read(found.left, sorts[0]), ())) if sorts else {}
        elif found:
            chosen = dict(next(readings.of_equation(found), ()))
        return found, chosen

    def hint(self, first, last, says, name):
        start, end = self.tokens[first].start, self.tokens[last].end
        return Hint(self.name, *self.text.place(start), start, end, name, says)


def lonely_sorts(look):
    """A sort that stands in one place of the file alone, and comes from nowhere else."""
    own = {(operator.start, operator.trait) for operator in look.own}
    taken = sorts_of([operator for operator in look.operators if (operator.start, operator.trait) not in own])
    counts, sorts = {}, sorts_of(look.operators)
    for token in look.tokens:
        counts[token.text] = counts.get(token.text, 0) + 1
    numbers = [number for declaration in look.trait.declarations if declaration.range is not None
               for number in (*declaration.domain, declaration.range)]
    numbers += [number for short in look.trait.shorthands for _, number in short.fields if number is not None]
    for number in dict.fromkeys(numbers):
        sort = look.text.text(number)
        if counts[sort] == 1 and sort not in taken:
            near = nearest(sort, sorts)
            if near or look.asserted:
                yield number, number, f"the sort `{sort}` stands only here{meant(near)}"


def silent_operators(look):
    """An operator that no equation and no clause has, where the trait says something of others."""
    if not look.asserted:
        return
    used = {look.text.text(number) for item, span, found, chosen in look.read if not chosen for number in range(*span)}
    said = {operator for _, _, _, chosen in look.read for operator in chosen.values()}
    said |= {form.name for item in look.asserted for form in item.forms}
    for declaration in look.trait.declarations:
        if declaration.range is None:
            continue
        signature = [look.text.text(sort) for sort in declaration.domain]
        head = ", ".join(signature) + " -> " if signature else "-> "
        for form in declaration.forms:
            shown = f"{form.name}: {head}{look.text.text(declaration.range)}"
            if shown not in said and form.name not in said and not used & set(form.name.split()) - {"__"}:
                yield form.first, form.last - 1, f"nothing is said of `{form.name}`"


def unused_variables(look):
    """A variable that no equation of its item has."""
    for item in look.trait.items:
        used = {look.text.text(number) for span in item.equations for number in range(*span)
                if look.text.text(number - 1) not in (".", ":")}
        for number, _ in item.variables:
            if look.text.text(number) not in used:
                yield number, number, f"the variable `{look.text.text(number)}` isn't used"


def declared_twice(look):
    """A declaration that stands twice."""
    first, numbers = {}, {token.start: number for number, token in enumerate(look.tokens)}
    for operator in look.own:
        key = operator.name, operator.domain, operator.range
        if key in first and operator.start in numbers:
            line, column = look.text.place(first[key])
            number = numbers[operator.start]
            yield number, number, f"`{operator}` is declared twice, first at {line}:{column}"
        first.setdefault(key, operator.start)


def generators_left_out(look):
    """A generator that none of an operator's equations has in a place where they have others."""
    generators = look.scope.generators(look.name)
    own = {(one.name, one.domain, one.range): one for one in look.own}
    for declaration in look.trait.declarations:
        for form in declaration.forms if declaration.range is not None else ():
            domain = tuple(look.text.text(sort) for sort in declaration.domain)
            operator = own.get((form.name, domain, look.text.text(declaration.range)))
            for place, sort in enumerate(domain):
                made = generators.get(sort, [])
                if operator and made and operator not in made:
                    left = left_out(look, operator, place, made)
                    if left:
                        yield form.first, form.last - 1, f"the equations of `{form.name}` leave out {listed(left)}"


def left_out(look, operator, place, made):
    """The names of the generators that stand in no equation of an operator at a place; none where an equation speaks
    of all values there, or of no generator."""
    names, seen = {str(generator): generator.name for generator in made}, set()
    for node, chosen in look.left.get(str(operator), ()):
        pattern = chosen.get(inner(node.arguments[place]).head)
        if pattern not in names:
            return []
        seen.add(pattern)
    if not seen:
        return []
    for node, chosen in look.left_exempted.get(str(operator), ()):
        seen.add(chosen.get(inner(node.arguments[place]).head))
    return [name for shown, name in names.items() if shown not in seen]


def inner(node):
    """A term without what is said of its sort."""
    return inner(node.arguments[0]) if node.name == ":" else node


def tight_equalities(look):
    """`f(x) = p /\\ q`, which is `(f(x) = p) /\\ q`."""
    for _, _, found, _ in look.read:
        node, sign = (found.left, None) if found and not found.right else (None, None)
        while node is not None and node.name in CONNECTIVES:
            node, sign = node.arguments[0], node.name
        if sign and node.name == "=" and not enclosed(look, node) and node.sorts and node.arguments[0].arguments \
                and "Bool" in (node.arguments[0].sorts or ()) and "Bool" in (node.arguments[1].sorts or ()):
            yield node.head, node.head, f"`=` binds tighter than `{sign}`; an equation is written with `==`"


def enclosed(look, node):
    return look.text.text(node.first) == "(" and look.text.closing(node.first) == node.last - 1


def claims_without_script(look):
    """Claims of a trait without a script that has a block, and without a certificate."""
    base = look.name.removesuffix(".lsl")
    script = look.files.get(f"{base}.lp", b"")
    certificates = [name for name in look.files if name.startswith(f"{base}.") and name.endswith(".cert")]
    claims = [part for part in look.trait.parts if part.word in ("implies", "converts")]
    if claims and not certificates and not re.search(rb"(?m)^[ \t]*duty\b", script):
        yield claims[0].first, claims[0].first, f"nothing proves these claims: no block of `{base}.lp`"


RULES = {"lonely-sort": lonely_sorts, "silent-operator": silent_operators, "unused-variable": unused_variables,
         "declared-twice": declared_twice, "generator-left-out": generators_left_out,
         "tight-equality": tight_equalities, "unproved-claims": claims_without_script}
