"""The causes of NO-READING, AMBIGUOUS and MIXED: terms that can't be read, can be read twice, or want parentheses."""
from . import terms
from .cases import Edit, Found
from .items import lonely_sort
from .tokens import CONNECTIVES, EQUALITIES, short
from .undeclared import raw, undeclared
from .wording import counted, either, listed, nth

BINDS = {"^": 9, "**": 9, "*": 8, "/": 8, "+": 7, "-": 7, "++": 7, "/\\": 4, "\\/": 3, "=>": 2, "<=>": 1}

LIKE_BOOL = ("bool", "boolean", "booleans", "bools", "logical")


class Term:
    """The equation where the refusal stands, its variables, and the node that is refused."""

    def __init__(self, case):
        self.case, self.item, self.span = case, *case.trait.equation_at(case.offset)
        self.equation = self.node = self.parent = None
        self.variables = {}
        if self.span is None:
            return
        text = case.text
        self.variables = {text.text(name): text.text(sort) for name, sort in self.item.variables}
        self.readings = terms.Readings(case.operators, self.variables)
        self.equation = terms.equation(text, *self.span)
        for side in self.equation.sides if self.equation else []:
            for node in terms.nodes(side):
                for part in node.arguments:
                    if part.head == case.at and part.name != ":":
                        self.parent, self.node = node, part
                if node.head == case.at and self.node is None:
                    self.node = node

    def shown(self, node):
        return short(self.case.text.between(node.first, node.last))

    def sorts(self, node):
        return self.readings.sorts(node)


def no_reading(case):
    """Why a term can't be read."""
    term = Term(case)
    if term.equation and term.equation.equates == case.at:
        return sides(case, term, term.equation.left, term.equation.right)
    name = term.node.name if term.node else case.text.text(case.at)
    if term.node is not None and term.sorts(term.node):
        return whole(case, term)
    if name in CONNECTIVES or name == "~":
        return neither(case, term)
    if name in EQUALITIES and term.node:
        return sides(case, term, *term.node.arguments)
    if name == "if" and term.node:
        return branches(case, term)
    if name == ":" and term.node:
        part = term.node.arguments[0]
        return Found(f"`{term.shown(part)}` is of sort {either(term.sorts(part))}, not `{term.node.said}`",
                     term.node.first, term.node.last - 1)
    named = [operator for operator in case.operators if operator.name == name]
    if not named:
        return undeclared(case, term, name)
    inside = {part.name for part in term.node.arguments} if term.node else ()
    concerned = [operator for operator in case.operators if operator.name == name or operator.name in inside]
    return lonely_sort(case, concerned) or other_arguments(case, term, name, named)


# Names that are declared for other arguments.

def other_arguments(case, term, name, named):
    """The operators of a name take other arguments."""
    node = term.node
    if node is None:
        return Found(f"no declaration fits: {listed(map(str, named), 3)}", case.at, case.at)
    chained = chain(case, term)
    if chained:
        return chained
    parted = new_line(case, node) or in_brackets(case, term) or further_generator(case, term)
    if parted:
        return parted
    given, fit = len(node.arguments), term.readings.candidates(node)
    head = f"declared: {listed(map(str, named), 3)}"
    if not fit:
        others = " or ".join(sorted({str(len(operator.domain)) for operator in named}))
        here = counted(given, "argument") if given else "none"
        return Found(f"{head}; here {counted(given, 'argument')}", node.first, node.last - 1,
                     more=(f"It takes {others}, and here {'are' if given > 1 else 'is'} {here}.",))
    swapped = swap(case, term, fit)
    if swapped:
        return Found(f"{head}; here {counted(given, 'argument')}, swapped", node.first, node.last - 1, swapped)
    return wrong_argument(case, term, head, fit)


def new_line(case, node):
    """A parenthesis on a line of its own that is read as the arguments of what stands above it."""
    behind = node.head + 1
    if case.text.text(behind) != "(" or not case.text.begins_line(behind) or not node.arguments:
        return None
    change = case.probes.change("put `;` before `(`", [case.insert(";", behind)])
    return Found("missing `;` before `(`?", behind, behind, change) if change else None


def in_brackets(case, term):
    """`has[b, t]` for `has(b, t)`."""
    behind = case.at + 1
    if term.node.arguments or case.text.text(behind) not in ("[", "{"):
        return None
    close = case.text.closing(behind)
    change = case.probes.change("write parentheses", [case.replace(behind, "("), case.replace(close, ")")])
    return Found(f"arguments stand in parentheses: `{term.node.name}(..)`", case.at, close, change) if change else None


def further_generator(case, term):
    """A generator without the comma before it, which is read as an equation."""
    items = [item for item in case.trait.items if item.last == case.at and item.forms]
    if not items or term.span is None or term.span[1] - term.span[0] != 1:
        return None
    change = case.probes.change(f"put `,` before {case.word(case.at)}", [case.insert(",", case.at)])
    return Found(f"missing `,` before {case.word(case.at)}?", case.at, case.at, change) if change else None


def chain(case, term):
    """`x <= y <= z`: the first comparison isn't of a sort that the second takes."""
    node = term.node
    left = node.arguments[0] if len(node.arguments) == 2 and node.arguments else None
    if left is None or len(left.arguments) != 2 or left.last != node.head or "Bool" not in term.sorts(left):
        return None
    if case.text.text(left.first) == "(" and case.text.closing(left.first) == left.last - 1:
        return None
    middle = case.text.between(left.arguments[1].first, left.arguments[1].last)
    edits = [Edit(case.tokens[node.head].start, case.tokens[node.head].start, f"/\\ {middle} ".encode())]
    shown = f"{term.shown(left)} /\\ {middle} {term.case.text.between(node.head, node.last)}"
    change = case.probes.change(f"write `{shown}`", edits)
    return Found(f"a chain goes from the left: `({term.shown(left)}) {case.text.between(node.head, node.last)}`",
                 node.first, node.last - 1, change, (f"`{term.shown(left)}` is of sort `Bool`.",))


def swap(case, term, fit):
    """The change that swaps two neighbouring arguments, where that fits."""
    parts = term.node.arguments
    sorts = [term.sorts(part) for part in parts]
    for place in range(len(parts) - 1):
        turned = [*sorts[:place], sorts[place + 1], sorts[place], *sorts[place + 2:]]
        if any(all(sort in have for sort, have in zip(operator.domain, turned)) for operator in fit):
            one, other = parts[place], parts[place + 1]
            edits = [case.replace(one.first, raw(case, other), one.last - 1),
                     case.replace(other.first, raw(case, one), other.last - 1)]
            return case.probes.change("swap them", edits)
    return None


def wrong_argument(case, term, head, fit):
    """The first argument that doesn't fit the operator that fits best."""
    parts = term.node.arguments
    sorts = [term.sorts(part) for part in parts]

    def unfit(operator):
        return [place for place, sort in enumerate(operator.domain) if sort not in sorts[place]]
    best = min(fit, key=lambda operator: len(unfit(operator)))
    place = unfit(best)[0] if unfit(best) else 0
    if not parts:
        return Found(f"{head}; it doesn't fit here", case.at, case.at)
    which = f"the {nth(place)} argument " if len(parts) > 1 else ""
    return Found(f"{head}; here {which}`{term.shown(parts[place])}` is of sort {either(sorts[place])}",
                 parts[place].first, parts[place].last - 1,
                 more=() if len(fit) == 1 else (f"Declared: {listed(map(str, fit), 12)}.",))


# Built-in symbols.

def sides(case, term, left, right):
    """Two sides without a common sort."""
    for side in (left, right):
        named = [operator for operator in case.operators if operator.name == side.name]
        lonely = lonely_sort(case, named)
        if lonely:
            return lonely
    sign = case.text.text(case.at)
    other = case_of_bool(case, term.sorts(left) | term.sorts(right))
    if other:
        return other
    if sign == "=" and not term.equation.right:
        change = case.probes.change("write `==`", [case.replace(case.at, "==")])
        if change:
            return Found("`=` stands where `==` is meant?", case.at, case.at, change)
    return Found(f"the sides of `{sign}` have different sorts, {either(term.sorts(left))} and "
                 f"{either(term.sorts(right))}", left.first, right.last - 1, more=of_sorts(term, left, right))


def case_of_bool(case, sorts):
    """A sort that is meant for the built-in one, as `Boolean`."""
    sort = next((sort for sort in sorted(sorts) if sort.lower() in LIKE_BOOL and sort != "Bool"), None)
    if sort is None or "Bool" not in sorts:
        return None
    edits = [case.replace(number, "Bool") for number, token in enumerate(case.tokens) if token.text == sort][:100]
    return Found(f"`{sort}` is another sort than the built-in `Bool`", case.at, case.at,
                 case.probes.change("write `Bool`", edits))


def of_sorts(term, *nodes):
    """What sorts some terms are of."""
    return (", ".join(f"`{term.shown(node)}` is of sort {either(term.sorts(node))}" for node in nodes) + ".",)


def neither(case, term):
    """A connective with a part that isn't of sort `Bool`."""
    sign = case.text.text(case.at)
    if term.equation and term.equation.equates is not None:
        change = case.probes.change("write `=`", [case.replace(term.equation.equates, "=")])
        if change:
            return Found(f"`==` binds weaker than `{sign}`; inside a side it is written `=`", term.equation.equates,
                         term.equation.equates, change)
    elif sign in ("=>", "<=>"):
        change = case.probes.change("write `==`", [case.replace(case.at, "==")])
        if change:
            return Found(f"`{sign}` stands where `==` is meant?", case.at, case.at, change)
    for part in term.node.arguments if term.node else []:
        if "Bool" not in term.sorts(part):
            return Found(f"`{sign}` takes `Bool`; `{term.shown(part)}` is of sort {either(term.sorts(part))}",
                         part.first, part.last - 1)
    return None


def branches(case, term):
    condition, one, other = term.node.arguments
    if "Bool" not in term.sorts(condition):
        return Found(f"the condition `{term.shown(condition)}` is of sort {either(term.sorts(condition))}, not `Bool`",
                     condition.first, condition.last - 1)
    return Found(f"the branches of this `if` have different sorts, {either(term.sorts(one))} and "
                 f"{either(term.sorts(other))}", one.first, other.last - 1, more=of_sorts(term, one, other))


def whole(case, term):
    """An equation without `==` that isn't of sort `Bool`."""
    node = term.equation.left
    lonely = lonely_sort(case, [operator for operator in case.operators if operator.name == node.name])
    if lonely:
        return lonely
    if term.item.kind == "exempting":
        return None
    title = f"`{term.shown(node)}` is of sort {either(term.sorts(node))}; without `==` it has to be of sort `Bool`"
    return Found(title, node.first, node.last - 1)


# Readings.

def ambiguous(case):
    """The two readings, and a name at which they differ."""
    term = Term(case)
    both = term.readings.two(term.equation) if term.equation else None
    if not both:
        return None
    one, other = (dict(reading) for reading in both)
    inner = [node for side in term.equation.sides for node in terms.nodes(side)]
    for node in inner:
        if node.head in one and one[node.head] != other.get(node.head):
            first, second = one[node.head], other.get(node.head)
            said = [operator.rpartition(" ")[2] for operator in (first, second)]
            changes = [say_sort(case, node, sort) for sort in said if said[0] != said[1]]
            change = next(filter(None, changes), None)
            more = tuple(f"Read {which}: {listed(dict.fromkeys(reading.values()), 12)}."
                         for which, reading in (("one way", one), ("the other", other)))
            title = f"`{term.shown(node)}` can be `{first}` or `{second}`"
            return Found(title, node.first, node.last - 1, change, more)
    return None


def say_sort(case, node, sort):
    """Says the sort of a term behind it."""
    start, end = case.tokens[node.first].start, case.tokens[node.last - 1].end
    bare = node.head == node.first or case.text.text(node.last - 1) in (")", "]", "}")
    edits = [Edit(end, end, f": {sort}".encode())] if bare else \
        [Edit(start, start, b"("), Edit(end, end, f"): {sort}".encode())]
    return case.probes.change(f"say its sort: `{short(case.text.between(node.first, node.last))}: {sort}`", edits)


# Parentheses.

def mixed(case):
    """Two symbols side by side: parentheses around what binds tighter where one writes it by hand."""
    text = case.text
    _, span = case.trait.equation_at(case.offset)
    read = terms.equation(text, *span) if span else None
    every = [node for side in read.sides for node in terms.nodes(side)] if read else []
    node = next((node for node in every if node.head == case.at), None)
    around = around_term(case, span)
    if around:
        return around
    if node is None or len(node.arguments) != 2:
        return before_symbol(case, span)
    left = node.arguments[0]
    top = node
    for other in every:
        if other.arguments and other.arguments[0] is top and other.name == node.name and other.head > top.head:
            top = other
    ways = [(left.first, case.at)]
    if len(left.arguments) == 2:
        ways.append((left.arguments[1].first, top.last))
        if BINDS.get(text.text(case.at), 0) > BINDS.get(text.text(left.head), 0):
            ways.reverse()
    elif len(left.arguments) == 1:
        ways.insert(0 if left.name == "~" else 1, (left.arguments[0].first, top.last))
    return parenthesized(case, left.head, ways)


def around_term(case, span):
    """`|x|`: a symbol on both sides of a term."""
    text = case.text.text
    for number in range(case.at - 1, (span or (case.at,))[0] - 1, -1):
        if text(number) == text(case.at) and (number == span[0] or text(number - 1) in ("(", ",", "==", "=", "[", "{")):
            return Found(f"no operator is written on both sides of a term: `{case.text.between(number, case.at + 1)}`",
                         number, case.at, more=("An operator with one argument is `f(x)`, or a symbol before or behind "
                                                "it.",))
    return None


def parenthesized(case, before, ways):
    """The first of the ways to put parentheses that the program takes."""
    text = case.text
    title = f"`{text.text(before)}` and `{text.text(case.at)}` side by side want parentheses"
    changes = []
    for first, last in ways:
        start, end = case.tokens[first].start, case.tokens[last - 1].end
        shown = short(text.between(first, last))
        changes.append(case.probes.change(f"write `({shown})`", [Edit(start, start, b"("), Edit(end, end, b")")]))
    change = next((change for change in changes if change and change.proved == "right"), None) \
        or next(filter(None, changes), None)
    return Found(title, before, case.at, change)


def before_symbol(case, span):
    """Where the term can't be read lightly: the symbol before the refused one."""
    for number in range(case.at - 1, (span or (0, 0))[0], -1):
        if case.tokens[number].kind == "symbol":
            return Found(f"`{case.text.text(number)}` and {case.word(case.at)} side by side want parentheses",
                         number, case.at)
    return None
