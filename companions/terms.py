"""A light reading of equations: terms as trees, the sorts that each may have, and readings that differ. What isn't a
term gives nothing."""
import dataclasses
import itertools

from .tokens import CONNECTIVES, EQUALITIES, RESERVED

MOST_NODES, MOST_DEPTH, MOST_OPEN = 2000, 100, 50
BOOL = frozenset(["Bool"])


@dataclasses.dataclass
class Node:
    """A term: the name of its operator, the number of its head token, its arguments, the numbers of its first token and
    of the one behind it, and the sort that is said of it. Names of their own are `if`, `=`, `~`, `/\\` and `:`."""
    name: str
    head: int
    arguments: list
    first: int
    last: int
    said: object = None
    sorts: object = None
    depth: int = 0


class NoTerm(Exception):
    """What stands there isn't a term."""


class Reader:
    """Reads terms from some tokens. Different symbols of one level, which the program refuses, go from the left."""

    def __init__(self, text, first, last):
        self.text, self.at, self.last, self.open, self.nodes = text, first, last, 0, 0

    def peek(self, more=0):
        return self.text.text(self.at + more) if self.at + more < self.last else ""

    def token(self):
        return self.text.tokens[self.at] if self.at < self.last else None

    def take(self, wanted):
        if self.peek() != wanted:
            raise NoTerm(self.at)
        self.at += 1

    def node(self, name, head, arguments, first):
        self.nodes += 1
        depth = 1 + max((part.depth for part in arguments), default=0)
        if self.nodes > MOST_NODES or depth > MOST_DEPTH:
            raise NoTerm(self.at)
        return Node(name, head, arguments, first, self.at, depth=depth)

    def condition(self):
        self.open += 1
        if self.open > MOST_OPEN:
            raise NoTerm(self.at)
        start = self.at
        if self.peek() == "if":
            self.at += 1
            parts = [self.condition()]
            for word in ("then", "else"):
                self.take(word)
                parts.append(self.condition())
            found = self.node("if", start, parts, start)
        else:
            found = self.chain(CONNECTIVES, lambda: self.chain(EQUALITIES, self.operand))
        self.open -= 1
        return found

    def chain(self, signs, part):
        start, left = self.at, part()
        while self.peek() in signs:
            head = self.at
            self.at += 1
            right = part()
            left = self.node(self.text.text(head), head, [left, right], start)
        return left

    def is_symbol(self, more=0):
        place = self.at + more
        return place < self.last and (self.text.tokens[place].is_symbol or self.text.tokens[place].text == "~")

    def begins_post(self, more=0):
        place = self.at + more
        return place < self.last and (self.text.tokens[place].is_name or self.peek(more) in ("(", "[", "{"))

    def operand(self):
        start, prefixes = self.at, []
        while self.is_symbol():
            prefixes.append(self.at)
            self.at += 1
        left = self.post()
        while prefixes:
            head = prefixes.pop()
            sign = self.text.text(head)
            left = self.node("~" if sign == "~" else f"{sign} __", head, [left], head)
        while self.is_symbol() and self.peek() != "~":
            head, signs = self.at, 1
            while self.is_symbol(signs):
                signs += 1
            if signs == 1 and self.begins_post(1):
                self.at += 1
                right = self.post()
                left = self.node(f"__ {self.text.text(head)} __", head, [left, right], start)
            elif self.begins_post(signs):
                raise NoTerm(head)  # an infix symbol and a prefix behind it
            else:
                for place in range(head, head + signs):
                    self.at += 1
                    left = self.node(f"__ {self.text.text(place)}", place, [left], start)
        return left

    def listed(self, close):
        """Terms between commas up to a closing bracket, whose opening one is taken."""
        terms = []
        while self.peek() != close:
            terms.append(self.condition())
            if self.peek() != ",":
                break
            self.at += 1
        self.take(close)
        return terms

    def post(self):
        start, token = self.at, self.token()
        if token is None:
            raise NoTerm(self.at)
        if token.text == "(":
            self.at += 1
            left = self.condition()
            self.take(")")
            left = dataclasses.replace(left, first=start, last=self.at)
        elif token.text in ("[", "{"):
            left = self.bracket("", [], start)
        elif token.kind == "word" and token.text not in RESERVED:
            self.at += 1
            arguments = []
            if self.peek() == "(":
                self.at += 1
                arguments = self.listed(")")
            left = self.node(token.text, start, arguments, start)
        else:
            raise NoTerm(self.at)
        while self.peek() in (".", "[", "{"):
            if self.peek() == ".":
                head = self.at
                self.at += 2
                if self.at > self.last:
                    raise NoTerm(head)
                left = self.node(f"__.{self.text.text(head + 1)}", head, [left], start)
            else:
                left = self.bracket("__", [left], start)
        if self.peek() == ":" and self.at + 1 < self.last:
            head = self.at
            self.at += 2
            left = self.node(":", head, [left], start)
            left.said = self.text.text(head + 1)
        return left

    def bracket(self, front, before, start):
        head, opening = self.at, self.peek()
        close = "]" if opening == "[" else "}"
        self.at += 1
        terms = self.listed(close)
        name = front + opening + ", ".join(["__"] * len(terms)) + close
        return self.node(name, head, before + terms, start)


@dataclasses.dataclass
class Equation:
    """The sides of an equation, or one formula; and the number of its `==` or nothing."""
    left: Node
    right: object
    equates: object

    @property
    def sides(self):
        return [self.left] + ([self.right] if self.right else [])


def equation(text, first, last):
    """The equation of some tokens, or nothing."""
    reader = Reader(text, first, last)
    try:
        left, right, equates = reader.condition(), None, None
        if reader.peek() == "==":
            equates = reader.at
            reader.at += 1
            right = reader.condition()
    except NoTerm:
        return None
    return Equation(left, right, equates) if reader.at == last else None


def nodes(node):
    """The node's parts and then the node, inner ones first and from the left."""
    for part in node.arguments:
        yield from nodes(part)
    yield node


class Readings:
    """What terms may be, by the operators of a trait and the variables of an item, each with its sort."""

    def __init__(self, operators, variables):
        self.variables, self.by_name = variables, {}
        for operator in operators:
            self.by_name.setdefault(operator.name, []).append(operator)

    def candidates(self, node):
        """The operators of a node's name that take as many arguments as it has."""
        return [operator for operator in self.by_name.get(node.name, ()) if len(operator.domain) == len(node.arguments)]

    def sorts(self, node):
        """The sorts that a term may have; none where it can't be read."""
        if node.sorts is None:
            node.sorts = self.worked_out(node, [self.sorts(part) for part in node.arguments])
        return node.sorts

    def worked_out(self, node, parts):
        if node.name == ":":
            return parts[0] & {node.said}
        if node.name == "if":
            return (parts[1] & parts[2]) if "Bool" in parts[0] else frozenset()
        if node.name in EQUALITIES:
            return BOOL if parts[0] & parts[1] else frozenset()
        if node.name == "~" or node.name in CONNECTIVES:
            return BOOL if all("Bool" in part for part in parts) else frozenset()
        found = {operator.range for operator in self.candidates(node)
                 if all(sort in part for sort, part in zip(operator.domain, parts))}
        if not node.arguments and node.name in self.variables:
            found.add(self.variables[node.name])
        return frozenset(found)

    def read(self, node, sort):
        """The readings of a term with a sort: each a tuple of pairs of a head and the operator that stands there."""
        if sort not in self.sorts(node):
            return
        if node.name == ":":
            yield from self.read(node.arguments[0], sort)
        elif node.name == "if":
            yield from self.together(node.arguments, ("Bool", sort, sort))
        elif node.name in EQUALITIES:
            for both in sorted(self.sorts(node.arguments[0]) & self.sorts(node.arguments[1])):
                yield from self.together(node.arguments, (both, both))
        elif node.name == "~" or node.name in CONNECTIVES:
            yield from self.together(node.arguments, ("Bool",) * len(node.arguments))
        else:
            if not node.arguments and self.variables.get(node.name) == sort:
                yield ((node.head, f"the variable {node.name}: {sort}"),)
            for operator in self.candidates(node):
                if operator.range == sort:
                    for rest in self.together(node.arguments, operator.domain):
                        yield ((node.head, str(operator)), *rest)

    def together(self, parts, sorts):
        """The readings of several terms, each with its sort."""
        if not parts:
            yield ()
            return
        for first in self.read(parts[0], sorts[0]):
            for rest in self.together(parts[1:], sorts[1:]):
                yield first + rest

    def of_equation(self, found):
        """The readings of an equation."""
        sorts = self.sorts(found.left) & self.sorts(found.right) if found.right else ["Bool"]
        for sort in sorted(sorts):
            yield from self.together(found.sides, (sort,) * len(found.sides))

    def two(self, found):
        """Two readings of an equation, or nothing."""
        first = list(itertools.islice(self.of_equation(found), 2))
        return first if len(first) == 2 else None
