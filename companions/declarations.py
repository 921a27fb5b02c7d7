"""A light reading of a trait: its parts, references, shorthands, declarations, items and claims, and the operators that
it has by its own words. It takes any bytes and never refuses: what it can't make out it passes over."""
import dataclasses
import functools

from .tokens import PART_WORDS, RESERVED, text_of

KINDS_OF_SHORTHANDS = ("enumeration", "tuple", "union")
MARK = "__"


@dataclasses.dataclass(frozen=True)
class Operator:
    """An operator: its name as it is called, its signature, and the trait and the offset where it stands."""
    name: str
    domain: tuple
    range: str
    trait: str = ""
    start: int = 0

    @property
    def signature(self):
        return (", ".join(self.domain) + " -> " if self.domain else "-> ") + self.range

    def __str__(self):
        return f"{self.name}: {self.signature}"


@dataclasses.dataclass
class Form:
    """A form of an operator as it is written: its name, its places `__`, and the numbers of its tokens."""
    name: str
    places: object
    first: int
    last: int
    signature: object = None  # the sorts before `->` and the one behind it, where a signature stands


@dataclasses.dataclass
class Declaration:
    """Forms with a signature; `range` is nothing where the declaration isn't whole."""
    forms: list
    domain: list
    range: object
    first: int
    last: int


@dataclasses.dataclass
class Actual:
    """What stands in a reference's parentheses: a new form, and the old one where it is a replacement."""
    new: Form
    old: object


@dataclasses.dataclass
class Reference:
    """A reference to a trait: the word before it, the number of its name, its actuals, and its tokens."""
    word: str
    name: int
    actuals: list
    first: int
    last: int


@dataclasses.dataclass
class Shorthand:
    """An enumeration, a tuple or a union; its fields are pairs of the numbers of a name and of its sort or nothing."""
    sort: int
    kind: str
    fields: list
    first: int
    last: int


@dataclasses.dataclass
class Item:
    """A clause with its forms, or equations with their variables; pairs of numbers are a name and its sort."""
    kind: str
    part: str
    first: int
    last: int
    sort: object = None
    forms: list = dataclasses.field(default_factory=list)
    variables: list = dataclasses.field(default_factory=list)
    equations: list = dataclasses.field(default_factory=list)


@dataclasses.dataclass
class Part:
    """A word that begins a part, and the tokens behind it."""
    word: str
    first: int
    last: int


class Trait:
    """What one reads in a file."""

    def __init__(self, data):
        self.text = text_of(data)
        self.tokens = self.text.tokens
        self.references, self.shorthands, self.declarations, self.items = [], [], [], []
        self.formals, self.parts = [], []
        self.name = self.text.token(0) if self.tokens and self.tokens[0].kind == "word" else None
        self.head = self.read_head()
        self.read_parts()

    def read_head(self):
        """Takes the formals; the number of the token behind `trait`."""
        number = 1
        if self.text.text(1) == "(":
            end = self.text.closing(1)
            number = 2
            while number < end:
                form, number = self.form(number, end)
                if form is None:
                    break
                self.formals.append(form)
                number += self.text.text(number) == ","
            number = end + 1
        for place in range(number, min(number + 3, len(self.tokens))):
            if self.tokens[place].text == "trait":
                return place + 1
        return min(number, len(self.tokens))

    def read_parts(self):
        starts = [number for number in range(self.head, len(self.tokens)) if self.tokens[number].text in PART_WORDS]
        ends = [*starts[1:], len(self.tokens)]
        self.read_shorthands(self.head, starts[0] if starts else len(self.tokens))
        readers = {"includes": self.read_references, "assumes": self.read_references,
                   "introduces": self.read_declarations, "implies": self.read_implied, "converts": self.read_converts,
                   "asserts": self.read_items, "exempting": self.read_exempted}
        for start, end in zip(starts, ends):
            word = self.tokens[start].text
            self.parts.append(Part(word, start, end))
            readers[word](word, start + 1, end)

    def form(self, number, end):
        """The form at a token, and the number behind it; nothing where none stands there."""
        text, tokens, start = self.text.text, self.tokens, number
        if number >= end:
            return None, number
        token, front = tokens[number], ""
        if token.kind == "word" and token.text not in RESERVED:
            return Form(token.text, None, start, start + 1), number + 1
        if token.kind == "marker":
            front, number = "__", number + 1
        if number >= end:
            return None, start
        token = tokens[number]
        if token.text == "." and number + 1 < end and tokens[number + 1].kind == "word":
            return Form(f"__.{tokens[number + 1].text}", 1, start, number + 2), number + 2
        if token.text in ("[", "{"):
            close, marks, number = "]" if token.text == "[" else "}", 0, number + 1
            while number < end and text(number) in ("__", ","):
                marks += text(number) == "__"
                number += 1
            if text(number) != close:
                return None, start
            name = front + token.text + ", ".join(["__"] * marks) + close
            return Form(name, marks + (1 if front else 0), start, number + 1), number + 1
        if token.kind not in ("symbol", "backslash"):
            return None, start
        behind = number + 1 < end and tokens[number + 1].kind == "marker"
        places = (1 if front else 0) + (1 if behind else 0)
        number += 2 if behind else 1
        if not places:
            return Form(f"__ {token.text} __", 2, start, number), number
        return Form(" ".join([*(["__"] if front else []), token.text, *(["__"] if behind else [])]), places,
                    start, number), number

    def signature(self, number, end):
        """The sorts of a signature's domain and its range as tokens' numbers, and the number behind them."""
        domain = []
        while number < end and self.tokens[number].kind == "word" and self.tokens[number].text not in RESERVED:
            domain.append(number)
            number += 1
            if self.text.text(number) != "," or number + 1 >= end:
                break
            number += 1
        if number < end and self.text.text(number) == "->":
            if number + 1 < end and self.tokens[number + 1].is_name:
                return domain, number + 1, number + 2
            return domain, None, number + 1
        return domain, None, number

    def operator_reference(self, number, end):
        """A form that may have a signature, and the number behind it."""
        form, behind = self.form(number, end)
        if form is None:
            return None, number
        if self.text.text(behind) == ":" and behind < end:
            domain, result, later = self.signature(behind + 1, end)
            if result is not None:
                form.signature = [self.text.text(sort) for sort in domain], self.text.text(result)
                form.last = behind = later
        return form, behind

    def forms_between_commas(self, number, end):
        forms = []
        while number < end:
            form, behind = self.operator_reference(number, end)
            if form is None:
                break
            forms.append(form)
            number = behind
            if self.text.text(number) != ",":
                break
            number += 1
        return forms, number

    def read_declarations(self, _, number, end):
        while number < end:
            start, forms = number, []
            while number < end:
                form, behind = self.form(number, end)
                if form is None:
                    break
                forms.append(form)
                number = behind
                if self.text.text(number) != "," or number >= end:
                    break
                number += 1
            domain, result = [], None
            if forms and number < end and self.text.text(number) == ":":
                domain, result, number = self.signature(number + 1, end)
            if result is None:
                number = self.next_line(max(number, start + 1), end)
            self.declarations.append(Declaration(forms, domain, result, start, number))

    def next_line(self, number, end):
        while number < end and not self.text.begins_line(number):
            number += 1
        return number

    def read_references(self, word, number, end):
        number = self.references_from(word, number, end)
        self.read_shorthands(number, end)

    def references_from(self, word, number, end):
        while number < end and self.tokens[number].is_name:
            if self.text.text(number + 1) in KINDS_OF_SHORTHANDS and number + 1 < end:
                break
            start, name, actuals, number = number, number, [], number + 1
            if number < end and self.text.text(number) == "(":
                close = self.text.closing(number, end)
                close += self.text.text(close) != ")"
                actuals, number = self.actuals(number + 1, close), close + 1
            self.references.append(Reference(word, name, actuals, start, number))
            if self.text.text(number) != "," or number >= end:
                break
            number += 1
        return number

    def actuals(self, number, end):
        found = []
        while number < end:
            new, behind = self.form(number, end)
            if new is None:
                break
            old, number = None, behind
            if self.text.text(number) == "for" and number < end:
                old, behind = self.operator_reference(number + 1, end)
                if old is None:
                    break
                number = behind
            found.append(Actual(new, old))
            if self.text.text(number) != ",":
                break
            number += 1
        return found

    def read_shorthands(self, number, end):
        while number + 2 < end:
            if not self.tokens[number].is_name or self.text.text(number + 1) not in KINDS_OF_SHORTHANDS:
                number += 1
                continue
            start, kind = number, self.text.text(number + 1)
            fields, number = self.fields(kind, number + (3 if self.text.text(number + 2) == "of" else 2), end)
            self.shorthands.append(Shorthand(start, kind, fields, start, number))

    def fields(self, kind, number, end):
        found, names = [], []
        while number < end and self.tokens[number].is_name:
            names.append(number)
            number += 1
            if kind != "enumeration" and number + 1 < end and self.text.text(number) == ":":
                found += [(name, number + 1) for name in names]
                names, number = [], number + 2
            if number >= end or self.text.text(number) != ",":
                break
            number += 1
        return (found if kind != "enumeration" else [(name, None) for name in names]), number

    def begins_clause(self, number, end):
        return number + 1 < end and self.tokens[number].kind == "word" \
            and self.text.text(number + 1) in ("generated", "partitioned")

    def read_implied(self, word, number, end):
        if number < end and self.tokens[number].is_name and not self.begins_clause(number, end):
            behind = number + 1
            if self.text.text(behind) == "(" and behind < end:
                behind = self.text.closing(behind, end) + 1
            after = self.text.token(behind)
            if behind >= end or after.kind == "word" or after.text in (",", "\\forall"):
                number = self.references_from(word, number, end)
        self.read_items(word, number, end)

    def read_items(self, word, number, end):
        while number < end:
            if self.begins_clause(number, end):
                start, kind = number, self.text.text(number + 1)
                number += 2
                while number < end and self.tokens[number].text in ("by", "freely"):
                    number += 1
                forms, number = self.forms_between_commas(number, end)
                number += number < end and self.text.text(number) == ";"
                self.items.append(Item(kind, word, start, number, start, forms))
            else:
                number = self.read_equations(word, number, end)

    def groups(self, number, end):
        """The variables behind `\\forall`, and the number behind them."""
        variables, names = [], []
        while number < end and self.tokens[number].is_name:
            names.append(number)
            number += 1
            if number + 1 < end and self.text.text(number) == ":" and self.tokens[number + 1].kind == "word":
                variables += [(name, number + 1) for name in names]
                names, number = [], number + 2
                if number >= end or self.text.text(number) != ",":
                    break
            elif number >= end or self.text.text(number) != ",":
                break
            number += 1
        return variables, number

    def read_equations(self, word, number, end):
        start, variables, equations = number, [], []
        if self.text.text(number) == "\\forall":
            variables, number = self.groups(number + 1, end)
        begin = number
        while number < end and self.text.text(number) != "\\forall" and not self.begins_clause(number, end):
            if self.text.text(number) == ";":
                equations.append((begin, number))
                begin = number + 1
            number += 1
        equations.append((begin, number))
        equations = [(first, last) for first, last in equations if first < last]
        number = max(number, start + 1)
        self.items.append(Item("equations", word, start, number, None, [], variables, equations))
        return number

    def read_converts(self, word, number, end):
        forms, behind = self.forms_between_commas(number, end)
        self.items.append(Item("converts", word, number, behind, None, forms))

    def read_exempted(self, word, number, end):
        start, variables = number, []
        if number < end and self.text.text(number) == "\\forall":
            variables, number = self.groups(number + 1, end)
        terms, begin, depth = [], number, 0
        for place in range(number, end):
            text = self.tokens[place].text
            depth += (text in ("(", "[", "{")) - (text in (")", "]", "}"))
            if text == "," and depth == 0:
                terms.append((begin, place))
                begin = place + 1
        terms.append((begin, end))
        self.items.append(Item("exempting", word, start, end, None, [], variables, terms))

    def part_at(self, offset):
        """The part that an offset stands in or behind, or nothing."""
        for part in reversed(self.parts):
            if self.tokens[part.first].start <= offset:
                return part
        return None

    def item_at(self, offset):
        """The item that an offset stands in or directly behind, or nothing."""
        behind = None
        for item in self.items:
            if item.first < item.last and self.tokens[item.first].start <= offset:
                behind = item
        return behind

    def equation_at(self, offset):
        """The item and the equation, as numbers of tokens, that an offset stands in or directly behind."""
        item, found = self.item_at(offset), None
        for first, last in item.equations if item else []:
            if self.tokens[first].start <= offset:
                found = first, last
        return item, found

    def own_operators(self):
        """The operators that the trait's shorthands and declarations give it, with the offsets where they stand."""
        trait, text = self.name.text if self.name else "", self.text.text
        found = []
        for short in self.shorthands:
            found += shorthand_operators(self, short, trait)
        for declaration in self.declarations:
            if declaration.range is not None:
                domain = tuple(text(sort) for sort in declaration.domain)
                found += [Operator(form.name, domain, text(declaration.range), trait, self.tokens[form.first].start)
                          for form in declaration.forms]
        return found


def shorthand_operators(trait, short, origin):
    """The operators that a shorthand stands for."""
    text, sort = trait.text.text, trait.text.text(short.sort)
    pairs = [(text(name), text(part) if part is not None else "", trait.tokens[name].start)
             for name, part in short.fields]
    start = trait.tokens[short.sort].start
    if short.kind == "enumeration":
        return [Operator(name, (), sort, origin, place) for name, _, place in pairs] \
            + [Operator("succ", (sort,), sort, origin, start)]
    if short.kind == "tuple":
        name = "[" + ", ".join(["__"] * len(pairs)) + "]"
        return [Operator(name, tuple(part for _, part, _ in pairs), sort, origin, start)] \
            + [Operator(f"__.{field}", (sort,), part, origin, place) for field, part, place in pairs] \
            + [Operator(f"set_{field}", (sort, part), sort, origin, place) for field, part, place in pairs]
    tag = f"{sort}_tag"
    return [Operator(field, (part,), sort, origin, place) for field, part, place in pairs] \
        + [Operator(f"__.{field}", (sort,), part, origin, place) for field, part, place in pairs] \
        + [Operator(field, (), tag, origin, place) for field, _, place in pairs] \
        + [Operator("tag", (sort,), tag, origin, start)]


@functools.lru_cache(512)
def trait_of(data):
    """The light reading of a file, made once."""
    return Trait(data)


def file_of(name):
    return f"{name}.lsl"
