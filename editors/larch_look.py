"""What stands at a place of a trait, by the light reading of `companions`: names with their kinds and signatures, where
they are declared, what may be written there, and what a new name changes. It never refuses a text."""
import bisect
import re

from companions.declarations import file_of, trait_of
from companions.hints import Look
from companions.scope import BUILT_IN, Scope, sorts_of
from companions.tokens import FIXED, PART_WORDS, RESERVED, text_of

KINDS = ("namespace", "type", "function", "variable", "property")
WORD = re.compile(r"[A-Za-z0-9](?:[A-Za-z0-9']|_(?=[A-Za-z0-9]))*")
SYMBOL = re.compile(r"\\[A-Za-z]+|[!#$&*+<>=?@^|~/-]+")
REFERRING = ("includes", "assumes")


class Named:
    """A trait with the kind of each name in it: of a token's number its kind, and of a variable the item too."""

    def __init__(self, files, name):
        self.files, self.name, self.trait = files, name, trait_of(files[name])
        self.text, self.tokens = self.trait.text, self.trait.tokens
        self.operators = [*Scope(files).operators(name), *BUILT_IN]
        self.own = self.trait.own_operators()
        self.sorts = sorts_of([*self.operators, *self.own])
        self.words = {word for operator in self.operators for word in operator.name.split()}
        self.kinds, self.items = {}, {}
        self.of_head()
        for item in self.trait.items:
            self.of_item(item)

    def of_head(self):
        """The names outside equations and clauses."""
        trait = self.trait
        if trait.name:
            self.kinds[0] = "namespace"
        for form in trait.formals:
            self.of_form(form)
        for short in trait.shorthands:
            self.kinds[short.sort] = "type"
            for name, sort in short.fields:
                self.kinds[name] = "property" if short.kind == "tuple" else "function"
                if sort is not None:
                    self.kinds[sort] = "type"
        for declaration in trait.declarations:
            for form in declaration.forms:
                self.of_form(form, declares=True)
            for sort in (*declaration.domain, declaration.range):
                if sort is not None:
                    self.kinds[sort] = "type"
        for reference in trait.references:
            self.kinds[reference.name] = "namespace"
            for actual in reference.actuals:
                self.of_form(actual.new)

    def of_form(self, form, declares=False):
        """The tokens of an operator or, where one isn't declared, of a sort."""
        behind = False
        for number in range(form.first, form.last):
            token = self.tokens[number]
            behind |= token.text == ":"
            if token.is_name:
                after_dot = number > form.first and self.text.text(number - 1) == "."
                sort = behind or (not declares and token.text in self.sorts)
                self.kinds[number] = "property" if after_dot else "type" if sort else "function"
            elif token.is_symbol:
                self.kinds[number] = "function"

    def of_item(self, item):
        """The names of a clause, or of equations with their variables."""
        if item.sort is not None:
            self.kinds[item.sort] = "type"
        for form in item.forms:
            self.of_form(form, declares=True)
        variables = {self.text.text(name) for name, _ in item.variables}
        for name, sort in item.variables:
            self.kinds[name], self.kinds[sort], self.items[name] = "variable", "type", item
        for first, last in item.equations:
            for number in range(first, last):
                self.of_token(number, item, variables)

    def of_token(self, number, item, variables):
        token, before = self.tokens[number], self.text.text(number - 1)
        if token.is_name and before == ".":
            self.kinds[number] = "property"
        elif token.is_name and before == ":":
            self.kinds[number] = "type"
        elif token.is_name and token.text in variables:
            self.kinds[number], self.items[number] = "variable", item
        elif token.is_name or token.is_symbol:
            if token.text in self.words:
                self.kinds[number] = "function"

    # What stands at a place.

    def at(self, offset):
        """The number of the name that an offset stands in or right behind, or nothing."""
        last = bisect.bisect_right(self.text.starts, offset) - 1
        for number in (last, last - 1):
            if number in self.kinds and self.tokens[number].start <= offset <= self.tokens[number].end:
                return number
        return None

    def named(self, number):
        """The operators that a name may stand for; the one of the reading where the equation has one."""
        token, kind = self.tokens[number], self.kinds[number]
        wanted = f"__.{token.text}" if kind == "property" else None
        fit = [operator for operator in self.operators
               if (operator.name == wanted if wanted else token.text in operator.name.split())]
        read = self.read_as(number) if len(fit) > 1 else None
        return [operator for operator in fit if str(operator) == read] or fit

    def read_as(self, number):
        """The signature of the operator at a token by the reading of its equation, or nothing."""
        item, span = self.trait.equation_at(self.tokens[number].start)
        if item is None or span is None or not span[0] <= number < span[1]:
            return None
        return str(Look(self.files, self.name).equation(item, span)[1].get(number))

    def variable(self, number):
        """The tokens of a variable's name and of its sort, where it is bound."""
        word, item = self.tokens[number].text, self.items[number]
        return next((name, sort) for name, sort in item.variables if self.text.text(name) == word)

    def hover(self, number):
        """What is said of a name, as Markdown."""
        word, kind = self.tokens[number].text, self.kinds[number]
        if kind == "variable":
            return f"```lsl\n{word}: {self.text.text(self.variable(number)[1])}\n```\nvariable"
        if kind == "namespace":
            known = self.files.get(file_of(word))
            return None if known is None else f"```lsl\n{head_of(known)}\n```\ntrait"
        if kind == "type":
            return self.of_sort(word)
        fit = self.named(number)
        lines = "\n".join(map(str, fit))
        origins = sorted({operator.trait for operator in fit} - {"", self.name.removesuffix(".lsl")})
        return f"```lsl\n{lines}\n```" + (f"\ndeclared in {', '.join(origins)}" if origins else "") if fit else None

    def of_sort(self, sort):
        made = Scope(self.files).generators(self.name).get(sort)
        lines = [f"sort {sort}"] + ([f"generated by {', '.join(operator.name for operator in made)}"] if made else [])
        count = sum(sort in (*operator.domain, operator.range) for operator in self.operators)
        return f"```lsl\n{chr(10).join(lines)}\n```\nin {count} signatures"

    def definitions(self, number):
        """Where a name is declared: files with the offsets of a token."""
        word, kind = self.tokens[number].text, self.kinds[number]
        if kind == "variable":
            token = self.tokens[self.variable(number)[0]]
            return [(self.name, token.start, token.end)]
        if kind == "namespace":
            return [(file_of(word), 0, 0)] if number else []
        if kind == "type":
            return self.sort_places(word)
        places = {(file_of(operator.trait), operator.start) for operator in self.named(number) if operator.trait}
        return [(name, start, self.end_of(name, start)) for name, start in sorted(places) if name in self.files]

    def sort_places(self, sort):
        """Where a sort stands first: in a formal, a shorthand, or a signature; else in the trait that it comes from."""
        found = [number for number, kind in self.kinds.items() if kind == "type" and self.text.text(number) == sort]
        head = [number for number in sorted(found) if self.declares(number)]
        if head:
            return [(self.name, self.tokens[head[0]].start, self.tokens[head[0]].end)]
        first = next((operator for operator in self.operators if operator.trait
                      and sort in (*operator.domain, operator.range) and file_of(operator.trait) in self.files), None)
        return [(file_of(first.trait), first.start, self.end_of(file_of(first.trait), first.start))] if first else []

    def declares(self, number):
        """Whether a sort stands there as one of a declaration, a shorthand, a formal or a new name of a reference."""
        trait = self.trait
        return any(one.first <= number < one.last for one in (*trait.declarations, *trait.shorthands, *trait.formals,
                                                              *trait.references))

    def end_of(self, name, start):
        text = text_of(self.files[name])
        number = text.index(start)
        return text.tokens[number].end if number < len(text.tokens) else start

    # What may be written.

    def candidates(self, offset):
        """What may be written at a place: words with their kind and what is said of them."""
        part = self.trait.part_at(offset)
        item = self.trait.item_at(offset) if part and part.word in ("asserts", "implies", "exempting") else None
        found = [(word, "keyword", "") for word in sorted(RESERVED)]
        if part is None or part.word in (*REFERRING, "implies"):
            found += [(name[:-4], "namespace", "trait") for name in sorted(self.files) if name != self.name]
        found += [(sort, "type", "sort") for sort in sorted(self.sorts)]
        if part and part.word not in REFERRING:
            found += [(word, "property" if operator.name.startswith("__.") else "function", str(operator))
                      for operator in self.operators for word in typed(operator.name)]
        for name, sort in item.variables if item else ():
            found.append((self.text.text(name), "variable", f"{self.text.text(name)}: {self.text.text(sort)}"))
        return list(dict.fromkeys(found))

    # Uses, and renaming.

    def uses(self, number):
        """The tokens of this trait that mean the same as one of them."""
        word, kind = self.tokens[number].text, self.kinds[number]
        family = {"function", "property"} if kind in ("function", "property") else {kind}
        return [other for other, its in sorted(self.kinds.items()) if its in family and self.tokens[other].text == word
                and (kind != "variable" or self.items[other] is self.items[number])]

    def uses_elsewhere(self, number):
        """The tokens of the folder's other traits that mean the same operator; names that were replaced are none."""
        word, found = self.tokens[number].text, []
        if self.kinds[number] not in ("function", "property"):
            return found
        origins = {(operator.trait, operator.start) for operator in self.named(number)}
        for name in sorted(self.files):
            if name != self.name and word.encode() in self.files[name]:
                other = Named(self.files, name)
                found += [(name, token) for at, token in enumerate(other.tokens) if token.text == word
                          and other.kinds.get(at) in ("function", "property")
                          and origins & {(operator.trait, operator.start) for operator in other.named(at)}]
        return found

    def renamed(self, number, new):
        """The numbers of the tokens that a new name changes; or a text that says why none is."""
        token, kind = self.tokens[number], self.kinds[number]
        if kind == "namespace":
            return "a trait is named like its file, which isn't renamed here"
        if token.text in ("true", "false", "Bool"):
            return f"`{token.text}` is built in"
        if not (WORD if token.kind == "word" else SYMBOL).fullmatch(new) or new in RESERVED | FIXED:
            return f"`{new}` can't stand in the place of `{token.text}`"
        if any(other.text == new for other in self.tokens):
            return f"`{new}` stands in the trait already"
        if kind != "variable" and not self.is_own(number):
            return f"`{token.text}` comes from another trait; rename it there, or in the reference"
        return self.uses(number)

    def is_own(self, number):
        """Whether all that has this name is declared in this trait."""
        word, here = self.tokens[number].text, self.name[:-4]
        if self.kinds[number] == "type":
            return not any(word in (*operator.domain, operator.range) and operator.trait != here
                           for operator in self.operators) and bool(self.sort_places(word))
        fit = self.named(number)
        return bool(fit) and all(operator.trait == here and not operator.name.startswith("set_") for operator in fit)


def typed(name):
    """The words or symbols of an operator's name that one types."""
    return [piece for piece in re.split(r"[\s,]+", name.replace("__.", "")) if piece.strip("_[]{}.") == piece and piece]


def head_of(data):
    """The first words of a trait, up to its first part."""
    text = text_of(data)
    end = next((number for number, token in enumerate(text.tokens) if token.text in PART_WORDS), len(text.tokens))
    return text.between(0, min(end, 12))
