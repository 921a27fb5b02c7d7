"""The operators and sorts that a trait has by its own words and by the traits that it refers to."""
from .declarations import Operator, file_of, shorthand_operators, trait_of

BUILT_IN = (Operator("true", (), "Bool"), Operator("false", (), "Bool"))


def reached(files, name):
    """The names of the files that a trait reaches by its references, its own first."""
    seen, due = [], [name]
    while due:
        at = due.pop(0)
        if at in files and at not in seen:
            seen.append(at)
            trait = trait_of(files[at])
            due += [file_of(trait.text.text(reference.name)) for reference in trait.references]
    return seen


class Scope:
    """The operators that a trait has, its own and those of the traits that it includes or assumes, and what generates
    its sorts. Traits are worked out once; a way that goes round is left where it comes round."""

    def __init__(self, files):
        self.files, self.known, self.generating = files, {}, {}

    def operators(self, name):
        """Those of the trait of a file, without the built-in ones."""
        if name not in self.files:
            return []
        if name not in self.known:
            self.known[name] = []  # what comes round has nothing to add
            trait, found = trait_of(self.files[name]), {}
            for reference in trait.references:
                if reference.word != "implies":
                    for operator in self.by_reference(trait, reference):
                        found.setdefault((operator.name, operator.domain, operator.range), operator)
            for operator in trait.own_operators():
                found[operator.name, operator.domain, operator.range] = operator
            self.known[name] = list(found.values())
        return self.known[name]

    def generators(self, name):
        """The operators that generate a sort, by the sort, as clauses and shorthands say."""
        if name not in self.files:
            return {}
        if name not in self.generating:
            self.generating[name] = found = {}
            trait = trait_of(self.files[name])
            for reference in trait.references:
                if reference.word != "implies":
                    self.take_generators(found, trait, reference)
            for short in trait.shorthands:
                made = [operator for operator in shorthand_operators(trait, short, "") if operator.name != "succ"]
                sort = trait.text.text(short.sort)
                found[sort] = [operator for operator in made if operator.range == sort
                               and not operator.name.startswith("set_")]
            for item in trait.items:
                if item.kind == "generated" and item.part == "asserts":
                    sort = trait.text.text(item.sort)
                    found[sort] = [operator for form in item.forms for operator in self.operators(name)
                                   if operator.name == form.name and operator.range == sort]
        return self.generating[name]

    def take_generators(self, found, trait, reference):
        """Takes over what generates the sorts of another trait, under the new names."""
        target = file_of(trait.text.text(reference.name))
        new = dict(zip(self.operators(target), self.by_reference(trait, reference)))
        for operators in self.generators(target).values():
            renamed = [new[operator] for operator in operators if operator in new]
            if renamed and len(renamed) == len(operators):
                found[renamed[0].range] = renamed

    def by_reference(self, trait, reference):
        """The operators that come by a reference, under their new names, in the order of the old ones."""
        target = file_of(trait.text.text(reference.name))
        old = self.operators(target)
        if not reference.actuals or target not in self.files:
            return old
        sorts = {sort for operator in old for sort in (*operator.domain, operator.range)}
        replaced, renamed, exact = {}, {}, {}
        formals = iter(trait_of(self.files[target]).formals)
        for actual in reference.actuals:
            form = actual.old or next(formals, None)
            if form is None:
                continue
            if form.signature:
                exact[form.name, tuple(form.signature[0]), form.signature[1]] = actual.new.name
            elif form.name in sorts:
                replaced[form.name] = actual.new.name
            else:
                renamed[form.name] = actual.new.name
        return [Operator(fitted(exact.get((operator.name, operator.domain, operator.range))
                                or renamed.get(operator.name, operator.name), operator),
                         tuple(replaced.get(sort, sort) for sort in operator.domain),
                         replaced.get(operator.range, operator.range), operator.trait, operator.start)
                for operator in old]


def fitted(name, operator):
    """A new name as the operator is called by it: a symbol alone that stands for a prefix stays a prefix."""
    if name.startswith("__ ") and name.endswith(" __") and len(operator.domain) == 1:
        symbol = name[3:-3]
        return f"__ {symbol}" if operator.name.startswith("__") else f"{symbol} __"
    return name


def sorts_of(operators):
    """The sorts that operators have in their signatures, and `Bool`."""
    return {sort for operator in operators for sort in (*operator.domain, operator.range)} | {"Bool"}
