"""The causes of refusals in items and claims other than those of terms: sorts, variables, clauses, sizes."""
from .cases import Found
from .scope import sorts_of
from .spelling import near_form, nearest
from .wording import counted, listed, meant

MOST_OPEN, MOST_IN_EQUATION, MOST_OPERATORS, MOST_STATEMENTS = 200, 5000, 1000, 1000


def unknown_sort(case):
    name = case.text.text(case.at)
    near = nearest(name, sorts_of(case.operators))
    change = case.probes.change(f"write `{near}`", [case.replace(case.at, near)]) if near else None
    known = sorted(sorts_of(case.operators) - {"Bool"})
    more = () if near or not known else (f"The trait's sorts: {listed(known, 12)}.",)
    return Found(f"no operator has the sort `{name}`" + meant(near), case.at, case.at, change, more)


def variable_twice(case):
    name, item = case.text.text(case.at), case.trait.item_at(case.offset)
    first = next((at for at, _ in item.variables if case.text.text(at) == name), None) if item else None
    if first is None or first == case.at:
        return Found(f"the variable `{name}` stands twice behind one `\\forall`", case.at, case.at)
    line, column = case.text.place(case.tokens[first].start)
    change = case.probes.change("take another name", [case.replace(case.at, name + "2")])
    return Found(f"the variable `{name}` stands twice, first at {line}:{column}", case.at, case.at, change)


def without_comma(case, number):
    """Takes a name of a list out, with the comma before it or behind it."""
    if case.text.text(number - 1) == ",":
        return case.remove(number - 1, number)
    return case.remove(number, number + 1) if case.text.text(number + 1) == "," else case.remove(number)


# Clauses.

def of_clause(case):
    """What a clause names: nothing, several operators, or one that doesn't fit."""
    item = case.trait.item_at(case.offset)
    form = next((form for form in item.forms if form.first <= case.at < form.last), None) if item else None
    if form is None:
        return None
    shown = case.text.between(form.first, form.last)
    named = [operator for operator in case.operators if operator.name == form.name]
    sort = case.text.text(item.sort) if item.sort is not None else ""
    if not named:
        return undeclared(case, form, shown, item, sort)
    if form.signature:
        exact = [operator for operator in named if [list(operator.domain), operator.range] == list(form.signature)]
        if not exact:
            return Found(f"no `{shown}` is declared; there is {listed(map(str, named), 4)}", form.first, form.last - 1)
        named = exact
    if case.code == "CONVERTED":
        return converted(case, form, shown, named)
    return fitting(case, form, shown, item, named, sort)


def fits(code, operator, sort):
    return operator.range == sort if code == "GENERATOR" else sort in operator.domain


def undeclared(case, form, shown, item, sort):
    fit = [operator.name for operator in case.operators if not sort or fits(case.code, operator, sort)]
    same = [operator for operator in case.operators if word_of(operator.name) == word_of(form.name)]
    if form.name in sorts_of(case.operators) and not same:
        return Found(f"`{shown}` is a sort, and operators stand here", form.first, form.last - 1)
    if same and word_of(form.name):
        return Found(f"declared: {listed(map(str, same), 3)}; here `{shown}`", form.first, form.last - 1)
    near = near_form(form.name, fit) or near_form(form.name, [operator.name for operator in case.operators])
    change = case.probes.change(f"write `{near}`", [case.replace(form.first, near, form.last - 1)]) if near else None
    variables = {case.text.text(name) for other in case.trait.items for name, _ in other.variables}
    what = "is a variable, no operator" if form.name in variables and not near else "isn't declared" + meant(near)
    return Found(f"`{shown}` {what}", form.first, form.last - 1, change)


def word_of(name):
    """The word or the symbol of a form, without its places."""
    return name.replace("__", "").strip(" .")


def fitting(case, form, shown, item, named, sort):
    """The operators of a name that fit a clause of generation or partition are none or several."""
    fit = [operator for operator in named if fits(case.code, operator, sort)]
    if len(fit) > 1:
        return several(case, form, shown, fit)
    lonely = lonely_sort(case, named)
    if lonely:
        return lonely
    if case.code == "GENERATOR":
        what = f"makes `{named[0].range}`, not `{sort}`" if len(named) == 1 else f"of no signature makes `{sort}`"
    else:
        what = f"takes no `{sort}`"
    head = f"`{named[0]}`" if len(named) == 1 else f"`{shown}`"
    more = () if len(named) == 1 else (f"Declared: {listed(map(str, named), 12)}.",)
    near = nearest(sort, sorts_of(named) - {"Bool"})
    change = None
    if near:
        change = case.probes.change(f"write `{near}` before `{item.kind}`", [case.replace(item.sort, near)])
    return Found(f"{head} {what}", form.first, form.last - 1, change, more)


def several(case, form, shown, fit):
    """Several operators of one name: each with its signature may be meant."""
    changes = [case.probes.change(f"write `{operator}`", [case.replace(form.first, str(operator), form.last - 1)])
               for operator in fit[:2]]
    return Found(f"{len(fit)} operators are meant by `{shown}`: {listed(map(str, fit), 3)}", form.first, form.last - 1,
                 next(filter(None, changes), None))


def converted(case, form, shown, named):
    before = [other for item in case.trait.items if item.kind == "converts" for other in item.forms
              if other.first < form.first and other.name == form.name]
    if len(named) > 1:
        return several(case, form, shown, named)
    if before:
        line, column = case.text.place(case.tokens[before[-1].first].start)
        change = case.probes.change("take the second one out", [without_comma(case, form.first)])
        return Found(f"`{shown}` is converted already, at {line}:{column}", form.first, form.last - 1, change)
    if named[0].name in ("true", "false"):
        return Found(f"`{shown}` is built in; there is nothing to convert", form.first, form.last - 1)
    return None


def exempt(case):
    """An exempted term without an operator of its clause."""
    items = [item for item in case.trait.items if item.kind == "converts" and item.first <= case.at]
    item, span = case.trait.equation_at(case.offset)
    if not items or span is None:
        return None
    forms = [case.text.between(form.first, form.last) for form in items[-1].forms]
    shown = case.text.between(*span)
    return Found(f"`{shown}` has none of what is converted: {listed(forms, 4)}", span[0], span[1] - 1)


def lonely_sort(case, operators):
    """A sort in the signatures of some operators that stands in one place of the file alone, and is near another."""
    declared, tokens = {operator.start for operator in operators if is_own(case, operator)}, case.tokens
    sorts = sorts_of(case.operators)
    for declaration in case.trait.declarations:
        if not any(tokens[form.first].start in declared for form in declaration.forms) or declaration.range is None:
            continue
        for number in (*declaration.domain, declaration.range):
            name = tokens[number].text
            near = nearest(name, sorts) if sum(token.text == name for token in tokens) == 1 else None
            change = case.probes.change(f"write `{near}`", [case.replace(number, near)]) if near else None
            if change:
                line, column = case.text.place(tokens[number].start)
                return Found(f"sort `{name}` stands only at {line}:{column}" + meant(near), number, number, change)
    return None


def is_own(case, operator):
    return case.trait.name is not None and operator.trait == case.trait.name.text


# Sizes.

def deep(case):
    _, span = case.trait.equation_at(case.offset)
    return Found(f"the {MOST_OPEN + 1}st bracket or `if` is open here", case.at, case.at, more=(
        "An operator of its own for an inner part makes the term flat.",) if span else ())


def size(case):
    """An equation, or all that a trait has, is too large."""
    _, span = case.trait.equation_at(case.offset)
    if span and case.part in ("asserts", "implies", "exempting") and span[0] <= case.at < max(span[1], span[0] + 1):
        return Found(f"this equation has more than {MOST_IN_EQUATION:,} operators and variables", span[0], case.at)
    operators = len(case.operators) - 2
    name = case.text.text(case.at)
    more = (f"Counted lightly it has {counted(operators, 'operator')}.",)
    if case.at == 0:
        what = f"more than {MOST_OPERATORS:,} operators" if operators > MOST_OPERATORS else \
            f"more than {MOST_STATEMENTS:,} statements or duties"
        return Found(f"`{name}` has {what}, with all that it takes over", 0, 0, more=more)
    return Found(f"with `{name}` the trait is too large", case.at, case.at, more=more)
