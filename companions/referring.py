"""The causes of refusals of a trait's name, its references, shorthands and declarations."""
from .cases import Edit, Found
from .declarations import file_of, trait_of
from .program import refusals
from .scope import reached, sorts_of
from .spelling import near_form, nearest
from .tokens import FIXED, short
from .wording import counted, listed, meant

# Traits of the books, which don't come with the program.
HANDBOOK = frozenset(
    "Integer Natural Rational FloatingPoint Boolean Set Bag List String Queue Stack Deque Sequence Array Array1 Array2 "
    "Table Relation RelationOps TotalOrder PartialOrder PreOrder Container InsertGenerated Enumeration Finite Addition "
    "Semigroup Monoid Group Ring Field AC AbelianGroup Commutative Associative Idempotent Equivalence Equality "
    "DecimalLiterals Exponentiation IntCycle MinMax Positive Natural Graph Tree FiniteMap Lattice Pair Triple".split())


def name_of(file):
    return file.removesuffix(".lsl")


def reference_at(case):
    """The reference where the refusal stands, or nothing."""
    for reference in case.trait.references:
        if reference.first <= case.at < max(reference.last, reference.first + 1):
            return reference
    return None


# The trait's name.

def trait_name(case):
    file, name = name_of(case.name), case.text.text(0)
    return Found(f"the trait is `{name}`, and the file `{case.name}`", 0, 0,
                 change=case.probes.change(f"name the trait `{file}`, or the file `{name}.lsl`",
                                           [case.replace(0, file)]))


# References.

def unknown_trait(case):
    name = case.text.text(case.at)
    found = no_reference(case, name)
    if found:
        return found
    others = [name_of(file) for file in case.files if file.endswith(".lsl") and file != case.name]
    near = nearest(name, others)
    case.probes.take(file_of(near or ""))
    change = case.probes.change(f"write `{near}`", [case.replace(case.at, near)]) if near else None
    more = ()
    if near is None and name in HANDBOOK:
        more = ("The traits of the LSL handbook don't come with the program: write the ones that you need.",)
    return Found(f"there is no file `{file_of(name)}`" + meant(near), case.at, case.at, change, more)


def no_reference(case, name):
    """An equation that is read as a reference, since it stands behind `implies` and no symbol follows it."""
    reference = reference_at(case)
    if reference is None or reference.word != "implies" or all(one.name != name for one in case.operators):
        return None
    start, end = case.tokens[reference.first].start, case.tokens[reference.last - 1].end
    shown = case.text.between(reference.first, reference.last)
    change = case.probes.change(f"write `({shown})`", [Edit(start, start, b"("), Edit(end, end, b")")])
    return Found(f"`{short(shown)}` is read as a reference to a trait; in parentheses it is an equation",
                 reference.first, reference.last - 1, change)


def cycle(case):
    """The shortest way from the trait back to itself that begins with the reference."""
    start = file_of(case.text.text(case.at))
    if start == case.name:
        return Found(f"`{name_of(start)}` refers to itself", case.at, case.at)
    ways, seen = [[case.name, start]], set()
    while ways:
        way = ways.pop(0)
        if way[-1] == case.name:
            shown = [name_of(file) for file in way]
            round_ = " -> ".join(shown if len(shown) < 12 else [*shown[:5], "..", *shown[-5:]])
            return Found(f"the references go round: {round_}" if len(round_) < 60 else
                         f"the references go round, over {len(way) - 1} traits", case.at, case.at,
                         more=(f"The way round is {round_}.",) if len(round_) >= 60 else ())
        if way[-1] in seen or way[-1] not in case.files:
            continue
        seen.add(way[-1])
        trait = trait_of(case.files[way[-1]])
        ways += [[*way, file_of(trait.text.text(reference.name))] for reference in trait.references]
    return Found("the references go round", case.at, case.at)


def report_of(case):
    """The report on the files, which is asked for where it isn't at hand; nothing where none comes."""
    if case.report is None and case.probes.session is not None:
        try:
            files = {name: case.files[name] for name in reached(case.files, case.name)}
            case.report = case.probes.session.report(files)
        except (OSError, EOFError):
            pass
    return case.report or {}


def bad_reference(case):
    """The refused trait behind the reference, and behind its own references the first that is at fault itself."""
    wrong = {refusal.file: refusal for refusal in refusals(report_of(case))}
    name, way = file_of(case.text.text(case.at)), []
    while name in wrong and wrong[name].code == "BAD-REFERENCE" and name not in way and name in case.files:
        way.append(name)
        text = trait_of(case.files[name]).text
        name = file_of(text.text(text.index(text.offset(wrong[name].line, wrong[name].column))))
    shown = case.text.text(case.at)
    if name not in wrong:
        return Found(f"`{shown}` is refused itself; mend it first", case.at, case.at)
    at = wrong[name]
    by = f" by way of {listed(map(name_of, way), 3)}" if way else ""
    place = f"{at.file}:{at.line}:{at.column} {at.code}"
    start = trait_of(case.files[name]).text.offset(at.line, at.column) if name in case.files else 0
    title = f"`{shown}` is refused itself: {place}" if not way else f"`{shown}` takes in what is refused: {place}"
    return Found(title, where=name if name in case.files else None, span=(start, start),
                 more=(f"It comes{by}.",) if by else ())


def rename(case):
    """The number of actuals, or the actual that doesn't fit."""
    reference = reference_at(case)
    if reference is None:
        return None
    name = case.text.text(reference.name)
    target = file_of(name)
    if target not in case.files:
        return None
    trait, operators = trait_of(case.files[target]), case.scope.operators(target)
    plain = [actual for actual in reference.actuals if actual.old is None]
    formals = [case_form(trait, form) for form in trait.formals]
    if case.at == reference.name:
        if len(plain) not in (0, len(formals)):
            return wrong_number(case, reference, name, formals, plain)
        return built_in_result(case, reference, name)
    return wrong_old(case, reference, name, operators) or wrong_new(case, reference, trait, operators)


def case_form(trait, form):
    return trait.text.between(form.first, form.last)


def wrong_number(case, reference, name, formals, plain):
    head = f"{name} ({', '.join(formals)})" if formals else name
    return Found(f"`{head}` has {counted(len(formals), 'formal')}; here {'are' if len(plain) != 1 else 'is'} "
                 f"{counted(len(plain), 'actual')}", reference.first, reference.last - 1)


def built_in_result(case, reference, name):
    """A name at which nothing but what is renamed can be wrong."""
    new = [f"`{case_form(case.trait, actual.new)}`" for actual in reference.actuals
           if actual.new.name in ("true", "false") or actual.new.name.strip("_ ") in FIXED]
    of = f" ({', '.join(new)})" if new else ""
    return Found(f"an operator of `{name}` would become one that is built in{of}", reference.first, reference.last - 1)


def wrong_old(case, reference, name, operators):
    """An old name that the trait hasn't, or that is replaced twice."""
    seen = set()
    for actual in reference.actuals:
        old = actual.old
        if old is None:
            continue
        key = case_form(case.trait, old)
        if old.first <= case.at < old.last:
            return old_at(case, old, key, key in seen, name, operators)
        seen.add(key)
    return None


def old_at(case, old, key, twice, name, operators):
    sorts = sorts_of(operators) - {"Bool"}
    same = [operator for operator in operators if operator.name == old.name]
    if twice:
        return Found(f"`{key}` is replaced twice in one reference", old.first, old.last - 1)
    if old.name in ("Bool", "true", "false") and not same:
        return Found(f"`{old.name}` is built in and can't be replaced", old.first, old.last - 1)
    if same and old.signature:
        return Found(f"no `{key}` in `{name}`; it has {listed(same)}", old.first, old.last - 1)
    if same or old.name in sorts:
        return None
    known = {operator.name for operator in operators} | sorts
    near = near_form(old.name, known)
    change = case.probes.change(f"write `{near}`", [case.replace(old.first, near, old.last - 1)]) if near else None
    more = (f"Its sorts: {listed(sorted(sorts)) or 'none'}.",
            f"Its operators: {listed(map(str, operators), 12) or 'none'}.")
    return Found(f"`{key}` isn't in `{name}`" + meant(near), old.first, old.last - 1, change, more)


def wrong_new(case, reference, trait, operators):
    """A new form that doesn't fit what it is put for."""
    formals = iter(trait.formals)
    for actual in reference.actuals:
        old = actual.old or next(formals, None)
        within = actual.new.first <= case.at < (actual.old.last if actual.old else actual.new.last)
        if old is None or not within:
            continue
        same = [operator for operator in operators if operator.name == old.name]
        new, shown = case_form(case.trait, actual.new), case_form(case.trait if actual.old else trait, old)
        if old.name in sorts_of(operators) and not same:
            what = f"`{shown}` is a sort, and `{new}` is no word"
            if actual.new.places is None:
                what = f"`{new}` can't stand for the sort `{shown}`"
            return Found(what, actual.new.first, case.at)
        if not same:
            title = f"the formal `{shown}` is neither a sort nor an operator of `{case.text.text(reference.name)}`"
            return Found(title, actual.new.first, case.at)
        places = [operator for operator in same if actual.new.places not in (None, len(operator.domain))]
        if places:
            return Found(f"`{new}` has {counted(actual.new.places, 'place')}, and {listed(map(str, places))} takes "
                         f"{counted(len(places[0].domain), 'argument')}", actual.new.first, case.at)
        return Found(f"`{new}` can't stand for {listed(map(str, same))}", actual.new.first, case.at)
    return None


def implied_operator(case):
    """The operators of the implied trait that this one lacks."""
    reference = next((one for one in case.trait.references if one.word == "implies" and one.name == case.at), None)
    if reference is None:
        return None
    own = {(operator.name, operator.domain, operator.range) for operator in case.operators}
    lacking = [operator for operator in case.scope.by_reference(case.trait, reference)
               if (operator.name, operator.domain, operator.range) not in own]
    name = case.text.text(case.at)
    if not lacking:
        return None
    one = f"this trait has no `{lacking[0]}`, which `{name}` has" if len(lacking) == 1 else \
        f"this trait has none of {listed(map(str, lacking), 3)}, which `{name}` has"
    return Found(one, reference.first, reference.last - 1,
                 case.probes.change(f"include `{name}`", include(case, reference)))


def include(case, reference):
    """Takes the implied reference up among those of `includes`."""
    words = case.text.between(reference.first, reference.last)
    for part in case.trait.parts:
        if part.word == "includes" and part.last - 1 < len(case.tokens):
            end = case.tokens[part.first].end
            return [Edit(end, end, f" {words},".encode())]
    place = case.tokens[case.trait.head - 1].end
    return [Edit(place, place, f"\n  includes {words}".encode())]


# Shorthands and declarations.

def field_twice(case):
    name = case.text.text(case.at)
    for short in case.trait.shorthands:
        if not short.first <= case.at < short.last:
            continue
        first = next((field for field, _ in short.fields if case.text.text(field) == name), None)
        if first is not None and first != case.at:
            line, column = case.text.place(case.tokens[first].start)
            return Found(f"`{name}` stands twice in `{case.text.text(short.sort)}`, first at {line}:{column}",
                         case.at, case.at, case.probes.change("take another name", [case.replace(case.at, name + "2")]))
    return Found(f"`{name}` stands twice in one shorthand", case.at, case.at)


def declaration_at(case):
    """The declaration and its form where the refusal stands."""
    for declaration in case.trait.declarations:
        for form in declaration.forms:
            if form.first <= case.at < form.last:
                return declaration, form
    return None, None


def arity(case):
    """Places and sorts that don't agree; where all sorts are the same, as many as there are places are proposed."""
    declaration, form = declaration_at(case)
    if form is None or form.places is None:
        return None
    sorts = [case.text.text(sort) for sort in declaration.domain]
    shown, change = case_form(case.trait, form), None
    bare = form.last - form.first == 1
    title = f"`{form.name}` has {counted(form.places, 'place')}, and {counted(len(sorts), 'sort')} " \
            f"stand{'s' if len(sorts) == 1 else ''} before `->`"
    wanted = sorts[:1] or [case.text.text(declaration.range)] if declaration.range is not None else []
    if bare:
        title = f"`{shown}` alone is `{form.name}`; {counted(len(sorts), 'sort')} " \
                f"stand{'s' if len(sorts) == 1 else ''} before `->`"
    if wanted and len(set(sorts)) <= 1 and form.places and not (bare and len(sorts) == 1):
        new = ", ".join(wanted * form.places)
        edits = [case.replace(declaration.domain[0], new, declaration.domain[-1])] if sorts else \
            [case.insert(new, declaration.range - 1)]
        change = case.probes.change(f"write `{new}` before `->`", edits)
    if change is None and len(sorts) in (0, 1, 2) and form.places:
        marked = {1: (f"{symbol_of(form)} __", f"__ {symbol_of(form)}"), 2: (f"__ {symbol_of(form)} __",)}
        for other in marked.get(len(sorts), ()):
            change = change or case.probes.change(f"write `{other}` for `{shown}`",
                                                  [case.replace(form.first, other, form.last - 1)])
    return Found(title, form.first, form.last - 1, change)


def symbol_of(form):
    return form.name.replace("__", "").strip()


def built_in(case):
    declaration, form = declaration_at(case)
    if form is None or declaration.range is None:
        return None
    shown = f"{form.name}: {case.text.between(declaration.forms[-1].last + 1, declaration.range + 1)}"
    change = None
    if len(declaration.forms) == 1:
        change = case.probes.change("take the declaration out", [case.remove(declaration.first, declaration.range)])
    return Found(f"`{shown}` is there in every trait; it isn't declared", form.first, form.last - 1, change)
