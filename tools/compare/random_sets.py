"""Random sets of trait files that refer to one another: includes and assumes, formals with actuals, replacements,
enumerations, tuples and unions, most of them right and each fault now and then. `a_set(pick, names)` takes a
`random.Random` and the names of the traits, and answers their texts by name. With `claims` the traits claim what they
imply and convert: references, items, a first word behind `implies` of which the token behind its parenthesis says what
it is, and clauses with exempted terms."""
import random_traits

SORTS = ["A", "B", "N", "Bool"]
FORMS = {0: ["a", "b", "c", "0", "{}"], 1: ["f", "g", "- __", "__ !", "__.w", "[__]"],
         2: ["f", "h", "__ + __", "__ * __", "__[__]"]}

# Equations that hold in any trait, of two terms of one sort.
TRUE_OF_ALL = ["({0}) == ({0})", "if true then {0} else {1} == {0}", "({0}) = ({0})",
               "if ({0}) = ({0}) then {0} else {1} == {0}",
               "(if true then {0} else {1}) = (if false then {1} else {0})"]


class Trait:
    """What is known of a trait that was written: its formals and its operators, as form, domain and range."""

    def __init__(self, formals):
        self.formals = formals
        self.operators = []

    def sorts(self):
        return sorted({sort for _, domain, range_ in self.operators for sort in (*domain, range_)} | {"Bool"})

    def take(self, operators):
        for form, domain, range_ in operators:
            fits = "__" not in form or form.count("__") == len(domain)
            if fits and (form, domain, range_) not in self.operators:
                self.operators.append((form, domain, range_))


def signature(domain, range_):
    return ", ".join(domain) + " -> " + range_


def declared(pick):
    """Operators with forms that fit, and now and then one that doesn't or is built in."""
    found = []
    for _ in range(pick.randint(1, 4)):
        count = pick.choice([0, 0, 1, 1, 2])
        sorts = tuple(pick.choice(SORTS) for _ in range(count))
        found.append((pick.choice(FORMS[count if pick.random() < 0.99 else 2]), sorts, pick.choice(SORTS)))
    if pick.random() < 0.01:
        found.append(("true", (), "Bool"))
    return found


def new_form(pick, count):
    """A form for an operator of so many arguments, most often."""
    return pick.choice(FORMS.get(count if pick.random() < 0.96 else pick.randint(0, 2), []) + ["k", "a'"])


def replacement(pick, trait):
    """An old name with its new one, as it is written, and what it does to sorts and to operators."""
    if pick.random() < 0.04 or not trait.operators:
        return pick.choice(["d for e", "true for a", "N for Bool", "a for true", "Q for R", "__ + __ for A"]), {}, {}
    sorts = [sort for sort in trait.sorts() if sort != "Bool"]
    if pick.random() < 0.4 and sorts:
        old, new = pick.choice(sorts), pick.choice(SORTS if pick.random() < 0.4 else ["A", "B", "N", "P", "Q"])
        return f"{new} for {old}", {old: new}, {}
    form, domain, range_ = pick.choice(trait.operators)
    new = new_form(pick, len(domain))
    if pick.random() < 0.4:
        return f"{new} for {form}: {signature(domain, range_)}", {}, {(form, domain, range_): new}
    return f"{new} for {form}", {}, {operator: new for operator in trait.operators if operator[0] == form}


def actual(pick, formal, trait):
    """A form in place of a formal, and what it does."""
    if formal in trait.sorts():
        new = pick.choice(["A", "B", "N", "P"])
        return new, {formal: new}, {}
    named = [operator for operator in trait.operators if operator[0] == formal]
    new = new_form(pick, len(named[0][1]) if named else 0)
    return new, {}, {operator: new for operator in named}


def plain_reference(pick, known, others, into):
    """A reference to one of these traits that changes nothing in it."""
    name = pick.choice(others)
    trait = known.get(name, Trait([]))
    into.take(trait.operators)
    return name + (f' ({", ".join(trait.formals)})' if trait.formals else "")


def reference(pick, known, others, into):
    """A reference to one of these traits, as it is written; what it brings goes into the trait."""
    name = pick.choice(others)
    trait = known.get(name)
    if trait is None:
        return name
    actuals, sorts, forms = [], {}, {}
    changes = [actual(pick, formal, trait) for formal in trait.formals] if pick.random() < 0.75 else []
    if changes and pick.random() < 0.04:
        changes.pop()
    if pick.random() < 0.02:
        changes.append(("A", {}, {}))
    changes += [replacement(pick, trait) for _ in range(pick.choice([0, 0, 1, 1, 2]))]
    for text, of_sorts, of_forms in changes:
        actuals.append(text)
        sorts.update(of_sorts)
        forms.update(of_forms)
    new = lambda sort: sorts.get(sort, sort)
    into.take([(forms.get(operator, operator[0]), tuple(map(new, operator[1])), new(operator[2]))
               for operator in trait.operators])
    return name + (f' ({", ".join(actuals)})' if actuals else "")


def shorthand(pick, into):
    """An enumeration, a tuple or a union; its operators go into the trait."""
    words = pick.sample(["p", "q", "r", "s", "t"], pick.randint(1, 4))
    if pick.random() < 0.06:
        words.append(pick.choice(words))
    if pick.random() < 0.4:
        sort = pick.choice(["E", "B", "Bool"] if pick.random() < 0.2 else ["E", "N"])
        if sort == "Bool" and pick.random() < 0.5:
            words.append("true")
        into.take([(word, (), sort) for word in words] + [("succ", (sort,), sort)])
        return f'{sort} enumeration of {", ".join(words)}'
    sort, kind = pick.choice(["C", "D", "N"]), pick.choice(["tuple", "union"])
    fields = [(word, pick.choice(SORTS)) for word in words]
    into.take([(f"__.{word}", (sort,), part) for word, part in fields])
    if kind == "tuple":
        into.take([(f'[{", ".join(["__"] * len(fields))}]', tuple(part for _, part in fields), sort)])
        into.take([(f"set_{word}", (sort, part), sort) for word, part in fields])
    else:
        into.take([(word, (), f"{sort}_tag") for word in words] + [(word, (part,), sort) for word, part in fields])
        into.take([("tag", (sort,), f"{sort}_tag")])
    return f'{sort} {kind} of {", ".join(f"{word}: {part}" for word, part in fields)}'


# Claims -----------------------------------------------------------------------------------------

def spelled(pick, trait, operator):
    """A reference to an operator, with its signature where another one has its form, and now and then."""
    form, domain, range_ = operator
    several = sum(other[0] == form for other in trait.operators) > 1
    return form + (f": {signature(domain, range_)}" if pick.random() < (0.95 if several else 0.2) else "")


def first_word(pick, trait, others):
    """A word with arguments behind `implies`, which begins references or an equation, and what says which."""
    words = [form for form, domain, _ in trait.operators if "__" not in form and domain] + others + ["f"]
    plain = [form for form, domain, _ in trait.operators if not domain and "__" not in form] + trait.sorts() + ["{}"]
    some = [pick.choice(plain) for _ in range(pick.choice([1, 1, 2, 2, 3, 30]))]
    if pick.random() < 0.3:  # a token that one of both readings, or each, goes on with
        late = pick.choice(["- __", "- a", "-", "[__]", "[a]", "{__}", "{a}", "+", "a +", ".w", "a.w", "__ + __",
                            "a for b", "a: N"])
        some.insert(pick.randint(0, len(some)), late)
    text = f'{pick.choice(words)}({", ".join(some)})'
    references = [", " + pick.choice(words), "\n    \\forall x: N\n      x == x", " " + pick.choice(words), "",
                  f"\n    {some[0]} == {some[-1]}"]
    equations = [" == " + text, " = " + pick.choice(plain), " + " + text, ".w", f"[{some[0]}]", ": Bool", " /\\ true"]
    return text + pick.choice(references + equations + [";", ")", " generated by f", " for f"])


def over_sorts(trait):
    """A variable for each sort, with its sort."""
    return [(f"x{place}", sort) for place, sort in enumerate(trait.sorts())]


def whole_term(pick, trait, variables, sort, depth):
    """A term of the sort, of which each part fits."""
    fits = [one for one in trait.operators if one[2] == sort and (not one[1] or depth > 0)]
    names = [name for name, of in variables if of == sort]
    chosen = pick.choice(names * 2 + fits)
    if isinstance(chosen, str):
        return chosen
    arguments = [whole_term(pick, trait, variables, of, depth - 1) for of in chosen[1]]
    return random_traits.applied(chosen[0], arguments)


def readable(pick, trait, same=False):
    """Equations over a variable for each sort, which are mostly read; where they are to be the same, each holds in any
    trait."""
    sorts, equations = trait.sorts(), []
    variables = over_sorts(trait)
    fair = pick.random() < 0.9
    for _ in range(pick.choice([1, 1, 2])):
        sort = pick.choice(sorts)
        one, other = (whole_term(pick, trait, variables, sort, pick.randint(0, 2)) if fair else
                      random_traits.term(pick, sorts, trait.operators, variables, sort, 2) for _ in range(2))
        shape = pick.choice(TRUE_OF_ALL) if same else "({0}) == ({1})"
        equations.append("      " + shape.format(one, other) + ";")
    return "\n".join(["\\forall " + ", ".join(f"{name}: {sort}" for name, sort in variables), *equations])


def clause(pick, trait):
    """A clause on a sort, by operators that fit it."""
    sort = pick.choice(trait.sorts())
    kind, fits = pick.choice([("generated", [one for one in trait.operators if one[2] == sort]),
                              ("partitioned", [one for one in trait.operators if sort in one[1]])])
    if not fits or sort == "Bool":
        return readable(pick, trait)
    chosen = pick.sample(fits, min(len(fits), pick.randint(1, 3)))
    return f"{sort} {kind} by " + ", ".join(spelled(pick, trait, one) for one in chosen)


def fair_item(pick, trait):
    """An item that is mostly read."""
    kind = pick.random()
    if kind < 0.08:
        return random_traits.item(pick, trait.sorts(), trait.operators)
    return clause(pick, trait) if kind < 0.4 else readable(pick, trait, kind < 0.55)


def known_item(pick, trait, items):
    """An item that the trait states, or one that holds in any trait."""
    return pick.choice(items) if items and pick.random() < 0.6 else readable(pick, trait, True)


def implied(pick, trait, known, others, written, items):
    """What stands behind `implies`: references, which are often those that the trait has already, and items."""
    if pick.random() < 0.1:
        return first_word(pick, trait, others)
    parts = []
    if others and pick.random() < 0.45:
        some = [pick.choice(written) if written and pick.random() < 0.7 else reference(pick, known, others, Trait([]))
                for _ in range(pick.choice([1, 1, 2]))]
        parts.append(", ".join(some))
    for _ in range(pick.choice([0, 1, 1, 2, 3])):
        if trait.operators:
            parts.append(known_item(pick, trait, items) if pick.random() < 0.5 else fair_item(pick, trait))
    return "\n    ".join(parts)


def exempted(pick, trait, operators):
    """Terms that a clause exempts, mostly of the operators that it converts, and the variables over which they are."""
    variables, terms = over_sorts(trait), []
    fair = pick.random() < 0.9
    for _ in range(pick.choice([1, 1, 2])):
        form, domain, range_ = pick.choice(operators)
        arguments = [whole_term(pick, trait, variables, sort, 1) if fair else
                     random_traits.term(pick, trait.sorts(), trait.operators, variables, sort, 1) for sort in domain]
        term = random_traits.applied(form, arguments) if pick.random() < 0.96 else pick.choice(["x0", "true", "c"])
        terms.append(f"({term}): {range_}" if pick.random() < 0.1 else term)
    used = ", ".join(f"{name}: {sort}" for name, sort in variables if pick.random() < 0.1 or name in " ".join(terms))
    return (f"\\forall {used} " if used else "") + ", ".join(terms)


def converted(pick, trait):
    """What stands behind `converts`."""
    operators = pick.sample(trait.operators, min(len(trait.operators), pick.choice([1, 1, 1, 2, 3])))
    if pick.random() < 0.03:
        operators.append(pick.choice(operators))
    text = ", ".join(spelled(pick, trait, operator) for operator in operators)
    text += pick.choice([""] * 60 + [", true", ", k"])
    return text + (f" exempting {exempted(pick, trait, operators)}" if pick.random() < 0.5 else "")


def all_claims(pick, trait, known, others, written, items):
    """The lines of a trait's claims."""
    lines = []
    if pick.random() < 0.75:
        lines.append("  implies " + implied(pick, trait, known, others, written, items))
    for _ in range(pick.choice([0, 0, 1, 1, 2])):
        if trait.operators:
            lines.append("  converts " + converted(pick, trait))
    return lines


def a_trait(pick, name, known, others, claims=False):
    """A trait that may refer to these others; known is told of it."""
    formals = pick.sample(["A", "B", "a", "f", "N"], pick.randint(1, 2)) if pick.random() < 0.35 else []
    trait = Trait(formals)
    lines, written, items = [], [], []
    for _ in range(pick.choice([0, 1, 1, 2, 3])):
        if others and pick.random() < 0.75:
            refer = plain_reference if claims and pick.random() < 0.7 else reference
            references = [refer(pick, known, others, trait) for _ in range(pick.choice([1, 1, 2]))]
            written += references
            kinds = ["includes", "assumes"] if claims else ["includes", "includes", "assumes"]
            lines.append(f'  {pick.choice(kinds)} {", ".join(references)}')
        else:
            lines.append("  " + shorthand(pick, trait))
    if pick.random() < 0.85:
        own = declared(pick)
        if claims and others and pick.random() < 0.2:  # an operator that is called as a trait is
            own.append((pick.choice(others), ("N", "N"), "N"))
        trait.take(own)
        lines.append("  introduces\n"
                     + "\n".join(f"    {form}: {signature(domain, range_)}" for form, domain, range_ in own))
    if trait.operators and pick.random() < 0.6:
        lines.append("  asserts")
        make = (lambda: fair_item(pick, trait)) if claims else (
            lambda: random_traits.item(pick, trait.sorts(), trait.operators))
        items = [make() for _ in range(pick.choice([1, 1, 2]))]
        lines += ["    " + item for item in items]
    if claims:
        forms = trait.sorts() + [form for form, _, _ in trait.operators]
        formals[:] = [formal for formal in formals if formal in forms or pick.random() < 0.05]
        lines += all_claims(pick, trait, known, others, written, items)
    known[name] = trait
    named = name if pick.random() < 0.99 else name + "x"
    listed = " (" + ", ".join(formals) + ")" if formals else ""
    return f"{named}{listed}: trait\n" + "\n".join(lines) + "\n"


def a_set(pick, names, claims=False):
    """The texts of traits of these names: each refers to those before it, and now and then to itself, to one behind it
    or to none; now and then tokens are changed."""
    known, texts = {}, {}
    for place, name in enumerate(names):
        chance = pick.random()
        others = names[:place] if chance < 0.93 else names + ["Nope"] if chance < 0.98 else ["Nope"]
        text = a_trait(pick, name, known, others, claims)
        texts[name] = random_traits.changed(pick, text) if pick.random() < 0.04 else text
    return texts
