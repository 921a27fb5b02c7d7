"""The causes of SYNTAX that a few tokens of an item show for certain, since no trait has them so."""
from .cases import Edit, Found
from .scope import sorts_of
from .structure import region
from .terms import NoTerm, Reader
from .tokens import short


def touches(case, number):
    """Whether a token stands directly behind the one before it."""
    return 0 < number < len(case.tokens) and case.tokens[number - 1].end == case.tokens[number].start


def near(case, at, before=2):
    """The numbers of the tokens around a place, the nearest first."""
    return [number for number in range(at, max(at - before - 1, -1), -1)]


def and_between_equations(case, at):
    """`a == b and c == d`."""
    first, _ = region(case)
    for number in near(case, at):
        end = next((one for one in range(number, len(case.tokens)) if case.text.text(one) == ";"
                    or (one > number and case.text.begins_line(one))), len(case.tokens))
        sides = [one for one in range(first, end) if case.text.text(one) == "=="]
        if case.text.text(number) in ("and", "&", "&&") and sides and sides[0] < number < sides[-1]:
            return Found(f"`;` stands between equations, no `{case.text.text(number)}`", number, number,
                         case.probes.change("write `;`", [case.replace(number, ";")]))
    return None


def colon_for_semicolon(case, at):
    """`a == b:` at the end of a line."""
    if case.text.text(at) != "(" or case.text.text(at - 2) != ":" or not case.text.begins_line(at - 1):
        return None
    change = case.probes.change("write `;`", [case.replace(at - 2, ";")])
    return Found("`:` stands where `;` is meant", at - 2, at - 2, change) if change else None


def no_argument(case, at):
    """`waits(, l)`."""
    behind = case.text.token(at + 2)
    if case.text.text(at) != "," or case.text.text(at - 1) not in ("(", "[") or (behind is not None and behind.is_name):
        return None
    return Found("an argument is missing before `,`", at, at)


def variable_without_sort(case, at):
    """`\\forall l: Line, n` before the equations."""
    start = next((number for number in range(at - 1, max(at - 60, -1), -1)
                  if case.text.text(number) == "\\forall"), None)
    if start is None or not case.text.begins_line(at) or not case.tokens[at - 1].is_name \
            or case.text.text(at - 2) != "," \
            or ":" not in (between := [case.text.text(number) for number in range(start, at)]) \
            or {"==", ";", "("} & set(between):
        return None
    changes = (case.probes.change(f"say its sort, as `: {sort}`", [Edit(case.ahead(at), case.ahead(at),
                                                                         f": {sort}".encode())])
               for sort in sorted(sorts_of(case.operators) - {"Bool"})[:8])
    change = next((change for change in changes if change and change.proved == "right"), None)
    return Found(f"the variable `{case.text.text(at - 1)}` has no sort", at - 1, at - 1, change)


def else_too_much(case, at):
    """More `else` than `if`."""
    first, _ = region(case)
    words = [case.text.text(number) for number in range(first, at + 1)]
    if case.text.text(at) != "else" or words.count("else") <= words.count("if") or not words.count("if"):
        return None
    reader = Reader(case.text, at + 1, len(case.tokens))
    try:
        reader.post()
    except NoTerm:
        return None
    change = case.probes.change("take it out, with what stands behind it", [case.remove(at, reader.at - 1)])
    return Found("`else` is too much?", at, at, change)


def sentence(case, at):
    """Words of a sentence without `%`."""
    known = {operator.name for operator in case.operators}
    first, size = at, len(case.tokens)
    while first > 0 and case.tokens[first - 1].is_name and not case.text.begins_line(first):
        first -= 1
    last = first
    while last < size and case.tokens[last].kind == "word" and (last == first or not case.text.begins_line(last)):
        last += 1
    words = [case.text.text(number) for number in range(first, last)]
    if len(words) < 4 or known & set(words) or not first <= at <= last:
        return None
    start = case.tokens[first].start
    return Found(f"a comment begins with `%`: `{short(' '.join(words))}`", first, last - 1,
                 case.probes.change("put `%` before it", [Edit(start, start, b"% ")]))


def curried(case, at):
    """`push(s)(i)` for `push(s, i)`."""
    if case.text.text(at) != "(" or case.text.text(at - 1) != ")" or not touches(case, at):
        return None
    return Found("arguments stand in one pair of parentheses, with commas between", at - 1, at,
                 case.probes.change("write `,`", [case.replace(at - 1, ", ", at)]))


def symbol_before(case, at):
    """`+(x, y)` for `x + y`."""
    opened = next((number for number in range(at, max(at - 40, 0), -1) if case.text.text(number) == "("
                   and case.text.closing(number) >= at), None)
    sign = case.text.token(opened - 1) if opened else None
    declared = {operator.name for operator in case.operators}
    if sign is None or f"__ {sign.text} __" not in declared or case.text.text(at) != ",":
        return None
    before, close = case.text.token(opened - 2), case.text.closing(opened)
    if before is not None and (before.is_name or before.text in (")", "]", "}")) \
            and not case.text.begins_line(opened - 1):
        return None
    new = f"({case.text.between(opened + 1, at)} {sign.text} {case.text.between(at + 1, close)})"
    return Found(f"`{sign.text}` stands between its arguments: `{short(new[1:-1])}`", opened - 1, close,
                 case.probes.change(f"write `{short(new)}`", [case.replace(opened - 1, new, close)]))


def word_between(case, at):
    """`b member s` for `member(b, s)`."""
    binary = {operator.name for operator in case.operators if len(operator.domain) == 2}
    number = at - 1
    if case.text.text(number) not in binary or case.text.begins_line(number) or case.text.begins_line(at):
        return None
    start, left = number - 1, case.text.text(number - 1)
    if left == ")":
        start = next((one for one in range(number - 1, 0, -1) if case.text.text(one) == "("
                      and case.text.closing(one) == number - 1), number - 1)
        start -= case.tokens[start - 1].is_name
    elif not case.tokens[start].is_name:
        return None
    reader = Reader(case.text, at, len(case.tokens))
    try:
        reader.post()
    except NoTerm:
        return None
    new = f"{case.text.text(number)}({case.text.between(start, number)}, {case.text.between(at, reader.at)})"
    return Found(f"`{case.text.text(number)}` stands before its arguments: `{short(new)}`", start, reader.at - 1,
                 case.probes.change(f"write `{short(new)}`", [case.replace(start, new, reader.at - 1)]))


def kind_asked(case, at):
    """`s is circle` for `tag(s) = circle`."""
    tags = {case.text.text(name) for one in case.trait.shorthands if one.kind == "union" for name, _ in one.fields}
    for number in near(case, at):
        tag, before = case.text.text(number + 1), case.text.token(number - 1)
        if case.text.text(number) == "is" and tag in tags and before.is_name:
            new = f"(tag({before.text}) = {tag})"
            return Found(f"which kind it is, is asked by `tag`: `{new[1:-1]}`", number - 1, number + 1,
                         case.probes.change(f"write `{new}`", [case.replace(number - 1, new, number + 1)]))
    return None


def update(case, at):
    """`a[i := e]`."""
    first, _ = region(case)
    opened = any(case.text.text(number) == "[" and case.text.closing(number) >= at for number in range(first, at))
    for number in near(case, at):
        if opened and case.text.text(number) == ":" and case.text.text(number + 1) == "=":
            return Found("`:=` isn't there: nothing is assigned in a term, an operator makes the new value",
                         number, number + 1)
    return None


def pointed(case, at):
    """`a->balance` for `balance(a)`."""
    for number in near(case, at):
        if case.text.text(number) == "->" and touches(case, number) and touches(case, number + 1) \
                and case.tokens[number - 1].is_name:
            new = f"{case.text.text(number + 1)}({case.text.text(number - 1)})"
            return Found(f"an operator stands before its arguments: `{new}`", number - 1, number + 1,
                         case.probes.change(f"write `{new}`", [case.replace(number - 1, new, number + 1)]))
    return None


def qualified(case, at):
    """`Account::balance(a)`."""
    for number in near(case, at):
        if case.text.text(number) == ":" and case.text.text(number - 1) == ":" and touches(case, number) \
                and touches(case, number - 1) and touches(case, number + 1):
            name = case.text.text(number + 1)
            return Found(f"nothing stands before an operator's name: `{name}`", number - 2, number + 1,
                         case.probes.change(f"write `{name}`", [case.remove(number - 2, number)]))
    return None


def some(case, at):
    """`for some m: Money ..`."""
    for number in near(case, at):
        if case.text.text(number) == "for" and case.text.text(number + 1) in ("some", "any", "no"):
            shown = case.text.between(number, number + 2)
            return Found(f"`{shown}` isn't there: no quantifier stands in a term", number, number + 1, more=(
                "Say what there is by an operator: `x = s(pred(x))` for \"there is a y with x = s(y)\".",))
    return None


def function_term(case, at):
    """`\\a. nil`."""
    for number in near(case, at, 3):
        token = case.tokens[number]
        if token.kind == "backslash" and case.text.text(number + 1) == "." and token.text not in ("\\forall",):
            return Found(f"`{token.text}.` isn't there: no term is a function", number, number + 1, more=(
                "Say by an equation what it gives for a variable: `f(x) == ..`.",))
    return None


def not_and_equals(case, at):
    """`a not = b`."""
    for number in near(case, at):
        if case.text.text(number) in ("not", "~", "!") and case.text.text(number + 1) in ("=", "==") \
                and not case.text.begins_line(number):
            shown = case.text.between(number, number + 2)
            return Found(f"`{shown}` is written `~=`", number, number + 1,
                         case.probes.change("write `~=`", [case.replace(number, "~=", number + 1)]))
    return None


def sort_behind_in(case, at):
    """`\\forall a in Account`."""
    before = case.text.text(at - 2)
    if case.text.text(at) not in ("in", "of") or before not in ("\\forall", ",") or not case.tokens[at - 1].is_name:
        return None
    edits = [case.replace(number, ":") for number in range(at, len(case.tokens))
             if case.text.text(number) == case.text.text(at) and case.line_of(number) == case.line_of(at)]
    shown = f"{case.text.text(at - 1)}: {case.text.text(at + 1)}"
    return Found(f"a variable's sort stands behind `:`: `{shown}`", at, at, case.probes.change("write `:`", edits))


def semicolon_in_comment(case, at):
    """A `;` that stands behind `%`."""
    at -= 0 < at < len(case.tokens) and not case.text.begins_line(at)
    if at >= len(case.tokens) or not case.text.begins_line(at):
        return None
    for line in case.data[case.ahead(at):case.tokens[at].start].split(b"\n")[:1]:
        mark = case.ahead(at) + line.find(b"%")
        if b"%" in line and line.rstrip().endswith(b";"):
            change = case.probes.change("put `;` before the comment", [case.insert(";", at)])
            return Found("the `;` stands behind `%`, so that it is part of the comment", span=(mark, mark + 1),
                         change=change) if change else None
    return None


OF_TERMS = (
    variable_without_sort, sort_behind_in, semicolon_in_comment, sentence, kind_asked, update, pointed, qualified,
    some, function_term, not_and_equals, and_between_equations, colon_for_semicolon, no_argument, else_too_much,
    curried, symbol_before, word_between)
