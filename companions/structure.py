"""The causes of SYNTAX that the trait's own shape shows: its head, the order of its parts, quantifiers where none may
be, and declarations of what can't be declared."""
from .cases import Edit, Found
from .declarations import KINDS_OF_SHORTHANDS
from .tokens import PART_WORDS

ORDER = {"": 0, "includes": 0, "assumes": 0, "introduces": 1, "asserts": 2, "implies": 3, "converts": 4, "exempting": 5}
PARTS = "`includes`, `assumes` and shorthands, then `introduces`, `asserts`, `implies`, `converts`"
FORALL = frozenset(["\\A", "\\all", "\\for", "\\Forall", "\\ForAll", "\\FORALL", "\\forAll", "\\foral", "\\fora",
                    "\\every", "forall", "Forall", "ForAll", "FORALL", "forAll"])
EXISTS = frozenset(["\\exists", "\\E", "\\Exists", "\\some", "\\exist", "exists"])

# Words of terms that other languages have.
NOT_THERE = frozenset(["let", "case", "match", "where", "lambda", "\\lambda", "return", "yield", "unless", "when",
                       "provided", "while", "until"])


def region(case):
    """The numbers of the tokens that may be at fault: from the item's, the declaration's or the line's beginning."""
    first = case.at
    while first > 0 and case.at - first < 200:
        first -= 1
        text = case.text.text(first)
        if text == ";" or text in PART_WORDS:
            return first + 1, case.at + 1
    return first, case.at + 1


def head(case):
    """`trait NAME` for `NAME: trait`, and a second trait in the file."""
    name = case.text.token(1)
    if case.at > 4 and case.text.text(case.at) == "trait" and case.text.text(case.at - 1) == ":":
        second = case.text.text(case.at - 2)
        return Found(f"a second trait in one file: `{second}` has a file of its own", case.at - 2, case.at)
    if case.at or case.text.text(0) != "trait" or name is None or not name.is_name:
        return None
    last = 2 if case.text.text(2) == ":" else 1
    change = case.probes.change(f"write `{name.text}: trait`", [case.replace(0, f"{name.text}: trait", last)])
    return Found(f"the head is written `{name.text}: trait`", 0, last, change)


def order_of_parts(case):
    """A part, a reference or a shorthand behind what it has to stand before."""
    at = case.at
    word = case.text.text(at)
    if word in KINDS_OF_SHORTHANDS and ORDER[case.part] > 0 and case.text.text(at + 1) == "of":
        name = case.text.text(at - 1)
        _, end = case.trait.fields(word, min(at + 2, len(case.tokens)), len(case.tokens))
        first = next(part.first for part in case.trait.parts if ORDER[part.word] > 0)
        return Found(f"`{name} {word} of` stands behind `{case.part}`; shorthands stand before it", at - 1, at,
                     moved(case, at - 1, end, first), (f"The order is {PARTS}.",))
    if word not in PART_WORDS or not case.trait.parts:
        return None
    before = [part.word for part in case.trait.parts if part.first < at]
    later = next((part for part in case.trait.parts if part.first < at and ORDER[part.word] > ORDER[word]), None)
    if later:
        end = next((part.last for part in case.trait.parts if part.first == at), at + 1)
        return Found(f"`{word}` stands behind `{later.word}`; it has to stand before it", at, at,
                     moved(case, at, end, later.first), (f"The order is {PARTS}.",))
    if word == "implies" and "implies" in before:
        return Found("a second `implies`: a trait has one, with all its items", at, at,
                     change=case.probes.change("take the word out", [case.remove(at)]))
    if word == "exempting" and before[-1:] != ["converts"]:
        return Found("`exempting` stands behind the operators of a `converts`", at, at)
    return None


def empty_part(case):
    """`includes` without a name behind it."""
    before = case.text.text(case.at - 1)
    if before not in ("includes", "assumes") or not (case.at >= len(case.tokens) or case.token.text in PART_WORDS):
        return None
    return Found(f"`{before}` names no trait", case.at - 1, case.at - 1,
                 case.probes.change("take it out", [case.remove(case.at - 1)]))


def moved(case, first, last, to):
    """Moves some tokens before another one."""
    start, end, place = case.tokens[first].start, case.tokens[max(last - 1, first)].end, case.tokens[to].start
    margin = case.data[case.data.rfind(b"\n", 0, place) + 1:place]
    words = case.data[start:end] + (b"\n" + margin if not margin.strip() else b" ")
    edits = [Edit(place, place, words), Edit(start, end, b"")]
    return case.probes.change(f"put it before `{case.text.text(to)}`", edits)


def quantifier_inside(case):
    """A quantifier inside a term."""
    first, last = region(case)
    for number in range(min(last, len(case.tokens) - 1), first - 1, -1):
        text = case.text.text(number)
        if text in EXISTS:
            return Found(f"`{text}` isn't there: no quantifier stands in a term", number, number, more=(
                "Say what there is by an operator: `x = s(pred(x))` for \"there is a y with x = s(y)\".",))
    if case.token and case.token.text in FORALL | {"\\forall"} and inside_term(case, first):
        title = f"`{case.token.text}` stands inside a term; its place is before equations"
        return Found(title, case.at, case.at, more=("Put the variable to the `\\forall` before the equations.",))
    return None


def quantifier_behind(case):
    """Variables behind the equations that have them."""
    start = next((number for number in range(case.at - 1, max(case.at - 100, 0), -1)
                  if case.text.text(number) == "\\forall"), None)
    if start is None or case.text.text(start - 1) in PART_WORDS | {";"} or case.text.begins_line(start):
        return None
    _, behind = case.trait.groups(start + 1, len(case.tokens))
    if behind != case.at:
        return None
    return Found("`\\forall` stands behind the equations; its place is before them", start, case.at - 1)


def not_there(case):
    """Words of terms that other languages have."""
    first, last = region(case)
    known = {operator.name for operator in case.operators}
    known |= {case.text.text(name) for item in case.trait.items for name, _ in item.variables}
    for number in range(first, min(last, len(case.tokens))):
        text = case.text.text(number)
        if text in NOT_THERE and text not in known \
                and case.part in ("asserts", "implies"):
            return Found(f"`{text}` isn't there: terms have `if`, operators and variables alone", number, number)
    return None


def inside_term(case, first):
    before = case.text.text(case.at - 1)
    if any(case.text.text(number) == "by" for number in range(first, case.at)):
        return False
    opened = sum((case.text.text(number) in ("(", "[", "{")) - (case.text.text(number) in (")", "]", "}"))
                 for number in range(first, case.at))
    return case.part in ("asserts", "implies") and case.at > first and (
        opened > 0 or before in ("=>", "<=>", "/\\", "\\/", "=", "~=", "==", "~", "(", ","))


def declared_otherwise(case):
    """What can't be declared, and signatures that other languages write otherwise."""
    at, text = case.at, case.text.text
    if case.part != "introduces":
        return None
    if text(at) in ("if", "=", "~=", "/\\", "\\/", "=>", "<=>", "==", "~") and (
            text(at - 1) in ("__", ",", "introduces") or case.text.begins_line(at)):
        return Found(f"`{text(at)}` has a meaning of its own and isn't declared", at, at)
    if text(at) == "(" and at and case.tokens[at - 1].is_name and text(case.text.closing(at) + 1) in (":", "->"):
        return arguments_named(case)
    found = attributes(case, at)
    if found:
        return found
    if text(at - 1) in ("[", "<") and at > 1 and case.tokens[at - 2].is_name and text(at - 3) in (":", ",", "->"):
        return sort_with_brackets(case)
    return None


def arguments_named(case):
    """`put(t: Thing, b: Bag): Bag` for `put: Thing, Bag -> Bag`."""
    at, text = case.at, case.text.text
    close, name = case.text.closing(at), text(at - 1)
    words = [number for number in range(at + 1, close) if case.tokens[number].is_name]
    named = [text(number) for number in words if text(number - 1) == ":"]
    sorts = named or [text(number) for number in words]
    change = None
    if text(close + 1) in (":", "->", "=") and close + 2 < len(case.tokens):
        new = f"{name}: {', '.join(sorts)} -> {text(close + 2)}" if sorts else f"{name}: -> {text(close + 2)}"
        change = case.probes.change(f"write `{new}`", [case.replace(at - 1, new, close + 2)])
    what = "arguments aren't named in a declaration" if named else "no parentheses stand around the sorts of arguments"
    return Found(f"{what}: `{name}: {', '.join(sorts)} -> ..`", at - 1, close, change)


def sort_with_brackets(case):
    """`Bag[Thing]` or `Bag<Thing>` for a sort, which is one word."""
    first, last = case.at - 2, case.text.closing(case.at - 1)
    if case.text.text(case.at - 1) == "<":
        last = next((number for number in range(case.at, len(case.tokens)) if case.text.text(number) == ">"), case.at)
    wanted = [token.text for token in case.tokens[first:last + 1]]
    starts = [number for number in range(len(case.tokens) - len(wanted) + 1)
              if [token.text for token in case.tokens[number:number + len(wanted)]] == wanted]
    word = "".join(part for part in wanted if part[0].isalnum())
    change = case.probes.change(f"write `{word}`", [case.replace(number, word, number + len(wanted) - 1)
                                                    for number in starts[:100]])
    return Found(f"a sort is one word, without brackets: `{word}` for `{''.join(wanted)}`", first, last, change)


def attributes(case, at):
    """`join: A, A -> A [assoc comm]`."""
    opened = at - 1
    if case.text.text(opened) != "[" or case.text.text(opened - 2) != "->" \
            or case.tokens[opened - 1].end == case.tokens[opened].start:
        return None
    close = case.text.closing(opened)
    return Found(f"a declaration has no attributes: `{case.text.between(opened, close + 1)}`", opened, close,
                 case.probes.change("take them out", [case.remove(opened, close)]), (
                     "What they say stands in `asserts`, as an equation.",))
