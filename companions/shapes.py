"""The causes of SYNTAX that a few tokens show for certain, since no trait has them so: what is written in other
languages, and slips. The title doesn't depend on what the program says of the change."""
from .cases import Edit, Found
from .scope import sorts_of
from .shapes_of_terms import OF_TERMS, near, touches
from .tokens import PART_WORDS, short

REFERRING = ("includes", "assumes")
WORDS_BEFORE = ("partial", "total", "static", "public", "virtual", "abstract", "method", "procedure", "def", "let",
                "val")


def shape(case):
    """The first shape that the tokens around the refused one have."""
    at = min(case.at, len(case.tokens) - 1)
    for rule in RULES.get(case.part, ()):
        found = rule(case, at)
        if found:
            return found
    return comment_of_pascal(case, at)


def places_of(case, *texts):
    """The numbers at which some tokens stand one behind another without blanks."""
    size = len(texts)
    return [first for first in range(len(case.tokens) - size + 1)
            if all(case.text.text(first + number) == text for number, text in enumerate(texts))
            and all(touches(case, first + number) for number in range(1, size))]


# The head, and comments.

def no_head(case, at):
    """A trait that begins with its first part."""
    if at or case.text.text(0) not in PART_WORDS:
        return None
    name = case.name.removesuffix(".lsl")
    change = case.probes.change(f"put `{name}: trait` first", [Edit(0, 0, f"{name}: trait\n".encode())])
    return Found(f"the head is missing: `{name}: trait`", 0, 0, change)


def angles_of_formals(case, at):
    """`Stack<Item>: trait`."""
    close = next((number for number in range(1, min(at + 40, len(case.tokens))) if case.text.text(number) == ">"), None)
    if case.text.text(1) != "<" or at > 3 or close is None:
        return None
    change = case.probes.change("write parentheses", [case.replace(1, "("), case.replace(close, ")")])
    return Found("formals stand in parentheses, not in `<` and `>`", 1, close, change)


def range_of_constants(case, at):
    """`Dice enumeration of 1..6`."""
    if case.text.text(at) != "." or case.text.text(at + 1) != "." or not case.tokens[at - 1].is_name:
        return None
    shown = case.text.between(at - 1, at + 3)
    return Found(f"`{shown}` isn't there: the constants of an enumeration are listed one by one", at - 1, at + 2)


def sorts_of_fields_first(case, at):
    """`tuple of Coord x, Coord y`."""
    text, pairs, number = case.text.text, [], at - 1
    while text(number - 1) in ("of", ",") and number + 1 < len(case.tokens) and case.tokens[number].is_name \
            and case.tokens[number + 1].is_name and not case.text.begins_line(number + 1):
        pairs.append(number)
        number += 3
    if not pairs or text(at - 2) != "of" or text(at - 3) not in ("tuple", "union") or text(at)[:1].isupper():
        return None
    edits = [case.replace(first, f"{text(first + 1)}: {text(first)}", first + 1) for first in pairs]
    shown = f"{text(at)}: {text(at - 1)}"
    change = case.probes.change(f"write `{shown}`", edits)
    return Found(f"fields stand before their sorts: `{shown}`", at - 1, at, change)


def bars_in_union(case, at):
    """`Shape union of circle | square`."""
    if case.text.text(at) != "|" or all(case.text.text(number) != "union" for number in range(max(at - 20, 0), at)):
        return None
    before = case.text.text(at - 1)
    return Found(f"fields of a union stand between commas, each with its sort: `{before}: ..`", at - 1, at)


def comment_of_pascal(case, at):
    """`(* .. *)`, as far as it stands on one line."""
    for number in near(case, at):
        if case.text.text(number) == "(" and touches(case, number + 1) and case.text.text(number + 1)[:1] == "*":
            start = case.tokens[number].start
            change = case.probes.change("write `%`", [Edit(start, start, b"% ")])
            return Found("a comment begins with `%`, not with `(*`", number, number + 1, change)
    return None


# References.

def and_for_comma(case, at):
    """`A and B` in a list."""
    for number in near(case, at):
        if case.text.text(number) in ("and", "&", "&&"):
            change = case.probes.change("write `,`", [case.replace(number, ",")])
            return Found(f"`{case.text.text(number)}` stands where `,` is meant", number, number, change)
    return None


def file_for_trait(case, at):
    """`includes Number.lsl`."""
    for number in near(case, at):
        if case.text.text(number) == "." and case.text.text(number + 1) in ("lsl", "lp"):
            name = case.text.text(number - 1)
            change = case.probes.change(f"write `{name}`", [case.remove(number, number + 1)])
            return Found(f"a trait is named without the ending of its file: `{name}`", number, number + 1, change)
    return None


def assigned(case, at):
    """`Number(Num := Nat)`."""
    for number in near(case, at):
        if case.text.text(number) == ":" and case.text.text(number + 1) == "=" and number + 2 < len(case.tokens):
            old, new = case.text.text(number - 1), case.text.text(number + 2)
            change = case.probes.change(f"write `{new} for {old}`",
                                        [case.replace(number - 1, f"{new} for {old}", number + 2)])
            return Found(f"a replacement is written `{new} for {old}`, the new name first", number - 1, number + 2,
                         change)
    return None


def parted_replacements(case, at):
    """`Pairing(Num)(Two)`."""
    if case.text.text(at) != "(" or case.text.text(at - 1) != ")":
        return None
    return Found("what is replaced stands in one pair of parentheses, with commas between", at - 1, at,
                 case.probes.change("write `,`", [case.replace(at - 1, ", ", at)]))


# Declarations.

def numbered(case, at):
    """`1. none: -> Bag`."""
    text = case.text.text
    if text(at) not in (".", ")") or not text(at - 1).isdigit() or not case.text.begins_line(at - 1):
        return None
    edits = [case.remove(number - 1, number) for number in range(1, len(case.tokens))
             if case.text.text(number) == case.text.text(at) and case.text.text(number - 1).isdigit()
             and case.text.begins_line(number - 1)][:100]
    return Found("declarations have no numbers", at - 1, at, case.probes.change("take them out", edits))


def colon_behind_sort(case, at):
    """`rest Line: -> Line` for `rest: Line -> Line`."""
    if case.text.text(at + 1) != ":" or not case.tokens[at - 1].is_name or not case.text.begins_line(at - 1) \
            or case.text.text(at) not in sorts_of(case.operators) - {"Bool"}:
        return None
    new = f": {case.text.text(at)}"
    edits = [Edit(case.tokens[at - 1].end, case.tokens[at + 1].end, new.encode())]
    return Found(f"`:` stands behind `{case.text.text(at)}` and belongs before it", at, at + 1,
                 case.probes.change(f"write `{case.text.text(at - 1)}{new}`", edits))


def sign_in_name(case, at):
    """`is-empty` or `empty?` for a name."""
    for number in near(case, at):
        sign, token = case.text.text(number), case.text.token(number - 1)
        if sign not in ("-", "?", "!") or not touches(case, number) or not token.is_name:
            continue
        behind = case.text.token(number + 1)
        if sign == "-" and touches(case, number + 1) and behind.is_name:
            parts, new = (token.text, sign, behind.text), f"{token.text}_{behind.text}"
        else:
            parts, new = (token.text, sign), token.text
        edits = [case.replace(first, new, first + len(parts) - 1) for first in places_of(case, *parts)][:100]
        return Found(f"a name has letters, digits, `'` and `_`: `{new}` for `{''.join(parts)}`", number - 1,
                     number + len(parts) - 2, case.probes.change(f"write `{new}`", edits))
    return None


def infix_word(case, at):
    """`__ in __` for `__ \\in __`."""
    for number in near(case, at):
        token = case.text.token(number)
        around = case.text.text(number - 1), case.text.text(number + 1)
        if around != ("__", "__") or not token.is_name or not token.text.isalpha():
            continue
        new = f"\\{token.text}"
        edits = [case.replace(other, new) for other, one in enumerate(case.tokens) if one.text == token.text][:100]
        return Found(f"a word isn't written between its arguments; a symbol is, as `{new}`", number, number,
                     case.probes.change(f"write `{new}`", edits), (
                         f"Without `__` it stands before them: `{token.text}(x, y)`.",))
    return None


def postfix_word(case, at):
    """`__ fails: Account -> Bool`."""
    token = case.text.token(at)
    if case.text.text(at - 1) != "__" or case.text.text(at + 1) != ":" or not token.is_name \
            or not (case.text.begins_line(at - 1) or case.text.text(at - 2) == ","):
        return None
    title = f"a word isn't written behind its argument: `{token.text}: ..`, and `{token.text}(x)` in terms"
    return Found(title, at - 1, at, case.probes.change("take `__` out", [case.remove(at - 1)]))


def word_before(case, at):
    """`partial close: ..`."""
    if case.text.text(at - 1) not in WORDS_BEFORE or not case.tokens[at].is_name or not case.text.begins_line(at - 1):
        return None
    return Found(f"no word stands before a declaration: `{case.text.text(at - 1)}`", at - 1, at - 1,
                 case.probes.change("take it out", [case.remove(at - 1)]))


def part_of_sort(case, at):
    """`Savings < Account`."""
    if case.text.text(at) not in ("<", "<<", "<:", "<=") or not case.tokens[at - 1].is_name \
            or not case.text.begins_line(at - 1):
        return None
    return Found("sorts aren't ordered: none is part of another", at - 1, at + 1,
                 case.probes.change("take the line out", [case.remove(at - 1, at + 1)]), (
                     "An operator can take the one to the other.",))


def signature_of_c(case, at):
    """`Stack push(Stack s, Item i);`."""
    for number in near(case, at):
        name, result = case.text.token(number), case.text.token(number - 1)
        if case.text.text(number + 1) != "(" or not name.is_name or result is None or not result.is_name \
                or not case.text.begins_line(number - 1) or case.text.begins_line(number):
            continue
        close = case.text.closing(number + 1)
        sorts = [case.text.text(one) for one in range(number + 2, close) if case.text.text(one - 1) in ("(", ",")]
        new = f"{name.text}: {', '.join(sorts)}{' ' if sorts else ''}-> {result.text}"
        end = close + (case.text.text(close + 1) == ";")
        return Found(f"a declaration is written `{short(new)}`", number - 1, end,
                     case.probes.change(f"write `{short(new)}`", [case.replace(number - 1, new, end)]))
    return None


def blank_in_arrow(case, at):
    """`- >` for `->`."""
    for number in near(case, at):
        if case.text.text(number + 1) == ">" and case.text.text(number) == "-":
            edits = [case.replace(other - 1, "->", other) for other in range(1, len(case.tokens))
                     if case.text.text(other) == ">" and case.text.text(other - 1) == "-"][:100]
            return Found("a blank stands in `->`", number, number + 1, case.probes.change("write `->`", edits))
    return None


def no_result(case, at):
    """`new: ->` before the next declaration."""
    if case.text.text(at) != ":" or case.text.text(at - 2) != "->" or not case.text.begins_line(at - 1):
        return None
    change, sort = None, case.text.text(at - 3)
    if case.text.text(at - 4) == ":":
        change = case.probes.change(f"write `-> {sort}`", [case.replace(at - 3, f"-> {sort}", at - 2)])
    return Found("no sort stands behind `->`", at - 2, at - 2, change)


def two_results(case, at):
    """`split: List -> List, List`."""
    behind = case.text.token(at + 1)
    if case.text.text(at) != "," or case.text.text(at - 2) != "->" or behind is None or not behind.is_name \
            or case.text.begins_line(at + 1) or case.text.text(at + 2) in (":", ","):
        return None
    return Found(f"an operator has one result: `{case.text.text(at - 1)}`", at, at + 1, more=(
        "A tuple is one sort: `Pair tuple of first: A, second: B` makes it.",))


RULES = {
    "": (no_head, angles_of_formals, range_of_constants, sorts_of_fields_first, bars_in_union),
    **dict.fromkeys(REFERRING, (file_for_trait, assigned, parted_replacements, and_for_comma)),
    **dict.fromkeys(("converts", "exempting"), (and_for_comma,)),
    "introduces": (numbered, sign_in_name, infix_word, postfix_word, word_before, part_of_sort, signature_of_c,
                   blank_in_arrow, no_result, two_results, colon_behind_sort),
    **dict.fromkeys(("asserts", "implies"), OF_TERMS)}
