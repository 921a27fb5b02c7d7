"""The causes of SYNTAX: what the trait's shape shows, habits of other languages, and tokens that are missing or too
many; the program itself decides between them."""
from .cases import FURTHER, NOTHING, RIGHT, Change, Found, proof
from .habits import Try, habits
from .shapes import shape
from .structure import declared_otherwise, empty_part, head, not_there, order_of_parts, quantifier_behind, \
    quantifier_inside

SIGNS = ("mark", "symbol", "backslash")
# What may be missing, by the word of the part.
MISSING = {"": [":", ",", "of", "trait", ")", "(", "x"],
           "includes": [",", ")", "for", "(", "of", ":", "x"], "assumes": [",", ")", "for", "(", "of", ":", "x"],
           "introduces": ["->", ":", ",", "x", "]", "}", "__"],
           "asserts": [";", ")", ",", "(", "==", ":", "x", "]", ".", "}", "by", "\\forall", "then"],
           "converts": [",", ")", "exempting", "(", "]", "}", "->", "x"]}
MISSING["implies"], MISSING["exempting"] = MISSING["asserts"], MISSING["converts"]
IN_PLACE = {"": [",", ":", "of"], "includes": [",", "for"], "introduces": [",", ":", "->"],
            "asserts": [";", ",", ":", "==", ")", "]"], "converts": [","]}


def cause(case):
    """What is wrong at the refused token."""
    if not case.tokens:
        return Found("the file is empty: a trait begins with its name, `:` and `trait`", span=(0, 0))
    for rule in (head, empty_part, order_of_parts, quantifier_inside, quantifier_behind, not_there, declared_otherwise,
                 shape):
        found = rule(case)
        if found:
            return found
    best = best_of(case, commonest(case))
    if best is None or best[0] < RIGHT:
        best = best_of(case, habits(case))
    if best is None or best[0] < RIGHT:
        best = better(best, best_of(case, guesses(case)))
    if best:
        guess, rank = best[2], best[0]
        change = Change(guess.says, guess.edits, proof(rank))
        return Found(guess.title, guess.first, guess.last, change, guess.more)
    return expected(case)


def best_of(case, tries):
    """The try that comes furthest, with how far it comes; the first that makes the file right ends the search."""
    best = None
    for guess in tries:
        rank, far = case.probes.outcome(guess.edits)
        if rank > NOTHING:
            best = better(best, (rank, far if rank == FURTHER else 0, guess))
        if rank == RIGHT:
            break
    return best


def better(one, other):
    """The one of two that comes further; the first where both come as far."""
    return other if one is None or (other is not None and other[:2] > one[:2]) else one


def commonest(case):
    """A comma too much, and the two tokens that are forgotten most often in a part."""
    if case.text.text(case.at - 1) == "," and not (case.token and case.token.is_name):
        yield Try("`,` is too much?", case.at - 1, case.at - 1, "take `,` out", (case.remove(case.at - 1),))
    for words in MISSING.get(case.part, MISSING["asserts"])[:2]:
        for number in (case.at, case.at - 1):
            if number >= 1:
                yield missing_before(case, words, number)


def guesses(case):
    """Tokens put in before the refused one or the one before it, or taken out, or in its place."""
    at, part = case.at, case.part
    missing = MISSING.get(part, MISSING["asserts"])
    last = len(case.tokens)
    if 0 < at < last and case.text.text(at) == case.text.text(at - 1):
        what = "is too much?" if case.text.text(at) in (")", "]", "}") else "stands twice?"
        yield Try(f"{case.word(at)} {what}", at, at, "take one out", (case.remove(at),))
    for words in missing:
        for number in (at, at - 1):
            if number >= 1:
                yield missing_before(case, words, number)
        if words == missing[3]:
            yield from in_place(case, part)
            yield from turned(case)
    if at < last:
        yield Try(f"{case.word(at)} is too much?", at, at, f"take {case.word(at)} out", (case.remove(at),))
    if 0 < at <= last:
        yield Try(f"{case.word(at - 1)} is too much?", at - 1, at - 1, f"take {case.word(at - 1)} out",
                  (case.remove(at - 1),))


def turned(case):
    """Two neighbouring tokens in the wrong order."""
    for number in (case.at, case.at - 1, case.at + 1):
        if 0 < number < len(case.tokens) and case.line_of(number) == case.line_of(number - 1):
            one, other = case.text.text(number - 1), case.text.text(number)
            yield Try(f"`{one}` and `{other}` in the wrong order?", number - 1, number, f"write `{other} {one}`",
                      (case.replace(number - 1, other), case.replace(number, one)))


def in_place(case, part):
    """Another mark in the place of the refused one."""
    at = case.at
    for words in IN_PLACE.get(part, IN_PLACE["asserts"]):
        if case.text.text(at) != words and at < len(case.tokens) and case.tokens[at].kind in SIGNS:
            new = f" {words} " if words.isalpha() else words
            yield Try(f"{case.word(at)} stands where `{words}` is meant?", at, at, f"write `{words}`",
                      (case.replace(at, new),))


def missing_before(case, words, number):
    """A token that is missing before another one; `x` is any name."""
    where = case.word(number)
    if words == "x" and number >= len(case.tokens):
        return Try("the file ends where a name, a sort or a term is missing", number, number,
                   "write what is missing", (case.insert("x", number),))
    if words == "x":
        return Try(f"something is missing before {where}: a name, a sort or a term", number, number,
                   f"put it before {where}", (case.insert("x", number),))
    return Try(f"missing `{words}` before {where}?", number, number, f"put `{words}` before {where}",
               (case.insert(words, number),))


def expected(case):
    """The last resort: what stands there and where."""
    places = {"": "in the trait's head", "includes": "in a reference", "assumes": "in a reference",
              "introduces": "in a declaration", "asserts": "in an item", "implies": "in a claim",
              "converts": "in `converts`", "exempting": "in `exempting`"}
    if case.at >= len(case.tokens):
        return Found(f"the file ends {places.get(case.part, 'there')} that isn't whole", case.at, case.at)
    return Found(f"{case.word(case.at)} can't stand here, {places.get(case.part, 'there')}", case.at, case.at)
