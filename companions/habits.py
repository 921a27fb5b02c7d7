"""Guesses at the causes of SYNTAX by what people write who come from other languages: each has edits, by which the
program decides."""
import dataclasses

from .cases import Edit
from .scope import sorts_of
from .spelling import nearest
from .structure import FORALL, region
from .terms import NoTerm, Reader
from .tokens import PART_WORDS, RESERVED, short

# Words of neighbours for those that stand here, and symbols and words that are written otherwise.
SYNONYMS = {
    "assert": "asserts", "introduce": "introduces", "include": "includes", "assume": "assumes", "imply": "implies",
    "convert": "converts", "exempt": "exempting", "except": "exempting", "excluding": "exempting",
    "imports": "includes", "import": "includes", "extends": "includes",
    "uses": "includes", "using": "includes", "protecting": "includes", "pr": "includes", "operators": "introduces",
    "ops": "introduces", "op": "introduces", "signature": "introduces", "declares": "introduces",
    "axioms": "asserts", "axiom": "asserts", "equations": "asserts", "laws": "asserts", "constrains": "asserts",
    "theorems": "implies", "theorem": "implies", "consequences": "implies", "enum": "enumeration",
    "record": "tuple", "struct": "tuple", "variant": "union", "elseif": "else if", "elsif": "else if",
    "elif": "else if", "module": "trait", "fmod": "trait"}
WORDS_OF_LOGIC = {"and": "/\\", "or": "\\/", "iff": "<=>", "implies": "=>", "xor": "~=", "eq": "=", "ne": "~=",
                  "is": "==", "equals": "==", "|": "\\/", "||": "\\/", "&": "/\\", "&&": "/\\"}
REPLACES = frozenset(["->", "=>", "to", "as", "=", "<-", "/"])
COMMENTS = ("//", "--", "/*", "#", "##", "---", "///", "***")


@dataclasses.dataclass(frozen=True)
class Try:
    """A guess: its title, the tokens that it is about, what its change says, and the edits that decide it."""
    title: str
    first: int
    last: int
    says: str
    edits: tuple
    more: tuple = ()


def habits(case):
    """Guesses by what people write who come from other languages."""
    first, last = region(case)
    for rule in (quantifiers, in_groups, forgotten_parts, in_references, in_shorthands, words_of_parts, in_clauses,
                 prefixes, conditionals, methods, applications, tuples, equalities, of_logic, without_else,
                 in_declarations, before_equations, comments,
                 other_ends, reserved):
        yield from rule(case, first, min(last, len(case.tokens)))


def quantifiers(case, first, last):
    for number in range(first, last):
        text, behind = case.text.text(number), case.text.text(number + 1)
        if text in FORALL:
            edits = [case.replace(number, "\\forall")]
            opened = behind == "(" and case.text.closing(number + 1)
            if opened:
                edits += [case.remove(number + 1), case.remove(opened)]
            yield Try(f"`{text}` is written `\\forall`", number, number, "write `\\forall`", tuple(edits))
        elif text in ("for", "\\forall") and behind in ("all", "every", "each"):
            yield Try(f"`{text} {behind}` is written `\\forall`", number, number + 1, "write `\\forall`",
                      (case.replace(number, "\\forall", number + 1),))
        elif text in ("var", "vars", "variables"):
            first = number - (case.text.text(number - 1) in ("declare", "let"))
            yield Try(f"`{case.text.between(first, number + 1)}` is written `\\forall`", first, number,
                      "write `\\forall`", (case.replace(first, "\\forall", number),))


def in_groups(case, first, last):
    """What is wrong with variables behind `\\forall`."""
    at, text = case.at, case.text.text
    start = next((number for number in range(at - 1, first - 1, -1) if text(number) == "\\forall"), None)
    if start is None:
        return
    if text(start + 1) == "(":
        close = case.text.closing(start + 1)
        yield Try("no parentheses stand around variables", start + 1, close, "take them out",
                  (case.remove(start + 1), case.remove(close)))
    variables, behind = case.trait.groups(start + 1, len(case.tokens))
    if variables and behind == at and at < len(case.tokens) and not case.tokens[at].is_name:
        yield Try(f"no {case.word(at)} stands behind the variables", at, at, "take it out", (case.remove(at),))
    yield from sorts_first(case, start)
    if at < len(case.tokens) and case.tokens[at].is_name and case.tokens[at - 1].is_name:
        for words in (":", ","):
            yield Try(f"missing `{words}` before {case.word(at)}?", at, at, f"put `{words}` before {case.word(at)}",
                      (case.insert(words, at),))
    names = range(start + 1, at)
    if names and all(case.tokens[number].is_name or text(number) == "," for number in names):
        for sort in sorted({one.range for one in case.operators} | {one for two in case.operators for one in two.domain}
                           - {"Bool"})[:5]:
            yield Try("the variables have no sort", start + 1, at - 1, f"say their sort, as `: {sort}`",
                      (Edit(case.ahead(at), case.ahead(at), f": {sort}".encode()),))
    for number in range(start + 4, min(at + 1, len(case.tokens))):
        if text(number + 1) == ":" and text(number - 2) == ":" and case.tokens[number].is_name \
                and case.tokens[number - 1].is_name:
            yield Try(f"missing `,` before `{text(number)}`?", number, number, f"put `,` before `{text(number)}`",
                      (case.insert(",", number),))


def sorts_first(case, start):
    """`\\forall Stack s, Item i` for `\\forall s: Stack, i: Item`."""
    known, edits, number, shown = sorts_of(case.operators), [], start + 1, ""
    while case.text.text(number) in known and number + 1 < len(case.tokens) and case.tokens[number + 1].is_name:
        new = f"{case.text.text(number + 1)}: {case.text.text(number)}"
        edits.append(case.replace(number, new, number + 1))
        shown = shown or new
        number += 3 if case.text.text(number + 2) == "," else 2
    if edits:
        yield Try(f"variables stand before their sorts: `{shown}`", start + 1, number - 1, f"write `{shown}`",
                  tuple(edits))


def forgotten_parts(case, first, last):
    """The word that begins a part."""
    word = {"": "introduces", "includes": "introduces", "assumes": "introduces", "introduces": "asserts"}.get(case.part)
    line = case.at
    while 0 < line < len(case.tokens) and not case.text.begins_line(line):
        line -= 1
    for number in dict.fromkeys((case.at, line)):
        if word and case.trait.head <= number < len(case.tokens):
            yield Try(f"missing `{word}` before {case.word(number)}?", number, number,
                      f"put `{word}` before {case.word(number)}", (case.insert(word, number),))


def in_references(case, first, last):
    """What other languages write in references."""
    at, text = case.at, case.text.text
    if case.part not in ("includes", "assumes", ""):
        return
    if text(at) == "[":
        close = case.text.closing(at)
        what = "formals" if at == 1 else "replacements"
        yield Try(f"{what} stand in parentheses, not in brackets", at, close, "write parentheses",
                  (case.replace(at, "("), case.replace(close, ")")))
    if text(at) == ":" and text(1) == "(" and at < case.text.closing(1):
        said = [number for number in range(2, case.text.closing(1) - 1) if text(number) == ":"]
        yield Try("formals stand without sorts", 1, case.text.closing(1), "take what is said of them out",
                  tuple(case.remove(number, number + 1) for number in said))
    for number in range(max(first, at - 2), min(at + 1, len(case.tokens) - 1)):
        for old, new in ((-1, 1), (1, -1)) if text(number) in REPLACES and number > 0 else ():
            old, new = text(number + old), text(number + new)
            yield Try(f"a replacement is written `{new} for {old}`, the new name first", number - 1, number + 1,
                      f"write `{new} for {old}`", (case.replace(number - 1, f"{new} for {old}", number + 1),))
        if text(number) in ("as", "named") and case.tokens[number + 1].is_name:
            yield Try(f"no `{text(number)}` stands behind a reference", number, number + 1, "take it out",
                      (case.remove(number, number + 1),))
        if text(number) in ("with", "where", "renaming", "by"):
            yield Try(f"no `{text(number)}` stands before replacements", number, number, "take it out",
                      (case.remove(number),))


def in_shorthands(case, first, last):
    """What other languages write in enumerations, tuples and unions."""
    at, text = case.at, case.text.text
    if case.part != "":
        return
    if text(at) in ("{", "[", "(") and text(at - 1) == "of":
        close = case.text.closing(at)
        yield Try("no brackets stand around constants and fields", at, close, "take them out",
                  (case.remove(at), case.remove(close)))
    if text(at - 2) in (",", "of", ":") and text(at - 1) not in (",", "of"):
        yield Try(f"`{text(at - 1)}` has no sort: `{text(at - 1)}: ..`", at - 1, at - 1, "say its sort",
                  (Edit(case.ahead(at), case.ahead(at), b": Bool"),))


def methods(case, first, last):
    """`s.push(i)` for `push(s, i)`."""
    at, text = case.at, case.text.text
    if text(at) != "(" or text(at - 2) != "." or all(operator.name != text(at - 1) for operator in case.operators):
        return
    start = at - 3
    if text(start) == ")":
        depth = 0
        while start > first:
            depth += (text(start) == ")") - (text(start) == "(")
            if depth == 0:
                break
            start -= 1
        start -= case.tokens[start - 1].is_name
    receiver, close = case.text.between(start, at - 2), case.text.closing(at)
    inside = [part for part in (receiver, case.text.between(at + 1, close)) if part]
    new = f"{text(at - 1)}({', '.join(inside)})"
    yield Try(f"an operator stands before its arguments: `{short(new)}`", start, close, f"write `{short(new)}`",
              (case.replace(start, new, close),))


def applications(case, first, last):
    """`put t b` for `put(t, b)`: arguments without parentheses."""
    counts, edits, shown, number = {}, [], "", first
    for operator in case.operators:
        if operator.domain and operator.name[0].isalnum():
            counts.setdefault(operator.name, len(operator.domain))
    end = next((number for number in range(case.at, len(case.tokens)) if case.text.text(number) in PART_WORDS
                or case.text.text(number) == ";"), len(case.tokens))
    while number < end:
        token, behind = case.tokens[number], case.text.token(number + 1)
        reader = Reader(case.text, number + 1, end)
        if token.text in counts and behind is not None and behind.is_name and not case.text.begins_line(number + 1):
            try:
                parts = []
                for _ in range(counts[token.text]):
                    start = reader.at
                    reader.post()
                    parts.append(case.text.between(start, reader.at))
                new = f"{token.text}({', '.join(parts)})"
                edits.append(case.replace(number, new, reader.at - 1))
                shown = shown or new
                number = reader.at - 1
            except NoTerm:
                pass
        number += 1
    if edits:
        yield Try(f"arguments stand in parentheses: `{shown}`", first, case.at, f"write `{shown}`", tuple(edits))


def conditionals(case, first, last):
    """`c ? a : b`, `a if c`, and `implies` inside a term."""
    text, size = case.text.text, len(case.tokens)
    for number in range(first, min(case.at + 1, size)):
        colon = next((place for place in range(number, min(number + 60, size)) if text(place) == ":"), None)
        if text(number) == "?" and colon:
            start = before_term(case, number - 1, first) + 1
            yield Try("`? :` is written `if`, `then`, `else`", number, colon, "write `if`, `then` and `else`",
                      (case.insert("if", start), case.replace(number, " then "), case.replace(colon, " else ")))
    for number in range(case.at, max(case.at - 30, 0), -1):
        if text(number) == "implies" and not case.text.begins_line(number):
            yield Try("`implies` is written `=>` inside a term", number, number, "write `=>`",
                      (case.replace(number, "=>"),))
    if text(case.at) == "if":
        start = before_term(case, case.at - 1, first) + 1
        branch = case.text.between(start, case.at)
        end = next((number for number in range(case.at, size) if text(number) == ";" or text(number) in PART_WORDS
                    or case.line_of(number) > case.line_of(case.at)), size)
        edits = (case.remove(start, case.at - 1), Edit(case.ahead(end), case.ahead(end),
                                                       f" then {branch} else {branch}".encode()))
        yield Try("`if` stands behind a term; it is written `if c then a else b`", start, case.at,
                  "put the term behind `then`, and another one behind `else`", edits)


def before_term(case, number, first):
    """The number of the token before the term that ends at a token."""
    depth = 0
    while number >= first:
        text = case.text.text(number)
        depth += (text in (")", "]", "}")) - (text in ("(", "[", "{"))
        if depth < 0 or (depth == 0 and text in ("==", "=", "else", "then", ",", ";")):
            break
        number -= 1
    return number


def before_equations(case, first, last):
    """Words and numbers before equations."""
    at, text = case.at, case.text.text
    for number in range(max(first, at - 4), min(at + 1, len(case.tokens))):
        if text(number) in ("eq", "ceq", "equation", "law", "rule", "axiom", "defn", "def"):
            yield Try(f"no `{text(number)}` stands before an equation", number, number, "take it out",
                      (case.remove(number),))
    if text(first + 1) == ":" and first < at and case.tokens[first].is_name and case.part in ("asserts", "implies"):
        yield Try("equations have no numbers or names", first, first + 1, "take the name out",
                  (case.remove(first, first + 1),))
    numbered = [number for number in range(first, len(case.tokens) - 2) if text(number) in ("(", "[")
                and text(number + 2) in (")", "]") and (number == first or case.text.begins_line(number))
                and number <= at + 200]
    if numbered:
        yield Try("equations have no numbers or names", numbered[0], numbered[0] + 2, "take them out",
                  tuple(case.remove(number, number + 2) for number in numbered))


def words_of_parts(case, first, last):
    """Words that are nearly, or elsewhere, those that begin parts and shorthands."""
    for number in range(max(case.at - 3, 0), min(case.at + 2, len(case.tokens))):
        token = case.tokens[number]
        if not token.is_name:
            continue
        wanted = [SYNONYMS.get(token.text.lower()), nearest(token.text, RESERVED)]
        for word in dict.fromkeys(word for word in wanted if word and word != case.part):
            yield Try(f"`{token.text}` is written `{word}`", number, number, f"write `{word}`",
                      (case.replace(number, word),))


def prefixes(case, first, last):
    """A prefix symbol directly behind an infix one."""
    for number in range(first, last):
        sign = case.text.token(number + 1)
        if not case.tokens[number].is_symbol or sign is None or not (sign.is_symbol or sign.text == "~"):
            continue
        reader = Reader(case.text, number + 2, len(case.tokens))
        try:
            reader.post()
        except NoTerm:
            continue
        shown = case.text.between(number + 1, reader.at)
        edits = (Edit(sign.start, sign.start, b"("), Edit(case.ahead(reader.at), case.ahead(reader.at), b")"))
        yield Try(f"`{sign.text}` stands directly behind `{case.tokens[number].text}`: it needs parentheses, "
                  f"`({shown})`", number + 1, reader.at - 1, f"write `({shown})`", edits,
                  ("No prefix symbol may follow an infix one without parentheses.",))


def tuples(case, first, last):
    """Parentheses with commas that aren't arguments."""
    depth = 0
    for number in range(min(case.at, len(case.tokens) - 1), first - 1, -1):
        text = case.text.text(number)
        depth += (text == ")") - (text == "(") if number < case.at or text == "(" else 0
        if depth < 0:
            close = case.text.closing(number)
            if case.text.text(close) == ")":
                shown = "[" + case.text.between(number + 1, close) + "]"
                yield Try(f"a tuple is written in brackets: `{shown}`" if len(shown) < 40 else
                          "a tuple is written in brackets", number, close, f"write `{shown}`",
                          (case.replace(number, "["), case.replace(close, "]")))
            return


def equalities(case, first, last):
    """Signs between the sides of an equation that are written otherwise, or stand twice."""
    text, at = case.text.text, case.at
    earlier = [number for number in range(first, min(at, len(case.tokens))) if text(number) == "=="]
    if text(at) == "==" and earlier:
        for number in range(earlier[0] + 1, at):
            if case.text.begins_line(number):
                yield Try(f"missing `;` before {case.word(number)}?", number, number,
                          f"put `;` before {case.word(number)}", (case.insert(";", number),))
        yield Try("a second `==` in one equation; inside a side it is written `=`", at, at, "write `=`",
                  (case.replace(at, "="),))
        yield Try("a second `==` in one equation; inside a side it is written `=`", earlier[0], earlier[0],
                  "write `=` for the first", (case.replace(earlier[0], "="),))
    for number in range(max(first, at - 2), min(at + 1, len(case.tokens))):
        if text(number) in (":", "=") and text(number + 1) in ("=", "=="):
            shown = case.text.between(number, number + 2)
            yield Try(f"`{shown}` is written `==`", number, number + 1, "write `==`",
                      (case.replace(number, "==", number + 1),))
        for sign in {"=": ("==", "=>"), "->": ("=>", "=="), "<-": ("==",)}.get(text(number), ()):
            yield Try(f"`{text(number)}` stands where `{sign}` is meant?", number, number, f"write `{sign}`",
                      (case.replace(number, sign),))
    for number in range(max(first, at - 40), at):
        if text(number) == "=" and text(number + 1) == "if":
            yield Try("`=` before `if`: an equation is written with `==`", number, number, "write `==`",
                      (case.replace(number, "=="),))


def of_logic(case, first, last):
    for number in range(max(first, case.at - 2), min(case.at + 1, len(case.tokens))):
        text = case.text.text(number)
        if text.lower() in WORDS_OF_LOGIC and case.part in ("asserts", "implies"):
            sign = WORDS_OF_LOGIC[text.lower()]
            yield Try(f"`{text}` is written `{sign}`", number, number, f"write `{sign}`",
                      (case.replace(number, sign),))
        if text == "not":
            yield Try("`not` is written `~`", number, number, "write `~`", (case.replace(number, "~"),))


def without_else(case, first, last):
    """An `if` without its `then` or `else`; the other branch, put in once more, decides it."""
    opened = []
    for number in range(first, min(case.at, len(case.tokens))):
        text = case.text.text(number)
        if text == "if":
            opened.append([number, None])
        elif text == "then" and opened:
            opened[-1][1] = number
        elif text == "else" and opened:
            opened.pop()
    if case.text.text(case.at) == "then" and not opened:
        start = before_term(case, case.at - 1, first)
        yield Try("`then` without its `if`", case.at, case.at, f"put `if` before {case.word(start + 1)}",
                  (case.insert("if", start + 1),))
    for number, then in opened[-1:]:
        where = f"`if` of line {case.line_of(number)}"
        if then is None and case.text.text(case.at - 1) == "}":
            yield from in_braces(case, number)
        if then is None:
            yield Try(f"the {where} has no `then`", number, number, "put `then` behind its condition",
                      (case.insert("then", case.at),))
            yield Try(f"the {where} has no `then`", number, number, "put `then` behind its condition",
                      (case.insert("then", case.at - 1),))
            continue
        branch = case.text.between(then + 1, case.at)
        yield Try(f"the {where} has no `else`", number, case.at - 1, "put `else` and a term behind it",
                  (Edit(case.ahead(case.at), case.ahead(case.at), f" else {branch} ".encode()),))


def in_braces(case, number):
    """`if c { a } else { b }`, which is refused at `else`."""
    close = case.at - 1
    start = next((place for place in range(close, number, -1) if case.text.text(place) == "{"), None)
    if start is None:
        return
    edits = [case.replace(start, " then ("), case.replace(close, ")")]
    if case.text.text(case.at) == "else" and case.text.text(case.at + 1) == "{":
        edits += [case.replace(case.at + 1, "("), case.replace(case.text.closing(case.at + 1), ")")]
    yield Try("`if` is written with `then`, without braces", number, close, "write `if c then a else b`", tuple(edits))


def in_declarations(case, first, last):
    """What other languages write in declarations."""
    if case.part != "introduces":
        return
    at, text = case.at, case.text.text
    if text(at) == "(" and text(at - 1) == ":":
        close = case.text.closing(at)
        yield Try("no parentheses stand around the sorts of a domain", at, close, "take them out",
                  (case.remove(at), case.remove(close)))
    for number in (at - 1, at):
        if text(number) == "{" and text(number - 1) in PART_WORDS | {"trait"}:
            close = case.text.closing(number)
            yield Try("no braces stand around a part", number, close, "take them out",
                      (case.remove(number), case.remove(close)))
    if text(at) in (";", "."):
        yield Try(f"declarations end without `{text(at)}`", at, at, "take it out", (case.remove(at),))
    if text(at) == "," and case.text.begins_line(at + 1):
        yield Try("declarations end without `,`", at, at, "take it out", (case.remove(at),))
    for number in range(max(first, at - 3), min(at + 1, len(case.tokens))):
        if text(number) in ("sort", "sorts", "type", "types"):
            last = next((place for place in range(number + 1, len(case.tokens)) if case.text.begins_line(place)),
                        len(case.tokens)) - 1
            yield Try(f"sorts aren't declared by themselves: no `{text(number)}`", number, last, "take the line out",
                      (case.remove(number, last),), ("A sort is there because a signature has it.",))
        if text(number) in ("op", "ops", "fun", "func", "function", "const", "constant", "operator"):
            yield Try(f"no word stands before a declaration: `{text(number)}`", number, number, "take it out",
                      (case.remove(number),))
        if text(number) in ("*", "**", "->") and number and text(number - 1) != ":":
            yield Try(f"`{text(number)}` between sorts: argument sorts stand between commas", number, number,
                      "write `,`", (case.replace(number, ","),))
    if text(at) == "x" or text(at - 1) == "x":
        number = at if text(at) == "x" else at - 1
        yield Try("`x` between sorts: argument sorts stand between commas", number, number, "write `,`",
                  (case.replace(number, ","),))


def in_clauses(case, first, last):
    """What the books write before and in clauses."""
    at, text = case.at, case.text.text
    taken = [number for number in range(max(first, at - 4), min(at + 3, len(case.tokens)))
             if text(number) in ("sort", "freely", "sorts")]
    if taken and case.part in ("asserts", "implies"):
        words = " and ".join(f"`{text(number)}`" for number in taken)
        yield Try(f"a clause has no {words}: `S generated by f, g`", taken[0], taken[-1], f"take {words} out",
                  tuple(case.remove(number) for number in taken))
    by = next((number for number in range(at - 1, first - 1, -1) if text(number) in ("by", "converts")), None)
    if by is None and case.part != "converts":
        return
    if text(at) == "(" and case.tokens[at - 1].is_name:
        close = case.text.closing(at)
        yield Try(f"operators are named without arguments here: `{text(at - 1)}`", at - 1, close,
                  "take the parentheses out", (case.remove(at, close),))
    bare = [number for number in range((by or at) + 1, at + 1) if text(number) == ":" and text(number + 2) == ","]
    if bare:
        yield Try(f"missing `->` in the signature of `{text(bare[0] - 1)}`?", bare[0] - 1, bare[0] + 1,
                  "put `->` before its range", tuple(case.insert("->", number + 1) for number in bare))
    inside = next((number for number in range(at, (by or at) + 1, -1) if text(number) == "("), None)
    if inside and inside != at and case.tokens[inside - 1].is_name:
        yield Try(f"operators are named without arguments here: `{text(inside - 1)}`", inside - 1,
                  case.text.closing(inside), "take the parentheses out",
                  (case.remove(inside, case.text.closing(inside)),))
    for number in (at, at - 1):
        if text(number) in ("{", "(", "["):
            close = case.text.closing(number)
            yield Try("no brackets stand around the operators of a clause", number, close, "take them out",
                      (case.remove(number), case.remove(close)))
    for number in range(max(by or 0, at - 2), min(at + 1, len(case.tokens))):
        if text(number) in ("and", "&", "or"):
            yield Try(f"`{text(number)}` stands where `,` is meant?", number, number, "write `,`",
                      (case.replace(number, ","),))


def comments(case, first, last):
    """A comment as other languages have it."""
    line = case.line_of(case.at)
    for number in range(max(first, case.at - 40), min(case.at + 1, len(case.tokens))):
        text = case.text.text(number)
        if text in COMMENTS and case.line_of(number) >= line - 1:
            start = case.tokens[number].start
            yield Try(f"a comment begins with `%`, not with `{text}`", number, number, "write `%`",
                      (Edit(start, start, b"% "),))


def other_ends(case, first, last):
    """Ends of other languages: `end`, `.` and `end trait`; and `()` behind a constant."""
    at, text = case.at, case.text.text
    size = len(case.tokens)
    for number in range(max(0, size - 3), size):
        if text(number).lower() in ("end", "endfm", "endtrait", "endmodule", "endm") and at >= number:
            yield Try(f"a trait has no `{text(number)}`: it goes to the end of the file", number, size - 1,
                      "take it out", (case.remove(number, size - 1),))
    if text(at - 1) == "(" and text(at) == ")":
        yield Try("a constant is written without `()`", at - 1, at, "take the parentheses out",
                  (case.remove(at - 1, at),))
    ends = [number for number in range(first, min(at + 200, size)) if text(number) == "."
            and (number + 1 == size or case.text.begins_line(number + 1)) and case.part in ("asserts", "implies")]
    if ends:
        yield Try("equations end with `;`, not with `.`", ends[0], ends[0], "write `;`",
                  tuple(case.replace(number, ";") for number in ends))


def reserved(case, first, last):
    """A reserved word in the place of a name."""
    for number in (case.at, case.at - 1):
        token = case.text.token(number)
        if token and token.kind == "word" and token.text in RESERVED and token.text not in PART_WORDS:
            yield Try(f"`{token.text}` is a reserved word, no name", number, number, "take another name",
                      (case.replace(number, token.text + "1"),))
