"""A light reading of traits that never refuses: what a text refers to, its symbols, and positions as editors count."""
import bisect
import functools
import re

AT_START = {"start": {"line": 0, "character": 0}, "end": {"line": 0, "character": 0}}


def pattern(text):
    """A pattern of bytes; NAME in it stands for a word. They are a light reading of traits that never refuses."""
    word = r"[A-Za-z0-9](?:[A-Za-z0-9']|_(?=[A-Za-z0-9]))*(?![A-Za-z0-9']|_[A-Za-z0-9])"
    return re.compile(text.replace("NAME", word).encode())


TOKEN = pattern(r"NAME|__|\\[A-Za-z]+|/\\|\\/|(?:[!#$&*+<>=?@^|~-]|/(?!\\))+|[()\[\]{},;:.]")
PART = pattern(r"(?<![\w'\\])(?:includes|assumes|introduces|asserts|implies|converts|exempting)(?!'|_?[^\W_])")
REFERENCE = pattern(r"(NAME)(?:\s*\([^()]*\))?")
LIST = pattern(r"\s*(REF(?:\s*,\s*REF)*)".replace("REF", r"NAME(?:\s*\([^()]*\))?"))
# Behind `implies`, what isn't followed by a word, a `\forall` or the end is an equation or a clause.
BEHIND = pattern(r"\s*(?!generated\b|partitioned\b)(?:NAME|\\forall|\Z)")
SIGNATURE = pattern(r":([^:]*?->\s*NAME)")
FORM = pattern(r"((?:\[[^\]]*\]|\{[^}]*\}|[^,:\[{])+)(?::[^:]*?->\s*NAME)?")
VARIABLES = pattern(r"\\forall[^:\\]*:\s*NAME(?:\s*,[^:\\]*:\s*NAME)*")
CLAIM = pattern(r"(?:CLAUSE)?(?:(?!CLAUSE)[^;])+".replace("CLAUSE", r"NAME\s+(?:generated|partitioned)\b"))
SHORTHAND = pattern(r"(?<![\w'])(NAME)\s+(enumeration|tuple|union)\s+of\s+(NAME(?:\s*[,:]\s*NAME)*)")
FIELDS = pattern(r"([^:]+)(?::\s*(NAME)\s*,?)?")
TRIMMED = pattern(r"(?s)[^;\s](?:.*[^;\s])?")


def without_comments(text):
    return re.sub(rb"%[^\n]*", lambda comment: b" " * len(comment[0]), text)


def one_line(text):
    return " ".join(text.decode(errors="replace").split())


def parts_of(text):
    """The words that begin parts, each with the offsets of what stands behind it; the text is without comments."""
    words = list(PART.finditer(text))
    return [(word[0], word.end(), end) for word, end in zip(words, [*(word.start() for word in words[1:]), len(text)])]


def references(text, word, start, end):
    """The list of references right behind `includes`, `assumes` or `implies`, as a match, or nothing."""
    found = word in (b"includes", b"assumes", b"implies") and LIST.match(text, start, end)
    return found if found and (word != b"implies" or BEHIND.match(text, found.end(), end)) else None


def reference_names(text):
    """Matches whose group 1 is the name of a trait that the text refers to."""
    bare = without_comments(text)
    lists = [references(bare, *part) for part in parts_of(bare)]
    return [name for found in lists if found for name in REFERENCE.finditer(bare, *found.span(1))]


def symbols_of(text):
    """Operators and claims as an editor lists them; of shorthands the constants and fields that stand there."""
    bare, symbols = without_comments(text), []

    def add(detail, start, end):
        found = TRIMMED.search(bare, start, end)
        if found:
            kind = 14 if detail.startswith("->") else 12 if "->" in detail else 7  # constant, function, property
            where = range_of(text, *found.span())
            symbols.append(dict(name=one_line(found[0]), detail=detail, kind=kind, range=where, selectionRange=where))

    for short in SHORTHAND.finditer(bare):
        for fields in FIELDS.finditer(bare, *short.span(3)):
            sort, part = one_line(short[1]), one_line(fields[2] or b"")
            detail = f"{sort} -> {part}" if short[2] == b"tuple" else f"{part} -> {sort}".lstrip()
            for name in FORM.finditer(bare, *fields.span(1)):
                add(detail, *name.span(1))
    for word, start, end in parts_of(bare):
        if word == b"introduces":
            for signature in SIGNATURE.finditer(bare, start, end):
                for form in FORM.finditer(bare, start, signature.start()):
                    add(one_line(signature[1]), *form.span(1))
                start = signature.end()
        elif word == b"converts":
            for form in FORM.finditer(bare, start, end):
                add("converted", *form.span(1))
        elif word == b"implies":
            found = references(bare, word, start, end)
            start = found.end() if found else start
            claims = VARIABLES.sub(lambda variables: b";" * len(variables[0]), bare[start:end])
            for claim in CLAIM.finditer(claims):
                add("implied", start + claim.start(), start + claim.end())
    return symbols


@functools.lru_cache(4)
def line_starts(text):
    """Where the lines of an editor begin."""
    return [0, *(end.end() for end in re.finditer(rb"\r\n|\n|\r", text))]


def range_of(text, start, end):
    """Offsets as editors count: lines and characters from 0, characters in pieces of 16 bits."""
    def position(offset):
        line = bisect.bisect(line_starts(text), offset) - 1
        front = text[line_starts(text)[line]:offset].decode(errors="replace")
        return {"line": line, "character": len(front.encode("utf-16-le")) // 2}
    return {"start": position(start), "end": position(end)}


def offset_at(text, position):
    """The offset of an editor's position."""
    start = (line_starts(text)[position["line"]:] or [len(text)])[0]
    front = text[start:].partition(b"\n")[0].decode(errors="replace").encode("utf-16-le")[:2 * position["character"]]
    return start + len(front.decode("utf-16-le", "replace").encode())


def range_of_token(text, line, column):
    """The range of the token at a position of the program, counted from 1 and in bytes; or of one byte."""
    before = text.split(b"\n")[:line - 1]
    start = min(sum(map(len, before)) + len(before) + column - 1, len(text))
    token = TOKEN.match(text, start)
    return range_of(text, start, token.end() if token else min(start + 1, len(text)))
