"""A light reading of a file's bytes as tokens with their places. It takes any bytes and never refuses."""
import bisect
import functools
import re

WORD = r"[A-Za-z0-9](?:[A-Za-z0-9']|_(?=[A-Za-z0-9]))*(?![A-Za-z0-9']|_[A-Za-z0-9])"
KINDS = re.compile(
    r"(?P<comment>%[^\n]*)|(?P<blank>[ \t\r\n]+)|(?P<word>WORD)|(?P<marker>__)|(?P<backslash>\\[A-Za-z]+)"
    r"|(?P<symbol>/\\|\\/|(?:[!#$&*+<>=?@^|~-]|/(?!\\))+)|(?P<mark>[()\[\]{},;:.])"
    r"|(?P<bad>[\x80-\xff]+|(?s:.))".replace("WORD", WORD).encode())
RESERVED = frozenset(
    "trait includes assumes introduces asserts implies converts exempting generated partitioned by for if then else "
    "enumeration tuple union of".split())
PART_WORDS = frozenset("includes assumes introduces asserts implies converts exempting".split())
CONNECTIVES = frozenset(["=>", "<=>", "/\\", "\\/"])
EQUALITIES = frozenset(["=", "~="])
# Symbols with a meaning of their own, which can't be declared.
FIXED = CONNECTIVES | EQUALITIES | {"~", "==", "->", "\\forall"}
CLOSING = {"(": ")", "[": "]", "{": "}"}


class Token:
    """A token: its kind (word, marker, backslash, symbol, mark or bad), its text, and where it begins and ends."""
    __slots__ = ("kind", "text", "start", "end")

    def __init__(self, kind, text, start, end):
        self.kind, self.text, self.start, self.end = kind, text, start, end

    def __repr__(self):
        return f"{self.kind} {self.text} at {self.start}"

    @property
    def is_name(self):
        """A word that isn't reserved."""
        return self.kind == "word" and self.text not in RESERVED

    @property
    def is_symbol(self):
        """A symbol that could be declared."""
        return self.kind in ("symbol", "backslash") and self.text not in FIXED


class Text:
    """A file's bytes with their tokens; comments and blanks are none."""

    def __init__(self, data):
        self.data, self.tokens, self.comments = data, [], []
        for found in KINDS.finditer(data):
            kind = found.lastgroup
            if kind == "comment":
                self.comments.append(found[0])
            elif kind != "blank":
                self.tokens.append(Token(kind, found[0].decode(errors="replace"), *found.span()))
        self.starts = [token.start for token in self.tokens]
        self.lines = [0, *(end.end() for end in re.finditer(b"\n", data))]

    def offset(self, line, column):
        """The offset of a line and a column, both from 1; never behind the end."""
        line = min(max(line, 1), len(self.lines))
        return min(self.lines[line - 1] + max(column, 1) - 1, len(self.data))

    def place(self, offset):
        """The line and the column of an offset, both from 1."""
        line = bisect.bisect(self.lines, offset)
        return line, offset - self.lines[line - 1] + 1

    def index(self, offset):
        """The number of the first token that begins at the offset or behind it."""
        return bisect.bisect_left(self.starts, offset)

    def token(self, index):
        """The token of a number, or nothing."""
        return self.tokens[index] if 0 <= index < len(self.tokens) else None

    def text(self, index):
        """The text of the token of a number; empty where there is none."""
        return self.tokens[index].text if 0 <= index < len(self.tokens) else ""

    def begins_line(self, index):
        """Whether a token is the first of its line."""
        return index == 0 or self.place(self.tokens[index].start)[0] > self.place(self.tokens[index - 1].start)[0]

    def between(self, first, last):
        """What stands from a token to the one before another, on one line and without comments."""
        shown, end = "", None
        for token in self.tokens[first:last]:
            shown += (" " if end is not None and token.start > end else "") + token.text
            end = token.end
        return shown

    def closing(self, index, end=None):
        """The number of the token that closes the bracket at a token; of the last one, or the last one before another
        one, where none does."""
        end, depth = len(self.tokens) if end is None else end, 0
        for number in range(index, end):
            text = self.tokens[number].text
            depth += (text in ("(", "[", "{")) - (text in (")", "]", "}"))
            if depth <= 0:
                return number
        return end - 1


@functools.lru_cache(512)
def text_of(data):
    """The tokens of some bytes, read once."""
    return Text(data)


def short(words, most=40):
    """A piece of a text as a title shows it."""
    return words if len(words) <= most else words[:most - 3].rstrip() + ".."
