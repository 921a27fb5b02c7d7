"""A refusal with all that is known of it, and what is found out: the cause, and a change that mends it."""
import dataclasses
import functools
import time

from .declarations import file_of, trait_of
from .scope import BUILT_IN, Scope, reached

# The codes in the order in which the program looks for what is wrong; those of items and claims come last.
STAGES = {"LEX": 0, "SYNTAX": 1, "MIXED": 1, "DEEP": 1, "TRAIT-NAME": 2, "UNKNOWN-TRAIT": 3, "CYCLE": 3,
          "BAD-REFERENCE": 3, "RENAME": 3, "FIELD-TWICE": 4, "ARITY": 5, "BUILT-IN": 5}
LAST_STAGE = 6
NOTHING, FURTHER, PAST, RIGHT = range(4)
MOST_PROBES, MOST_SECONDS = 40, 2.0


@dataclasses.dataclass(frozen=True)
class Edit:
    """Bytes in the place of what stands from one offset to another."""
    start: int
    end: int
    new: bytes


@dataclasses.dataclass(frozen=True)
class Change:
    """A proposed change: what it does in words, its edits, and what the program says of the file with them: `right`,
    `further` where what is wrong then stands further on, or nothing where it wasn't asked."""
    says: str
    edits: tuple
    proved: str = ""


@dataclasses.dataclass(frozen=True)
class Cause:
    """Why a file is refused. The place is the program's; `start` and `end` are the offsets where it is to be mended, in
    the file `where`, which is the refused one but for references. `text` says what the code means in general."""
    file: str
    line: int
    column: int
    code: str
    title: str
    start: int
    end: int
    where: str
    change: object = None
    more: tuple = ()
    text: str = ""
    further: bool = False


@dataclasses.dataclass(frozen=True)
class Found:
    """What a module finds out: the title, the numbers of the tokens to be mended, a change, and further lines."""
    title: str
    first: object = None
    last: object = None
    change: object = None
    more: tuple = ()
    where: object = None
    span: object = None


def edited(data, edits):
    """The bytes with all edits."""
    for edit in sorted(edits, key=lambda edit: (edit.start, edit.end), reverse=True):
        data = data[:edit.start] + edit.new + data[edit.end:]
    return data


def former(offset, edits):
    """Where an offset of the edited bytes was before; what an edit has put in was at its beginning."""
    moved = 0
    for edit in sorted(edits, key=lambda edit: (edit.start, edit.end)):
        at = edit.start + moved
        if offset < at:
            break
        if offset < at + len(edit.new):
            return edit.start
        moved += len(edit.new) - (edit.end - edit.start)
    return offset - moved


class Probes:
    """Asks the program what it says of a file with edits, some times at most and not for long."""

    def __init__(self, files, refusal, session, most=None, seconds=None):
        self.name, self.session, self.left = refusal.file, session, (most or MOST_PROBES) if session else 0
        self.files, self.all = {name: files[name] for name in reached(files, refusal.file)}, files
        self.take(*{file_of(token.text) for token in trait_of(files[refusal.file]).tokens if token.kind == "word"})
        self.data, self.until, self.known = files[refusal.file], time.monotonic() + (seconds or MOST_SECONDS), {}
        self.before = self.place(self.data, refusal.line, refusal.column, refusal.code, ())

    def take(self, *names):
        """Takes files to those that are handed over, with what they reach."""
        for name in set(names) & self.all.keys():
            self.files.update((other, self.all[other]) for other in reached(self.all, name))

    @staticmethod
    def place(data, line, column, code, edits):
        """What orders refusals: the stage of the code, and the offset in the bytes before the edits."""
        lines = (edited(data, edits) if edits else data).split(b"\n")[:line - 1]
        return STAGES.get(code, LAST_STAGE), former(sum(map(len, lines)) + len(lines) + column - 1, edits)

    def outcome(self, edits):
        """How far the file comes with some edits, and the offset of what is wrong then."""
        edits = tuple(edits)
        if edits not in self.known:
            self.known[edits] = self.asked(edits)
        return self.known[edits]

    def asked(self, edits):
        if self.left <= 0 or time.monotonic() > self.until:
            return NOTHING, 0
        self.left -= 1
        try:
            found = self.session.report({**self.files, self.name: edited(self.data, edits)}).get(self.name)
        except (OSError, EOFError):
            self.left = 0
            return NOTHING, 0
        if found is None:
            return RIGHT, len(self.data)
        now = self.place(self.data, *found, edits)
        if now <= self.before:
            return NOTHING, now[1]
        return (PAST if now[0] > self.before[0] else FURTHER), now[1]

    def change(self, says, edits, least=FURTHER):
        """The change, with what the program says of it; nothing where it comes less far."""
        rank, _ = self.outcome(edits)
        return Change(says, tuple(edits), proof(rank)) if rank >= least else None


def proof(rank):
    return "right" if rank == RIGHT else "further" if rank else ""


class Case:
    """A refusal, the files and the trait as one reads them lightly, and the probes."""

    def __init__(self, files, refusal, session, report=None, most=None, seconds=None):
        self.files, self.refusal, self.code, self.report = files, refusal, refusal.code, report
        self.name, self.data = refusal.file, files[refusal.file]
        self.trait = trait_of(self.data)
        self.text, self.tokens = self.trait.text, self.trait.tokens
        self.offset = self.text.offset(refusal.line, refusal.column)
        self.at = self.text.index(self.offset)
        self.token = self.text.token(self.at)
        self.probes = Probes(files, refusal, session, most, seconds)
        self.scope = Scope(files)

    @functools.cached_property
    def operators(self):
        """All operators of the trait, the built-in ones behind the others."""
        return [*self.scope.operators(self.name), *BUILT_IN]

    @functools.cached_property
    def part(self):
        """The word of the part where the refusal stands, or nothing in the head and in shorthands. A word that begins a
        part stands in the part before it."""
        part = self.trait.part_at(self.offset - 1)
        if part is None or part.word not in ("includes", "assumes"):
            return part.word if part else ""
        between = [self.text.text(number) for number in range(part.first, self.at)]
        return "" if set(between) & {"enumeration", "tuple", "union", "of"} else part.word

    def word(self, number):
        """A token as a title shows it."""
        return f"`{self.text.text(number)}`" if number < len(self.tokens) else "the end of the file"

    def line_of(self, number):
        """The line of a token."""
        return self.text.place(self.tokens[number].start)[0] if number < len(self.tokens) else len(self.text.lines)

    def ahead(self, number):
        """The offset right behind the token before another one."""
        return self.tokens[number - 1].end if number > 0 and self.tokens else 0

    def insert(self, words, number):
        """Puts words before a token: marks right behind the token before it, others with blanks around them."""
        closes = words in (";", ",", ")", "]", "}", ":")
        offset = self.ahead(number) if closes or number >= len(self.tokens) else self.tokens[number].start
        before, behind = self.data[:offset][-1:], self.data[offset:offset + 1]
        front = "" if closes or not before.strip() or before in b"([{" else " "
        return Edit(offset, offset, (front + words + (" " if behind.strip() else "")).encode())

    def replace(self, number, words, last=None):
        """Puts words in the place of a token, or of those up to another one; at the end where there is none."""
        size = len(self.tokens)
        if not 0 <= number < size:
            return Edit(len(self.data), len(self.data), words.encode())
        last = number if last is None else max(number, min(last, size - 1))
        return Edit(self.tokens[number].start, self.tokens[last].end, words.encode())

    def remove(self, number, last=None):
        return self.replace(number, "", last)
