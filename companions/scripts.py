"""A light reading of proof scripts, and what a report says of the duties of a trait. It takes any bytes and never
refuses."""
import dataclasses
import re

from .tokens import Text

LABEL = r"(?:assume|imply|convert)\.[1-9][0-9]{0,5}"
DUTY_LINE = re.compile(rf"[ \t\r]*duty[ \t\r]+({LABEL})[ \t\r]*(?:%.*)?$")
MARK_LINE = re.compile(r"[ \t\r]*(<>|\[\])")
VERDICT = re.compile(rf"({LABEL}) (?:(proved)|suspended goals (\d+): (.*)|refused (\d+) ([A-Z-]+))")
ASIDE = re.compile(r"script (\d+) ([A-Z-]+)")
TRAIT = re.compile(r"trait (\w+)(?: error (\d+):(\d+) ([A-Z-]+))?")


@dataclasses.dataclass(frozen=True)
class Verdict:
    """What a report says of a duty: `proved`; `suspended` with the number of open goals and the first of them; or
    `refused` with the line of the script, 0 where no line is meant, and the code."""
    label: str
    kind: str
    goals: int = 0
    goal: str = ""
    line: int = 0
    code: str = ""


@dataclasses.dataclass
class Findings:
    """What a report says of a trait: its duties in order, the lines of its script that begin a block that isn't
    replayed, and whether the trait itself is refused."""
    verdicts: dict = dataclasses.field(default_factory=dict)
    asides: list = dataclasses.field(default_factory=list)
    is_refused: bool = False


def verdict_of(line):
    """What a line of a report says of a duty, or nothing."""
    found = VERDICT.fullmatch(line)
    if found is None:
        return None
    label, proved, goals, goal, at, code = found.groups()
    if proved:
        return Verdict(label, "proved")
    return Verdict(label, "refused", line=int(at), code=code) if code else Verdict(label, "suspended", int(goals), goal)


def findings(lines):
    """What the lines of a report say of each trait, by its name."""
    found, here = {}, Findings()
    for line in lines:
        trait, verdict, aside = TRAIT.fullmatch(line), verdict_of(line), ASIDE.fullmatch(line)
        if trait:
            here = found[trait[1]] = Findings(is_refused=trait[4] is not None)
        elif verdict:
            here.verdicts[verdict.label] = verdict
        elif aside:
            here.asides.append((int(aside[1]), aside[2]))
    return found


@dataclasses.dataclass
class Block:
    """A block: its label, and the numbers of its first line and of the one behind its last, from 1."""
    label: str
    first: int
    last: int


class Script:
    """A script as lines, with its preamble and its blocks; of several blocks of a label the first counts."""

    def __init__(self, data):
        self.lines = data.decode(errors="replace").split("\n")
        starts = [(number, found[1]) for number, found in
                  ((number, DUTY_LINE.match(line)) for number, line in enumerate(self.lines, 1)) if found]
        self.preamble_end = starts[0][0] if starts else len(self.lines) + 1
        ends = [number for number, _ in starts[1:]] + [len(self.lines) + 1]
        self.blocks = [Block(label, number, end) for (number, label), end in zip(starts, ends)]

    def block(self, label):
        """The first block of a label, or nothing."""
        return next((block for block in self.blocks if block.label == label), None)

    def block_at(self, line):
        """The block in which a line stands, or nothing."""
        return next((block for block in self.blocks if block.first <= line < block.last), None)

    def first_at(self, line):
        """The block in which a line stands, where it is the first one of its label, or nothing."""
        block = self.block_at(line)
        return block if block and self.block(block.label) is block else None

    def checks_boxes(self):
        """Whether the preamble has marks checked."""
        said = [words(line) for line in self.lines[:self.preamble_end - 1]]
        said = [one[-1] for one in said if "".join(one[:-1]) == "setbox-checking"]
        return bool(said) and said[-1] == "on"

    def without(self, labels):
        """The text without the blocks of some labels."""
        gone = {number for block in self.blocks if block.label in labels for number in range(block.first, block.last)}
        return "\n".join(line for number, line in enumerate(self.lines, 1) if number not in gone)


def words(line):
    """The words of a line, without its comment."""
    return line.split("%")[0].split()


def is_mark(line):
    return MARK_LINE.match(line) is not None


def is_command(line):
    """Whether a line is more than blanks and a comment."""
    return is_mark(line) or bool(Text(line.encode()).tokens)
