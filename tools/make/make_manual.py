#!/usr/bin/env python3
"""Makes the man page of docs/COMMANDS.md: python3 tools/make/make_manual.py

The page says what the commands are; this tool has the order of the man page's sections and how they are called. A
heading with the name of a command is a part of COMMANDS, and a heading that isn't known gets a section of its own
before the examples. How the man page is installed isn't told in it. `manual()` has the text; run as a program it
writes manual/larch.1."""
import pathlib
import re
import textwrap

TOP = pathlib.Path(__file__).resolve().parents[2]
PAGE, MADE = TOP / "docs/COMMANDS.md", TOP / "manual/larch.1"
DATE = "2026-11-28"
NAME = "larch \\- checks traits of the Larch Shared Language and proofs of their claims"
SECTIONS = {"Commands": "DESCRIPTION", "The files of a call": "FILES", "How a call ends": "EXIT STATUS",
            "In a script or a CI job": "EXAMPLES"}
SPELLED = {"\\": "\\e", "'": "\\(aq", "`": "\\(ga", "^": "\\(ha", "~": "\\(ti"}
LEFT_OUT = "Manual and completion"
STANDING = r"\b(?:FILE|TRAIT|LABEL|CERT|MODEL|COMMAND|WORD|NAME|CODE|[NKLCT])\b"


# The page ----------------------------------------------------------------------------------------

def blocks(text):
    """The page as pairs of a kind and its lines: `heading`, `code`, `table` and `paragraph`."""
    lines = iter(text.splitlines())
    for line in lines:
        if line.startswith("```"):
            yield "code", list(iter(lambda: next(lines), "```"))
        elif line.startswith("#"):
            yield "heading", [line.lstrip("# ")]
        elif line.startswith("|"):
            rows = [line]
            for row in lines:
                if not row.startswith("|"):
                    break
                rows.append(row)
            yield "table", rows
        elif line:
            yield "paragraph", [line]


def cells(row):
    return [cell.strip() for cell in row.strip("|").split("|")]


def commands():
    """The words of each command as the page's first table has them, with what it does."""
    rows = next(rows for kind, rows in blocks(PAGE.read_text()) if kind == "table")
    return [(words.strip("`"), does) for words, does in map(cells, rows[2:])]


def usage():
    """The line that the page says is answered where words mean no command."""
    return re.search(r"`(usage: [^`]*)`", PAGE.read_text())[1]


def is_command(heading):
    return heading.strip("`") in [words.split()[0] for words, _ in commands()]


def parts():
    """The blocks under each heading."""
    found = {}
    for kind, lines in blocks(PAGE.read_text()):
        if kind == "heading":
            under = found.setdefault(lines[0], [])
        else:
            under.append((kind, lines))
    return found


# The text of a man page --------------------------------------------------------------------------

def plain(text):
    """Text as it is, whatever it begins with."""
    return "".join(SPELLED.get(letter, letter) for letter in text)


def code(text):
    """What stands in a span of code: what it writes is bold, and what it stands for is slanted."""
    pieces = re.split(f"({STANDING})", text)
    shown = [plain(piece).replace("-", "\\-") for piece in pieces]
    return "".join(f"\\f{'BI'[place % 2]}{piece}\\fR" for place, piece in enumerate(shown) if piece)


def flowing(text):
    """A paragraph; each sentence begins a line."""
    text = re.sub(r"\[([^]]*)\]\([^)]*\)", r"`docs/\1`", text)
    pieces = re.split(r"`([^`]*)`", text)
    shown = ""
    for place, piece in enumerate(pieces):
        shown += code(piece) if place % 2 else re.sub(STANDING, r"\\fI\g<0>\\fR", plain(piece))
    sentences = re.sub(r"(?<=[a-z)R][.:?]) (?=[A-Z\\])", "\n", shown).split("\n")
    return [guarded(line) for sentence in sentences for line in
            textwrap.wrap(sentence, 78, break_long_words=False, break_on_hyphens=False)]


def guarded(line):
    """A line of text that isn't taken for a request."""
    return ("\\&" if line[:1] in (".", "'") else "") + line


def example(lines):
    return [".RS 4", ".EX", *(guarded(plain(line).replace("-", "\\-")) for line in lines), ".EE", ".RE"]


def table(rows):
    """Each row under its first cell; where it has more than one further cell, each with what stands above it."""
    (_, *titles), *rest = [cells(row) for row in rows if not re.fullmatch(r"[|\s-]*", row)]
    shown = []
    for head, *others in rest:
        shown += [".TP", " ".join(flowing(head))]
        said = [(title, cell) for title, cell in zip(titles, others) if cell]
        if len(titles) == 1:
            said = [("", cell) for _, cell in said]
        for place, (title, cell) in enumerate(said):
            shown += [".br"] * (place > 0) + flowing((title + ": " if title else "") + cell)
    return shown


def section(under):
    """The blocks under one heading."""
    shown = []
    for place, (kind, lines) in enumerate(under):
        if kind == "table":
            shown += table(lines)
        elif kind == "code":
            shown += [".PP"] * (place > 0) + example(lines)
        elif lines[0].startswith("- "):
            shown += [r".IP \(bu 2", *flowing(lines[0][2:])]
        else:
            shown += [".PP"] * (place > 0) + flowing(lines[0])
    return shown


def synopsis():
    """A line for each command."""
    lines = []
    for place, (words, _) in enumerate(commands()):
        lines += [".br"] * (place > 0) + [code("larch " + words)]
    return lines


def see_also():
    """The other pages that the page names."""
    named = sorted(set(re.findall(r"\b[A-Z]+\.md\b", PAGE.read_text())))
    return flowing("In the folder of the sources: " + ", ".join(f"`docs/{name}`" for name in named) + ".")


def manual():
    """The whole man page."""
    found = parts()
    under = {SECTIONS.get(heading, heading.upper()): below for heading, below in found.items()
             if not is_command(heading) and heading != LEFT_OUT}
    described = under.pop("DESCRIPTION")
    table_at = [kind for kind, _ in described].index("table")
    listed = section(described[table_at:])
    for heading, below in found.items():
        if is_command(heading):
            listed += [".SS " + heading.strip("`"), *section(below)]
    examples = under.pop("EXAMPLES")
    whole = {"NAME": [NAME], "SYNOPSIS": synopsis(), "DESCRIPTION": section(described[:table_at]), "COMMANDS": listed}
    whole.update({heading: section(below) for heading, below in under.items()})
    whole.update({"EXAMPLES": section(examples), "SEE ALSO": see_also()})
    lines = ['.\\" Made by tools/make/make_manual.py of docs/COMMANDS.md.', f'.TH LARCH 1 {DATE} larch "User commands"']
    for heading, shown in whole.items():
        lines += [f".SH {heading}", *shown]
    return "\n".join(lines) + "\n"


if __name__ == "__main__":
    MADE.write_text(manual())
    print(MADE.relative_to(TOP))
