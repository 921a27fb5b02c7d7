#!/usr/bin/env python3
"""Runs the pages for beginners: python3 tools/gate/check_tutorial.py PROGRAM

PROGRAM is a command, in quotes where it has words of its own. docs/TUTORIAL.md is carried out in a scratch folder, from
top to bottom: a block below a line "`NAME`:" is a file, as it is to be typed; in a block whose first line begins with
`$ ` each such line is a command, and below it stands what it prints. PROGRAM is on the path as `larch`, and LARCH_TOP
is this checkout; the home is a folder of its own. The page has to show a right trait, a wrong one, an explained
mistake, a listing, an accepted certificate and an installed program. Of docs/COMING_FROM_LSL.md the `lsl` blocks are
run as those of docs/TRAITS.md are, and each row of its tables is put into the trait that stands above it as
`Frame.lsl`, in the place of the comment `% HERE` of the row's part: what the row has first is refused with the code and
at the words that it says, and what it has last is right. Ends with 'N passed, N failed', and status 1 where one
failed."""
import os
import pathlib
import re
import shlex
import shutil
import subprocess
import sys
import tempfile

import check_guide
import check_readme
from tests import Tests

TOP = pathlib.Path(__file__).resolve().parents[2]
TUTORIAL, COMING = TOP / "docs/TUTORIAL.md", TOP / "docs/COMING_FROM_LSL.md"
STEP = re.compile(r"^`([\w.]+)`:\n\n```\w*\n(.*?)^```$|^```\w*\n(\$ .*?)^```$", re.M | re.S)
# What a beginner has to have seen at the end, as words of commands and lines that they print.
SEEN = {"a right trait": ("check", r"^trait \w+$"), "a wrong trait": ("check", r"^trait \w+ error "),
        "an explained mistake": ("explain", r"^\w+\.lsl:\d+:\d+: .* \[[A-Z-]+\]$"),
        "a listing": ("obligations", r"^imply\.1 "), "an accepted certificate": ("verify", r"^accepted$"),
        "an installed program": ("bin/larch check", r"^trait \w+$")}


# The tutorial ------------------------------------------------------------------------------------

def calls(block):
    """The commands of a block, each with what is printed below it."""
    for part in re.split(r"^\$ ", block, flags=re.M)[1:]:
        command, _, printed = part.partition("\n")
        yield command, printed


def steps(page):
    """What a page tells to do, in order: files as names and texts, commands as texts and what they print."""
    for name, text, block in STEP.findall(page):
        if name:
            yield "file", name, text
        else:
            yield from (("call", command, printed) for command, printed in calls(block))


def typed(command, folder, path):
    """What a command prints where it is typed."""
    env = {**os.environ, "PATH": f"{path}:{os.environ['PATH']}", "LARCH_TOP": str(TOP), "LC_ALL": "C",
           "HOME": str(path.parent / "home")}
    done = subprocess.run(["bash", "-c", command], cwd=folder, env=env, stdout=subprocess.PIPE,
                          stderr=subprocess.STDOUT, timeout=600, check=False)
    return done.stdout.decode(errors="replace")


def tutorial(tests, program):
    """Carries the tutorial out."""
    seen = set()
    with tempfile.TemporaryDirectory() as place:
        path, folder = pathlib.Path(place, "path"), pathlib.Path(place, "traits")
        for made in (path, folder, pathlib.Path(place, "home")):
            made.mkdir()
        check_readme.put_larch(path, program)
        for kind, name, text in steps(TUTORIAL.read_text(encoding="utf-8")):
            if kind == "file":
                (folder / name).write_text(text, encoding="utf-8")
                continue
            printed = typed(name, folder, path)
            tests.see(f"$ {name}", printed, text)
            seen |= {what for what, (word, line) in SEEN.items() if word in name and re.search(line, printed, re.M)}
    tests.see("what the tutorial shows", sorted(seen), sorted(SEEN))


# Coming from another language --------------------------------------------------------------------

def rows(page):
    """The frame of each table with the rows below it: the part, what is written, the answer, and what to write."""
    frames = r"^`Frame\.lsl`:\n\n```lsl\n(.*?)^```\n(.*?)(?=^`Frame\.lsl`:|\Z)"
    for frame, rest in re.findall(frames, page, re.M | re.S):
        for line in re.findall(r"^\| (?:head|introduces|asserts) \| .*$", rest, re.M):
            part, written, answer, better = [cell.strip() for cell in re.split(r" \|(?= )", line[1:-1])][:4]
            yield frame, part, written.strip("`"), answer, better.strip("`")


def framed(frame, part, text):
    """The frame with a text in the place of the comment of a part."""
    before, behind = frame.split(f"% HERE {part}\n")
    return before + text + "\n" + behind


def answered(program, text):
    """What a report says of Frame.lsl: `right`, or the code and what stands at its place to the end of the line."""
    said = check_guide.said(program, {"Frame": text.encode()}, "Frame")
    found = re.fullmatch(r"(\d+):(\d+) ([A-Z-]+)", said)
    if not found:
        return said, ""
    lines = text.split("\n")
    return found[3], lines[int(found[1]) - 1][int(found[2]) - 1:]


def tables(tests, program, page):
    """Each row of the tables: its first text is refused as it says, its last one is right."""
    count = 0
    for frame, part, written, answer, better in rows(page):
        count += 1
        code, at = re.fullmatch(r"([A-Z-]+) at (.*)", answer).groups()
        said, rest = answered(program, framed(frame, part, written))
        tests.see(f"{written}: the code", said, code)
        at = at.strip("`")
        tests.see(f"{written}: the place", rest[:len(at)], at)
        if better:
            tests.see(better, answered(program, framed(frame, part, better)), ("right", ""))
    tests.see("rows of tables", count > 0, True)


def coming(tests, program):
    """The blocks and the tables of the page for those who know another language."""
    page = COMING.read_text(encoding="utf-8")
    files = {}
    for name, trait, expected in check_guide.examples(page):
        files[name] = trait.encode()
        tests.see(f"the block {trait[:60]!r}", check_guide.said(program, files, name), expected)
        if name == "T":
            del files[name]
    tables(tests, program, page)


def main():
    if len(sys.argv) != 2:
        sys.exit(__doc__)
    program = shlex.split(sys.argv[1])
    program[0] = str(pathlib.Path(shutil.which(program[0]) or program[0]).resolve())
    tests = Tests()
    tutorial(tests, program)
    coming(tests, program)
    return tests.end("tutorial")


if __name__ == "__main__":
    sys.exit(main())
