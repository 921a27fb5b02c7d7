#!/usr/bin/env python3
"""Tests the tool that looks for proofs, and its page: python3 tools/gate/check_try.py PROGRAM

PROGRAM is a command, in quotes where it has words of its own. docs/TRYING.md is carried out in a scratch folder, from
top to bottom, with PROGRAM as `larch` on the path. Of some duties of examples/handbook, one for each move,
tools/larch-try finds a block, and the program calls the duty proved with it, in the folder's script. The course of
proofs is followed as the program goes it: the marks of a block are those that box checking wants. Ends with 'N passed,
N failed', and status 1 where one failed."""
import os
import pathlib
import re
import shlex
import subprocess
import sys
import tempfile

from tests import Tests

sys.path.insert(0, str(pathlib.Path(__file__).resolve().parents[1]))
from desk import TOP  # noqa: E402
from companions import proving, trying  # noqa: E402
from companions.formulas import Language  # noqa: E402
from companions.listed import operator_of  # noqa: E402
from companions.program import Session  # noqa: E402
from companions.scripts import Script, findings  # noqa: E402

PAGE, BOOK, TOOL = TOP / "docs/TRYING.md", TOP / "examples/handbook", TOP / "tools/larch-try"
# Duties of the handbook, and the move that proves each.
FOUND = {"ListAppend imply.3": "induction", "Natural imply.4": "induction", "SetAlgebra imply.25": "partition",
         "InsertionSort imply.2": "cases", "TotalOrder imply.5": "instantiate", "Stack imply.1": "critical-pairs",
         "Equivalence imply.2": "instantiate", "Group imply.3": "critical-pairs", "Weekday imply.1": "induction",
         "PartialOrder imply.2": "=>", "Queue convert.5": "induction"}
LIMITS = trying.Limits(20, 3000)
TERMS = ["f(a, b + a)", "(a + b) + (- a)", "a[b]", "{a, b}", "if a = b then a else b", "a.left", "~(a < b)",
         "(a < b) /\\ ((b < a) => (a = b))", "(a ~= b) <=> (p(a) \\/ true)"]
OPERATORS = ["a: -> S", "b: -> S", "f: S, S -> S", "__ + __: S, S -> S", "- __: S -> S", "__[__]: S, S -> S",
             "{__, __}: S, S -> S", "__.left: S -> S", "__ < __: S, S -> Bool", "p: S -> Bool"]


def page(tests, program):
    """The page's files and commands, from top to bottom."""
    text = PAGE.read_text(encoding="utf-8")
    with tempfile.TemporaryDirectory() as place:
        folder = pathlib.Path(place)
        (folder / "larch").write_text(f"#!/bin/sh\nexec {shlex.join(program)} \"$@\"\n")
        (folder / "larch").chmod(0o755)
        (folder / "larch-try").symlink_to(TOOL)
        path = {**os.environ, "PATH": f"{folder}:{os.environ['PATH']}", "LARCH": str(folder / "larch")}
        for name, block in re.findall(r"^(?:`(\w+\.l\w+)`:\n\n)?```\w*\n(.*?)^```$", text, re.M | re.S):
            if name:
                (folder / name).write_text(block)
                continue
            for command, wanted in re.findall(r"^\$ (.*)\n((?:(?!\$ ).*\n)*)", block, re.M):
                done = subprocess.run(command, shell=True, cwd=folder, env=path, capture_output=True, text=True,
                                      check=False)
                said = re.sub(r"\d+ replays in [\d.]+ s", "N replays", done.stdout + done.stderr)
                tests.see(f"{PAGE.name}: {command}", said, re.sub(r"\d+ replays in [\d.]+ s", "N replays", wanted))


def handbook(tests, program):
    """Blocks are found, and the script with them in the place of its own is as good as before."""
    files = {path.name: path.read_bytes() for path in BOOK.glob("*.l*")}
    with Session(program) as session:
        for duty, move in FOUND.items():
            trait, label = duty.split()
            listing = trying.listing(program, files, trait)
            verdict, outcome, theory = trying.try_duty(session, files, trait, label, listing, LIMITS)
            found = outcome and outcome.state
            tests.look(found, f"{duty}: no block is found: {verdict}")
            if not found:
                continue
            tests.look(any(move in command for command in found.commands), f"{duty}: {found.commands} and no {move}")
            replays = trying.Replays(session, files, trait, label)
            text = proving.shown(label, theory.statement, found, True)
            said = session.lines({**replays.files, f"{trait}.lp": (replays.before + "\n" + text).encode()})
            tests.see(f"{duty} with its marks", findings(said)[trait].verdicts[label].kind, "proved")


def terms(tests):
    """A term that is written is read as the same term."""
    language = Language([operator_of(line) for line in OPERATORS])
    for text in TERMS:
        sort = "Bool" if any(sign in text for sign in ("<", "=>")) and not text.startswith("if") else "S"
        term = language.term(text, sort)
        tests.look(term, f"{text} isn't read")
        if term:
            again = language.term(language.shown(term[0]), sort)
            tests.see(f"{text}, written and read", again and again[0], term[0])


def scripts(tests):
    """The light reading of scripts."""
    script = Script(b"set box-checking on\n% c\nduty imply.1 % d\n  qed\nduty imply.0\nduty convert.2\nduty imply.1\n")
    tests.see("blocks", [(block.label, block.first, block.last) for block in script.blocks],
              [("imply.1", 3, 6), ("convert.2", 6, 7), ("imply.1", 7, 9)])
    tests.see("the block that counts", [script.first_at(line) is not None for line in (2, 4, 6, 7)],
              [False, True, True, False])
    tests.see("boxes are checked", script.checks_boxes(), True)
    tests.see("a script without a block", script.without({"imply.1"}), "set box-checking on\n% c\nduty convert.2")


def main():
    if len(sys.argv) != 2:
        sys.exit(__doc__)
    program = shlex.split(sys.argv[1])
    program[0] = str(pathlib.Path(program[0]).resolve()) if "/" in program[0] else program[0]
    tests = Tests()
    terms(tests)
    scripts(tests)
    page(tests, program)
    handbook(tests, shlex.join(program) if len(program) > 1 else program[0])
    return tests.end("proofs that are found")


if __name__ == "__main__":
    sys.exit(main())
