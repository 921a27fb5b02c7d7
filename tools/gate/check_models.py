#!/usr/bin/env python3
"""Tests the page on finite models and the tool that looks for them: python3 tools/gate/check_models.py PROGRAM

PROGRAM is a command, in quotes where it has words of its own. docs/MODELS.md is carried out in a scratch folder, from
top to bottom, as docs/TUTORIAL.md is, with PROGRAM as `larch` on the path; each line of its table of answers is written
by some command there or by one that is tried here. Of each trait of `examples/` that has a model whose sorts have at
most three values (four where that is said) tools/larch-find-model finds one, of each other one it says so; and it finds
models in which wrong claims fail, of traits in which a slip is made. What it writes is tried once more. Ends with 'N
passed, N failed', and status 1 where one failed."""
import os
import pathlib
import re
import shlex
import shutil
import subprocess
import sys
import tempfile

import check_readme
import check_tutorial
from tests import Tests

sys.path.insert(0, str(pathlib.Path(__file__).resolve().parents[1]))
from desk import TOP  # noqa: E402
from companions.scope import reached  # noqa: E402

PAGE, FIND, EXAMPLES = TOP / "docs/MODELS.md", TOP / "tools/larch-find-model", TOP / "examples"
# The traits that have models with few values, with how many values their sorts have.
SMALL = {
    "Nat": "1", "One": "1", "Queue": "1 1", "library/FiniteMap": "2 1 1", "library/Light": "3",
    "library/PhoneBook": "2 1 1", "library/TotalOrder": "1", "lessons/Monoid": "1", "lessons/Morphism": "1 1",
    "lessons/PartialOrder": "1", "lessons/Ring": "1", "lessons/Set": "2 1", "lessons/SortedList": "1 1",
    "lessons/TotalOrder": "1"}
# Those that need four values, and no more: lights at a crossing of one road, and a run of four events.
FOURS = {"library/Crossing": "3 4 1", "lessons/Crossing": "2 2 4 4 4"}
# Slips in traits that make a claim wrong: the trait, what stands in it, what is put there, the claim, and the words.
SLIPS = [
    ("lessons/Set", "S partitioned by \\in", "", "imply.3", ""),
    ("lessons/SortedList", "isSorted(l) => ", "", "imply.2", ""),
    ("lessons/Crossing", "if c.gate = down then set_signal(c, go) else c", "set_signal(c, go)", "imply.2", "--most 4"),
    ("lessons/Monoid", "converts unit", "implies \\forall x, y: M  x * y == y * x", "imply.1", ""),
    ("lessons/Ring", "x * 0 == 0", "x + x == 0", "imply.1", ""),
    ("Nat", "s(x + y)\n", "s(x + y)\n  implies \\forall x: N  s(x) == x\n", "imply.1", "")]
# Calls that the page's table tells of and that it doesn't show: a model of the page's trait, the words, and the answer.
HUGE = ("Huge: trait\n  introduces\n    c: -> S\n  implies\n    \\forall p, q, r, t, u: S\n"
        "      p = q == (r = t) /\\ (u = p)\n")
ANSWERS = [("Nat", "modle\n", "Nat", "malformed at line 1\n", 6), ("Nat", "model\n", "Nope", "no trait\n", 1),
           ("Nat", "model\nsort N 2\nop 1 0\nop 2 1 0\n", "Nat", "malformed at line 5\n", 6),
           ("Huge", "model\nsort S 16\nop 1 0\n", "Huge", "too large\n", 7)]


def run(words, folder, environment=None):
    """What a command prints, and its status; what it says on standard error."""
    done = subprocess.run([str(word) for word in words], cwd=folder, capture_output=True, text=True, timeout=1200,
                          env=environment, check=False)
    return done.stdout, done.returncode, done.stderr


# The page ----------------------------------------------------------------------------------------

def page(tests, program):
    """Each file and each command of the page, and the answers that its table has beside these."""
    text, seen = PAGE.read_text(encoding="utf-8"), []
    with tempfile.TemporaryDirectory() as place:
        path, folder = pathlib.Path(place, "path"), pathlib.Path(place, "here")
        path.mkdir()
        folder.mkdir()
        check_readme.put_larch(path, program)
        find = path / "larch-find-model"
        find.write_text(f'#!/bin/sh\nLARCH={path / "larch-program"} exec {shlex.quote(str(FIND))} "$@"\n')
        find.chmod(0o755)
        for kind, name, shown in check_tutorial.steps(text):
            if kind == "file":
                (folder / name).write_text(shown)
            else:
                tests.see(f"$ {name}", check_tutorial.typed(name, folder, path), shown)
                seen.append(shown)
        (folder / "Huge.lsl").write_text(HUGE)
        for name, model, trait, answer, status in ANSWERS:
            (folder / "Tried.mod").write_text(model)
            words = ["model", trait, "Tried.mod", f"{name}.lsl"]
            tests.see(f"{words} with {model!r}", run([*program, *words], folder)[:2], (answer, status))
            seen.append(answer)
    tests.see("commands of the page", len(seen) > len(ANSWERS) + 3, True)
    for row in re.findall(r"^\| `([^`]*)`.*\| .* \| ", text, re.M):
        pattern = re.sub(r"\b[NK]$", r"\\d+", row)
        tests.see(f"{row} is shown", any(re.search(f"^{pattern}$", answer, re.M) for answer in seen), True)


# The tool ----------------------------------------------------------------------------------------

class Finder:
    """The tool with a program, and how what it writes is tried."""

    def __init__(self, tests, program, place):
        self.tests, self.program, self.place = tests, program, place
        alone = place / "larch-program"
        alone.write_text(f'#!/bin/sh\nexec {shlex.join(program)} "$@"\n')
        alone.chmod(0o755)
        self.environment = {**os.environ, "LARCH": str(alone)}

    def look(self, name, folder, *words):
        """What the tool writes for a trait of a folder, its status and what it says."""
        trait, files = pathlib.Path(name).name, {path.name: path.read_bytes() for path in folder.glob("*.lsl")}
        named = [folder / one for one in reached(files, f"{trait}.lsl")] or [folder / f"{trait}.lsl"]
        return run([FIND, trait, *named, "--seconds", "600", *words], self.place, self.environment)

    def small(self, name, folder, sizes, *words):
        """The tool finds a model of a trait, with so many values."""
        text, status, said = self.look(name, folder, *words)
        found = " ".join(re.findall(r"^sort \S+ (\d+)$", text, re.M))
        self.tests.see(f"{name}: a model", (status, found, said), (0, sizes, ""))

    def none(self, name, folder):
        """The tool says that there is none, after it looked at all ways."""
        text, status, said = self.look(name, folder)
        self.tests.see(f"{name}: no model", (text, status), ("", 1))
        self.tests.look(re.fullmatch(r"larch-find-model: (\d+) of \1 ways .*: there is no such model\n", said),
                        f"{name}: what is said: {said}")

    def fails(self, name, old, new, label, words):
        """The tool finds a model in which a claim fails, where what stands in a trait is replaced."""
        folder = self.place / f"{name.replace('/', '.')}.{label}"
        shutil.copytree((EXAMPLES / name).parent, folder, ignore=lambda place, names: [
            one for one in names if not one.endswith(".lsl")])
        path = folder / f"{pathlib.Path(name).name}.lsl"
        text = path.read_text()
        self.tests.has(f"{name}: what is replaced", text, old)
        path.write_text(text.replace(old, new))
        model, status, said = self.look(name, folder, "--fails", label, *words.split())
        self.tests.see(f"{name}: a model in which {label} fails", (status, said), (0, ""))
        (folder / "Found.mod").write_text(model)
        names = [one.name for one in sorted(folder.glob("*.lsl"))]
        answer = run([*self.program, "model", path.stem, "Found.mod", *names], folder)[0]
        self.tests.has(f"{name}: the program's answer", answer, f"{label} fails\n")


def tool(tests, program):
    """The tool over all examples, with slips, and where its words, files or time don't do."""
    with tempfile.TemporaryDirectory() as place:
        finder = Finder(tests, program, pathlib.Path(place))
        for path in [*sorted(EXAMPLES.glob("*.lsl")), *sorted(EXAMPLES.glob("l*/*.lsl"))]:
            name = str(path.relative_to(EXAMPLES))[:-4]
            if name in SMALL:
                finder.small(name, path.parent, SMALL[name])
            elif name in FOURS:
                finder.small(name, path.parent, FOURS[name], "--most", "4")
            else:
                finder.none(name, path.parent)
        for slip in SLIPS:
            finder.fails(*slip)
        folder = EXAMPLES / "lessons"
        output, status, said = finder.look("Crossing", folder, "--seconds", "0")
        tests.see("no time: the status", (output, status), ("", 1))
        tests.look(re.search(r" 0 of 243 ways .*; the first of the others is Gate 1, Signal 1, ", said), said)
        for words in (["Nope"], ["Crossing", "--fails", "imply.9"], ["Crossing", "--most", "17"]):
            output, status, said = finder.look(words[0], folder, *words[1:])
            tests.see(f"{words}", (output, status, bool(said)), ("", 2, True))
        output, status, said = run([FIND, "Two", "Nope.lsl"], place, finder.environment)
        tests.see("a file that isn't there", (output, status), ("", 2))


def main():
    if len(sys.argv) != 2:
        sys.exit(__doc__)
    program = shlex.split(sys.argv[1])
    program[0] = str(pathlib.Path(shutil.which(program[0]) or program[0]).resolve())
    tests = Tests()
    page(tests, program)
    tool(tests, program)
    return tests.end("models")


if __name__ == "__main__":
    sys.exit(main())
