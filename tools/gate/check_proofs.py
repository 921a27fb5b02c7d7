#!/usr/bin/env python3
"""Runs the examples of docs/PROOFS.md with the built program: python3 tools/gate/check_proofs.py PROGRAM

PROGRAM is a command, in quotes where it has words of its own. A block marked `lsl` is a trait, a block marked `lp` a
script of the trait above it, or of the last one of the name that stands over it as "`NAME.lp`:". The block directly
below a script is what `replay` writes of the trait with that script, between the trait's line and the total, and the
block directly below a trait what it writes without one. A block that begins with `$ larch replay` shows a whole answer,
on the trait and the script above it; each script has to have one or the other.
The headings of the part "What each code means here" are the codes of scripts in docs/TRAITS.md and those that scripts
share with traits, and below each stands an example that has the code. Each kind of command stands in a block that is
proved, or before one. Ends with 'N passed, N failed', and status 1 where one failed."""
import pathlib
import re
import shlex
import shutil
import subprocess
import sys
import tempfile

from tests import Tests

TOP = pathlib.Path(__file__).resolve().parents[2]
PAGE, TRAITS = TOP / "docs/PROOFS.md", TOP / "docs/TRAITS.md"
# A trait or a script, which may have its trait's name above it, and the answer directly below, if there is one.
BLOCK = re.compile(r"(?:^`(\w+)\.lp`:\n\n)?^```(lsl|lp)\n(.*?)^```$(?:\n\n```\n(?!\$)(.*?)^```$)?"
                   r"|^```\n(\$ larch replay .*?)^```$", re.M | re.S)
CODES = "\n## What each code means here\n"
# Codes that lines of scripts share with traits.
SHARED = ["LEX", "SIZE", "UNKNOWN-SORT", "NO-READING", "AMBIGUOUS"]
# How lines of each kind of command begin.
KINDS = ["declare variable", "set rewriting-limit", "set box-checking on", "register height", "register status",
         "prove", "resume by cases", "resume by =>", r"resume by /\\", "resume by contradiction",
         "resume by induction on", "resume by partition", "instantiate", "critical-pairs", "normalize", "qed", "<>",
         r"\[\]"]


def examples(text):
    """The examples of a part of the page: the trait's name and text, the script or nothing, and what is shown below."""
    traits, name, script, waits = {}, None, None, False
    for named, kind, block, answer, shown in BLOCK.findall(text):
        if waits and not shown:
            yield name, traits.get(name), script, ""
        if kind == "lsl":
            name, script = re.match(r"\w+", block)[0], None
            traits[name] = block
        elif kind == "lp":
            name, script = named or name, block
        waits = kind == "lp" and not answer
        if answer or shown:
            yield name, traits.get(name), script, answer or shown
    if waits:
        yield name, traits.get(name), script, ""


def replayed(program, name, trait, script):
    """The words of a call, and what it writes."""
    with tempfile.TemporaryDirectory() as folder:
        files = [f"{name}.lsl"] + [f"{name}.lp"] * (script is not None)
        for file, text in zip(files, (trait, script)):
            pathlib.Path(folder, file).write_text(text, encoding="utf-8")
        done = subprocess.run([*program, "replay", *files], cwd=folder, stdout=subprocess.PIPE, timeout=600,
                              check=False)
    return f"$ larch replay {' '.join(files)}\n", done.stdout.decode()


def of_duties(answer):
    """What stands between the trait's line and the total."""
    return "".join(line + "\n" for line in answer.splitlines()[1:] if line != "end" and not line.startswith("total "))


def codes_of(answers):
    """The codes of answers' lines."""
    return {word for answer in answers for word in re.findall(r"^[\w.]+ (?:refused )?\d+ ([A-Z-]+)$", answer, re.M)}


def parts(tests, text):
    """Each code has a part, with an example that has the code."""
    scripts = TRAITS.read_text(encoding="utf-8").partition("\n## Codes of scripts\n")[2]
    wanted = re.findall(r"^### ([A-Z-]+)$", scripts, re.M) + SHARED
    rest = text.partition(CODES)[2]
    found = re.findall(r"^### ([A-Z-]+)$(.*?)(?=^##|\Z)", rest, re.M | re.S)
    tests.see("the codes that have parts", sorted(code for code, _part in found), sorted(wanted))
    for code, part in found:
        tests.look(code in codes_of(answer for *_, answer in examples(part)), f"{code}: no example has it")


def proved_blocks(script, answer):
    """The blocks of a script whose duties are proved, and its preamble where one is."""
    preamble, *blocks = re.split(r"^(?=duty )", script or "", flags=re.M)
    proved = re.findall(r"^(\S+) proved$", answer, re.M)
    return "".join([preamble] * bool(proved) + [block for block in blocks if block.split()[1] in proved])


def main():
    if len(sys.argv) != 2:
        sys.exit(__doc__)
    program = shlex.split(sys.argv[1])
    program[0] = str(pathlib.Path(shutil.which(program[0]) or program[0]).resolve())
    page = PAGE.read_text(encoding="utf-8")
    tests, proved, count = Tests(), "", 0
    for name, trait, script, expected in examples(page):
        count += 1
        words, answer = replayed(program, name, trait, script)
        whole = expected.startswith("$ ")
        tests.see(f"{name}, {script}", words + answer if whole else of_duties(answer), expected)
        proved += proved_blocks(script, answer)
    tests.look(count >= 20, f"{count} examples")
    for kind in KINDS:
        tests.look(re.search(rf"^ *{kind}\b" if kind[-1].isalpha() else rf"^ *{kind}", proved, re.M),
                   f"no block that is proved has a line {kind}")
    parts(tests, page)
    return tests.end(f"proofs: {count} examples")


if __name__ == "__main__":
    sys.exit(main())
