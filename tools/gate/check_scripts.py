#!/usr/bin/env python3
"""Reads the examples of scripts in the pages with a program that prints scripts:

    python3 tools/gate/check_scripts.py [PROGRAM WORD..]

PROGRAM prints what `larch_script_table` prints, which it is if none is given. The pages are docs/SCRIPTS.md and
docs/COMING_FROM_LSL.md. Each block marked `lp` is a script; the line below it says `read`, or the number and the code
of each line that is no command. Each kind of command has to stand in an example that is read. Ends with 1 where an
answer is another one, a kind has no example, or no example is found."""
import pathlib
import re
import subprocess
import sys

TOP = pathlib.Path(__file__).resolve().parents[2]
PAGES = [TOP / "docs/SCRIPTS.md", TOP / "docs/COMING_FROM_LSL.md"]
KINDS = ["declare", "limit", "boxes", "height", "status", "prove", "cases", "=>", "/\\", "contradiction", "induction",
         "partition", "instantiate", "pairs", "normalize", "qed", "mark", "bad"]


def examples(text):
    """The scripts, and the lines below them."""
    return re.findall(r"^```lp\n(.*?)^```\n(.*?)$", text, re.M | re.S)


def answer_on(lines):
    """What the page says of a script whose lines are printed so."""
    bad = [f"{words[1]} {words[3]}" for words in lines if words[2] == "bad"]
    return ", ".join(bad) or "read"


def main():
    program = sys.argv[1:] or [str(TOP / "crates/larch_script_table/out/larch_script_table")]
    found = [example for page in PAGES for example in examples(page.read_text())]
    texts = "\0".join(script for script, _line in found)
    done = subprocess.run(program, input=texts.encode(), capture_output=True, timeout=600)
    printed = done.stdout.decode().split("\0")
    wrong, kinds = 0, set()
    for (script, expected), answer in zip(found, printed + [""] * len(found)):
        lines = [line.split(" ") for line in answer.splitlines() if line.startswith(" ")]
        kinds.update(words[2] for words in lines)
        if answer_on(lines) != expected or not answer:
            wrong += 1
            print(f"expected {expected}, read {answer_on(lines)}:\n{script}")
    for kind in KINDS:
        if kind not in kinds:
            wrong += 1
            print(f"no example has a line that is read as {kind}")
    print(f"scripts: {len(found)} examples, {wrong} wrong")
    return 1 if wrong or len(found) < 5 else 0


if __name__ == "__main__":
    sys.exit(main())
