#!/usr/bin/env python3
"""Runs the examples of docs/TRAITS.md against the built program: python3 tools/gate/check_guide.py [PROGRAM WORD..]

Each block marked `lsl` is a file T.lsl, or of the name that stands over it as a line "`NAME.lsl`:", which stays for the
blocks below it; the line below a block is what the report says of it: `right`, or `L:C CODE`. Three files
that are too long to print are made here. Each code of the program has exactly one part `### CODE`, and each such part
is of a code; no other document, tool or comment of a crate repeats a sentence of such a part. Ends with 1 where an
answer is another one, a code lacks its part, a sentence stands twice, or no example is found."""
import pathlib
import re
import subprocess
import sys

TOP = pathlib.Path(__file__).resolve().parents[2]


def examples(text):
    """The names of the files, the blocks and the lines below them."""
    found = re.findall(r"(?:^`([A-Za-z]+)\.lsl`:\n\n)?^```lsl\n(.*?)^```\n(.*?)$", text, re.M | re.S)
    return [(name or "T", block, line) for name, block, line in found]


def long_examples():
    """A trait with 201 open parentheses, one with 5,001 head tokens, and one that is right, with a term of overloaded
    symbols, 4,990 inside each other."""
    head = "T: trait introduces a: -> Bool\n  asserts\n    "
    yield "T", head + "(" * 201 + "a" + ")" * 201 + "\n", "3:205 DEEP"
    yield "T", head + "a" + " = a" * 2500 + "\n", "3:10005 SIZE"
    overloaded = "T: trait introduces\n    z: -> N\n    d: -> M\n    -__: N -> N\n    -__: N -> M\n"
    yield "T", overloaded + "  asserts\n    d == " + "- " * 4990 + "z\n", "right"


def without_part(text):
    """The codes of the program that have no part or several, and the parts that are of no code."""
    codes = re.findall(r'"([A-Z]+(?:-[A-Z]+)*)"', (TOP / "crates/larch_base/src/code.rt").read_text())
    parts = re.findall(r"^### ([A-Z-]+)$", text, re.M)
    wrong = [code for code in codes if parts.count(code) != 1] + [part for part in parts if part not in codes]
    return wrong if codes else ["no code found in crates/larch_base/src/code.rt"]


def told_elsewhere(text):
    """The sentences of the parts of codes that stand in another document, tool, file of an editor or file of a crate as
    well; blocks of documents show what programs print, and aren't looked at."""
    def plain(words):
        return " ".join(words.lower().split())

    parts = re.findall(r"^### [A-Z-]+\n(.*?)(?=^#|^```|\Z)", text, re.M | re.S)
    told = {plain(sentence) for part in parts for sentence in re.split(r"(?<=\.)\s", part) if len(sentence) > 25}
    places = ["*.md", "crates/*/*.md", *(f"crates/*/{folder}/**/*" for folder in ("src", "specs", "proofs")),
              *(f"{folder}/**/*" for folder in ("docs", "tools", "editors", "bench"))]
    for path in sorted({path for place in places for path in TOP.glob(place)}):
        if path.is_file() and path != TOP / "docs/TRAITS.md" and "node_modules" not in path.parts:
            shown = re.sub(r"^```.*?^```$", "", path.read_text(errors="replace"), flags=re.M | re.S)
            other = plain(re.sub(r"^\s*(?://[/!]?|--) ", "", shown, flags=re.M))
            yield from (f"{path.relative_to(TOP)}: {sentence}" for sentence in told if sentence in other)


def said(program, files, name):
    """What a report on these files says of the trait of a name."""
    commands = b"".join(b"put %s.lsl %d\n%s" % (file.encode(), len(text), text) for file, text in files.items())
    done = subprocess.run([*program, "session"], input=commands + b"report\n", capture_output=True, timeout=60)
    lines = [line for line in done.stdout.decode().splitlines() if line.split()[:2] == ["trait", name]]
    return "right" if lines == [f"trait {name}"] else " ".join(lines).removeprefix(f"trait {name} error ")


def main():
    program = sys.argv[1:] or [str(TOP / "crates/larch/out/larch")]
    guide = (TOP / "docs/TRAITS.md").read_text()
    found = examples(guide) + list(long_examples())
    files = {}
    wrong = 0
    for code in without_part(guide):
        wrong += 1
        print(f"not exactly one part in docs/TRAITS.md: {code}")
    for place in told_elsewhere(guide):
        wrong += 1
        print(f"a code's sentence in two places: {place}")
    for name, trait, expected in found:
        files[name] = trait.encode()
        answer = said(program, files, name)
        if name == "T":
            del files[name]
        if answer != expected:
            wrong += 1
            print(f"expected {expected}, said {answer}:\n{trait[:400]}")
    print(f"guide: {len(found)} examples, {wrong} wrong")
    return 1 if wrong or len(found) < 20 else 0


if __name__ == "__main__":
    sys.exit(main())
