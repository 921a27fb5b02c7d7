#!/usr/bin/env python3
"""Tests the handbook of traits, examples/handbook: python3 tools/gate/check_handbook.py PROGRAM

PROGRAM is a command, in quotes where it has words of its own. It finds nothing wrong with any trait; each duty that it
lists has a block in the trait's script, in the order of the list, below a comment that is the duty's statement, with
the marks of boxes checked and `qed` at its end; and, where PROGRAM has the command `replay`, it calls each of them
proved, in one report over all files. Where it has the command `derive`, a session for each trait, with the files that
the trait reaches alone, derives each of its duties, and `verify` accepts each derivation in another call, over the same
traits without scripts. Where PROGRAM has the command `model`, each text `NAME.mod` is a model of its trait, in which
each claim holds. Each trait is in one family, its head says what it is for and where it is from, and the tables are
those that tools/make/make_handbook.py makes. The traits and claims that docs/HANDBOOK.md speaks of are there. Ends with
'N passed, N failed', and status 1 where one failed."""
import multiprocessing.pool
import pathlib
import re
import shlex
import shutil
import subprocess
import sys

sys.path[:0] = [str(pathlib.Path(__file__).resolve().parents[1] / part) for part in ("", "make")]
import derived  # noqa: E402
import make_handbook  # noqa: E402
from desk import TOP  # noqa: E402
from companions.scope import reached  # noqa: E402
from tests import Tests  # noqa: E402

BOOK, TOLD = TOP / "examples/handbook", TOP / "docs/HANDBOOK.md"
TRAITS, DUTIES = 60, 600
DUTY = re.compile(r"^(?:assume|imply|convert)\.\d+ ")
TOTAL = "total {} traits, 0 errors, {} proved, 0 suspended, 0 refused\nend\n"


def run(program, *words):
    """What a call in the folder writes, and its status."""
    done = subprocess.run([*program, *words], cwd=BOOK, stdout=subprocess.PIPE, timeout=1200, check=False)
    return done.stdout.decode("latin-1"), done.returncode


def listed(program, traits):
    """The duties of each trait as `obligations` lists them: pairs of a label and a statement."""
    found = {}
    for line in run(program, "obligations", *traits)[0].splitlines():
        if line.startswith("trait "):
            duties = found.setdefault(line.split()[1], [])
        elif DUTY.match(line):
            duties.append(tuple(line.split(" ", 1)))
    return found


def blocks(text):
    """The blocks of a script: pairs of a label and the statement in the comment above it."""
    return [(label, said) for said, label in re.findall(r"^% (.*)\nduty (\S+)$", text, re.M)]


def scripts(tests, duties):
    """Each duty has its block, as the other ones."""
    for name, wanted in duties.items():
        path = BOOK / f"{name}.lp"
        text = path.read_text(encoding="utf-8") if path.exists() else ""
        tests.see(f"{name}: blocks and duties", blocks(text), wanted)
        if wanted:
            tests.has(f"{name}: the preamble", text.partition("\nduty ")[0], "set box-checking on\n")
            tests.see(f"{name}: blocks that end with qed", len(re.findall(r"^  qed$", text, re.M)), len(wanted))
    lone = [path.name for path in BOOK.glob("*.lp") if path.stem not in duties]
    tests.see("scripts without a trait", lone, [])


def replayed(tests, program, traits, duties):
    """All duties are proved, as far as the program replays scripts."""
    files = [*traits, *(f"{name}.lp" for name, wanted in duties.items() if wanted)]
    written, status = run(program, "replay", *files)
    if status == 2:
        print("left out: the program doesn't replay scripts")
        return
    count = sum(map(len, duties.values()))
    tests.see("replay: the status", status, 0)
    for line in written.splitlines():
        tests.look(not re.match(r"\S+ (suspended|refused) |script |trait \w+ error ", line), f"replay: {line}")
    tests.see("replay: the count", written[-len(TOTAL.format(len(traits), count)):], TOTAL.format(len(traits), count))


def verdicts(program, name, labels):
    """What `verify` says of each derivation of a trait's duties, and how many lines they have."""
    texts = {path.name: path.read_bytes() for path in BOOK.glob("*.l*")}
    files = {file: texts[file] for file in [*reached(texts, f"{name}.lsl"), f"{name}.lp"]}
    duties = [(name, label) for label in labels]
    said, lines = [], 0
    for duty, text in zip(duties, derived.derivations(program, files, duties)):
        said.append((duty[1], derived.told(program, "verify", files, duty, text)))
        lines += max(0, text.count(b"\n") - 1)
    return name, said, lines


def verified(tests, program, duties):
    """What is derived of each duty is accepted, as far as the program derives."""
    if run(program, "derive", "Nope", "imply.1", next(BOOK.glob("*.lsl")).name)[1] == 2:
        print("left out: the program doesn't derive")
        return
    asked = [(program, name, [label for label, _ in wanted]) for name, wanted in duties.items() if wanted]
    count = 0
    with multiprocessing.pool.ThreadPool() as pool:
        for name, said, lines in pool.starmap(verdicts, asked, chunksize=1):
            count += lines
            for label, answer in said:
                tests.see(f"verify of what is derived of {name} {label}", answer, (b"accepted\n", 0))
    print(f"derivations: {count} lines")


def models(tests, program):
    """Each model is one of its trait, and no claim fails in it."""
    texts = {path.name: path.read_bytes() for path in BOOK.glob("*.lsl")}
    for path in sorted(BOOK.glob("*.mod")):
        written, status = run(program, "model", path.stem, path.name, *reached(texts, f"{path.stem}.lsl"))
        if status == 2:
            print("left out: the program doesn't try models")
            return
        tests.look(status == 0 and written.startswith("model\n"), f"{path.name}: {written.splitlines()[:1]}, {status}")


def tables(tests):
    """The tables are made of the files as they are."""
    tests.see("families and heads", make_handbook.faults(make_handbook.entries()), [])
    for path, text in make_handbook.files().items():
        written = path.read_text(encoding="utf-8") if path.exists() else ""
        tests.look(written == text, f"{path.name} isn't what tools/make/make_handbook.py makes")


def bare(line):
    """A line of a trait or a script without what stands around what it says."""
    return line.strip().rstrip(";")


def told(tests, duties):
    """What docs/HANDBOOK.md says of traits: each `NAME LABEL` in backticks with the statement behind it is listed, and
    each line of its blocks stands in a trait or a script."""
    text = TOLD.read_text(encoding="utf-8")
    shown = re.findall(r"`(\w+) ((?:imply|assume|convert)\.\d+)`: `([^`]*)`", text)
    tests.look(len(shown) >= 3, "docs/HANDBOOK.md tells of no claims")
    for name, label, statement in shown:
        tests.see(f"docs/HANDBOOK.md: {name} {label}", dict(duties.get(name, [])).get(label), statement)
    lines = {bare(line) for path in BOOK.glob("*.l*") for line in path.read_text(encoding="utf-8").splitlines()}
    for block in re.findall(r"^```\n(.*?)^```$", text, re.M | re.S):
        for line in block.splitlines():
            tests.look(bare(line) in lines, f"docs/HANDBOOK.md: no file has the line {line!r}")


def main():
    if len(sys.argv) != 2:
        sys.exit(__doc__)
    program = shlex.split(sys.argv[1])
    program[0] = str(pathlib.Path(shutil.which(program[0]) or program[0]).resolve())
    tests, traits = Tests(), sorted(path.name for path in BOOK.glob("*.lsl"))
    written, status = run(program, "check", *traits)
    tests.see("check: the status", status, 0)
    tests.has("check: the count", written, TOTAL.format(len(traits), 0))
    duties = listed(program, traits)
    count = sum(map(len, duties.values()))
    tests.look(len(traits) >= TRAITS and count >= DUTIES, f"there are {len(traits)} traits and {count} duties")
    scripts(tests, duties)
    tables(tests)
    told(tests, duties)
    replayed(tests, program, traits, duties)
    verified(tests, program, duties)
    models(tests, program)
    return tests.end("handbook")


if __name__ == "__main__":
    sys.exit(main())
