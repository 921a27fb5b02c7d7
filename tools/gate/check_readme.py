#!/usr/bin/env python3
"""Runs what README.md and two more pages show: python3 tools/gate/check_readme.py PROGRAM [--unproved]

The other pages are docs/CERTIFICATES.md and docs/COMPLETION.md. PROGRAM is a command, in quotes where it has words of
its own. In a folder of each page each block `lsl` is written to the file of its trait, and each block `text` to the
file that the paragraph above it names last; each line `$ COMMAND` of a block `console` is run by bash, `larch` being
./larch with PROGRAM; what it writes has to be the lines below it. A command of a tool in the running text of README.md
has to end well. What builds the program is run by .ci/run, which has to have that line; the try without a proof takes a
compiler a minute, and is run with --unproved alone. README.md has less than 1,200 words. Ends with 'N passed, N
failed', and status 1 where one failed."""
import os
import pathlib
import re
import shlex
import shutil
import subprocess
import sys
import tempfile

from tests import Tests

TOP = pathlib.Path(__file__).resolve().parents[2]
PAGE, OTHERS = TOP / "README.md", [TOP / "docs" / name for name in ("CERTIFICATES.md", "COMPLETION.md")]
MOST_WORDS = 1200
BLOCK = re.compile(r"((?:[^\n]+\n)*)\n```(\w+)\n(.*?)^```$", re.M | re.S)
FILE, TRAIT = re.compile(r"`(\w+\.(?:lsl|lp|cert))`"), re.compile(r"\w+")


def calls(block):
    """Each command of a block with the lines below it."""
    return [(command, shown) for command, shown in re.findall(r"^\$ (.*)\n((?:(?!\$ ).*\n)*)", block, re.M)]


def run(command, folder, path=None):
    """What bash writes for a command, and its status."""
    done = subprocess.run(["bash", "-c", command], cwd=folder, stdout=subprocess.PIPE, timeout=600, check=False,
                          env={**os.environ, "PATH": path or os.environ["PATH"]})
    return done.stdout.decode(errors="replace"), done.returncode


def put_larch(folder, program):
    """A command `larch` in a folder: the checkout's ./larch, which runs the program."""
    alone, larch = folder / "larch-program", folder / "larch"
    alone.write_text(f'#!/bin/sh\nexec {shlex.join(program)} "$@"\n')
    larch.write_text(f'#!/bin/sh\nLARCH_PROGRAM={alone} exec {shlex.quote(str(TOP / "larch"))} "$@"\n')
    for path in (alone, larch):
        path.chmod(0o755)


def shown(tests, text, program):
    """The files and the commands of the page, in order."""
    with tempfile.TemporaryDirectory() as place, tempfile.TemporaryDirectory() as beside:
        put_larch(pathlib.Path(beside), program)
        for above, kind, block in BLOCK.findall(text):
            named = [f"{TRAIT.match(block)[0]}.lsl"] if kind == "lsl" else FILE.findall(above)
            if kind in ("lsl", "text") and named:
                pathlib.Path(place, named[-1]).write_text(block)
            for command, lines in calls(block) if kind == "console" else ():
                tests.see(f"$ {command}", run(command, place, f"{beside}:{os.environ['PATH']}")[0], lines)


def told(tests, text, unproved):
    """The commands that the running text names, and those that build."""
    plain = re.sub(r"```.*?```", "", text, flags=re.S)
    for command in re.findall(r"`((?:tools/[\w-]+|larch explain) [A-Z-]+)`", plain):
        tests.see(command, run(re.sub("^larch", "./larch", command), TOP)[1], 0)
    gate = (TOP / ".ci/run").read_text()
    for command in re.findall(r"^(\./larch --build.*?)\s*(?:#.*)?$", text, re.M):
        tests.see(f".ci/run runs {command}", bool(re.search(rf"^{re.escape(command)}\b", gate, re.M)), True)
    tries = re.findall(r"`(\./larch --unproved [^`]*?) < ([^`]*)`", plain)
    tests.see("what is tried without a proof", [(TOP / given).is_file() for _, given in tries], [True])
    for command, given in tries if unproved else ():
        tests.see(command, run(f"{command} < {given}", TOP), run(f"./larch session < {given}", TOP))


def main():
    unproved, words = "--unproved" in sys.argv[1:], [word for word in sys.argv[1:] if word != "--unproved"]
    if len(words) != 1:
        sys.exit(__doc__)
    program = shlex.split(words[0])
    program[0] = str(pathlib.Path(shutil.which(program[0]) or program[0]).resolve())
    tests, text = Tests(), PAGE.read_text(encoding="utf-8")
    for page in (PAGE, *OTHERS):
        shown(tests, page.read_text(encoding="utf-8"), program)
    told(tests, text, unproved)
    count = len(text.split())
    tests.see(f"README.md has {count} words, less than {MOST_WORDS}", count < MOST_WORDS, True)
    return tests.end()


if __name__ == "__main__":
    sys.exit(main())
