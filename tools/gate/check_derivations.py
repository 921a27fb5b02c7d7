#!/usr/bin/env python3
"""Tests derivations of worked rows: python3 tools/gate/check_derivations.py PROGRAM ROWS

PROGRAM is a command, in quotes where it has words of its own, and ROWS a file of worked rows. Of each row with scripts
a session derives each duty that a report calls proved: `verify`, in another call over the traits alone, accepts each
derivation, `derive` in a call of its own writes it too, `migrate` leaves it as it is, and `verify` accepts what `trim`
leaves of it. Of each duty that isn't proved nothing is derived. Ends with 'N passed, N failed', and status 1 where one
failed, or there was none to look at."""
import pathlib
import re
import shlex
import shutil
import subprocess
import sys
import tempfile

import derived
from tests import Tests

DUTY = re.compile(r"((?:assume|imply|convert)\.\d+) (?:proved|suspended|refused)")
ACCEPTED = (b"accepted\n", 0)


def duties(program, files):
    """The trait and the label of each duty of these files, proved or not."""
    trait = ""
    for line in derived.session(program, files, ["report"]).decode("latin-1").splitlines():
        if line.startswith("trait "):
            trait = line.split()[1]
        elif DUTY.match(line):
            yield trait, line.split()[0]


def in_a_folder(program, words, files):
    """What a call writes in a folder with these files, and its status."""
    with tempfile.TemporaryDirectory() as place:
        for name, content in files.items():
            pathlib.Path(place, name).write_bytes(content)
        done = subprocess.run([*program, *words], cwd=place, stdout=subprocess.PIPE, check=False)
    return done.stdout, done.returncode


def look(tests, program, files):
    """What is derived of the duties of some files is as it has to be."""
    proved, every = derived.proved(program, files), list(duties(program, files))
    for duty, text in zip(every, derived.derivations(program, files, every)):
        title = " ".join(duty)
        tests.see(f"{title}: whether a derivation is there", bool(text), duty in proved)
        written = in_a_folder(program, ["derive", *duty, *files], files)
        tests.see(f"{title}: derive in a call", written, (text, 0) if text else (b"none\n", 1))
        if text:
            tests.see(f"{title}: verify", derived.told(program, "verify", files, duty, text), ACCEPTED)
            tests.see(f"{title}: migrate", in_a_folder(program, ["migrate", "A.cert"], {"A.cert": text}), (text, 0))
            left, status = derived.told(program, "trim", files, duty, text)
            tests.see(f"{title}: trim", status, 0)
            tests.see(f"{title}: verify of what is left", derived.told(program, "verify", files, duty, left), ACCEPTED)


def main():
    if len(sys.argv) != 3:
        sys.exit(__doc__)
    program = shlex.split(sys.argv[1])
    program[0] = str(pathlib.Path(shutil.which(program[0]) or program[0]).resolve())
    tests = Tests()
    for files in derived.worked(sys.argv[2]):
        look(tests, program, files)
    tests.look(tests.passed, "no duty is proved")
    return tests.end("derivations")


if __name__ == "__main__":
    sys.exit(main())
