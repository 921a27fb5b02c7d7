#!/usr/bin/env python3
"""Compiles a program with no proof and keeps it: build_unproved.py PROGRAM [CRATE] writes it to that path.

CRATE is the folder below `crates/` that has the program; without it that is `larch`.

`rt try` compiles the sources, with tests of each index and sum in them, runs the program once and removes it. So while
it runs, each file that it makes in its folder is given a second name here, and the largest program among them is kept.
Ends with 1 where the sources don't compile, after what `rt` said.
"""
import os
import pathlib
import subprocess
import sys
import tempfile
import time

TOP = pathlib.Path(__file__).resolve().parents[2]
SECONDS_BETWEEN_LOOKS = 0.02
# What a program's file begins with.
PROGRAM_MARK = b"\x7fELF"


def give_second_names(made, kept, seen):
    """Gives each new file below `made` a second name in `kept`, by which it stays when it is removed there."""
    for folder, _, files in os.walk(made):
        for name in files:
            path = pathlib.Path(folder) / name
            try:
                number = path.stat().st_ino
                if number not in seen:
                    os.link(path, kept / str(number))
                    seen.add(number)
            except OSError:
                # It is gone already, or is no plain file.
                pass


def is_program(path):
    with path.open("rb") as file:
        return file.read(len(PROGRAM_MARK)) == PROGRAM_MARK and os.access(path, os.X_OK)


def try_once(made, kept, crate):
    """Runs the try with no words and no input, which mean no command; what it printed."""
    with (made.parent / "printed").open("w+") as printed:
        run = subprocess.Popen(["rt", "try", "--seconds", "60"], cwd=TOP / "crates" / crate, stdin=subprocess.DEVNULL,
                               stdout=printed, stderr=subprocess.STDOUT, env={**os.environ, "TMPDIR": str(made)})
        seen = set()
        while run.poll() is None:
            give_second_names(made, kept, seen)
            time.sleep(SECONDS_BETWEEN_LOOKS)
        printed.seek(0)
        return printed.read()


def main():
    program = pathlib.Path(sys.argv[1])
    program.parent.mkdir(parents=True, exist_ok=True)
    with tempfile.TemporaryDirectory(prefix="larch-try-", dir=program.parent) as room:
        made, kept = pathlib.Path(room) / "made", pathlib.Path(room) / "kept"
        made.mkdir()
        kept.mkdir()
        printed = try_once(made, kept, sys.argv[2] if len(sys.argv) > 2 else "larch")
        programs = [path for path in kept.iterdir() if is_program(path)]
        if not programs:
            sys.stderr.write(printed)
            return 1
        os.replace(max(programs, key=lambda path: path.stat().st_size), program)
    return 0


if __name__ == "__main__":
    sys.exit(main())
