#!/usr/bin/env python3
"""How long larch and Maude take to read one specification: python3 bench/maude.py [PROGRAM] [OPERATORS] [RUNS]

The specification has so many operators of two arguments, by default 8,000, and an equation with two variables for
each, written once in the language of larch and once as a functional module of Maude. Both programs take it by turns,
larch in a session with one report, Maude with -batch, and each has the least of several runs, by default ten:
milliseconds of wall time, and of processor time. Maude's start, with a file that only quits, stands by itself, as does
larch's with an empty session. Without `maude` on the path only larch is timed."""
import os
import pathlib
import shutil
import subprocess
import sys
import tempfile
import time

TOP = pathlib.Path(__file__).resolve().parent.parent


def for_larch(count):
    """A session that puts the trait and reports."""
    text = "T: trait\n  introduces\n"
    text += "".join(f"    f{i}: N, N -> N\n" for i in range(count)) + "  asserts\n"
    text += "".join(f"    \\forall x, y: N\n      f{i}(x, y) == f{i}(y, x)\n" for i in range(count))
    return f"put T.lsl {len(text)}\n{text}report\n", len(text)


def for_maude(count):
    """A file with the module, which quits."""
    text = "fmod T is\n  sort N .\n  vars x y : N .\n"
    text += "".join(f"  op f{i} : N N -> N .\n" for i in range(count))
    text += "".join(f"  eq f{i}(x, y) = f{i}(y, x) .\n" for i in range(count))
    return text + "endfm\nquit .\n"


def timed(command, given):
    """The wall time and the processor time of one run in seconds, and the first line that it printed."""
    with open(given, "rb") as stdin:
        begin, before = time.perf_counter(), os.times()
        done = subprocess.run(command, stdin=stdin, capture_output=True)
        wall, after = time.perf_counter() - begin, os.times()
    used = after.children_user + after.children_system - before.children_user - before.children_system
    return wall, used, (done.stdout.splitlines() or [b""])[0].decode()


def main():
    program = sys.argv[1] if len(sys.argv) > 1 else str(TOP / "crates/larch/out/larch")
    count = int(sys.argv[2]) if len(sys.argv) > 2 else 8_000
    runs = int(sys.argv[3]) if len(sys.argv) > 3 else 10
    with tempfile.TemporaryDirectory() as folder:
        files = {name: pathlib.Path(folder) / name for name in ("larch", "larch start", "maude", "maude start")}
        session, size = for_larch(count)
        module = for_maude(count)
        for name, text in zip(files, (session, "", module, "quit .\n")):
            files[name].write_text(text)
        print(f"{count} operators and as many equations: {size} bytes for larch, {len(module)} for maude")
        commands = {"larch": [program, "session"], "larch start": [program, "session"]}
        if shutil.which("maude"):
            for name in ("maude", "maude start"):
                commands[name] = ["maude", "-no-banner", "-batch", str(files[name])]
        best = {}
        for _ in range(runs):
            for name, command in commands.items():
                wall, used, said = timed(command, files[name] if name.startswith("larch") else os.devnull)
                kept = best.get(name, (wall, used, said))
                best[name] = (min(wall, kept[0]), min(used, kept[1]), said)
        for name, (wall, used, said) in best.items():
            print(f"  {name:12} {wall * 1000:8.1f} ms {used * 1000:8.1f} ms of processor time  {said}")


if __name__ == "__main__":
    main()
