#!/usr/bin/env python3
"""How long a report takes on traits that include one another: python3 bench/composition.py [PROGRAM]

Each line has the shape, the files, the best of three runs of one session with one report in milliseconds, what that is
for a file, and what the report counts. The shapes: a chain, each trait including the one before it; a fan, all of them
including one; a diamond, each including the one before it twice, so that 2^depth ways lead to the first; and a trait at
the limits, a thousand operators and as many statements of a hundred nodes each, included ten times under other names
of its operators and once more."""
import pathlib
import subprocess
import sys
import time

TOP = pathlib.Path(__file__).resolve().parent.parent
OWN = "  introduces\n    f{0}: S -> S\n  asserts\n    \\forall x: S\n      f{0}(x) == x\n"


def chain(count):
    for i in range(count):
        yield f"T{i}", f"T{i}: trait\n" + (f"  includes T{i - 1}\n" if i else "") + OWN.format(i)


def fan(count):
    yield "T0", "T0: trait\n" + OWN.format(0)
    for i in range(1, count):
        yield f"T{i}", f"T{i}: trait\n  includes T0\n" + OWN.format(i)


def diamond(count):
    for i in range(count):
        yield f"T{i}", f"T{i}: trait\n" + (f"  includes T{i - 1}, T{i - 1}\n" if i else "") + OWN.format(i)


def at_limits(times):
    operators = "".join(f"    f{i}: S -> S\n" for i in range(1000))
    sides = ["f{0}(" * 49 + "x" + ")" * 49, "f{0}(" * 49 + "y" + ")" * 49]
    statements = ";\n      ".join(f"{sides[0]} == {sides[1]}".format(i) for i in range(1000))
    yield "Full", f"Full: trait\n  introduces\n{operators}  asserts\n    \\forall x, y: S\n      {statements}\n"
    for i in range(times):
        yield f"T{i}", f"T{i}: trait\n  includes Full (R for S, {', '.join(f'g{j} for f{j}' for j in range(1000))})\n"
    yield "Again", "Again: trait\n  includes Full, Full, Full, Full, Full, Full, Full, Full, Full, Full\n"


def measured(program, files):
    data = b"".join(b"put %s.lsl %d\n%s" % (name.encode(), len(text), text.encode()) for name,
                    text in files) + b"report\n"
    best, said = 1e9, ""
    for _ in range(3):
        begin = time.perf_counter()
        done = subprocess.run([*program, "session"], input=data, capture_output=True)
        best = min(best, time.perf_counter() - begin)
        said = done.stdout.decode().splitlines()[-2] if done.stdout else f"status {done.returncode}"
    return best, said


def main():
    program = sys.argv[1:] or [str(TOP / "crates/larch/out/larch")]
    shapes = [(shape.__name__, list(shape(count))) for shape in (chain, fan, diamond) for count in (16, 64, 256)]
    shapes.insert(7, ("diamond", list(diamond(21))))
    shapes += [("at limits", list(at_limits(times))) for times in (1, 10)]
    for name, files in shapes:
        best, said = measured(program, files)
        print(f"{name:10} {len(files):4} files {best * 1000:9.1f} ms {best * 1e6 / len(files):9.0f} us a file   {said}",
              flush=True)


if __name__ == "__main__":
    main()
