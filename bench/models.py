#!/usr/bin/env python3
"""Times tries of models: python3 bench/models.py [PROGRAM] [--only WORD]

PROGRAM is the built `larch`. For each trait with its model the milliseconds of processor time, the bytes of the model,
the peak of memory in megabytes, and what is written without `model` and `end`.

- `million`: a claim with six variables of ten values each, 1,000,000 assignments: a sum in another order.
- `sixteen`: five variables, four of 16 values and one of 15, 983,040 assignments.
- `too many`: five variables of 16 values each.
- `ten claims`: of 1,000,000 assignments each.
- `table`: two operators whose tables have 520,192 values, nearly as long as a file may be; the same with a claim over
  all five places of the first one, 458,752 assignments.
- `generated`, `partitioned`: a clause by an operator of four places with 16 values each.
"""
import argparse
import itertools
import math
import os
import pathlib
import subprocess
import tempfile

TOP = pathlib.Path(__file__).resolve().parent.parent
SIX = ["p", "q", "r", "t", "u", "v"]


def trait(operators, asserts=(), claims=()):
    """The text of a trait `T`."""
    lines = ["T: trait", "  introduces", *(f"    {one}" for one in operators)]
    for word, items in (("asserts", asserts), ("implies", claims)):
        lines += [f"  {word}", *(f"    {one}" for one in items)] if items else []
    return "\n".join(lines) + "\n"


def model(sizes, *tables):
    """The text of a model, each table as values."""
    lines = ["model", *(f"sort {sort} {size}" for sort, size in sizes.items())]
    lines += [" ".join([f"op {number}", *map(str, values)]) for number, values in enumerate(tables, 1)]
    return "".join(line + "\n" for line in lines)


def table(sizes, value):
    """The values of an operator, for arguments with so many values each."""
    return [value(*chosen) for chosen in itertools.product(*map(range, sizes))]


def sum_of(names):
    return f"({sum_of(names[:-1])}) + {names[-1]}" if len(names) > 1 else names[0]


def sums(size, count):
    """A trait with sums of six variables in other orders, and their model by so many values."""
    orders = itertools.islice(itertools.permutations(SIX), 1, count + 1)
    claims = [f"\\forall {', '.join(SIX)}: S  {sum_of(SIX)} == {sum_of(order)}" for order in orders]
    return trait(["__ + __: S, S -> S"], (), claims), model({"S": size}, table([size] * 2, lambda a, b: (a + b) % size))


def sixteen(last):
    """The same with five variables, the last one of a sort of its own with so many values."""
    claim = "\\forall p, q, r, t: S, u: R  f(((p + q) + r) + t, u) == f(t + (r + (q + p)), u)"
    text = trait(["__ + __: S, S -> S", "f: S, R -> S"], (), [claim])
    return text, model({"S": 16, "R": last}, table([16, 16], lambda a, b: (a + b) % 16),
                       table([16, last], lambda a, b: (a + b) % 16))


def long_table(claims):
    text = trait(["f: S, S, S, S, R -> D", "g: S, S, S, T -> D"], (), claims)
    long, longer = (table(sizes, lambda *values: sum(values) % 10) for sizes in ([16] * 4 + [7], [16] * 3 + [15]))
    return text, model({"S": 16, "R": 7, "T": 15, "D": 10}, long, longer)


def clause(kind, value):
    text = trait(["f: S, S, S, S -> S", "c: -> S"], [f"S {kind} by f" + (", c" if kind == "generated" else "")])
    return text, model({"S": 16}, table([16] * 4, value), [0])


RUNS = {
    "million": lambda: sums(10, 1),
    "sixteen": lambda: sixteen(15),
    "too many": lambda: sixteen(16),
    "ten claims": lambda: sums(10, 10),
    "table": lambda: long_table(()),
    "table with a claim": lambda: long_table(["\\forall p, q, r, t: S, u: R  f(p, q, r, t, u) == f(t, r, q, p, u)"]),
    "generated": lambda: clause("generated", lambda a, b, c, d: min(max(a, b, c, d) + 1, 15)),
    "partitioned": lambda: clause("partitioned", lambda a, b, c, d: (a + b + c + d) // 2 % 16),
}


# In a process of its own, so that this one stays small: the peak of a program begins at what its parent takes.
def written(made, place):
    child = os.fork()
    if child == 0:
        text, said = made()
        pathlib.Path(place, "T.lsl").write_text(text)
        pathlib.Path(place, "T.mod").write_text(said)
        os._exit(0)
    os.waitpid(child, 0)
    return pathlib.Path(place, "T.mod").stat().st_size


def timed(program, what, made):
    with tempfile.TemporaryDirectory() as place, tempfile.TemporaryFile() as answer:
        size = written(made, place)
        child = subprocess.Popen([program, "model", "T", "T.mod", "T.lsl"], cwd=place, stdout=answer)
        _, status, used = os.wait4(child.pid, 0)
        answer.seek(0)
        lines = [line for line in answer.read().decode().splitlines() if line not in ("model", "end")]
    took = math.ceil((used.ru_utime + used.ru_stime) * 1000)
    print(f"{what}: {took} ms, {size} bytes, peak {used.ru_maxrss // 1024} MB, status "
          f"{os.waitstatus_to_exitcode(status)}, {', '.join(lines[:2])}", flush=True)


def main():
    words = argparse.ArgumentParser(description=__doc__.splitlines()[0])
    words.add_argument("program", nargs="?", default=str(TOP / "crates/larch/out/larch"))
    words.add_argument("--only", default="")
    said = words.parse_args()
    for what, made in RUNS.items():
        if said.only in what:
            timed(os.path.abspath(said.program), what, made)


if __name__ == "__main__":
    main()
