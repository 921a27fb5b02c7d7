#!/usr/bin/env python3
"""Times verdicts on certificates: python3 bench/verdicts.py [PROGRAM] [--lines N] [--only WORD] [--metamath]

PROGRAM is the built `larch_verify_table`. For each certificate the milliseconds of processor time, the megabytes of
text, the peak of memory in megabytes, and the verdict, which is the first line's; reading the text is in the time.

- `small`: N lines (1,000,000 by default) with terms of ten nodes, of five rules by turns, and the same in one box.
- `shared`: a tenth as many lines with terms of 1,023 nodes that share their parts: each is the one before it, changed
at
  a leaf. `replaced`: as many, each with the variable at all 512 leaves replaced by a term of its own.
- `doubling`: each line makes the term of the line before it twice as large, so that the last one has 2^60 nodes.
- `deep`: a term of 340,000 levels, and the same changed at its lowest place.
- `same`: a fifth as many lines, each the same instance of an axiom. With `--metamath` the program metamath verifies a
  database of as many theorems, each that instance: five proof steps, which write the terms and cite the axiom.
- `boxes`: 100,000 boxes, each open in the one before it, and as many that are opened and closed by turns.
"""
import argparse
import os
import pathlib
import subprocess
import tempfile

TOP = pathlib.Path(__file__).resolve().parent.parent
OPERATORS = "0\tN\ns\tN\tN\n__ + __\tN\tN\tN\n"
EQUATIONS = ["#3(x:N,#1)==x:N", "#3(x:N,#2(y:N))==#2(#3(x:N,y:N))", "#2(#2(x:N))==#2(x:N)", "#1==#2(#1)"]


def certificate(lines):
    return "certificate 1\n" + "".join(f"{number} {line}\n" for number, line in enumerate(lines, 1))


def problem(lines, shown):
    statements = [f"box - | {equation}" for equation in EQUATIONS + [shown]]
    return "\1".join([OPERATORS, certificate(statements), certificate(lines)]).encode()


def small(count, boxed):
    ten = "#3(#3(#2(#2(x:N)),#1),#3(#2(y:N),#1))"
    yield f"refl {ten}"
    if boxed:
        yield "box - | -"
    for number in range(3 if boxed else 2, count + (0 if boxed else 1)):
        rule = number % 5
        if rule == 0:
            yield f"refl {ten}"
        elif rule == 1:
            yield f"sym {number - 1}"
        elif rule == 2:
            yield "inst 1 x:N=#2(#1);y:N=#3(x:N,y:N)"
        elif rule == 3:
            yield "axiom 1"
        else:
            yield f"repl {1 if boxed else max(1, number // 5 * 5)} - 1"
    yield "refl #1"
    if boxed:
        yield "done"
        yield "refl #1"


def tree(levels):
    return "#1" if levels == 0 else f"#3({tree(levels - 1)},{tree(levels - 1)})"


# A balanced tree of 1,023 nodes; each line changes a leaf, in the next round back again.
def shared(count):
    yield "axiom 4"
    yield "sym 1"
    yield f"refl {tree(9)}"
    for number in range(4, count + 1):
        turn, leaf = divmod(number - 4, 512)
        place = ".".join(str(int(bit) + 1) for bit in f"{leaf:09b}")
        yield f"repl {number - 1} {place} {1 + turn % 2}"


# The same tree with a variable at each leaf, and a line for each term that replaces it.
def replaced(count):
    yield f"refl {tree(9).replace('#1', 'x:N')}"
    for number in range(2, count + 1):
        yield f"inst 1 x:N=#3(y{number}:N,#1)"


def doubling(count):
    yield "refl x:N"
    for number in range(1, count + 1):
        yield f"inst {number} x:N=#3(x:N,x:N)"


def deep(levels):
    yield "refl " + "#2(" * levels + "x:N" + ")" * levels
    yield "axiom 3"
    yield "inst 1 x:N=#1"
    yield f"repl 1 {'.'.join(['1'] * (levels - 2))} 2"


def same(count):
    yield "axiom 1"
    for _ in range(count):
        yield "inst 1 x:N=#3(x:N,#2(#1))"


DATABASE = """$c |- term wff 0 s ( ) + = $.
$v x y $.
vx $f term x $.
vy $f term y $.
t0 $a term 0 $.
ts $a term s x $.
tp $a term ( x + y ) $.
weq $a wff x = y $.
ax $a |- ( x + 0 ) = x $.
"""


def metamath(count):
    with tempfile.TemporaryDirectory() as folder:
        with open(f"{folder}/same.mm", "w") as file:
            file.write(DATABASE)
            for number in range(count):
                file.write(f"th{number} $p |- ( ( x + s 0 ) + 0 ) = ( x + s 0 ) $= vx t0 ts tp ax $.\n")
        commands = ["set scroll continuous", "read same.mm", "verify proof *", "exit"]
        child = subprocess.Popen(["metamath", *commands], cwd=folder, stdin=subprocess.DEVNULL,
                                 stdout=subprocess.DEVNULL)
        _, status, used = os.wait4(child.pid, 0)
    took = (used.ru_utime + used.ru_stime) * 1000
    print(f"metamath, {count} theorems: {took:.0f} ms, peak {used.ru_maxrss // 1024} MB, status {status}", flush=True)


def nested(count):
    for _ in range(count):
        yield "box N | -"
    yield "refl #1"
    for number in range(count):
        yield "done"
        yield "refl #1"


def in_a_row(count):
    for _ in range(count):
        yield "box N | -"
        yield "refl #1"
        yield "done"


# In a process of its own, so that this one stays small: the peak of a program begins at what its parent takes.
def written(lines, file):
    child = os.fork()
    if child == 0:
        file.write(problem(list(lines()) + ["refl #1"], "#1==#1"))
        file.flush()
        os._exit(0)
    os.waitpid(child, 0)
    file.seek(0)
    return os.fstat(file.fileno()).st_size


def timed(program, what, lines):
    with tempfile.TemporaryFile() as text, tempfile.TemporaryFile() as answer:
        size = written(lines, text)
        child = subprocess.Popen([program], stdin=text, stdout=answer)
        _, status, used = os.wait4(child.pid, 0)
        answer.seek(0)
        said = answer.read().split(b"\0")[0].decode() if status == 0 else f"status {status}"
    took = (used.ru_utime + used.ru_stime) * 1000
    print(f"{what}: {took:.0f} ms, {size / 1e6:.1f} MB, peak {used.ru_maxrss // 1024} MB, {said}", flush=True)


def main():
    words = argparse.ArgumentParser(description=__doc__.splitlines()[0])
    words.add_argument("program", nargs="?", default=str(TOP / "crates/larch_verify_table/out/larch_verify_table"))
    words.add_argument("--lines", type=int, default=1_000_000)
    words.add_argument("--only", default="")
    words.add_argument("--metamath", action="store_true")
    said = words.parse_args()
    many, fewer = said.lines, said.lines // 10
    runs = [(f"small, {many} lines", lambda: small(many, False)),
            (f"small, {many} lines in a box", lambda: small(many, True)),
            (f"shared, {fewer} lines", lambda: shared(fewer)), (f"replaced, {fewer} lines", lambda: replaced(fewer)),
            (f"same, {many // 5} lines", lambda: same(many // 5)), ("doubling, 60 lines", lambda: doubling(60)),
            ("deep, 340,000 levels", lambda: deep(340_000)), (f"boxes, {fewer} open at once", lambda: nested(fewer)),
            (f"boxes, {fewer} in a row", lambda: in_a_row(fewer))]
    for what, lines in runs:
        if said.only in what:
            timed(said.program, what, lines)
    if said.metamath:
        metamath(said.lines // 5)


if __name__ == "__main__":
    main()
