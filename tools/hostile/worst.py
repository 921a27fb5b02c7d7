#!/usr/bin/env python3
"""How long calls take on inputs that are made to be slow: worst.py PROGRAM [--most SECONDS] [--part N] [SHAPE..]

Each input is as large as the program takes, or with --part N an Nth of that. A line has the shape, the bytes of all its
texts, the seconds of processor time, the megabytes that were taken at most, the status, and how the first line of the
answer begins. A call that takes more than --most seconds (60) of processor time is ended, and its line says so. Traits
whose symbols are overloaded are timed by bench/hostile.py."""
import argparse
import os
import pathlib
import resource
import sys
import tempfile
import time

import calls

FILE, INPUT, FILES = 1_048_576, 67_108_864, 256
SHAPES = {}


def shape(made):
    """Makes an input a shape by its name."""
    SHAPES[made.__name__] = made
    return made


def numbered(count, letter="c"):
    return ", ".join(f"{letter}{i}" for i in range(count))


def filled(front, piece, behind, part, size=FILE):
    """A piece as often as there is room for it."""
    room = size // part - len(front) - len(behind)
    return front + piece * (room // len(piece)) + behind


def check(**files):
    return ["check", *(f"{name}.lsl" for name in files)], {f"{name}.lsl": text for name, text in files.items()}, ""


@shape
def comment(part):
    """A file that is one comment."""
    return check(T=filled("T: trait\n", "%", "\n", part))


@shape
def blanks(part):
    """A file that is blank but for its first line."""
    return check(T=filled("T: trait\n", " \n", "", part))


@shape
def declarations(part):
    """Declarations of one operator, again and again."""
    return check(T=filled("T: trait introduces\n", "c:->S\n", "", part))


@shape
def operators(part):
    """As many operators as there is room for, each with a sort of its own."""
    lines, length = ["T: trait introduces\n"], 0
    for i in range(10**6):
        lines.append(f"c{i}:->S{i}\n")
        length += len(lines[-1])
        if length > FILE // part - 40:
            break
    return check(T="".join(lines))


@shape
def equations(part):
    """One equation, again and again."""
    return check(T=filled("T: trait introduces c:->S asserts\n", "c==c;", "c==c\n", part))


@shape
def scopes(part):
    """Variables of one equation, as many as there is room for."""
    names = ",".join(f"v{i}" for i in range(FILE // part // 8))
    return check(T=f"T: trait introduces c:->S asserts \\forall {names}: S\n c==c\n")


@shape
def enumerations(part):
    """Enumerations of as many elements as there is room for."""
    return check(T=f"T: trait\n E enumeration of {numbered(FILE // part // 9)}\n")


@shape
def fields(part):
    """A tuple of as many fields as a trait may have operators."""
    count = 490 // part + 1
    return check(T="T: trait\n P tuple of " + ", ".join(f"f{i}: S" for i in range(count)) + "\n")


def large(operators=600, statements=1000, operands=48):
    """A trait that is as large as one may be: its statements have 99,000 nodes."""
    chain = " + ".join(["x"] * operands)
    stated = ";\n".join(f"c{i // 600} + c{i % 600} == {chain}" for i in range(statements))
    return (f"A: trait introduces\n {numbered(operators)}: -> N\n __ + __: N, N -> N\n"
            f"asserts \\forall x: N\n{stated}\n")


@shape
def references(part):
    """References to one trait that is as large as one may be, again and again."""
    return check(A=large(), T=filled("T: trait includes A", ",A", "\n", part))


@shape
def renamings(part):
    """References to such a trait under names that change nothing in the end."""
    return check(A=large(), T=filled("T: trait includes A", ",A(c0 for c0)", "\n", part))


@shape
def replacements(part):
    """References to such a trait, each with a replacement of each of its constants."""
    all_of_them = ",".join(f"c{i} for c{i}" for i in range(600))
    return check(A=large(), T=filled("T: trait includes A", f",A({all_of_them})", "\n", part))


@shape
def implied_references(part):
    """Claims that refer to such a trait, again and again."""
    return check(A=large(), T=filled("T: trait includes A implies A", ",A", "\n", part))


@shape
def webs(part):
    """As many files as a call takes, each of which refers to all before it."""
    count = FILES // part
    names = [f"W{i:03}" for i in range(count)]
    included = [f" includes {', '.join(names[:i])}\n" if i else "" for i in range(count)]
    return check(**{name: f"{name}: trait\n{included[i]} introduces c{i}: -> S\n" for i, name in enumerate(names)})


@shape
def heavy_webs(part):
    """The same, with a trait at the bottom that is as large as one may be."""
    words, files, _ = webs(part)
    files = {**files, "A.lsl": large(), "W000.lsl": "W000: trait\n includes A\n"}
    words = ["check", *(name for name in files)][:FILES + 1]
    return words, {name: files[name] for name in words[1:]}, ""


@shape
def conversions(part):
    """Clauses that convert an operator that all statements have: each has all of them once more."""
    chain = " + ".join(["f(x)"] * 24)
    stated = ";\n".join(f"c{i // 600} + c{i % 600} == {chain}" for i in range(1000))
    claims = "".join(" converts f\n" for _ in range(1000 // part))
    return check(T=f"T: trait introduces\n {numbered(600)}: -> N\n f: N -> N\n __ + __: N, N -> N\n"
                   f"asserts \\forall x: N\n{stated}\n{claims}")


@shape
def listed_conversions(part):
    """The same, listed."""
    _, files, _ = conversions(part)
    return ["obligations", "T.lsl"], files, ""


def verify(lines, part, trait=None, command="verify", label="imply.1"):
    """A call over a certificate of so many lines at most."""
    text, length = ["certificate 1\n"], 20
    for number, line in enumerate(lines, 1):
        length += len(f"{number} {line}\n")
        if length > FILE // part:
            break
        text.append(f"{number} {line}\n")
    files = {"Nat.lsl": trait or calls.NAT.decode(), "A.cert": "".join(text)}
    return [command, "Nat", label, "A.cert", "Nat.lsl"], files, ""


@shape
def axioms(part):
    """A certificate that cites one statement, again and again."""
    return verify(("axiom 2" for _ in range(10**6)), part)


def doubled():
    """Terms that have twice the nodes of those of the line before, many thousand times."""
    yield "refl #3(x:N,x:N)"
    for number in range(1, 10**6):
        yield f"inst {number} x:N=#3(x:N,x:N)"


@shape
def doublings(part):
    """A certificate each of whose lines has twice the nodes of the one before."""
    return verify(doubled(), part)


@shape
def replaced_doublings(part):
    """Places in such terms are replaced."""
    def lines():
        made = doubled()
        for _ in range(2000):
            yield next(made)
        yield "axiom 2"
        yield "refl #1"
        place = ".".join(["2", *["1"] * 1990])
        for _ in range(10**6):
            yield f"repl 2000 {place} 2002"
    return verify(lines(), part)


@shape
def fresh_doublings(part):
    """A box whose constant stands in such terms, and which becomes a variable in them."""
    def lines():
        yield "box N | -"
        yield "refl #3(@1.1,@1.1)"
        yield "refl #3(x:N,x:N)"
        for number in range(3, 10_003):
            yield f"inst {number} x:N=#3(x:N,x:N)"
        yield "inst 10003 x:N=@1.1"
        yield "done"
        for _ in range(10**6):
            yield "fresh 1 y:N"
    return verify(lines(), part)


@shape
def substitutions(part):
    """Lines that give terms to a hundred variables each."""
    def lines():
        variables = [f"v{i}:N" for i in range(100)]
        term = variables[0]
        for variable in variables[1:]:
            term = f"#3({variable},{term})"
        yield f"refl {term}"
        by = ";".join(f"{variable}=#2({variable})" for variable in variables)
        for number in range(1, 10**6):
            yield f"inst {number} {by}"
    return verify(lines(), part)


@shape
def deep(part):
    """One line with a term as deep as there is room for."""
    depth = FILE // part // 6
    return verify(["refl " + "#2(" * depth + "#1" + ")" * depth], part)


@shape
def boxes(part):
    """Boxes in boxes, as many as there is room for."""
    return verify(("box - | -" for _ in range(10**6)), part)


@shape
def hypotheses(part):
    """Boxes with hypotheses and constants, closed one after the other."""
    def lines():
        for number in range(1, 10**6, 3):
            yield f"box N,N | #3(@{number}.1,@{number}.2)==#1"
            yield f"hyp {number} 1"
            yield "done"
    return verify(lines(), part)


@shape
def trimmed_doublings(part):
    """The doublings once more, to be trimmed."""
    words, files, _ = doublings(part)
    return ["trim", *words[1:]], files, ""


def model(sizes, equations, part):
    """A call over a trait with a constant of one sort, and so many equations of so many variables."""
    count, variables = sizes
    scope = ", ".join(f"x{i}" for i in range(variables))
    term = " /\\ ".join(f"(x{i} = x{i})" for i in range(variables))
    pad = " /\\ ".join(["(x0 = x0)"] * 10)
    stated = ";\n".join(f"(({pad}) /\\ ({term})) => (c{i} = c{i})" for i in range(equations // part))
    files = {"T.lsl": f"T: trait introduces\n {numbered(equations)}: -> N\nasserts \\forall {scope}: N\n{stated}\n",
             "T.mod": f"model\nsort N {count}\n" + "".join(f"op {i + 1} 0\n" for i in range(equations))}
    return ["model", "T", "T.mod", "T.lsl"], files, ""


@shape
def assignments(part):
    """A model in which each of a hundred equations has a million assignments."""
    return model((10, 6), 100, part)


@shape
def tables(part):
    """A model with a table of as many values as there is room for."""
    text = "T: trait introduces\n f: N, N, N, N, N -> N\n"
    count = (FILE // part - 40) // 2
    size = int(count ** 0.2)
    return ["model", "T", "T.mod", "T.lsl"], {"T.lsl": text,
                                              "T.mod": f"model\nsort N {size}\nop 1{' 0' * size ** 5}\n"}, ""


@shape
def empty_lines(part):
    """A session of empty lines."""
    return ["session"], {}, "\n" * (INPUT // part)


@shape
def put_files(part):
    """A session that puts files as long as one may be, again and again."""
    line = f"put T.lsl {FILE}\n"
    return ["session"], {}, (line + "%" * FILE) * (INPUT // part // (FILE + len(line)))


@shape
def small_puts(part):
    """A session that puts empty files, again and again."""
    return ["session"], {}, "put T.lsl 0\n" * (INPUT // part // 12)


@shape
def reports(part):
    """A session of reports on nothing, as many as a thousandth of its room has."""
    return ["session"], {}, "report\n" * (INPUT // part // 7000)


@shape
def reports_again(part):
    """Twenty reports on a trait as large as one may be, of which nothing has changed."""
    text = large()
    return ["session"], {}, f"put A.lsl {len(text)}\n{text}" + "report\n" * 20


# `t` of two numbers takes about as many steps as their product is, each to another term, and its terms stay small.
LONG = ("T: trait introduces\n 0: -> N\n - __: N -> N\n w: N, N, N -> N\n t: N, N -> N\n"
        "asserts \\forall x, y, z: N\n w(z, 0, y) == y;\n w(z, - x, y) == w(z, x, - y);\n"
        " t(- z, y) == t(z, w(z, y, 0))\nimplies\n")
STATUS = "register status left-to-right w\nregister status left-to-right t\n"


def product(first, second, right):
    return f"t({'- ' * first}0, {'- ' * second}0) == {'- ' * right}0"


@shape
def rewritings(part):
    """A thousand duties, each of which rewrites nearly as often as it may by default."""
    claims = ";\n".join(product(22, 42 - i // 200, i % 200 + 1) for i in range(1000 // part))
    return ["replay", "T.lsl", "T.lp"], {"T.lsl": LONG + claims + "\n", "T.lp": STATUS}, ""


@shape
def most_rewritings(part):
    """Commands that rewrite nearly as often as a script lets them, a hundred thousand times, in a hundred levels."""
    proofs = "".join(f"prove {product(250, 390 - i, 1)}\n" for i in range(100 // part))
    script = STATUS + "set rewriting-limit 100000\nduty imply.1\n" + proofs
    return ["replay", "T.lsl", "T.lp"], {"T.lsl": LONG + "0 == - 0\n", "T.lp": script}, ""


@shape
def many_facts(part):
    """A level of as many facts as there may be, and a thousand commands that open a level more."""
    count = 5000 // part
    atoms = [f"q{i % 100}(c{i // 100})" for i in range(count)]
    stated = ";\n".join(" /\\ ".join(atoms[i:i + 5]) for i in range(0, count, 5))
    text = (f"T: trait introduces\n {numbered(60)}: -> N\n {numbered(100, 'q')}: N -> Bool\n goal: -> Bool\n"
            f"asserts\n{stated}\nimplies\n goal == true\n")
    return ["replay", "T.lsl", "T.lp"], {"T.lsl": text, "T.lp": "duty imply.1\n" + "prove goal\n" * (1000 // part)}, ""


@shape
def many_pairs(part):
    """Critical pairs of a rule with as many places as a term may have, again and again."""
    chain = " + ".join(["x"] * (400 // part))
    text = ("T: trait introduces\n c: -> N\n __ + __: N, N -> N\n goal: -> Bool\nasserts \\forall x, y, z: N\n"
            f" (x + y) + z == x + (y + z);\n {chain} == c\nimplies\n goal == true\n")
    script = "duty imply.1\n" + "critical-pairs A2 with A1\n" * 20
    return ["replay", "T.lsl", "T.lp"], {"T.lsl": text, "T.lp": script}, ""


@shape
def scripts(part):
    """A script of as many lines as there is room for that aren't commands."""
    return ["replay", "T.lsl", "T.lp"], {"T.lsl": LONG + "0 == 0\n",
                                         "T.lp": filled("duty imply.1\n", "qed qed\n", "", part)}, ""


@shape
def blocks(part):
    """Blocks of a script for one duty, as many as there is room for."""
    return ["replay", "T.lsl", "T.lp"], {"T.lsl": LONG + "0 == 0\n", "T.lp": filled("", "duty imply.1\n", "", part)}, ""


@shape
def named_files(part):
    """The names of files that aren't there, as many as a system takes."""
    return ["check", *(f"F{i}.lsl" for i in range(100_000 // part))], {}, ""


@shape
def completion(part):
    """Equations whose critical pairs are many."""
    stated = ";\n".join(f"f{i}(f{j}(x)) == x" for i in range(14) for j in range(14))
    text = f"T: trait introduces\n {numbered(14, 'f')}: N -> N\nasserts \\forall x: N\n{stated}\n"
    return ["complete", "T", "T.lsl", "--limit", str(100_000 // part)], {"T.lsl": text}, ""


def measured(program, words, files, source, most):
    """The seconds, the megabytes, the status and the answer of a call."""
    with tempfile.TemporaryDirectory() as name:
        folder = pathlib.Path(name)
        for file, text in files.items():
            (folder / file).write_text(text)
        (folder / "input").write_text(source)
        with (folder / "input").open("rb") as given, (folder / "output").open("wb") as output:
            child = os.fork()
            if child == 0:
                resource.setrlimit(resource.RLIMIT_CPU, (most, most))
                os.chdir(folder)
                os.dup2(given.fileno(), 0)
                os.dup2(output.fileno(), 1)
                os.execv(program, [program, *words])
            _, status, used = os.wait4(child, 0)
        with (folder / "output").open("rb") as output:
            answer, length = output.readline(60), (folder / "output").stat().st_size
    return used.ru_utime + used.ru_stime, used.ru_maxrss / 1024, os.waitstatus_to_exitcode(status), answer, length


def main():
    words = argparse.ArgumentParser(description=__doc__, formatter_class=argparse.RawDescriptionHelpFormatter)
    words.add_argument("program")
    words.add_argument("--most", type=int, default=60)
    words.add_argument("--part", type=int, default=1)
    words.add_argument("shapes", nargs="*")
    words = words.parse_intermixed_args()
    program = str(pathlib.Path(words.program).resolve())
    print(f"{time.strftime('%H:%M')}, load {os.getloadavg()[0]:.0f}: shape, bytes, seconds, megabytes, status, answer")
    for name in words.shapes or SHAPES:
        call, files, source = SHAPES[name](words.part)
        size = len(source) + sum(map(len, files.values()))
        seconds, megabytes, status, answer, length = measured(program, call, files, source, words.most)
        said = f"ended behind {words.most} s" if status < 0 else f"status {status}"
        print(f"{name:22} {size:10,} {seconds:8.2f} {megabytes:7.0f} {said}, {length:,} bytes: {answer[:50]!r}",
              flush=True)
    return 0


if __name__ == "__main__":
    sys.exit(main())
