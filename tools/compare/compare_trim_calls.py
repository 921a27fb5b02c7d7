#!/usr/bin/env python3
"""Compares what a program answers to `trim` with a reference, on random traits and certificates: what it writes, its
status.

    compare_trim_calls.py PROGRAM REFERENCE [--count N] [--seed N] [--jobs N]

PROGRAM is a command, in quotes where it has words of its own; it is started for each call. REFERENCE is the folder
with a Python package `larchref`; LARCHREF_STAGE and LARCHREF_ALSO in the environment tell it how far the program is
built. N certificates (2,000) are made for duties of traits in random sets with claims (random_sets.py); of most sets
those with which something is wrong are left out. Most show their duty (duty_proofs.py); the line that says it may be
said again through boxes whose constants and hypotheses are used (`again`), and lines that nothing names, boxes among
them, are put in everywhere. Of these there are texts in either version, tampered ones, and ones that are no
certificates. Labels, traits and certificates that are none or aren't there, and words that are doubled or left out,
come now and then.

What is trimmed is asked for once more: PROGRAM and the reference have to accept it for the same duty, and PROGRAM has
to trim it to itself. The seed is printed first, and at the end how often each answer came, and how many lines there
were and how many are left. Of the first calls on which two differ the files and the words are kept in a folder that the
output names. Ends with 'N passed, N failed', and status 1 where one failed."""
import argparse
import collections
import pathlib
import random
import re
import sys
import tempfile

import compare_calls
import comparing
import duty_proofs
import random_sets
from random_certificates import DISTANCES, FALSE, PARTS, TRUE, Writer, in_second, lines_text, mutated, sort_in, variable

PER_SET = 12
ASKED = "Asked.cert"


class Reference(compare_calls.Reference):
    """The package `larchref`, which trims by the rows that it checks by."""

    def __init__(self, place):
        super().__init__(place, False)
        verify, certificate = (comparing.module_of(place, name) for name in ("verify", "certificate"))
        verify.trim_command.__defaults__ = (certificate.STAGES[verify.stage_built()]["rows"], None)


def changed(line, number):
    """The line with other numbers of lines and boxes, and the numbers that it names."""
    word, *parts = line.split(" ")
    names = iter(PARTS[word])
    made, named = [word], []

    def other(found):
        named.append(int(found.group()))
        return str(number(named[-1]))

    for part in parts:
        if part != "|" and next(names) in DISTANCES:
            part = re.sub(r"\d+", other, part)
        elif "@" in part:
            part = re.sub(r"(?<=@)\d+", other, part)
        made.append(part)
    return " ".join(made), named


# Certificates --------------------------------------------------------------------------------------

def choice_of(writer, line):
    """A line that says what `line` says; it goes by `if`, with `true` or with what a hypothesis makes of it. `through`
    is called with the line that says `s == if(true, s, other)` and answers one that says the same."""
    _, left, _ = writer.said[line][1]
    sort = sort_in(writer.theory, left, writer.parts)
    a, b = variable("a", sort), variable("b", sort)

    def by(other, through):
        row = writer.row(27, ("if", (TRUE, a, b)), a, sort)
        chosen = writer.inst(row, {a[0]: left, b[0]: other})
        there = through(writer.sym(chosen))
        return writer.repl(writer.repl(there, (), chosen), (), line)

    return sort, by


def by_constants(writer, line):
    """The statement of a line again, as the result of a box with a constant that is used."""
    sort, by = choice_of(writer, line)
    box, (constant,), _ = writer.begin([sort], lambda constants: [])
    by(constant, lambda chosen: chosen)
    writer.done()
    return writer.line(f"fresh {box} {variable('u', sort)[0]}", writer.said[line][1])


def by_hypotheses(writer, line):
    """The statement of a line again, by two boxes of which the hypothesis is used."""
    formula = writer.pick.choice([TRUE, FALSE, ("~", (TRUE,)), ("/\\", (FALSE, TRUE))])
    boxes = []
    for value in (TRUE, FALSE):
        box, _, made = writer.begin([], lambda constants: [(formula, value)])
        _, by = choice_of(writer, line)

        def through(chosen):
            if value != TRUE:
                return chosen
            supposed = writer.hyp(box, 1, made[0])
            return writer.repl(writer.repl(chosen, (1,), writer.sym(supposed)), (1,), supposed)

        by(writer.said[line][1][1], through)
        boxes.append(writer.done())
    return writer.line(f"cases {boxes[0]} {boxes[1]}", writer.said[line][1])


def padded(pick, theory, lines):
    """The lines with others between them that none of them names."""
    for _ in range(pick.choice([0, 1, 1, 2, 3])):
        idle = Writer(pick, theory)
        idle.steps(pick.randint(1, 3))
        at, more = pick.randint(0, len(lines)), len(idle.lines)
        if at == len(lines) or (lines[at] == "done" and pick.random() < 0.9):
            continue
        lines = [*lines[:at], *(changed(line, lambda number: number + at)[0] for line in idle.lines),
                 *(changed(line, lambda number: number + more * (number > at))[0] for line in lines[at:])]
    return lines


def certificate(pick, theory, statement, tables):
    """The lines of a certificate for a duty, and whether they are to show it."""
    made = duty_proofs.Theory(pick, theory)
    prover = duty_proofs.Prover(pick, made, tables)
    shown = prover.shown(made.statement(statement))
    says = prover.writer.said.get(len(prover.writer.lines), (None, None))[1]
    if shown and says and says[0] == "eq":
        for _ in range(pick.choice([0, 0, 1, 1, 2])):
            pick.choice([by_constants, by_hypotheses])(prover.writer, len(prover.writer.lines))
    return padded(pick, made, prover.writer.lines), shown


def for_a_duty(pick, duties):
    """A trait, a label and the lines of a certificate, of a few tries the first that is to show its duty."""
    for _ in range(6):
        stem, label, theory, statement = pick.choice(duties)
        lines, shown = certificate(pick, theory, statement, Work.reference.tables)
        if shown:
            break
    return stem, label, lines


def text_of(pick, lines):
    """A text of these lines, in either version, or one of others."""
    if pick.random() < 0.12:
        return lines_text(mutated(pick, lines)).encode()
    second = ["certificate 2", *(in_second(number, line) for number, line in enumerate(lines, 1))]
    text = lines_text(lines) if pick.random() < 0.6 else "".join(line + "\n" for line in second)
    return compare_calls.garbage(pick, {"": text.encode()}) if pick.random() < 0.05 else text.encode()


# Calls ---------------------------------------------------------------------------------------------

def call(pick, stem, label, files):
    """The words of a call, mostly those that are meant."""
    words = ["trim", stem, label, ASKED, *pick.sample(files, len(files))]
    if pick.random() < 0.03:
        words[1] = pick.choice([*(name[:-4] for name in files), "Nope", "n" * 65, "a-b", "Ta.lsl", ""])
    if pick.random() < 0.03:
        words[2] = pick.choice(compare_calls.LABELS + compare_calls.NO_LABELS)
    if pick.random() < 0.02:
        words[3] = pick.choice(["Nope.cert", ".cert", "Asked.CERT", "x", files[0]])
    if pick.random() < 0.02:
        del words[pick.randrange(len(words))]
    if pick.random() < 0.02:
        place = pick.randint(0, len(words))
        words[place:place] = pick.choice([[pick.choice(words)], *compare_calls.OPTIONS])
    return words


def answer_of(output, status):
    """What is counted of a call: its status and the first word that was written."""
    return f"status {status} {(output.decode('latin-1').split() or [''])[0]}"


def prepare(program, reference, seed, count):
    """What each process of the pool knows."""
    global Work
    Work = argparse.Namespace(program=program, reference=Reference(reference), seed=seed, count=count)


def part(number):
    """The calls over one set: how often each answer came, and those on which two differ, with the files."""
    return compare_calls.in_big_stack(Work.reference, tried, number)


def a_folder(pick):
    """A set of traits and the duties of those with which nothing is wrong."""
    while True:
        names = [f"T{one}" for one in "abcd"[:pick.randint(1, 4)]]
        files = {f"{name}.lsl": text.encode() for name, text in random_sets.a_set(pick, names, True).items()}
        if pick.random() < 0.8:
            files = compare_calls.without_wrong(files, Work.reference) or files
        duties, _ = Work.reference.duties(files)
        if duties:
            return files, duties


def tried(number):
    pick = random.Random(f"{Work.seed} {number}")
    counted, differ = collections.Counter(), []
    files, duties = a_folder(pick)
    with tempfile.TemporaryDirectory() as place:
        compare_calls.write(place, files)
        for _ in range(min(PER_SET, Work.count - number * PER_SET)):
            stem, label, lines = for_a_duty(pick, duties)
            text = text_of(pick, lines)
            compare_calls.write(place, {ASKED: text})
            words = call(pick, stem, label, list(files))
            one = compare_calls.answer(Work.program, words, b"", place)
            other = Work.reference.answer(words, b"", place)
            counted[answer_of(*one)] += 1
            if one != other:
                differ.append((words, one, other, {**files, ASKED: text}))
            elif one[1] == 0:
                counted["lines"] += text.count(b"\n") - 1
                counted["lines left"] += one[0].count(b"\n") - 1
                counted["boxes left"] += one[0].count(b"\nbox ")
                differ += once_more(words, one[0], files, place)
    return counted, differ


def once_more(words, text, files, place):
    """The calls of what was trimmed that don't answer what they have to."""
    compare_calls.write(place, {ASKED: text})
    asked = ["verify", *words[words.index("trim") + 1:]]
    told = [("accepted\n".encode(), 0), (text, 0)]
    for again, answer, wanted in ((asked, compare_calls.answer(Work.program, asked, b"", place), told[0]),
                                  (asked, Work.reference.answer(asked, b"", place), told[0]),
                                  (words, compare_calls.answer(Work.program, words, b"", place), told[1])):
        if answer != wanted:
            yield again, answer, wanted, {**files, ASKED: text}


def main():
    words = comparing.words_of(__doc__, 2000, "program", "reference")
    words.add_argument("--jobs", type=int, default=4)
    said = words.parse_args()
    seed = comparing.seed_of(said.seed)
    comparing.module_of(said.reference, "trim")
    given = (compare_calls.started(said.program), str(pathlib.Path(said.reference).resolve()), seed, said.count)
    counted, failed = compare_calls.in_parts(part, prepare, given, said.jobs, (said.count + PER_SET - 1) // PER_SET)
    calls = sum(times for word, times in counted.items() if word.startswith("status"))
    print(f"{calls - failed} passed, {failed} failed")
    sys.exit(1 if failed or not calls else 0)


if __name__ == "__main__":
    main()
