#!/usr/bin/env python3
"""Compares what a program answers to `complete` and `generate` with a reference: what it writes, its status.

    compare_completions.py PROGRAM REFERENCE [--count N] [--seed N] [--jobs N] [--generated N]

PROGRAM is a command, in quotes where it has words of its own; it is started for each call. REFERENCE is the folder
with a Python package `larchref`; LARCHREF_STAGE and LARCHREF_ALSO in the environment tell it how far the program is
built. N traits (1,000) are made of random theories of one to eight equations (random_theories.py), some of them in two
files, and completed with a random limit. Of most only those equations are left of which one side is greater. Names of
traits that aren't there, traits with which something is wrong, and claims that nobody can read come now and then. With
--generated so many calls of `generate` are compared too, with random seeds and sizes. A completion that the reference
doesn't come to an end of in 20 seconds is left out, and counted.

The seed is printed first, and at the end how often each answer came, and how many rules there were. Of the first calls
on which the two differ the files and the words are kept in a folder that the output names. Ends with 'N passed, N
failed', and status 1 where one failed."""
import argparse
import collections
import pathlib
import random
import signal
import tempfile

import compare_calls
import comparing
import random_theories

PER_PART, SECONDS = 20, 20
LIMITS = [*[None] * 6, 1, 5, 20, 1000, 100000]
MOST_SEED, SIZES = 2147483647, [*[1, 2, 3, 4, 6] * 4, 16, 40, 128]


class Late(Exception):
    """The reference comes to no end."""


class Reference(compare_calls.Reference):
    """The package `larchref`, as far as theories are written as traits."""

    def __init__(self, place):
        super().__init__(place, False)
        self.term, self.order, self.nodes = (comparing.module_of(place, name) for name in ("term", "order", "nodes"))

    def oriented(self, theory):
        """The statements of a theory without equations neither side of which is greater."""
        precedence = self.order.Precedence(theory)
        for statement in theory.statements:
            is_equation = isinstance(statement, self.base.Equation)
            sides = [self.nodes.node_of(side) for side in statement] if is_equation else []
            if not sides or precedence.greater(*sides) or precedence.greater(*reversed(sides)):
                yield statement

    def answer_in_time(self, words, place):
        """What the reference writes, and its status; nothing where that takes too long."""
        def late(*_):
            raise Late

        signal.signal(signal.SIGALRM, late)
        signal.alarm(SECONDS)
        try:
            found = self.answer(words, b"", place)
        except Late:
            return None
        finally:
            signal.alarm(0)
        return None if found[1] is None and b"Late" in found[0] else found


# Traits of theories -------------------------------------------------------------------------------

def renamed(base, term):
    """A term in which variables of `Bool` have names that no others have."""
    if isinstance(term, base.Var):
        return base.Var(term.name + "b", term.sort) if term.sort == base.BOOL else term
    return base.App(term.op, tuple(renamed(base, part) for part in term.args))


def item(reference, statement):
    """The lines of a trait for a statement."""
    base, term = reference.base, reference.term
    if not isinstance(statement, base.Equation):
        return f"    {term.print_statement(statement)}\n"
    equation = base.Equation(renamed(base, statement.left), renamed(base, statement.right))
    scope = ", ".join(f"{variable.name}: {variable.sort}" for variable in term.statement_variables(equation))
    return f"    \\forall {scope or 'unused: S'}\n      {term.print_statement(equation)}\n"


def trait(reference, name, includes, operators, statements):
    """The text of a trait."""
    lines = [f"    {reference.term.print_operator_form(operator)}\n" for operator in operators]
    return (f"{name}: trait\n" + (f"  includes {includes}\n" if includes else "")
            + ("  introduces\n" if lines else "") + "".join(lines)
            + ("  asserts\n" if statements else "") + "".join(item(reference, one) for one in statements))


def some_files(pick, reference):
    """Files of which the trait `T` has the operators and the equations of a random theory."""
    theory = random_theories.Maker(reference.base, pick).theory()
    operators, statements = list(theory.operators), list(theory.statements)
    if pick.random() < 0.8:
        statements = list(reference.oriented(theory)) or statements
    if pick.random() < 0.7:
        files = {"T.lsl": trait(reference, "T", "", operators, statements)}
    else:
        cut = pick.randint(0, len(statements))
        files = {"A.lsl": trait(reference, "A", "", operators, statements[:cut]),
                 "T.lsl": trait(reference, "T", "A", [], statements[cut:])}
    if pick.random() < 0.06:
        name = pick.choice(sorted(files))
        files[name] += pick.choice(["  implies nope(x)\n", "  introduces c -> S\n", "    x == \n", "  implies B\n"])
    return {name: text.encode() for name, text in files.items()}


# Calls --------------------------------------------------------------------------------------------

def option(pick):
    """The words for a limit, now and then."""
    limit = pick.choice(LIMITS)
    return [] if limit is None else pick.choice([["--limit", str(limit)], [f"--limit={limit}"]])


def completion(pick, reference):
    """The words of a call of `complete`, and its files."""
    files = some_files(pick, reference)
    names = pick.sample(sorted(files), len(files)) if pick.random() < 0.97 else ["T.lsl"]
    name = "T" if pick.random() < 0.96 else pick.choice(["A", "Nope", "n" * 64])
    return pick.choice([["complete", name, *names, *option(pick)], [*option(pick), "complete", name, *names]]), files


def generation(pick):
    """The words of a call of `generate`."""
    seed = pick.choice([0, 1, MOST_SEED, *[pick.randint(0, MOST_SEED)] * 9])
    return ["generate", "--seed", str(seed), "--size", str(pick.choice(SIZES))], {}


def answer_of(words, output, status):
    """What is counted of a call: its command, its status and the first word that was written."""
    word = (output[:40].decode("latin-1").split() or [""])[0]
    return f"{'generate' if words[0] == 'generate' else 'complete'} status {status} {word}"


# Parts of the work --------------------------------------------------------------------------------

def prepare(program, reference, seed, count, generated):
    """What each process of the pool knows."""
    global Work
    Work = argparse.Namespace(program=program, reference=Reference(reference), seed=seed, count=count,
                              generated=generated)


def part(number):
    """Some calls: how often each answer came, and those on which both differ, with the files."""
    pick = random.Random(f"{Work.seed} {number}")
    counted, differ = collections.Counter(), []
    for place_of in range(number * PER_PART, min((number + 1) * PER_PART, Work.count + Work.generated)):
        words, files = completion(pick, Work.reference) if place_of < Work.count else generation(pick)
        with tempfile.TemporaryDirectory() as place:
            compare_calls.write(place, files)
            other = Work.reference.answer_in_time(words, place)
            one = other and compare_calls.answer(Work.program, words, b"", place)
        if not other:
            counted["left out: no end"] += 1
            continue
        counted[answer_of(words, *one)] += 1
        counted["rules"] += one[0].count(b" -> ")
        if one != other:
            differ.append((words, one, other, files))
    return counted, differ


def main():
    words = comparing.words_of(__doc__, 1000, "program", "reference")
    words.add_argument("--jobs", type=int, default=4)
    words.add_argument("--generated", type=int, default=0)
    said = words.parse_args()
    seed = comparing.seed_of(said.seed)
    comparing.module_of(said.reference, "complete")
    given = (compare_calls.started(said.program), str(pathlib.Path(said.reference).resolve()), seed, said.count,
             said.generated)
    parts = (said.count + said.generated + PER_PART - 1) // PER_PART
    counted, failed = compare_calls.in_parts(part, prepare, given, said.jobs, parts)
    calls = sum(times for word, times in counted.items() if " status " in word)
    print(f"{calls - failed} passed, {failed} failed")
    return 1 if failed or not calls else 0


if __name__ == "__main__":
    raise SystemExit(main())
