#!/usr/bin/env python3
"""Compares what a program answers to `model` with a reference, on random traits and models: what it writes, its status.

    compare_model_calls.py PROGRAM REFERENCE [--count N] [--seed N] [--jobs N]

PROGRAM is a command, in quotes where it has words of its own; it is started for each call. REFERENCE is the folder
with a Python package `larchref`; LARCHREF_STAGE and LARCHREF_ALSO in the environment tell it how far the program is
built. N traits (2,000) are made in random sets with claims (random_sets.py); of most sets those with which something is
wrong are left out. Of each there are models of four kinds: one in which its statements hold, where companions/finite.py
finds one soon; random ones; ones with more values, which may be too many; and texts of these that were changed, so that
most are none. Names of traits and models that are none or aren't there, and words that are doubled or left out, come
now and then.

The seed is printed first, and at the end how often each answer came. Of the first calls on which the two differ the
files and the words are kept in a folder that the output names. Ends with 'N passed, N failed', and status 1 where one
failed."""
import argparse
import collections
import math
import pathlib
import random
import sys
import tempfile
import time

import compare_calls
import comparing
import random_sets

sys.path.insert(0, str(pathlib.Path(__file__).resolve().parents[2]))
from companions import finite, listed  # noqa: E402

TRAITS_PER_PART, MOST_ENTRIES = 3, 4096
SIGNS = {"~ __": "~", "__ /\\ __": "/\\", "__ \\/ __": "\\/", "__ => __": "=>", "__ <=> __": "<=>", "__ = __": "=",
         "__ ~= __": "~=", "if __ then __ else __": "if"}
NO_TRAITS = ["Nope", "n" * 65, "a-b", "Ta.lsl", ""]
NO_MODELS = ["Nope.mod", ".mod", "a-b.mod", "Ta.MOD", "x", "a/b.mod", "n" * 65 + ".mod"]


class Reference(compare_calls.Reference):
    """The package `larchref`, as far as models of traits need it."""

    def __init__(self, place):
        super().__init__(place, False)
        self.term = comparing.module_of(place, "term")

    def theories(self, files):
        """The theory of each trait; of one that is refused nothing."""
        files, found, known = {name: text.decode("latin-1") for name, text in files.items()}, {}, {}
        for name in self.traits.trait_names(files):
            try:
                found[name] = self.traits.flatten(files, name, known).theory
            except self.base.Refused:
                found[name] = None
        return found


def mutated(pick, text):
    """A text with a part left out, doubled or changed."""
    for _ in range(pick.randint(1, 2)):
        place = pick.randrange(len(text))
        text = text[:place] + pick.choice(["", text[place] * 2, pick.choice("0123 \nSTopmdl")]) + text[place + 1:]
    return text


# Theories as companions have them ------------------------------------------------------------------

class Theory:
    """The operators and statements of a theory in the words of companions/listed.py."""

    def __init__(self, base, theory):
        self.base, self.numbers = base, {operator: number for number, operator in enumerate(theory.operators)}
        self.operators = [listed.Operator(one.name, tuple(one.domain), one.range) for one in theory.operators]
        named = [sort for one in self.operators for sort in (*one.domain, one.range)]
        self.sorts = [sort for sort in dict.fromkeys(named) if sort != listed.BOOL]
        self.statements = [[self.statement(one)] for one in theory.statements]

    def statement(self, one):
        if not isinstance(one, self.base.Equation):
            kind = "generated" if isinstance(one, self.base.Generated) else "partitioned"
            return listed.Clause(kind, one.sort, tuple(self.numbers[operator] for operator in one.ops))
        names = {}
        left, right = self.term(one.left, names), self.term(one.right, names)
        return listed.Equation(tuple(variable.sort for variable in names), left, right)

    def term(self, term, names):
        if isinstance(term, self.base.Var):
            return ("variable", names.setdefault(term, len(names)))
        parts = tuple(self.term(part, names) for part in term.args)
        if term.op in self.numbers:
            return ("operator", self.numbers[term.op], parts)
        return (SIGNS[term.op.name], *parts) if parts else ("value", int(term.op.name == "true"))


def found_model(pick, theory):
    """The text of a model in which all statements hold, or nothing."""
    sizes = {sort: pick.choice([1, 2, 2, 3]) for sort in theory.sorts}
    try:
        search = finite.Search(theory.operators, sizes, theory.statements)
        values = next(search.models(pick.choice([1, 30, 100]), time.monotonic() + 1000), None)
    except finite.Ended:
        return None
    return values and search.text(values)


def random_model(pick, theory, most):
    """A text with random tables."""
    sizes = {sort: pick.randint(1, most) for sort in theory.sorts}
    while any(math.prod(sizes.get(s, 2) for s in one.domain) > MOST_ENTRIES for one in theory.operators):
        sizes = {sort: (size + 1) // 2 for sort, size in sizes.items()}
    lines = [f"sort {sort} {size}" for sort, size in sizes.items() if size > 1 or pick.random() < 0.5]
    pick.shuffle(lines)
    for number, one in enumerate(theory.operators, 1):
        count, last = math.prod(sizes.get(sort, 2) for sort in one.domain), sizes.get(one.range, 2) - 1
        equal = pick.randint(0, last) if pick.random() < 0.5 else None
        values = [pick.randint(0, last) if equal is None else equal for _ in range(count)]
        lines.append(" ".join(["op", str(number), *map(str, values)]))
    return "".join(line + "\n" for line in ["model", *lines])


def models(pick, theory):
    """Some texts for a trait with a theory, or one with which something is wrong."""
    if theory is None:
        return ["model\n"]
    some = [random_model(pick, theory, pick.choice([1, 1, 2, 3]))]
    right = found_model(pick, theory)
    if right:
        some.append(right)
    if pick.random() < 0.2:
        some.append(random_model(pick, theory, 16))
    if pick.random() < 0.5:
        some.append(mutated(pick, pick.choice(some)))
    return some


# Calls ---------------------------------------------------------------------------------------------

def call(pick, trait, model, files):
    """The words of a call, mostly those that are meant."""
    words = ["model", trait, model, *pick.sample(files, len(files))]
    if pick.random() < 0.03:
        words[1] = pick.choice(NO_TRAITS)
    if pick.random() < 0.03:
        words[2] = pick.choice(NO_MODELS)
    if pick.random() < 0.03:
        del words[pick.randrange(len(words))]
    if pick.random() < 0.03:
        place = pick.randint(0, len(words))
        words[place:place] = pick.choice([[pick.choice(words)], *compare_calls.OPTIONS])
    return words


def answer_of(words, output, status):
    """What is counted of a call: the first word that was written, and whether a claim fails."""
    lines = output.decode("latin-1").splitlines() or [""]
    fails = status == 1 and lines[0] == "model"
    first = lines[0].split(" ")[0]
    return f"{first} with a claim that fails" if fails else " ".join([first, *(["with claims"] * (len(lines) > 2))])


def prepare(program, reference, seed, count):
    """What each process of the pool knows."""
    global Work
    Work = argparse.Namespace(program=program, reference=Reference(reference), seed=seed, count=count)


def part(number):
    """The calls over one set: how often each answer came and how many traits there are, and the calls on which both
    differ, with the files."""
    return compare_calls.in_big_stack(Work.reference, tried, number)


def tried(number):
    pick = random.Random(f"{Work.seed} {number}")
    counted, differ = collections.Counter(), []
    names = [f"T{part}" for part in "abc"[:min(TRAITS_PER_PART, Work.count - number * TRAITS_PER_PART)]]
    files = {f"{name}.lsl": text.encode() for name, text in random_sets.a_set(pick, names, True).items()}
    if pick.random() < 0.7:
        files = compare_calls.without_wrong(files, Work.reference) or files
    theories, known = Work.reference.theories(files), dict(files)
    with tempfile.TemporaryDirectory() as place:
        compare_calls.write(place, files)
        for trait, theory in theories.items():
            theory = theory and Theory(Work.reference.base, theory)
            for text in models(pick, theory):
                known["M.mod"] = text.encode("latin-1")
                compare_calls.write(place, {"M.mod": known["M.mod"]})
                words = call(pick, trait, "M.mod", list(files))
                one = compare_calls.answer(Work.program, words, b"", place)
                other = Work.reference.answer(words, b"", place)
                counted[answer_of(words, *one)] += 1
                if one != other:
                    differ.append((words, one, other, dict(known)))
    counted["traits"] = len(theories)
    return counted, differ


def main():
    words = comparing.words_of(__doc__, 2000, "program", "reference")
    words.add_argument("--jobs", type=int, default=4)
    said = words.parse_args()
    seed = comparing.seed_of(said.seed)
    comparing.module_of(said.reference, "models")
    given = (compare_calls.started(said.program), str(pathlib.Path(said.reference).resolve()), seed, said.count)
    parts = (said.count + TRAITS_PER_PART - 1) // TRAITS_PER_PART
    counted, failed = compare_calls.in_parts(part, prepare, given, said.jobs, parts)
    traits = counted["traits"]
    calls = sum(counted.values()) - traits
    print(f"{traits} traits: {calls - failed} passed, {failed} failed")
    sys.exit(1 if failed or not calls else 0)


if __name__ == "__main__":
    main()
