#!/usr/bin/env python3
"""Compares a program with larch's command line with a reference on random sessions, replays and derivations of traits
with scripts.

    compare_reports.py PROGRAM REFERENCE [--count N] [--seed N] [--jobs N]

PROGRAM is a command, in quotes where it has words of its own; it is started for each call. REFERENCE is the folder with
a Python package `larchref`, whose module `main` has `run`, which is called in the processes of this tool;
LARCHREF_STAGE in the environment tells it how far the program is built. The calls are those of `random_reports.py`: two
sessions to each call of `replay` or `derive`. The reference writes no derivations, and says where one is owed: of each
that the program writes there, `verify` of the program, in another call, and the reference have to accept it, and both
have to answer the same to it where it is trimmed or migrated, and where bytes of it are changed (`derivations.py`).

The seed is printed first, and at the end how often each command ended with each status, and how often each kind of line
came. Of the first five calls on which the two differ the words and the answers are printed, and the folder's files, the
words and the input are kept in a folder that the output names. Ends with 'N passed, N failed', and status 1 where one
failed.
"""
import collections
import multiprocessing
import pathlib
import random
import sys
import tempfile

import comparing
import derivations
import random_reports
from compare_calls import KEPT, Reference, answer, in_big_stack, keep, shown, started

CALLS_PER_PART, CALLS_PER_DESK = 24, 8
COMMANDS, CALLS = ("session", "replay", "derive"), [random_reports.replay, random_reports.derive]


class Reading:
    """What writes scripts, by the names of its modules."""

    def __init__(self, place):
        for name in random_reports.MODULES:
            setattr(self, name, comparing.module_of(place, name))


def kind_of(line):
    """What is counted of a line: what it says, without names and numbers."""
    if line in (b"none", derivations.OWED.strip()):
        return "none" if line == b"none" else "derivation"
    words = line.decode("latin-1").split(" ")
    if words[0] == "trait":
        return "trait wrong" if len(words) > 2 else "trait right"
    if words[0] == "script":
        return "script without trait" if words[-1] == "trait" else f"script {words[-1]}"
    if len(words) > 1 and words[1] in ("proved", "suspended"):
        return words[1]
    return f"refused {words[-1]}" if len(words) > 1 and words[1] == "refused" else words[0].split("\n")[0]


def prepare(said):
    """What each process of the pool knows."""
    global Said, Ours, Reads
    Said, Ours, Reads = said, Reference(said.reference, False), Reading(said.reference)


def part(number):
    """Some calls: how often each ended how, which lines came, and those on which both differ."""
    return in_big_stack(Ours, tried, number)


def tried(number):
    """The same, with the stack that there is."""
    pick = random.Random(f"{Said.seed} {number}")
    checker = derivations.Checker(pick, Ours, lambda words, place: answer(Said.started, words, b"", place))
    counted, differ = collections.Counter(), []
    for place_of in range(min(CALLS_PER_PART, Said.count - number * CALLS_PER_PART)):
        if place_of % CALLS_PER_DESK == 0:
            desk = random_reports.Desk(pick, Reads)
            Ours.known.clear()
        make = pick.choice(CALLS) if place_of % 3 == 2 else random_reports.session
        words, text, files = make(pick, desk.copy())
        files = {name: content.encode("latin-1") for name, content in files.items()}
        with tempfile.TemporaryDirectory() as place:
            for name, content in files.items():
                pathlib.Path(place, name).write_bytes(content)
            one = answer(Said.started, words, text, place)
            other = Ours.answer(words, text, place)
        counted[f"{next(word for word in words if word in COMMANDS)} status {one[1]}"] += 1
        counted.update(f"line {kind_of(line)}" for line in other[0].splitlines())
        differs, wrong = checker.differences(one, other, list(Ours.owed))
        if differs:
            differ.append((words, text, one, other, files))
        differ += wrong
    return counted, differ


def main():
    words = comparing.words_of(__doc__, 1000, "program", "reference")
    words.add_argument("--jobs", type=int, default=4)
    said = words.parse_args()
    said.seed = comparing.seed_of(said.seed)
    said.started = started(said.program)
    said.reference = str(pathlib.Path(said.reference).resolve())
    comparing.module_of(said.reference, "main")
    counted, failed = collections.Counter(), 0
    with multiprocessing.Pool(said.jobs, prepare, (said,)) as pool:
        for found, differ in pool.imap(part, range((said.count + CALLS_PER_PART - 1) // CALLS_PER_PART)):
            counted.update(found)
            for asked, text, one, other, files in differ[:max(0, KEPT - failed)]:
                print(f"{ascii(asked)} in {keep(asked, text, files)}")
                print(f"  program   {shown(one)}\n  reference {shown(other)}", flush=True)
            failed += len(differ)
    for word, times in sorted(counted.items()):
        print(f"  {word}: {times}")
    calls = sum(times for word, times in counted.items() if " status " in word)
    print(f"{calls - failed} passed, {failed} failed")
    sys.exit(1 if failed or not calls else 0)


if __name__ == "__main__":
    main()
