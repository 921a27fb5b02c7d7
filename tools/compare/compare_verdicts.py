#!/usr/bin/env python3
"""Compares the verdicts of two checkers of certificates on random certificates over random theories.

    compare_verdicts.py PROGRAM OTHER [--count N] [--theories N] [--seed N]

PROGRAM and OTHER are commands, in quotes where they have words of their own. Each is run once, on problems with a byte
0 between any two, and prints for each `accepted`, `refused N` or `malformed N` with a byte 0 behind it, as
`larch_verify_table` does; its README says how a problem is written. The certificates are made so that most of their
lines are good, by all rules, and are written in either version; then lines are left out, doubled or exchanged, and
numbers, symbols and signs changed. The seed is printed first, and at the end how often each verdict came and which
rules stood in accepted certificates. A problem on which the two differ is written to a file that the output names. Ends
with 'N passed, N failed', and status 1 where one failed.
"""
import collections
import sys

import comparing
from random_certificates import Theory, Writer, in_second, lines_text, mutated, statement_text


def problem(pick, theory):
    writer = Writer(pick, theory)
    writer.steps(pick.randint(1, 5))
    lines, last = writer.lines, writer.said[len(writer.lines)][1] if writer.lines else None
    if not last or pick.random() < 0.05:
        last = pick.choice(theory.statements)
    second = pick.random() < 0.5
    if second:
        lines = [in_second(number, line) for number, line in enumerate(lines, 1)]
    if pick.random() < 0.6:
        lines = mutated(pick, lines)
    statements = theory.statements + [last]
    shown = "certificate 1\n" + "".join(statement_text(number, s) for number, s in enumerate(statements, 1))
    text = "certificate 2\n" + "".join(line + "\n" for line in lines) if second else lines_text(lines)
    return "\1".join([theory.text(), shown, text])


def main():
    words = comparing.words_of(__doc__, 5000, "program", "other")
    words.add_argument("--theories", type=int, default=24)
    said = words.parse_args()
    pick = comparing.choices(said.seed)
    theories = [Theory(pick) for _ in range(said.theories)]
    problems = [problem(pick, pick.choice(theories)) for _ in range(said.count)]
    given = [text.encode() for text in problems]
    left, right = comparing.answers(said.program, given), comparing.answers(said.other, given)
    differences = comparing.Differences(".problem", abs(len(left) - len(right)))
    verdicts, rules = collections.Counter(), collections.Counter()
    for text, ours, theirs in zip(problems, left, right):
        verdicts[ours.decode().split(" ")[0]] += 1
        if ours == b"accepted":
            header, *lines = text.split("\1")[2].splitlines()
            rules.update(line.split(" ")[header == "certificate 1"] for line in lines)
        differences.look(text, ours, theirs)
    print(", ".join(f"{word} {count}" for word, count in sorted(verdicts.items())))
    print(", ".join(f"{rule} {count}" for rule, count in sorted(rules.items())))
    sys.exit(differences.end(len(problems)))


if __name__ == "__main__":
    main()
