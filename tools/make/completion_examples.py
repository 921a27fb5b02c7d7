#!/usr/bin/env python3
"""Writes random theories with what their completions come to, as another reading of the language computes it.

    tools/make/completion_examples.py EVALUATOR SEED COUNT [--numbers]

writes lemmas to crates/larch_complete_meaning/proofs/Random.antt, one for each theory, that the definitions come to the
same answer and rules; with --numbers it prints alone how often each answer comes up. EVALUATOR is FOLDER:PACKAGE, a
Python package that is no part of this repository: its modules base and complete complete theories. This is no part of
the gate: run it, check the crate, see that each lemma holds, and delete the file.
"""
import collections
import importlib
import os
import random
import sys

from replay_examples import ROOT, Call, Items, Record, Writer, definition, flat

sys.path.insert(0, os.path.join(ROOT, "tools", "compare"))
from random_theories import Maker  # noqa: E402  (that folder is found only now)

FILE = os.path.join(ROOT, "crates", "larch_complete_meaning", "proofs", "Random.antt")
HEAD = """-- Random theories, and what their completions come to.
use Rattle.std.specs.Prelude.{◌≡◌, refl, [], ◌∷◌, codes}
use Rattle.larch_term.specs.Operator.{PlainOperator, plain}
use Rattle.larch_term.specs.Tree.{var, app, forest_of}
use Rattle.larch_term.specs.BuiltIn.{built_in, bool_sort}
use Rattle.larch_term.specs.Truth.{truth}
use Rattle.larch_term.specs.declared.built_in.BuiltIn.TheVariants.{True, False, Not, And, Or, Implies, Iff, Equal}
use Rattle.larch_term.specs.declared.built_in.BuiltIn.TheVariants.{Unequal, If}
use Rattle.larch_term.specs.declared.statement.Statement.TheVariants.{Equation, Generated, Partitioned}
use Rattle.larch_term.specs.declared.statement.Theory.{Theory}
use Rattle.larch_calculus.specs.Formula.{constant, apply_one, apply_two}
use Rattle.larch_complete_meaning.specs.Completion.{complete}
use Rattle.larch_complete_meaning.specs.Computing.{completing}
use Rattle.larch_complete_meaning.specs.declared.answer.CompletionAnswer.TheVariants as answer

"""

def answer_of(writer, what):
    if isinstance(what, tuple):
        return Call("answer.Unoriented", writer.statement(what[1]))
    return {"complete": "answer.Complete", "LIMIT": "answer.Limit", "SIZE": "answer.TooLarge",
            "spent": "answer.Spent"}[what]


class Larch:
    """The other reading, as far as a writer asks for it."""

    def __init__(self, evaluator):
        folder, package = evaluator.rsplit(":", 1)
        sys.path.insert(0, folder)
        self.base, self.completing = (importlib.import_module(f"{package}.{m}") for m in ("base", "complete"))

    def is_built_in(self, operator):
        return self.base.is_built_in(operator)


def main(evaluator, seed, count, numbers):
    larch, counts, out = Larch(evaluator), collections.Counter(), []
    maker = Maker(larch.base, random.Random(seed))
    writer = Writer(larch, "own")
    while counts["theories"] < count:
        theory, limit = maker.theory(), maker.pick.choice([1, 2, 5, 20, 1000, 1000, 1000])
        found = larch.completing.complete(theory, limit)
        what = found.answer if isinstance(found.answer, str) else "unoriented"
        if maker.pick.random() < {"unoriented": .6, "spent": .9}.get(what, 0):
            continue
        counts["theories"] += 1
        counts[what] += 1
        counts["rules"] += len(found.rules)
        number = counts["theories"]
        writer.definitions.append((None, f"theory_{number}", "Theory", Record(
            operators=Items(writer.operator(o) for o in theory.operators),
            statements=Items(writer.statement(s) for s in theory.statements))))
        rules = Items(Record(left=writer.term(left), right=writer.term(right)) for left, right in found.rules)
        end = Record(answer=answer_of(writer, found.answer), rules=rules)
        out.append(f"completion_{number} : complete theory_{number} {limit} ≡ {flat(end)}\n"
                   f"unfolding completing\ncompletion_{number} = refl\n")
    if not numbers:
        with open(FILE, "w") as file:
            file.write(HEAD + "\n".join([definition(*d) for d in writer.definitions] + out))
    for key, n in sorted(counts.items()):
        print(f"{n:6} {key}")


if __name__ == "__main__":
    if len(sys.argv) in (4, 5) and sys.argv[4:] in ([], ["--numbers"]):
        main(sys.argv[1], int(sys.argv[2]), int(sys.argv[3]), sys.argv[4:] == ["--numbers"])
    else:
        sys.exit(__doc__)
