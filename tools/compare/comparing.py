"""What the tools that compare two programs on random inputs share: words, the seed, a run, and the differences."""
import argparse
import importlib
import pathlib
import random
import shlex
import subprocess
import sys
import tempfile


def words_of(description, count, *programs):
    """A reader of the words that each comparison takes: programs, --count and --seed."""
    words = argparse.ArgumentParser(description=description, formatter_class=argparse.RawDescriptionHelpFormatter)
    for program in programs:
        words.add_argument(program)
    words.add_argument("--count", type=int, default=count)
    words.add_argument("--seed", type=int, default=None)
    return words


def seed_of(seed):
    """The seed, a new one where none is given; it is printed."""
    seed = random.randrange(2 ** 32) if seed is None else seed
    print(f"seed {seed}", flush=True)
    return seed


def choices(seed):
    """What random inputs are chosen by; the seed, a new one where none is given, is printed first."""
    return random.Random(seed_of(seed))


def answers(command, texts):
    """What a command prints for each of the texts: both have a byte 0 between any two."""
    done = subprocess.run(shlex.split(command), input=b"\0".join(texts), stdout=subprocess.PIPE, check=False)
    return done.stdout.split(b"\0")[:-1]


def module_of(reference, name):
    """A module of the package `larchref` in a folder; without it nothing can be compared, and the status is 2."""
    if not (pathlib.Path(reference) / "larchref" / f"{name}.py").exists():
        print(f"there is no larchref with {name} in {reference}, so nothing is compared")
        sys.exit(2)
    if str(reference) not in sys.path:
        sys.path.insert(0, str(reference))
    sys.dont_write_bytecode = True
    sys.setrecursionlimit(100000)
    return importlib.import_module(f"larchref.{name}")


class Differences:
    """How many answers differ; the inputs of the first five are kept in files that the output names."""

    def __init__(self, ending, lacking=0):
        self.ending, self.failed = ending, lacking

    def look(self, text, ours, theirs):
        """Compares two answers to one input, and says what differs."""
        if ours == theirs:
            return
        self.failed += 1
        if self.failed <= 5:
            with tempfile.NamedTemporaryFile("w", suffix=self.ending, delete=False, encoding="latin-1") as out:
                out.write(text)
            print(f"{out.name}: {ours!r} and {theirs!r}"[:400])

    def end(self, count):
        """Says how many of so many inputs passed; the status for the end."""
        print(f"{count - self.failed} passed, {self.failed} failed")
        return 1 if self.failed or not count else 0
