#!/usr/bin/env python3
"""Counts the ways through crates.txt: python3 tools/gate/check_ways.py [--most N]

A way goes from a crate down to a library that it lists, on to one that this lists, and so on; a crate has one way more
than all that it lists together. `rt ci` goes each of them twice for each library, reading the files of all crates on
it, so their number decides how long the gate takes before and behind each proof. Prints the number for all libraries
and the crates with most, and ends with status 1 where there are more than N (300,000), or where a crate passes a whole
crate on, since a check loads each item of it once for each way to it.
"""
import argparse
import functools
import pathlib
import re
import sys

TOP = pathlib.Path(__file__).resolve().parents[2]


def lists():
    """What each crate lists of the repository's own."""
    rows = (line.partition("#")[0].partition(":") for line in (TOP / "crates.txt").read_text().splitlines())
    listed = {name.strip(): names.split() for name, _, names in rows if name.strip()}
    return {crate: [name for name in names if name in listed] for crate, names in listed.items()}


def passed_whole(below):
    """The lines of a crate's root by which it passes on a whole crate and not items of it."""
    found = []
    for crate in below:
        root = TOP / "crates" / crate / "src/lib.rt"
        for line in re.findall(r"^pub use [^;]*;", root.read_text() if root.exists() else "", re.MULTILINE):
            if any(re.search(rf"\b{name}\b(?!::)", line) for name in below):
                found.append(f"{crate}: {' '.join(line.split())}")
    return found


def main():
    words = argparse.ArgumentParser(description="Counts the ways through crates.txt.")
    words.add_argument("--most", type=int, default=300_000, help="how many there may be (300,000)")
    most, below = words.parse_args().most, lists()

    @functools.cache
    def ways(crate):
        return 1 + sum(ways(name) for name in below[crate])

    libraries = [crate for crate in below if not (TOP / "crates" / crate / "src/main.rt").exists()]
    total = sum(map(ways, libraries))
    first = sorted(libraries, key=ways, reverse=True)[:5]
    print(f"{total:,} ways; most: {', '.join(f'{crate} {ways(crate):,}' for crate in first)}")
    whole = passed_whole(below)
    for line in whole:
        print(f"{line} passes a whole crate on: name its items")
    return total > most or bool(whole)


if __name__ == "__main__":
    sys.exit(main())
