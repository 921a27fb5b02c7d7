#!/usr/bin/env python3
"""Lists functions by the size of their machine form, by which a proof's time goes: machine_sizes.py [--least KB]
[CRATE..]

Reads the libraries that `rt lib`, `rt check` or `./larch --build` left in crates/*/out (--in FOLDER: other libraries,
as FOLDER/NAME.rlib). A kilobyte takes about 0.35 s of processor time to prove on a quiet machine, and more above 30 kB.
Columns: kB, places where something is dropped, calls, function. What to do about a large one is in docs/GATE.md.
"""
import argparse
import json
import pathlib

TOP = pathlib.Path(__file__).resolve().parents[2]


def libraries(folder, crates):
    """The built libraries by crate: all that are there, or those of some crates."""
    found = folder.glob("*.rlib") if folder else TOP.glob("crates/*/out/rlib/*.rlib")
    return {path.stem: path for path in sorted(found) if not crates or path.stem in crates}


def functions(crate, library):
    """Each function of a crate: its size in kB, its drops, its calls, its name."""
    for name, said in json.loads((library / "toolchain" / "mir.json").read_text()):
        if name.startswith(f"{crate}::"):
            body = json.dumps(said.get("body", ""))
            yield len(body) / 1000, body.count('::drop"') + body.count("Destruct"), body.count('"Call"'), name


def main():
    words = argparse.ArgumentParser(description="Lists functions by the size of their machine form.")
    words.add_argument("crates", nargs="*", help="only these crates")
    words.add_argument("--in", dest="folder", type=pathlib.Path, help="where the libraries lie")
    words.add_argument("--least", type=float, default=12, help="the least size that is listed, in kB (12)")
    said = words.parse_args()
    rows = [row for crate, library in libraries(said.folder, said.crates).items() for row in functions(crate, library)]
    large = [row for row in sorted(rows, reverse=True) if row[0] >= said.least]
    for size, drops, calls, name in large:
        print(f"{size:7.1f} {drops:5d} {calls:5d}  {name}")
    print(f"{sum(row[0] for row in rows):.0f} kB in {len(rows)} functions, "
          f"{sum(row[0] for row in large):.0f} kB in the {len(large)} listed")


if __name__ == "__main__":
    main()
