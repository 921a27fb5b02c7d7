#!/usr/bin/env python3
"""Times reading and printing certificates: python3 bench/certificates.py [PROGRAM] [--lines N]

PROGRAM is the built `larch_certificate_table`. Certificates of N (1,000,000 by default), a half and a quarter of the
lines, of both versions, are read and printed again; then one term that is 340,000 deep, and as many parentheses that
nothing closes. For each the milliseconds, the megabytes of text, and the peak of memory in megabytes."""
import argparse
import pathlib
import resource
import subprocess
import time

TOP = pathlib.Path(__file__).resolve().parent.parent
RULES = ["axiom {s}{n}", "refl {t}#3(#1,x:N)", "sym {l}{r}", "inst {l}{r} {b}x:N=#2(#1);y:N=x:N", "row {k}24 {o}N"]


def lines_of(count, second):
    names = {"s": "statement=", "t": "term=", "l": "line=", "b": "by=", "k": "number=", "o": "sort="}
    yield "certificate 2" if second else "certificate 1"
    for number in range(1, count + 1):
        said = {name: label if second else "" for name, label in names.items()}
        rule = RULES[number % len(RULES)].format(n=number % 50, r=1 if second else max(1, number - 1), **said)
        yield rule if second else f"{number} {rule}"


def timed(program, what, text):
    begun = time.monotonic()
    done = subprocess.run([program], input=text, stdout=subprocess.PIPE, check=True)
    took = (time.monotonic() - begun) * 1000
    peak = resource.getrusage(resource.RUSAGE_CHILDREN).ru_maxrss // 1024
    first = done.stdout[:40].split(b"\n")[0].decode()
    print(f"{what}: {took:.0f} ms, {len(text) / 1e6:.1f} MB, peak so far {peak} MB, {first}", flush=True)


def main():
    words = argparse.ArgumentParser(description=__doc__.splitlines()[0])
    words.add_argument("program", nargs="?",
                       default=str(TOP / "crates/larch_certificate_table/out/larch_certificate_table"))
    words.add_argument("--lines", type=int, default=1_000_000)
    said = words.parse_args()
    deep = b"#1(" * 340_000
    timed(said.program, "340,000 deep", b"certificate 1\n1 refl " + deep + b"x:S" + b")" * 340_000 + b"\n")
    timed(said.program, "340,000 parentheses that nothing closes", b"certificate 1\n1 refl " + deep + b"\n")
    for second in (False, True):
        for count in (said.lines // 4, said.lines // 2, said.lines):
            text = "".join(line + "\n" for line in lines_of(count, second)).encode()
            timed(said.program, f"{count} lines, version {2 if second else 1}", text)


if __name__ == "__main__":
    main()
