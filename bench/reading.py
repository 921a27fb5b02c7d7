#!/usr/bin/env python3
"""How long a report on one large trait takes: python3 bench/reading.py [PROGRAM]

The trait has declarations and equations by turns of about the sizes that are printed, up to a megabyte, the largest
file that a session takes. The second kind has one chain of symbols, overloaded at two sorts, in each equation. Each
line has the bytes, the best of three runs in milliseconds, and what that is for a kilobyte; where reading is linear the
last number stays. The last two kinds are twenty equations with one chain each, of more and more symbols and at more and
more sorts, and have the microseconds for a symbol and a sort."""
import pathlib
import subprocess
import sys
import time

TOP = pathlib.Path(__file__).resolve().parent.parent
LIMIT = 1_048_576


def declarations(size):
    """A trait with one declaration and one equation for each of many operators."""
    head, body, i = "T: trait\n", "", 0
    introduced, asserted = [], []
    length = 60
    while length < size - 100:
        introduced.append(f"    f{i}: N, N -> N\n")
        asserted.append(f"    \\forall x, y: N\n      f{i}(x, y) == f{i}(y, x)\n")
        length += len(introduced[-1]) + len(asserted[-1])
        i += 1
    return head + "  introduces\n" + "".join(introduced) + "  asserts\n" + "".join(asserted)


def chains(size):
    """A trait whose equations are chains of 400 overloaded symbols."""
    head = ("T: trait\n  introduces\n    __ + __: N, N -> N\n    __ + __: M, M -> M\n    a: -> N\n  asserts\n")
    chain = "    a" + " + a" * 400 + " == a;\n"
    return head + chain * max(1, (size - len(head)) // len(chain))


def one_chain(symbols, sorts):
    """A trait with twenty chains of a symbol that is overloaded at so many sorts, as its constant is."""
    declared = "".join(f"    __ + __: S{i}, S{i} -> S{i}\n    a: -> S{i}\n" for i in range(sorts))
    chain = "    (a" + " + a" * symbols + "): S0 == a;\n"
    return "T: trait\n  introduces\n" + declared + "  asserts\n" + chain * 20


def seconds(program, text):
    """The time of one session with this trait and one report, and what the report says of it."""
    data = text.encode()
    commands = b"put T.lsl %d\n" % len(data) + data + b"report\n"
    best, said = None, b""
    for _ in range(3):
        start = time.perf_counter()
        done = subprocess.run([program, "session"], input=commands, capture_output=True)
        took = time.perf_counter() - start
        best, said = (took if best is None else min(best, took)), done.stdout.splitlines()[0]
    return best, said.decode()


def main():
    program = sys.argv[1] if len(sys.argv) > 1 else str(TOP / "crates/larch/out/larch")
    for name, make in (("declarations and equations", declarations), ("chains", chains)):
        print(name)
        for size in (LIMIT // 8, LIMIT // 4, LIMIT // 2, LIMIT):
            text = make(size)
            took, said = seconds(program, text)
            print(f"  {len(text):9} bytes {took * 1000:9.1f} ms {took * 1_024_000 / len(text):8.3f} ms/kB  {said}")
    print("one chain")
    for symbols, sorts in ((300, 2), (600, 2), (1200, 2), (2400, 2), (1200, 4), (1200, 8), (1200, 16)):
        took, said = seconds(program, one_chain(symbols, sorts))
        each = took * 1_000_000 / (20 * symbols * sorts)
        print(f"  {symbols:9} symbols {sorts:3} sorts {took * 1000:9.1f} ms {each:8.3f} us  {said}")


if __name__ == "__main__":
    main()
