#!/usr/bin/env python3
"""Tests each limit from both sides: python3 tools/gate/check_limits.py PROGRAM [WORD]

Each limit that the program has is tried below, at and above, through the built program: that which is allowed has to be
carried out, and the first that isn't has to be refused as it is said. With WORD only limits with this word in their
title are tried. Limits of commands that the program hasn't are left out. Ends with 'N passed, N failed', and with
status 1 where one failed."""
import collections
import pathlib
import re
import subprocess
import sys
import tempfile
import time

TOP = pathlib.Path(__file__).resolve().parents[2]
sys.path.insert(0, str(TOP / "tools/hostile"))
import calls  # noqa: E402
from tests import Tests  # noqa: E402

MOST_BYTES, MOST_INPUT, MOST_FILES = 1_048_576, 67_108_864, 256
SIDES = ("below", "at", "above")
USAGE = b"usage: larch COMMAND [WORD..] [--limit N] [--seed N] [--size N]"
MALFORMED, TOO_LARGE = (6, b"malformed at byte 0"), (7, b"too large")
# A call and what has to come of it: its status, and a line that it writes, where one is said.
Try = collections.namedtuple("Try", "words files source status line")
# How many bytes a put line of seven digits takes, and a report.
PUT_LINE, REPORT = len(b"put A.lsl 1048576\n"), b"report\n"


def session(source, status, line=None):
    return Try(["session"], {}, source, status, line)


def check(name, text, line, status=None):
    """A check of one trait, whose status is that of its line where none is said."""
    words = ["check", f"{name}.lsl"]
    return Try(words, {f"{name}.lsl": text}, b"", (b" error " in line) if status is None else status, line)


def replay(text, script, line, *options, status=1):
    return Try(["replay", "T.lsl", "T.lp", *options], {"T.lsl": text, "T.lp": script}, b"", status, line)


def trait(introduced, asserted=b"", implied=b""):
    parts = b"".join(head + part for head, part in ((b"  introduces\n", introduced), (b"  asserts\n", asserted),
                                                   (b"  implies\n", implied)) if part)
    return b"T: trait\n" + parts


def puts(length):
    """64 lines that put a file, and a report at the end, so many bytes in all."""
    each, more = divmod(length - len(REPORT), 64)
    sizes = [each - PUT_LINE + (i < more) for i in range(64)]
    return b"".join(b"put A.lsl %7d\n" % size + b"%" * size for size in sizes) + REPORT


def input_bytes():
    """The bytes that come in; the report that ends at the last allowed one is written."""
    total = b"total 1 traits, 1 errors, 0 proved, 0 suspended, 0 refused"
    yield session(puts(MOST_INPUT - 1), 1, total)
    yield session(puts(MOST_INPUT), 1, total)
    yield session(puts(MOST_INPUT) + b"\n", *TOO_LARGE)


def put_bytes():
    """The length of a file that is put."""
    for size in (MOST_BYTES - 1, MOST_BYTES):
        yield session(b"put A.lsl %d\n" % size + b"%" * size + REPORT, 1, b"trait A error 1:%d SYNTAX" % (size + 1))
    yield session(b"put A.lsl %d\n" % (MOST_BYTES + 1), *TOO_LARGE)


def file_bytes():
    """The bytes of a file."""
    for size in (MOST_BYTES - 1, MOST_BYTES):
        yield check("A", b"%" * size, b"trait A error 1:%d SYNTAX" % (size + 1))
    yield check("A", b"%" * (MOST_BYTES + 1), TOO_LARGE[1], 7)


def certificate_bytes():
    """The bytes of a certificate."""
    words = ["verify", "One", "imply.1", "A.cert", "One.lsl"]
    for size, status, line in ((-1, 6, b"malformed at line 1"), (0, 6, b"malformed at line 1"), (1, *TOO_LARGE)):
        yield Try(words, {"A.cert": b"c" * (MOST_BYTES + size), "One.lsl": calls.ONE}, b"", status, line)


def model_bytes():
    """The bytes of a model."""
    for size, status, line in ((-1, 6, b"malformed at line 1"), (0, 6, b"malformed at line 1"), (1, *TOO_LARGE)):
        files = {"A.mod": b"m" * (MOST_BYTES + size), "One.lsl": calls.ONE}
        yield Try(["model", "One", "A.mod", "One.lsl"], files, b"", status, line)


def put_files():
    """The files of a session."""
    for count, status, line in ((-1, 0, None), (0, 0, None), (1, *TOO_LARGE)):
        yield session(b"".join(b"put F%d.lsl 0\n" % i for i in range(MOST_FILES + count)), status, line)


def named_files():
    """The files of a call."""
    for count in (MOST_FILES - 1, MOST_FILES, MOST_FILES + 1):
        files = {f"F{i}.lsl": b"" for i in range(count)}
        total = b"total %d traits, %d errors, 0 proved, 0 suspended, 0 refused" % (count, count)
        yield Try(["check", *files], files, b"", *((1, total) if count <= MOST_FILES else TOO_LARGE))


def put_names():
    """The letters of a file's name that is put."""
    for count, (status, line) in ((63, (0, None)), (64, (0, None)), (65, MALFORMED)):
        yield session(b"put %s.lsl 0\n" % (b"n" * count), status, line)


def named_names():
    """The letters of a file's name in a call."""
    for count in (63, 64, 65):
        name = "n" * count + ".lsl"
        yield Try(["check", name], {}, b"", *((8, b"no file " + name.encode()) if count < 65 else (2, USAGE)))


def lengths():
    """The digits of a length."""
    for digits, (status, line) in ((7, TOO_LARGE), (8, TOO_LARGE), (9, MALFORMED)):
        yield session(b"put A.lsl " + b"9" * digits + b"\n", status, line)


def labels():
    """The digits of a label."""
    for number, status, line in ((99_999, 1, b"no duty"), (999_999, 1, b"no duty"), (1_000_000, 2, USAGE)):
        files = {"Nat.lsl": calls.NAT, "Two.cert": calls.SECOND}
        yield Try(["verify", "Nat", f"imply.{number}", "Two.cert", "Nat.lsl"], files, b"", status, line)


def head_tokens():
    """The head tokens of one equation: two for each further operand, and the sign of equality."""
    declared = b"    c: -> N\n    - __: N -> N\n    __ + __: N, N -> N\n"
    before = b"      c == "
    for prefix, operands, line in ((b"", 2499, b"trait T"), (b"- ", 2499, b"trait T"),
                                   (b"", 2500, b"trait T error 7:%d SIZE" % (len(before) + 4 * 2500 - 3))):
        term = b" + ".join([b"c"] * operands)
        yield check("T", trait(declared, before + (b"- (%s)" % term if prefix else term) + b"\n"), line)


def nesting():
    """What is open at once."""
    for depth in (199, 200, 201):
        text = b"T: trait\n  asserts\n" + b"(" * depth + b"true" + b")" * depth + b"\n"
        yield check("T", text, b"trait T" if depth <= 200 else b"trait T error 3:201 DEEP")


def numbered(count):
    return b", ".join(b"c%d" % i for i in range(count))


def operators():
    """The operators of a trait."""
    for count in (999, 1000, 1001):
        line = b"trait T" if count <= 1000 else b"trait T error 1:1 SIZE"
        yield check("T", trait(b"    %s: -> S\n" % numbered(count)), line)


PAIRS = b"    %s: -> S\n    p: S, S -> S\n" % numbered(40)


def pairs(count):
    """So many different equations."""
    return b"".join(b"      p(c%d, c%d) == c0;\n" % divmod(i, 40) for i in range(count))[:-2] + b"\n"


def statements():
    """The statements of a trait."""
    for count in (999, 1000, 1001):
        line = b"trait T" if count <= 1000 else b"trait T error 1:1 SIZE"
        yield check("T", trait(PAIRS, pairs(count)), line)


def nodes():
    """The nodes of a trait's statements: a hundred equations of a thousand each, the last of one less or more."""
    declared = b"    %s: -> N\n    - __: N -> N\n    __ + __: N, N -> N\n" % numbered(100)
    chain = b" + ".join([b"c0"] * 500)
    for last, line in ((b"- (%s)" % chain[:-5], b"trait T"), (chain, b"trait T"),
                       (b"- (%s)" % chain, b"trait T error 1:1 SIZE")):
        sides = [chain] * 99 + [last]
        stated = b";\n".join(b"      c%d == %s" % side for side in enumerate(sides)) + b"\n"
        yield check("T", trait(declared, stated), line)


def duties():
    """The duties of a trait."""
    for count in (999, 1000, 1001):
        line = b"trait T" if count <= 1000 else b"trait T error 1:1 SIZE"
        yield check("T", trait(PAIRS, b"", pairs(count)), line)


def commands():
    """The commands of a block."""
    text = trait(b"    f: Bool -> Bool\n", b"      f(true);\n      f(false)\n", b"    \\forall b: Bool\n      f(b)\n")
    for count in (999, 1000, 1001):
        script = b"duty imply.1\n" + b"declare variable z: Bool\n" * count
        line = b"imply.1 suspended goals 1: f(b)" if count <= 1000 else b"imply.1 refused 1002 SIZE"
        yield replay(text, script, line)


def facts():
    """The facts of a level: five from each of a thousand equations, of which the last makes one less or more."""
    declared = (b"    %s: -> N\n    %s: N -> Bool\n    goal: -> Bool\n"
                % (numbered(60), b", ".join(b"q%d" % i for i in range(100))))
    for last in (4, 5, 6):
        atoms = [b"q%d(c%d)" % (i % 100, i // 100) for i in range(4995 + last)]
        stated = [atoms[i:i + 5] for i in range(0, 4995, 5)] + [atoms[4995:]]
        asserted = b";\n".join(b"      " + b" /\\ ".join(parts) for parts in stated) + b"\n"
        line = b"imply.1 suspended goals 1: goal" if last < 6 else b"imply.1 refused 0 SIZE"
        yield replay(trait(declared, asserted, b"      goal == true\n"), b"", line)


def proof_nodes():
    """The nodes of a term in a proof: `d` doubles what it is given, and the goal has three or four more."""
    declared = b"    c: -> N\n    s, - __: N -> N\n    p: N, N -> N\n    d: N -> N\n"
    asserted = b"    \\forall x: N\n      d(x) == p(x, x)\n"
    formed = b"total 1 traits, 0 errors, 0 proved, 1 suspended, 0 refused"
    for signs, right, line in ((2497, b"c", formed), (2497, b"s(c)", formed), (2498, b"c", b"imply.1 refused 0 SIZE")):
        implied = b"      d(%sc) == %s\n" % (b"- " * signs, right)
        yield replay(trait(declared, asserted, implied), b"", line)


CHAIN = trait(b"    c: -> N\n    - __: N -> N\n    f: N -> N\n", b"    \\forall x: N\n      f(- x) == f(x)\n", b"%s")


def rewriting(count, limit, *options, script=b""):
    """A goal that takes so many steps, and a limit of so many."""
    text = CHAIN.replace(b"%s", b"      f(%sc) == f(c)\n" % (b"- " * (count - 1)))
    lines = {True: b"imply.1 proved", False: b"imply.1 refused %d LIMIT" % (1 if script else 0)}
    script = b"duty imply.1\n" + script if script else b""
    return replay(text, script, lines[count <= limit], *options, status=int(count > limit))


def default_limit():
    """The steps that one normalising takes without a limit that is said."""
    for count in (999, 1000, 1001):
        yield rewriting(count, 1000)


def said_limit():
    """The steps that it takes with one."""
    for count in (3, 4, 5):
        yield rewriting(count, 4, "--limit", "4")


def limits_in_words():
    """The limit that a call takes, from its lowest to its greatest."""
    for word, is_one in (("0", False), ("1", True), ("99999", True), ("100000", True), ("100001", False)):
        yield (rewriting(2, int(word), "--limit", word) if is_one
               else Try(["replay", "T.lsl", "--limit", word], {"T.lsl": CHAIN}, b"", 2, USAGE))


def limits_in_scripts():
    """The limit that a script sets."""
    for number, is_one in ((0, False), (1, True), (99999, True), (100000, True), (100001, False)):
        text = CHAIN.replace(b"%s", b"      f(c) == f(c)\n")
        line = b"imply.1 proved" if is_one else b"imply.1 refused 1 COMMAND"
        yield replay(text, b"set rewriting-limit %d\nduty imply.1\n" % number, line, status=int(not is_one))


def model_call(sizes, equation, line, status):
    """A call over a trait with sorts of so many values, a constant of each and one equation of variables of them."""
    sorts = [b"S%d" % i for i in range(len(sizes))]
    declared = b"".join(b"    c%d: -> %s\n" % row for row in enumerate(sorts))
    model = b"model\n" + b"".join(b"sort %s %d\n" % row for row in zip(sorts, sizes))
    model += b"".join(b"op %d 0\n" % (i + 1) for i in range(len(sizes)))
    files = {"T.lsl": trait(declared, equation), "T.mod": model}
    return Try(["model", "T", "T.mod", "T.lsl"], files, b"", status, line)


def model_values():
    """The values of a sort."""
    for size, status, line in ((15, 0, b"model"), (16, 0, b"model"), (17, 6, b"malformed at line 2")):
        yield model_call([size], b"    \\forall x: S0\n      x == x\n", line, status)


def assignments():
    """The assignments of an equation: 983,040, a million, and the next product of such sizes, 1,001,000."""
    for sizes, status, line in (((16, 16, 16, 16, 15), 0, b"model"), ((10,) * 6, 0, b"model"),
                                ((13, 11, 7, 10, 10, 10), 7, b"too large")):
        scope = b", ".join(b"x%d: S%d" % (i, i) for i in range(len(sizes)))
        term = b" /\\ ".join(b"(x%d = x%d)" % (i, i) for i in range(len(sizes)))
        yield model_call(sizes, b"    \\forall %s\n      %s\n" % (scope, term), line, status)


def certificate_numbers():
    """The numbers of a certificate."""
    for number, status, line in ((2**64 - 2, 1, b"refused 1"), (2**64 - 1, 1, b"refused 1"),
                                 (2**64, 6, b"malformed at line 2")):
        files = {"Nat.lsl": calls.NAT, "A.cert": b"certificate 2\naxiom statement=%d\n" % number}
        yield Try(["verify", "Nat", "imply.1", "A.cert", "Nat.lsl"], files, b"", status, line)


def rounds():
    """The equations that a completion takes."""
    for count, status, line in ((199, 0, b"complete 199 rules"), (200, 0, b"complete 200 rules"), (201, 1, b"spent")):
        stated = b";\n".join(b"      f(c%d) == c%d" % (i, i) for i in range(count)) + b"\n"
        text = trait(b"    %s: -> S\n    f: S -> S\n" % numbered(count), stated)
        yield Try(["complete", "T", "T.lsl"], {"T.lsl": text}, b"", status, line)


def sizes():
    """The sets of traits that are made."""
    for size, status, line in ((0, 2, USAGE), (1, 0, b"generated 1 traits"), (127, 0, b"generated 127 traits"),
                               (128, 0, b"generated 128 traits"), (129, 2, USAGE)):
        yield Try(["generate", "--seed", "1", "--size", str(size)], {}, b"", status, line)


def seeds():
    """The seeds that they are made of."""
    for seed, status, line in ((2**31 - 2, 0, b"generated 1 traits"), (2**31 - 1, 0, b"generated 1 traits"),
                               (2**31, 2, USAGE)):
        yield Try(["generate", "--seed", str(seed), "--size", "1"], {}, b"", status, line)


# Each limit; behind its tries the command that it is one of, where not every program has that.
LIMITS = [(input_bytes, None), (put_bytes, None), (file_bytes, None), (certificate_bytes, None), (model_bytes, None),
          (put_files, None), (named_files, None), (put_names, None), (named_names, None), (lengths, None),
          (labels, None), (head_tokens, None), (nesting, None), (operators, None), (statements, None), (nodes, None),
          (duties, None), (commands, None), (facts, None), (proof_nodes, None), (default_limit, None),
          (said_limit, None), (limits_in_words, None), (limits_in_scripts, None), (model_values, None),
          (assignments, None), (certificate_numbers, None), (rounds, "complete"), (sizes, "generate"),
          (seeds, "generate")]


def see(tests, program, title, one):
    """Carries out a try, and looks at its status and at the line."""
    written, status = calls.answer(program, one.words, one.files, one.source, seconds=600)
    tests.see(f"{title}: status", status, int(one.status))
    if one.line is not None:
        lines = written.split(b"\n")
        tests.look(one.line in lines, f"{title}: saw {written[-300:]!r} and wanted the line {one.line[:300]!r}")


def waits(program, source, seconds):
    """Whether a session waits for more behind some bytes, its input being open."""
    with tempfile.TemporaryDirectory() as folder, subprocess.Popen(
            [program, "session"], cwd=folder, stdin=subprocess.PIPE, stdout=subprocess.PIPE) as run:
        run.stdin.write(source)
        run.stdin.flush()
        try:
            run.wait(timeout=seconds)
            return False
        except subprocess.TimeoutExpired:
            return True
        finally:
            run.stdin.close()
            run.wait()


def see_lines(tests, program):
    """A line of a session has 200 bytes at most: at one more it is refused, whatever stands behind it."""
    for count in (199, 200, 201):
        see(tests, program, f"bytes of a line, {count}", session(b"x" * count + b"\nreport\n", *MALFORMED))
    tests.see("a line of 200 bytes without its end", waits(program, b"x" * 200, 0.5), True)
    tests.see("a line of 201 bytes without its end", waits(program, b"x" * 201, 60), False)


def main():
    program, word = str(pathlib.Path(sys.argv[1]).resolve()), "".join(sys.argv[2:3])
    tests, slowest = Tests(), (0, "")
    for limit, command in LIMITS:
        title = re.split("[:;]", limit.__doc__)[0].rstrip(".")
        if word not in title or command and not calls.has(program, command):
            continue
        begun, tries = time.monotonic(), list(limit())
        for number, one in enumerate(tries):
            see(tests, program, f"{title}, {SIDES[number] if len(tries) == 3 else number}", one)
        slowest = max(slowest, (time.monotonic() - begun, title))
    if word in "bytes of a line":
        see_lines(tests, program)
    print(f"the slowest was: {slowest[1]}, {slowest[0]:.1f} s")
    return tests.end("limits")


if __name__ == "__main__":
    sys.exit(main())
