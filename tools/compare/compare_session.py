#!/usr/bin/env python3
"""Compares two programs with larch's command line on random sessions: what they write, and their status.

    compare_session.py PROGRAM OTHER [--count N] [--traits N] [--sets N] [--limits] [--seed N] [--jobs N]

PROGRAM and OTHER are commands, in quotes where they have words of their own; each is run with the word `session`
behind them and one random input. The inputs are sessions with whole and mutated traits, cut and spliced streams,
wrong lengths, odd names, long lines and bytes above 126; with --traits, sessions of a hundred random traits each (see
random_traits.py), with --sets, sessions of fifty random sets of traits that refer to one another (random_sets.py), both
with how often each code came; with --limits, the traits of limit_traits.py, one after the other.
The seed is printed first. An input on which the two differ is written to a file that the output names. Ends with
'N passed, N failed', and status 1 where one failed.
"""
import argparse
import collections
import concurrent.futures
import random
import shlex
import subprocess
import sys
import tempfile

import limit_traits
import random_sets
import random_traits

WORDS = ["trait", "introduces", "a", "b", "S", "Set", "x'", "f_1", "0", "includes", "asserts", "of", "One", "Two"]
SIGNS = [":", ",", "->", "-", "=", "==", "(", ")", "__", ".", ";", "/\\", "\\/", "\\in", "_", "%", "~", "!", "+/\\-"]
BLANKS = [" ", "\n", "\t", "\r", "  ", "\n  ", " % note\n", ""]


def declaration(pick):
    forms = ", ".join(pick.choice(["a", "b", "empty", "f_1", "g'", "0"]) for _ in range(pick.randint(1, 3)))
    domain = ", ".join(pick.choice(["S", "T", "Set"]) for _ in range(pick.randint(0, 3)))
    return f'{forms}: {domain} -> {pick.choice(["S", "Bool", "T"])}'


def trait(pick, name):
    parts = ""
    for _ in range(pick.choice([0, 1, 1, 1, 2])):
        parts += "  introduces" + "".join("\n    " + declaration(pick) for _ in range(pick.randint(0, 4))) + "\n"
    return f"{name}: trait\n{parts}".encode()


def soup(pick):
    return "".join(pick.choice(WORDS + SIGNS) + pick.choice(BLANKS) for _ in range(pick.randint(0, 20))).encode()


def mutated(pick, text):
    text = bytearray(text)
    for _ in range(pick.choice([0, 1, 1, 2, 5])):
        place = pick.randint(0, len(text))
        change = pick.randint(0, 4)
        if change == 0:
            del text[place:place + pick.randint(1, 3)]
        elif change == 1:
            text[place:place] = bytes([pick.randint(0, 255)])
        elif change == 2:
            text[place:place] = pick.choice(WORDS + SIGNS + BLANKS).encode()
        elif change == 3 and place < len(text):
            text[place] = pick.randint(0, 255)
        elif change == 4:
            text[place:place] = text[pick.randint(0, len(text)):][:pick.randint(0, 9)]
    return bytes(text)


def file_name(pick):
    stem = pick.choice(["One", "Two", "Set", "a_b", "_", "a__b", "Z9", "trait", "n" * 64])
    return pick.choice([stem] * 95 + ["", "n" * 65, "a-b", "One.lsl", "x'"]) + pick.choice([".lsl"] * 96
            + [".lp", "", ".LSL", ".lsl "])


def put(pick):
    name = file_name(pick)
    stem = name.split(".")[0]
    text = pick.choice([trait, trait, trait, None])
    text = mutated(pick, text(pick, pick.choice([stem, stem, stem, "Other"])) if text else soup(pick))
    length = pick.choice([str(len(text))] * 100
                         + [str(len(text) + 1), str(max(0, len(text) - 1)), "0" + str(len(text)), "", "1048577",
                            "1048576", "999999999", "1x"])
    blank = lambda: pick.choice([" "] * 40 + ["\t"] * 9 + ["  "])
    return f"put{blank()}{name}{blank()}{length}\n".encode() + text


def line(pick):
    return pick.choice([b"report\n"] * 40 + [b"\n"] * 9 + [b"quit\n"] * 3
                       + [ b"quit", b"report", b"report \n", b" report\n", b"drop One.lsl\n", b"put\n", b"REPORT\n",
                          b"x" * pick.choice([199, 200, 201, 300]) + b"\n", bytes([pick.randint(0, 255)]) + b"\n",
                          b"report\r\n"])


def session(pick):
    stream = b"".join(put(pick) if pick.random() < 0.5 else line(pick) for _ in range(pick.randint(0, 8)))
    if pick.random() < 0.6:
        stream += b"report\n"
    if pick.random() < 0.2:
        stream = stream[:pick.randint(0, len(stream))]
    if pick.random() < 0.1:
        cut = pick.randint(0, len(stream))
        stream = stream[cut:] + stream[:cut]
    if pick.random() < 0.1:
        stream = mutated(pick, stream)
    if pick.random() < 0.01:
        stream = b"".join(b"put F%d.lsl 0\n" % i for i in range(pick.randint(254, 258))) + stream
    return stream


def many_traits(pick):
    stream = b""
    for i in range(100):
        text = random_traits.any_trait(pick, f"T{i}").encode()
        stream += b"put T%d.lsl %d\n" % (i, len(text)) + text
    return stream + b"report\n"


def many_sets(pick):
    stream = b""
    for i in range(50):
        names = [f"T{i}_{part}" for part in "abcde"[:pick.randint(2, 5)]]
        texts = random_sets.a_set(pick, names)
        for name in pick.sample(names, len(names)):
            text = texts[name].encode()
            stream += b"put %s.lsl %d\n" % (name.encode(), len(text)) + text
    return stream + b"report\n"


def at_limits():
    texts = [text.encode() for text in limit_traits.texts("T")]
    return [b"".join(b"put T.lsl %d\n" % len(text) + text + b"report\n" for text in texts[i:i + 20])
            for i in range(0, len(texts), 20)]


def answer(command, stream):
    done = subprocess.run(shlex.split(command) + ["session"], input=stream, stdout=subprocess.PIPE,
                          stderr=subprocess.PIPE)
    return done.stdout, done.returncode


def main():
    words = argparse.ArgumentParser()
    words.add_argument("program")
    words.add_argument("other")
    words.add_argument("--count", type=int, default=5000)
    words.add_argument("--traits", type=int, default=0)
    words.add_argument("--sets", type=int, default=0)
    words.add_argument("--limits", action="store_true")
    words.add_argument("--seed", type=int, default=random.randrange(2 ** 31))
    words.add_argument("--jobs", type=int, default=4)
    words = words.parse_args()
    print(f"seed {words.seed}", flush=True)
    streams = [session(random.Random(f"{words.seed} {i}")) for i in range(words.count)]
    if words.traits:
        streams = [many_traits(random.Random(f"{words.seed} {i}")) for i in range((words.traits + 99) // 100)]
    if words.sets:
        streams = [many_sets(random.Random(f"{words.seed} {i}")) for i in range((words.sets + 49) // 50)]
    if words.limits:
        streams = at_limits()
    codes = collections.Counter()
    failed = 0
    statuses = {}
    with concurrent.futures.ThreadPoolExecutor(words.jobs) as pool:
        pairs = pool.map(lambda s: (s, answer(words.program, s), answer(words.other, s)), streams)
        for stream, one, other in pairs:
            statuses[one[1]] = statuses.get(one[1], 0) + 1
            codes.update(line.rsplit(b" ", 1)[-1].decode() if b" error " in line else "right"
                         for line in one[0].splitlines() if line.startswith(b"trait "))
            if one != other:
                failed += 1
                with tempfile.NamedTemporaryFile(delete=False, prefix="session-") as file:
                    file.write(stream)
                if failed <= 5:
                    print(f"{file.name}: {one} and {other}")
    print("statuses", dict(sorted(statuses.items())))
    print("traits", dict(codes.most_common()))
    print(f"{len(streams) - failed} passed, {failed} failed")
    sys.exit(1 if failed else 0)


if __name__ == "__main__":
    main()
