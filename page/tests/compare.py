#!/usr/bin/env python3
"""Compares the page's module with the program: compare.py PROGRAM [--module FILE] [--sessions N] [--seed S]

Each session puts a few traits of the examples with what they refer to and their scripts, some of them damaged at random
places, drops some, asks for reports, and at times has a line that is none, a wrong length or an end inside a `put`.
`node` runs the module on the same input; what both write and their statuses are compared byte by byte. A session that
the engine ends, since its stack is used up, is counted by itself. Ends with 1 where an answer differs."""
import argparse
import base64
import concurrent.futures
import json
import os
import pathlib
import random
import re
import subprocess
import sys
import tempfile

TESTS = pathlib.Path(__file__).resolve().parent
TOP = TESTS.parents[1]
FOLDERS = ("handbook", "library", "lessons", "wrong", ".")
# What a damage puts in at a random place.
SCRAPS = ("(", ")", ";", ",", ":", "->", "==", "=", "x", "0", "\\forall", "__", "if", "%", "trait", "implies", "qed",
          "\n", " ", "duty imply.1\n", "\u00e9", "\t", "[]", "<>", "resume by cases x\n", "normalize A1\n",
          "set box-checking on\n")
LINES = ("reports", "put A.lsl", "put A.lsl 03\n", "put A.txt 1\nx", "drop", "drop A.lsl ", "x" * 201, "\tquit",
         "put B.lp 9999999")


def texts():
    """The example folders' traits and scripts, by folder and name."""
    found = {}
    for folder in FOLDERS:
        for path in sorted((TOP / "examples" / folder).glob("*.l*")):
            found.setdefault(folder, {})[path.name] = path.read_bytes()
    return found


def reached(files, name):
    """The traits of a folder whose names stand in a trait, and in these in turn."""
    found, wanted = [], [name]
    while wanted:
        name = wanted.pop()
        if name not in found and name in files:
            found.append(name)
            wanted += [f"{word}.lsl" for word in re.findall(r"[A-Z]\w*", files[name].decode("utf-8", "replace"))]
    return found


def damaged(chance, text):
    """A text with a few changes: pieces taken out, doubled, exchanged, and scraps put in."""
    for _ in range(chance.randint(1, 3)):
        begin = chance.randint(0, len(text))
        end = min(len(text), begin + chance.choice((1, 1, 2, 5, 20, 60)))
        scrap = chance.choice(SCRAPS).encode()
        text = chance.choice((text[:begin] + text[end:], text[:begin] + scrap + text[begin:],
                              text[:end] + text[begin:end] + text[end:], text[:begin] + scrap + text[end:]))
    return text


def put(name, text):
    return f"put {name} {len(text)}\n".encode() + text


def session(chance, folders):
    """The input of one session."""
    files = folders[chance.choice(list(folders))]
    traits = [name for name in files if name.endswith(".lsl")]
    begun = [chance.choice(traits) for _ in range(chance.randint(1, 2))]
    chosen = list(dict.fromkeys(near for name in begun for near in reached(files, name)))
    scripts = [name[:-3] + "lp" for name in chosen if name[:-3] + "lp" in files and chance.random() < 0.6]
    steps = [put(name, damaged(chance, files[name]) if chance.random() < 0.25 else files[name])
             for name in chosen + scripts]
    for _ in range(chance.randint(1, 2)):
        name = chance.choice(chosen + scripts)
        again = put(name, damaged(chance, files[name]))
        steps += [b"report\n", chance.choice((f"drop {name}\n".encode(), again, b"\n"))]
    steps.append(b"report\n")
    if chance.random() < 0.1:
        steps.insert(chance.randint(0, len(steps)), (chance.choice(LINES) + "\n").encode())
    made = b"".join(steps)
    return made[:chance.randint(0, len(made))] if chance.random() < 0.03 else made


def asked(program, given, folder):
    """What the program answers."""
    done = subprocess.run([program, "session"], input=given, capture_output=True, cwd=folder)
    return done.returncode, done.stdout


def answered(module, sessions, room):
    """What the module answers to each session."""
    calls, answers = room / "calls", room / "answers"
    inputs = [base64.b64encode(given).decode() for given in sessions]
    calls.write_text("".join(json.dumps({"words": ["session"], "files": [], "input": it}) + "\n" for it in inputs))
    subprocess.run(["node", TESTS / "answers.mjs", module, calls, answers], check=True)
    found = [json.loads(line) for line in answers.read_text().splitlines()]
    return [None if "cut" in it else (it["status"], base64.b64decode(it["said"])) for it in found]


def compare(program, module, count, seed):
    """How many sessions there were, how many the engine ended, and those with other answers."""
    chance, folders = random.Random(seed), texts()
    sessions = [session(chance, folders) for _ in range(count)]
    with tempfile.TemporaryDirectory() as name, concurrent.futures.ThreadPoolExecutor(os.cpu_count()) as pool:
        room = pathlib.Path(name)
        by_module = pool.submit(answered, module, sessions, room)
        by_program = list(pool.map(lambda given: asked(program, given, room), sessions))
        pairs = list(zip(sessions, by_program, by_module.result()))
    ended = sum(one is None for _, _, one in pairs)
    others = [(given, one, other) for given, one, other in pairs if other is not None and one != other]
    size = sum(len(said) for _, (_, said), _ in pairs)
    statuses = sorted({status for _, (status, _), _ in pairs})
    print(f"{count} sessions, {sum(map(len, sessions))} bytes given, {size} bytes written, statuses {statuses}: "
          f"{count - ended - len(others)} the same, {len(others)} other ones, {ended} ended by the engine")
    return others


def main():
    words = argparse.ArgumentParser(description=__doc__, formatter_class=argparse.RawDescriptionHelpFormatter)
    words.add_argument("program", type=lambda word: pathlib.Path(word).resolve())
    words.add_argument("--module", type=pathlib.Path, default=TESTS.parent / "out/larch.wasm")
    words.add_argument("--sessions", type=int, default=3000)
    words.add_argument("--seed", type=int, default=1)
    asked_for = words.parse_args()
    others = compare(asked_for.program, asked_for.module, asked_for.sessions, asked_for.seed)
    for given, one, other in others[:3]:
        print(f"--- given {given[:400]!r}\n--- program {one!r:.400}\n--- module {other!r:.400}")
    return 1 if others else 0


if __name__ == "__main__":
    sys.exit(main())
