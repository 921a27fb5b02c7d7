#!/usr/bin/env python3
"""Compares a program with larch's command line with a reference on random calls: what it writes, and its status.

    compare_calls.py PROGRAM REFERENCE [--count N] [--seed N] [--jobs N] [--all-rules]

PROGRAM is a command, in quotes where it has words of its own; it is started for each call. REFERENCE is the folder
with a Python package `larchref`, whose module `main` has `run`, which is called in the processes of this tool;
LARCHREF_STAGE in the environment tells it how far the program is built. With --all-rules it reads certificates with
all rules of both versions, whatever that says.

A quarter of the calls are over one folder of right and wrong traits, scripts, certificates and files at and above the
limit of size. The others are over random sets of traits with claims (random_sets.py), a few calls over each set, with
certificates for some of its duties: right ones (duty_proofs.py), tampered ones, and no certificates. The commands are
`check`, `obligations`, `replay`, `derive`, `verify`, `migrate`, `complete`, `generate` and `session`, and words that
mean none; names that are there, absent, twice, or no names; labels of duties that are there or not, and no labels;
options in every place, doubled, without a value, unknown; `--`; more files than one call takes. A session gets a few
random lines. The reference writes no derivations: those of the program are looked at as derivations.py says.

The seed is printed first, and at the end how often each command ended with each status. Of the first five calls on
which the two differ the words and the answers are printed, and the folder's files, the words and the input are kept in
a folder that the output names. Ends with 'N passed, N failed', and status 1 where one failed.
"""
import argparse
import collections
import itertools
import json
import multiprocessing
import os
import pathlib
import random
import shlex
import subprocess
import sys
import tempfile

import call_texts
import comparing
import derivations
import duty_proofs
import random_certificates
import random_sets
from call_texts import AT_LIMITS, CERTIFICATES, TEXTS

CALLS_PER_SET, DUTIES_PER_SET, KEPT = 25, 8, 5
# How long a call of the program may take, also where other work is done beside it.
SECONDS = 1200
NAMED = ("check", "obligations", "replay", "derive", "verify", "migrate", "complete", "generate", "session")
ON_FILES = ("check", "obligations", "replay", "derive", "verify", "complete")
# How often each command comes; the last ones are none.
COMMANDS = [*["check", "obligations", "replay", "derive", "complete"] * 6, *["verify"] * 12,
            *["session", "migrate"] * 4, *["generate"] * 3, "frobnicate", "Check", "", None]
LABELS = ["imply.1", "imply.2", "imply.3", "assume.1", "convert.1", "convert.2", "imply.999999"]
NO_LABELS = ["imply.0", "imply.01", "imply.1000000", "imply", "imply.", "imply.1 ", "Imply.1", "prove.1", "imply.1.1",
             ""]
NOT_UTF_8 = os.fsdecode(b"\xff.lsl")
NO_NAMES = ["x", NOT_UTF_8, "a.lsl.lsl", "One", ".lsl", "n" * 65 + ".lsl", "One.LSL", "a-b.lsl", "check", "session",
            "-", "é.lsl", "One.lsl ", "One.cert", "../One.lsl", ""]
OPTIONS = [["--limit", "5"], ["--limit=5"], ["--limit"], ["--seed", "1"], ["--size=3"], ["--size", "3", "--size", "4"],
           ["--help"], ["-h"], ["--version"], ["-V"], ["--"], ["-l"], ["--lim", "3"], ["--limit="], ["--limit", "-1"],
           ["--limit", "--"], ["--", "--"], ["--limit", "x"], ["--limit", "0"], ["--limit=007"], ["-x"],
           ["--unknown", "2"], ["--="]]
SEEDS, SIZES = [0, 1, 7, 2147483647, 2147483648, "007", "x", ""], [1, 1, 2, 3, 5, 0, 128, 129, "01"]


class Folder:
    """What calls are about: files, certificates, and which of these are for which duties."""

    def __init__(self, texts, certificates, claims, limits=(), absent=("Nope.lsl", "Nope.lp", "Two.lp")):
        self.texts, self.certificates, self.claims = texts, certificates, claims
        self.limits, self.absent = list(limits), list(absent)

    def write(self, place):
        for name, text in {**self.texts, **self.certificates}.items():
            pathlib.Path(place, name).write_bytes(text)


def fixed():
    """The fixed folder, without its files that are many or large, which are written once."""
    claims = [("Nat", label, name) for label in LABELS for name in CERTIFICATES]
    claims += [("Nat", "imply.1", "Nat.cert")] * len(claims)
    claims += [(stem, label, "Nat.cert") for stem in ("Uses", "Claim", "One") for label in LABELS]
    return Folder(TEXTS, CERTIFICATES, claims, AT_LIMITS)


# Random sets with certificates --------------------------------------------------------------------

def random_folder(pick, reference):
    """A random set of traits, with certificates for some of the duties that the reference finds."""
    names = [f"T{part}" for part in "abcde"[:pick.randint(2, 5)]]
    texts = {f"{name}.lsl": text.encode() for name, text in random_sets.a_set(pick, names, True).items()}
    if pick.random() < 0.4:
        texts = without_wrong(texts, reference) or texts
    if pick.random() < 0.3:
        texts[f"{pick.choice(names)}.lp"] = pick.choice([b"", b"prove x == x\nqed\n", b"not a script [\n"])
    duties, _ = reference.duties(texts)
    certificates, claims = {}, [(pick.choice(names), pick.choice(LABELS), "Garbage.cert")]
    for stem, label, theory, statement in pick.sample(duties, min(len(duties), DUTIES_PER_SET)):
        lines, shown = duty_proofs.proof(pick, theory, statement, reference.tables)
        for kind, text in written(pick, lines):
            certificates[f"{stem}.{label}.{kind}.cert"] = text
            claims += [(stem, label, f"{stem}.{label}.{kind}.cert")] * (3 if shown and kind == "right" else 1)
    certificates["Garbage.cert"] = garbage(pick, certificates)
    return Folder(texts, certificates, claims)


def without_wrong(texts, reference):
    """The traits of a set without those with which something is wrong, and without what is wrong without these."""
    wrong = [None]
    while wrong:
        _, wrong = reference.duties(texts)
        texts = {name: text for name, text in texts.items() if name not in wrong}
    return texts


def written(pick, lines):
    """The certificate with these lines, and others that are made of it."""
    yield "right", random_certificates.lines_text(lines).encode()
    yield "tampered", random_certificates.lines_text(random_certificates.mutated(pick, lines)).encode()
    if pick.random() < 0.2:
        second = [random_certificates.in_second(number, line) for number, line in enumerate(lines, 1)]
        yield "second", "".join(line + "\n" for line in ["certificate 2", *second]).encode()


def garbage(pick, certificates):
    """A text that is no certificate, mostly."""
    text = bytearray(pick.choice([b"", b"certificate 1\n", *certificates.values()]))
    for _ in range(pick.choice([0, 1, 1, 2])):
        place = pick.randint(0, len(text))
        text[place:place + pick.choice([0, 0, 1, 5])] = pick.choice(
            [b"", b" ", b"\n", b"\r", b"0", b"-", bytes([pick.randint(0, 255)])])
    return bytes(text[:pick.randint(0, len(text))] if pick.random() < 0.2 else text)


# Calls --------------------------------------------------------------------------------------------

def word(pick, folder):
    """A name of a file, or what isn't one."""
    kind = pick.random()
    if kind < 0.78:
        return pick.choice(list(folder.texts))
    if kind < 0.84:
        return pick.choice(folder.absent)
    if kind < 0.87 and folder.limits:
        return pick.choice(folder.limits)
    return pick.choice(NO_NAMES)


def claim(pick, folder):
    """Words for a trait, a label and a certificate: mostly the ones that fit each other."""
    stem, label, certificate = pick.choice(folder.claims)
    if pick.random() < 0.08:
        stem = pick.choice([*(name[:-4] for name in folder.texts), "Nope", "n" * 65, "a-b", ""])
    if pick.random() < 0.08:
        label = pick.choice(LABELS + NO_LABELS)
    if pick.random() < 0.08:
        certificate = pick.choice([*folder.certificates, "Nope.cert", "Nat.lsl", "Nat.CERT", *folder.limits])
    return [stem, label, certificate][:pick.choice([3] * 24 + [0, 1, 2])]


def some_files(pick, folder):
    """Names of files: all traits of a set in some order, or random ones."""
    names = list(folder.texts)
    if not folder.limits and pick.random() < 0.8:
        return pick.sample(names, len(names))
    return [word(pick, folder) for _ in range(pick.choice([0, 1, 1, 2, 2, 3, 4, 6]))]


def fixed_words(pick, folder, command):
    """The words before the files of a command."""
    stem, label, certificate = (claim(pick, folder) + [None] * 3)[:3]
    wanted = {"verify": [stem, label, certificate], "derive": [stem, label], "complete": [stem],
              "migrate": [certificate]}.get(command, [])
    return [word for word in wanted if word is not None]


def generation(pick):
    """Words for a seed and a size, mostly both."""
    given = [("seed", pick.choice([pick.randrange(2 ** 31), *SEEDS])), ("size", pick.choice([*[1, 2, 3] * 5, *SIZES]))]
    pick.shuffle(given)
    return [word for name, value in given[:pick.choice([2] * 14 + [0, 1])]
            for word in pick.choice([[f"--{name}", str(value)], [f"--{name}={value}"]])]


def limit(pick, command):
    """Words for a limit, now and then, of a command that takes one."""
    if command not in ("replay", "derive", "complete", "session") or pick.random() < 0.8:
        return []
    return pick.choice([["--limit", "5"], ["--limit=1"], ["--limit", "100000"], ["--limit", "0"], ["--limit=30"]])


def call(pick, folder):
    """Random words."""
    command = pick.choice(COMMANDS)
    words = [] if command is None else [command]
    front = fixed_words(pick, folder, command)
    words += front
    if command in ("derive", "verify", "complete") and front and folder.limits and pick.random() < 0.75:
        words += [name for name in (front[0] + ".lsl", front[0] + ".lp") if name in folder.texts]
    if command in ("session", "migrate", "generate"):
        words += [word(pick, folder)] * (pick.random() < 0.1)
    else:
        words += some_files(pick, folder)
    if command in ON_FILES and pick.random() < 0.85:
        words = [one for one in words if one not in NO_NAMES or one == command]
    if command in ON_FILES and folder.limits and pick.random() < 0.02:
        words += [f"F{i}.lsl" for i in range(pick.randint(250, 260))] + [word(pick, folder)]
    words += (generation(pick) if command == "generate" else []) + limit(pick, command)
    for _ in range(pick.choice([0] * 12 + [1, 1, 2])):
        place = pick.randint(0, len(words))
        words[place:place] = pick.choice(OPTIONS)
    return words


def stream(pick, folder):
    """A few lines of a session."""
    puts = [b"put %s %d\n" % (name.encode(), len(text)) + text for name, text in folder.texts.items()
            if name.endswith(".lsl")]
    text = b"".join(pick.sample(puts, len(puts))) if pick.random() < 0.3 else b""
    for _ in range(pick.randint(0, 4)):
        drop = b"drop %s\n" % pick.choice(list(folder.texts)).encode()
        derive = b"derive %s %s\n" % tuple(one.encode() for one in pick.choice(folder.claims)[:2])
        text += pick.choice([pick.choice(puts), b"report\n", derive] * 2 + [b"\n", drop, b"quit\n", b"bad\n"])
    return text + pick.choice([b"report\n", b""])


# Both answers -------------------------------------------------------------------------------------

class Reference:
    """The package `larchref`, as far as calls need it."""

    def __init__(self, place, all_rules):
        names = ("main", "tables", "traits", "duties", "base", "verify", "certificate")
        self.main, self.tables, self.traits, self.made, self.base, verify, certificate = (
            comparing.module_of(place, name) for name in names)
        forms = [name for name, form in certificate.STAGES.items()
                 if len(form["rules"]) == len(certificate.SCHEMA) and len(form["versions"]) == 2]
        if all_rules:
            verify.stage_built = lambda: forms[0]
        # The duties of which the last answer owes derivations, and what blocks came to.
        self.owed, self.known = [], {}
        derivations.remembered(self.main, self.owed, self.known)

    def duties(self, files):
        """A trait, a label, a theory and a statement for each duty of the traits with which nothing is wrong; and the
        files of the others."""
        files = {name: text.decode("latin-1") for name, text in files.items()}
        found, wrong, known = [], [], {}
        for name in self.traits.trait_names(files):
            try:
                flat = self.traits.flatten(files, name, known)
                found += [(name, *duty[:3]) for duty in self.made.duties(files, name, flat, known)]
            except self.base.Refused:
                wrong.append(f"{name}.lsl")
        return found, wrong

    def answer(self, words, text, place):
        """What the reference writes, and its status; what it raises where it fails. `owed` has the duties of which it
        owes derivations then."""
        def look(name):
            try:
                return pathlib.Path(place, os.fsdecode(name.encode("latin-1"))).read_bytes()
            except (FileNotFoundError, NotADirectoryError, IsADirectoryError):
                return None

        self.owed.clear()
        given, said = [os.fsencode(one) for one in words], []
        try:
            given = [one.decode() and one.decode("latin-1") for one in given]
        except UnicodeDecodeError:
            given = ["-"]
        try:
            status = self.main.run(given, look, lambda: text, said.append)
        except Exception as trouble:
            return repr(trouble).encode(), None
        if "".join(said).encode() == derivations.OWED and not self.owed:
            _, (trait, label), names, _ = self.main.meaning(given)
            files = {name: look(name).decode("latin-1") for name in names}
            self.owed.append(derivations.Duty(trait, label, files, False))
        return "".join(said).encode("latin-1"), status


def answer(program, words, text, place):
    """What the program writes, and its status; none where it comes to no end."""
    try:
        done = subprocess.run(program + words, input=text, cwd=place, stdout=subprocess.PIPE,
                              stderr=subprocess.DEVNULL, timeout=SECONDS, check=False)
    except subprocess.TimeoutExpired as trouble:
        return repr(trouble).encode(), None
    return done.stdout, done.returncode


def said_of(words, output, status):
    """What is counted of a call: its command, the status, and of a verdict the first word."""
    command = words[0] if words and words[0] in NAMED else "others"
    told = command in ("verify", "derive", "complete", "migrate") and status in (0, 1)
    verdict = output[:40].decode("latin-1").split("\n")[0].split(" ")[0] if told else ""
    return command, status, verdict


# Parts of the work --------------------------------------------------------------------------------

def prepare(program, reference, seed, count, place):
    """What each process of the pool knows."""
    global Work
    Work = argparse.Namespace(program=program, reference=Reference(*reference), seed=seed, count=count, fixed=place)


def in_big_stack(reference, tried, number):
    """What is found of a part where the reference has the stack that it needs."""
    found = []
    reference.main.in_big_stack(lambda: found.append(tried(number)))
    if not found:
        raise RuntimeError(f"part {number} came to no end")
    return found[0]


def part(number):
    """The calls over one folder: how often each ended how, and those on which both differ, with the folder."""
    return in_big_stack(Work.reference, tried, number)


def tried(number):
    """The same, with the stack that there is."""
    pick = random.Random(f"{Work.seed} {number}")
    checker = derivations.Checker(pick, Work.reference, lambda words, place: answer(Work.program, words, b"", place))
    counted, differ = collections.Counter(), []
    Work.reference.known.clear()
    folder = fixed() if number % 4 == 0 else random_folder(pick, Work.reference)
    with tempfile.TemporaryDirectory() as made:
        place = Work.fixed if number % 4 == 0 else made
        if place == made:
            folder.write(place)
        for _ in range(min(CALLS_PER_SET, Work.count - number * CALLS_PER_SET)):
            words, text = call(pick, folder), stream(pick, folder)
            one = answer(Work.program, words, text, place)
            other = Work.reference.answer(words, text, place)
            counted[said_of(words, *one)] += 1
            differs, wrong = checker.differences(one, other, list(Work.reference.owed))
            if differs:
                differ.append((words, text, one, other, {**folder.texts, **folder.certificates}))
            differ += wrong
    return counted, differ


def started(program):
    """The words that start a program from any folder."""
    words = shlex.split(program)
    return [str(pathlib.Path(words[0]).resolve()), *words[1:]] if "/" in words[0] else words


def write(place, files):
    for name, text in files.items():
        pathlib.Path(place, name).write_bytes(text)


def in_parts(part, prepare, given, jobs, parts):
    """How often each answer came in all parts, and how many calls differ, of which the first are shown and kept."""
    counted, failed = collections.Counter(), 0
    with multiprocessing.Pool(jobs, prepare, given) as pool:
        for found, differ in pool.imap(part, range(parts)):
            counted.update(found)
            for asked, one, other, files in itertools.islice(differ, max(0, KEPT - failed)):
                print(f"{ascii(asked)} in {keep(asked, b'', files)}")
                print(f"  program   {shown(one)}\n  wanted    {shown(other)}", flush=True)
            failed += len(differ)
    for word, times in sorted(counted.items()):
        print(f"  {word}: {times}")
    return counted, failed


def keep(words, text, files):
    """A folder with the files, the words and the input of a call."""
    place = pathlib.Path(tempfile.mkdtemp(prefix="call-"))
    for name, content in files.items():
        (place / name).write_bytes(content)
    (place / "words.json").write_text(json.dumps(words) + "\n")
    (place / "input").write_bytes(text)
    return place


def shown(one):
    """An answer, of which the middle is left out where it is long."""
    text = ascii(one[0])
    return f'status {one[1]} {text if len(text) < 400 else text[:200] + " .. " + text[-200:]}'


def main():
    words = argparse.ArgumentParser(description=__doc__.splitlines()[0])
    words.add_argument("program")
    words.add_argument("reference")
    words.add_argument("--count", type=int, default=2000)
    words.add_argument("--seed", type=int, default=None)
    words.add_argument("--jobs", type=int, default=4)
    words.add_argument("--all-rules", action="store_true")
    words = words.parse_args()
    seed = random.randrange(2 ** 31) if words.seed is None else words.seed
    print(f"seed {seed}", flush=True)
    comparing.module_of(words.reference, "main")
    program = started(words.program)
    counted, failed = collections.Counter(), 0
    with tempfile.TemporaryDirectory() as place:
        write(place, call_texts.fixed_folder())
        reference = str(pathlib.Path(words.reference).resolve()), words.all_rules
        given = (program, reference, seed, words.count, place)
        with multiprocessing.Pool(words.jobs, prepare, given) as pool:
            for found, differ in pool.imap(part, range((words.count + CALLS_PER_SET - 1) // CALLS_PER_SET)):
                counted.update(found)
                for asked, text, one, other, files in differ[:max(0, KEPT - failed)]:
                    print(f"{ascii(asked)} in {keep(asked, text, files)}")
                    print(f"  program   {shown(one)}\n  reference {shown(other)}", flush=True)
                failed += len(differ)
    for (command, status, verdict), times in sorted(counted.items(), key=str):
        print(f"  {command} status {status} {verdict}".rstrip() + f": {times}")
    calls = sum(counted.values())
    print(f"{calls - failed} passed, {failed} failed")
    sys.exit(1 if failed or not calls else 0)


if __name__ == "__main__":
    main()
