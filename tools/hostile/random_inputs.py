#!/usr/bin/env python3
"""Gives a program random bytes and changed texts: random_inputs.py PROGRAM [OPTION..]

  --seconds N      for so long (600)
  --count N        or until there were so many inputs
  --kinds WORD..   traits, scripts, sessions, certificates, models, words (all)
  --keep FOLDER    what was found is kept there (a new folder)
  --seed N         which inputs
  --reference DIR  a folder with the package larchref, another reading of the definitions, with which one of ten
                   sessions is compared; LARCHREF_STAGE and LARCHREF_ALSO say to it what the program has

An input is a text: a trait, a script, a certificate, a model, a whole session, or the words of a call. Traits and
scripts are handed over in sessions, many in one, each with a report. Something is found where a call

- is ended by a signal, takes more than 60 seconds of processor time, or writes to standard error;
- ends with a status that isn't defined for it, or writes another number of reports than were asked for;
- answers otherwise when it is made again (each eighth), or a report says something else than one behind no other texts
  (one of each session);
- answers a session otherwise than its grammar says, or a session otherwise than the other reading.

It is kept with its input, as small as leaving out other texts makes it. Ends with the numbers of inputs and of what was
found, and with status 1 where something was."""
import argparse
import collections
import os
import pathlib
import random
import re
import resource
import subprocess
import sys
import tempfile
import time

import calls
import mutations
import replies

TOP = pathlib.Path(__file__).resolve().parents[2]
CPU_SECONDS, IN_ONE_SESSION, LIMIT = 60, 100, "40"
CODE = re.compile(rb" ([A-Z][A-Z-]+)$", re.M)
STATUSES = {"session": {0, 1, 6, 7}, "verify": {0, 1, 6, 7}, "trim": {0, 1, 6, 7}, "model": {0, 1, 6, 7},
            "migrate": {0, 6, 7}, "complete": {0, 1, 7}, "check": {0, 1}, "obligations": {0, 1}, "replay": {0, 1},
            "derive": {0, 1}, None: {0, 1, 2, 6, 7, 8}}
SECONDS_BETWEEN_LINES = 60
END = b"\nend\n"
KINDS = ["traits", "scripts", "sessions", "certificates", "models", "words"]


def texts_of(ending):
    """The right texts with this ending that the repository has, by name."""
    found = {}
    for folder in ("examples", "companions/samples", "tools/gate"):
        for path in sorted((TOP / folder).rglob(f"*.{ending}")):
            text = path.read_bytes()
            if len(text) < 4000:
                found.setdefault(path.name, text)
    return found


class Texts:
    """What is changed: traits with what they need, scripts with their traits, certificates, models, sessions."""

    def __init__(self, program):
        own = {"Nat.lsl": calls.NAT, "Table.lsl": calls.TABLE, "SetB.lsl": calls.SET, "Cm.lsl": calls.COMPLETED,
               **calls.call_texts.TEXTS}
        self.traits = {**texts_of("lsl"), **own}
        self.traits = {name: text for name, text in self.traits.items() if re.fullmatch(r"\w{1,64}\.lsl", name)}
        self.scripts = {**texts_of("lp"), "Nat.lp": calls.NAT_SCRIPT, "Table.lp": calls.TABLE_SCRIPT,
                        "SetB.lp": calls.SET_SCRIPT}
        self.scripts = {name: text for name, text in self.scripts.items() if name[:-2] + "lsl" in self.traits}
        self.certificates = [calls.call_texts.proof(), calls.SECOND, *texts_of("cert").values()]
        self.models = [calls.MODEL, *texts_of("mod").values()]
        self.sessions = list(calls.sessions(calls.derives(program)).values())

    def needed(self, name):
        """The traits that a trait refers to, as far as they are few."""
        seen, waiting = {}, [name]
        while waiting:
            one = waiting.pop()
            if one in self.traits and one not in seen:
                seen[one] = self.traits[one]
                waiting += [word.decode() + ".lsl" for word in re.findall(rb"\w+", seen[one])]
        seen.pop(name, None)
        return seen if len(seen) <= 3 else None


# What a call came to: its status (below 0 the number of a signal), what it wrote, and what it said besides.
Ended = collections.namedtuple("Ended", "status written said")


def limited():
    resource.setrlimit(resource.RLIMIT_CPU, (CPU_SECONDS, CPU_SECONDS))
    resource.setrlimit(resource.RLIMIT_CORE, (0, 0))


class Tries:
    """Makes calls, judges them, and keeps what is found."""

    def __init__(self, program, words):
        self.program, self.words, self.chosen = program, words, random.Random(words.seed)
        self.texts = Texts(program)
        self.counts, self.codes, self.found = collections.Counter(), collections.Counter(), 0
        self.begun, self.rounds = time.monotonic(), 0
        self.keep = pathlib.Path(words.keep or tempfile.mkdtemp(prefix="larch-found-"))
        self.keep.mkdir(parents=True, exist_ok=True)
        self.trims = [command for command in ("verify", "trim", "migrate") if calls.has(program, command)]

    def run(self, words, files=None, source=b""):
        with tempfile.TemporaryDirectory() as folder:
            for name, text in (files or {}).items():
                (pathlib.Path(folder) / name).write_bytes(text)
            done = subprocess.run([self.program, *words], cwd=folder, input=source, capture_output=True,
                                  preexec_fn=limited, check=False)
        return Ended(done.returncode, done.stdout, done.stderr)

    def wrong(self, ended, command):
        """What is wrong with a call's end by itself; nothing where it may be so."""
        if ended.status < 0:
            return f"signal {-ended.status}"
        if ended.said:
            return f"on standard error: {ended.said[:200]!r}"
        return "" if ended.status in STATUSES[command] else f"status {ended.status}"

    def found_one(self, what, words, files, source):
        """Keeps what was found."""
        self.found += 1
        folder = self.keep / f"{self.found:03}"
        folder.mkdir()
        for name, text in {**files, "input": source, "what": f"{what}\n{words}\n".encode()}.items():
            (folder / name).write_bytes(text)
        print(f"{folder}: {' '.join(words)[:100]}: {what}", flush=True)

    def see(self, words, files=None, source=b"", command=None):
        """Makes a call, at times twice, and keeps it where something is wrong; what it came to."""
        ended = self.run(words, files, source)
        what = self.wrong(ended, command)
        if not what and self.chosen.randrange(8) == 0 and self.run(words, files, source) != ended:
            what = "another answer the second time"
        if what:
            self.found_one(what, words, files or {}, source)
        return ended

    def see_reports(self, first, name, texts):
        """A session with some files and, one after the other, texts of one name, each with a report."""
        words = ["session", "--limit", LIMIT]
        front = b"".join(calls.put(*row) for row in first.items())
        steps = [calls.put(name, text) + b"report\n" for text in texts]
        ended = self.run(words, source=front + b"".join(steps))
        reports = ended.written.split(END)[:-1]
        what = self.wrong(ended, "session")
        if not what and (len(reports) != len(texts) or ended.status > 1):
            what = f"{len(reports)} reports on {len(texts)} texts, status {ended.status}"
        if what:
            self.found_one(what, words, {}, self.smallest(words, front, steps, what))
            return
        self.codes.update(CODE.findall(ended.written))
        at = self.chosen.randrange(len(texts))
        alone = self.run(words, source=front + steps[at])
        if alone.written != reports[at] + END:
            self.found_one("another report behind other texts", words, {}, front + b"".join(steps[:at + 1]))
        if self.words.reference and self.rounds % 10 == 0:
            self.compare(words, front + b"".join(steps[:4]), b"".join(report + END for report in reports[:4]))

    def smallest(self, words, front, steps, what):
        """The first text alone with which the same is wrong, else all."""
        for step in steps:
            if self.wrong(self.run(words, source=front + step), "session") == what:
                return front + step
        return front + b"".join(steps)

    def compare(self, words, source, written):
        """Compares what was written with another reading."""
        surroundings = {**os.environ, "PYTHONPATH": self.words.reference}
        try:
            other = subprocess.run([sys.executable, "-m", "larchref.main", *words], input=source, capture_output=True,
                                   env=surroundings, timeout=60, check=False)
        except subprocess.TimeoutExpired:
            return
        if other.stderr or other.returncode == 2:  # it doesn't go so far, or knows no such words
            return
        self.counts["compared"] += 1
        if other.stdout != written:
            self.found_one("another answer than the other reading", words, {"other": other.stdout}, source)

    def many(self, right, others):
        return [mutations.mutated(self.chosen, right, others) for _ in range(IN_ONE_SESSION)]

    def traits(self):
        name = self.chosen.choice(list(self.texts.traits))
        first = self.texts.needed(name)
        if first is None:
            return 0
        texts = self.many(self.texts.traits[name], list(self.texts.traits.values()))
        self.see_reports(first, name, texts)
        return len(texts)

    def scripts(self):
        name = self.chosen.choice(list(self.texts.scripts))
        trait = name[:-2] + "lsl"
        first = self.texts.needed(trait)
        if first is None:
            return 0
        texts = self.many(self.texts.scripts[name], list(self.texts.scripts.values()))
        self.see_reports({**first, trait: self.texts.traits[trait]}, name, texts)
        return len(texts)

    def sessions(self):
        """A changed session: where its lines are as its grammar has them it ends well, else at the first other line."""
        right = self.chosen.choice(self.texts.sessions)
        source = mutations.mutated(self.chosen, right, self.texts.sessions)
        ended = self.see(["session", "--limit", LIMIT], source=source, command="session")
        whole = replies.commands_of(source)
        begin = whole[-1].end if whole else 0
        last = source[whole[-1].begin:begin].rstrip(b"\n") if whole else b""
        is_well = last == b"quit" or begin == len(source)
        wanted = b"malformed at byte %d\n" % begin
        if ended.status in (0, 1) and not is_well or ended.status == 6 and not ended.written.endswith(wanted):
            self.found_one(f"wanted {wanted!r}", ["session"], {}, source)
        return 1

    def certificates(self):
        command = self.chosen.choice(self.trims)
        text = mutations.mutated(self.chosen, self.chosen.choice(self.texts.certificates), self.texts.certificates)
        files = {"Nat.lsl": calls.NAT, "A.cert": text}
        label = self.chosen.choice(("imply.1", "imply.1", "imply.2", "imply.3"))
        front = ["A.cert"] if command == "migrate" else ["Nat", label, "A.cert", "Nat.lsl"]
        ended = self.see([command, *front], files, command=command)
        if ended.status == 0 and command == "trim":
            again = self.run(["verify", *front], {**files, "A.cert": ended.written})
            if again.written != b"accepted\n":
                self.found_one("what is trimmed isn't accepted", [command, *front], files, b"")
        return 1

    def models(self):
        text = mutations.mutated(self.chosen, self.chosen.choice(self.texts.models), self.texts.models)
        self.see(["model", "Nat", "Nat.mod", "Nat.lsl"], {"Nat.lsl": calls.NAT, "Nat.mod": text}, command="model")
        return 1

    def words_of_calls(self):
        """Words of a call, some of which are others, gone, or random."""
        command = self.chosen.choice(list(calls.named_calls()))
        words, files = self.chosen.choice(calls.named_calls()[command])
        words = [command, *words]
        for _ in range(self.chosen.randint(0, 3)):
            at = self.chosen.randrange(len(words) + 1)
            new = self.chosen.choice(("--limit", "--seed", "--size", "--", "-", "--limit=3", "0", "5", "99999999999",
                                      "é", "One.lsl", "Nat.lp", "check", "imply.0", "", "a/b.cert", "x" * 70, *words))
            words[at:at + self.chosen.randrange(3)] = [new] if self.chosen.randrange(4) else []
        if "session" in words or not words:
            return 0
        self.see(words, files)
        return 1

    def end(self):
        for kind, count in self.counts.items():
            print(f"{kind}: {count}")
        codes = ", ".join(f"{code.decode()} {count}" for code, count in sorted(self.codes.items()))
        print(f"codes in reports: {codes}")
        inputs = sum(count for kind, count in self.counts.items() if kind != "compared")
        print(f"{inputs} inputs, {self.found} found, seed {self.words.seed}, {time.monotonic() - self.begun:.0f} s")
        return 1 if self.found else 0


def words_of():
    words = argparse.ArgumentParser(description=__doc__, formatter_class=argparse.RawDescriptionHelpFormatter)
    words.add_argument("program")
    words.add_argument("--seconds", type=float, default=600)
    words.add_argument("--count", type=int, default=10**12)
    words.add_argument("--kinds", nargs="+", default=KINDS)
    words.add_argument("--keep")
    words.add_argument("--seed", type=int, default=random.randrange(2**32))
    words.add_argument("--reference")
    return words.parse_args()


def main():
    words = words_of()
    print(f"seed {words.seed}", flush=True)
    tries = Tries(str(pathlib.Path(words.program).resolve()), words)
    makers = {"traits": tries.traits, "scripts": tries.scripts, "sessions": tries.sessions,
              "certificates": tries.certificates, "models": tries.models, "words": tries.words_of_calls}
    inputs, said = 0, 0
    while time.monotonic() - tries.begun < words.seconds and inputs < words.count:
        kind = words.kinds[tries.rounds % len(words.kinds)]
        made = makers[kind]()
        tries.counts[kind] += made
        inputs, tries.rounds = inputs + made, tries.rounds + 1
        if time.monotonic() - tries.begun > said:
            said += SECONDS_BETWEEN_LINES
            print(f"{time.monotonic() - tries.begun:.0f} s: {inputs} inputs, {tries.found} found", flush=True)
    return tries.end()


if __name__ == "__main__":
    sys.exit(main())
