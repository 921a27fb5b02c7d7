#!/usr/bin/env python3
"""Makes each read, write, opening of a file and allocation of a program's calls fail: fail_each.py PROGRAM [OPTION..]

  --most N         of the calls of one kind, at most N are tried, evenly spread (2,000)
  --seconds N      no further call is begun behind so many seconds (3,600)
  --kinds LETTERS  r reads of the input, e its end, i interrupted reads, f reads of files, o openings, w writes,
                   j interrupted writes, a allocations, z allocations with all behind them (all of these)
  --only WORD      calls with this word in their title alone; may be said again
  --seed N         where the tried ones begin
  --quiet          only what is wrong, and the counts

Each command that the program has is called, and sessions with proofs, marks, edits and, where the program has them,
derivations. A call runs as it would, and at each read, write, opening and allocation a copy of it is made in which this
one fails and no other (fail.c). Looked at is, of each copy:

- a read of the input that fails: status 3, and what was written are the replies to the commands that came whole
- the input ends there: the defined output and status of the input so far
- a read or an opening of a file that fails: status 3 and nothing is written; where the error says that nothing is
  there, status 8 and `no file NAME`; where it says that memory is out, status 5
- a write that fails: status 4, and what was written is a front of the defined output
- an allocation that fails, alone or with all behind it: status 5 and a front of the defined output, or all as if none
  had
- a read or a write that a signal interrupts: all as if none had

It needs a C compiler, and a program that is linked to the C library. It prints for each call how many of how many calls
were tried, then 'N passed, N failed', and ends with status 1 where one failed."""
import argparse
import collections
import errno
import pathlib
import random
import sys
import tempfile
import time

TOP = pathlib.Path(__file__).resolve().parents[2]
sys.path.insert(0, str(TOP / "tools/gate"))
import calls  # noqa: E402
import replies  # noqa: E402
import shim  # noqa: E402
from tests import Tests  # noqa: E402

# What an error of an opening comes to.
FAULTS = [errno.EACCES, errno.EIO, errno.EMFILE, errno.ELOOP, errno.EINTR]
ABSENT = [errno.ENOENT, errno.ENOTDIR, errno.ENAMETOOLONG]
# The kinds that are tried together, how many bytes a call moves then, and by which error they fail.
STREAMS = [("rei", 1, errno.EIO), ("r", 7, errno.EAGAIN), ("wj", 1, errno.EPIPE), ("w", 64, errno.ENOSPC)]
FILES = [("of", 0, number) for number in FAULTS if number != errno.EINTR] + [("f", 100, errno.EISDIR)]
FILES += [("o", 0, number) for number in [*ABSENT, errno.ENOMEM]] + [("f", 0, errno.ENOMEM)]
MEMORY = [("az", 0, errno.ENOMEM)]


class Judge:
    """What has to come of each failure in one call."""

    def __init__(self, program, call):
        self.call = call
        self.expected, self.status = calls.answer(program, call.words, call.files, call.source)
        self.replies = replies.Replies(program, call.source) if call.words == ["session"] else None
        self.named = [word for word in call.words if word in call.files]
        self.by_kind = {"r": self.of_fault, "e": self.of_end, "o": self.of_file, "f": self.of_file, "w": self.of_write,
                        "a": self.of_memory, "z": self.of_memory, "i": self.of_nothing, "j": self.of_nothing}

    def wrong(self, record, number):
        """What is wrong with a copy's end; nothing where it is as it has to be."""
        status = shim.ended(record)
        written = self.expected[:record.common] + record.rest
        if record.length == len(written) and self.by_kind[record.kind](status, written, record, number):
            return ""
        return (f"{self.call.title}: {shim.KINDS[record.kind]}, {record.number}, {errno.errorcode[number]}: "
                f"status {status}, {record.length} bytes written, {record.common} as expected, then {record.rest!r}")

    def of_fault(self, status, written, record, _):
        return status == 3 and written == self.expected[:self.replies.behind_fault(record.given)]

    def of_end(self, status, written, record, _):
        length, more, wanted = self.replies.at_cut(record.given)
        return status == wanted and written == self.expected[:length] + more

    def of_file(self, status, written, record, number):
        if record.kind == "o" and number in ABSENT:
            return status == 8 and written == b"no file %s\n" % self.named[record.number - 1].encode()
        return not written and status == (5 if number == errno.ENOMEM else 3)

    def of_write(self, status, written, *_):
        return status == 4 and self.expected.startswith(written) and written != self.expected

    def of_memory(self, status, written, *_):
        return status == 5 and self.expected.startswith(written) or self.of_nothing(status, written)

    def of_nothing(self, status, written, *_):
        return status == self.status and written == self.expected


class Tries:
    """All failures of all calls, and how many there were."""

    def __init__(self, program, words, tests):
        self.program, self.words, self.tests = program, words, tests
        self.shim, self.chosen = shim.Shim(), random.Random(words.seed)
        self.tried, self.seen = collections.Counter(), collections.Counter()

    def run(self, call, judge, kinds, piece, number, **settings):
        with tempfile.TemporaryDirectory() as folder:
            for name, text in call.files.items():
                (pathlib.Path(folder) / name).write_bytes(text)
            return self.shim.run(self.program, call.words, folder, call.source, judge.expected, kinds, piece=piece,
                                 errno=number, **settings)

    def count(self, call, judge, kinds, piece, number):
        """How many calls of these kinds there are where none fails; nothing changes by the shim and by the pieces."""
        run = self.run(call, judge, kinds, piece, number, **{"from": 10**18})
        self.tests.see(f"{call.title} in pieces of {piece}", run[:3],
                       (judge.status, len(judge.expected), len(judge.expected)))
        return max(run.counts.values(), default=0)

    def try_kinds(self, call, judge, kinds, piece, number):
        """Tries these kinds in one run, as many of their calls as are wanted."""
        kinds = "".join(kind for kind in kinds if kind in self.words.kinds)
        count = self.count(call, judge, kinds, piece, number) if kinds else 0
        if not count:
            return
        step = -(-count // self.words.most)
        run = self.run(call, judge, kinds, piece, number, step=step, **{"from": self.chosen.randint(1, step)})
        self.tests.see(f"{call.title} with copies", run[:3], (judge.status, len(judge.expected), len(judge.expected)))
        for record in run.records:
            wrong = judge.wrong(record, number)
            self.tests.look(not wrong, wrong)
            self.tried[record.kind] += 1
        for kind in kinds:
            self.seen[kind] += run.counts.get("a" if kind == "z" else kind, 0)

    def try_call(self, call):
        """Tries all kinds that a call can have."""
        begun, before = time.monotonic(), (self.tried.copy(), self.seen.copy())
        judge = Judge(self.program, call)
        streams = [row for row in STREAMS if call.words == ["session"] or row[0][0] == "w"]
        for kinds, piece, number in streams + (FILES if judge.named else []) + MEMORY:
            self.try_kinds(call, judge, kinds, piece, number)
        counts = [f"{kind} {self.tried[kind] - before[0][kind]} of {self.seen[kind] - before[1][kind]}"
                  for kind in self.words.kinds if self.seen[kind] > before[1][kind]]
        if not self.words.quiet:
            print(f"{call.title}: {', '.join(counts)}; {time.monotonic() - begun:.1f} s", flush=True)
        if "a" in self.words.kinds:
            self.tests.look(self.seen["a"] > before[1]["a"], f"{call.title}: no allocation was seen")


def words_of(arguments):
    words = argparse.ArgumentParser(description=__doc__, formatter_class=argparse.RawDescriptionHelpFormatter)
    words.add_argument("program")
    words.add_argument("--most", type=int, default=2000)
    words.add_argument("--seconds", type=float, default=3600)
    words.add_argument("--kinds", default="".join(shim.KINDS))
    words.add_argument("--only", action="append", default=[])
    words.add_argument("--seed", type=int, default=1)
    words.add_argument("--quiet", action="store_true")
    return words.parse_args(arguments)


def main(arguments=None):
    words = words_of(arguments)
    if not shim.compiler():
        print("left out: there is no C compiler")
        return 0
    program, tests, begun = str(pathlib.Path(words.program).resolve()), Tests(), time.monotonic()
    tries = Tries(program, words, tests)
    left_out = 0
    for call in calls.all_calls(program):
        if words.only and not any(word in call.title for word in words.only):
            continue
        if time.monotonic() - begun > words.seconds:
            left_out += 1
        else:
            tries.try_call(call)
    for kind in words.kinds:
        print(f"{shim.KINDS[kind]}: {tries.tried[kind]} of {tries.seen[kind]} tried")
    if left_out:
        print(f"{left_out} calls left out, since the time was over")
    return tests.end()


if __name__ == "__main__":
    sys.exit(main())
