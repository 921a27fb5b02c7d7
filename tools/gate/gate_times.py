#!/usr/bin/env python3
"""Tells where the gate's processor time goes: gate_times.py [--to FILE] COMMAND.. runs a command, as `rt ci`, and looks
at the prover's processes meanwhile.

Prints a row for each crate, dearest first: seconds of processor time for its proof (a program's builds with it), its
tests, the check with which its edits begin (the seed), and its edits; then the sums in minutes. With --to the rows go
to that file as well, so that another run can be laid beside this one. What a process took after the last look at it is
lost, half a second at most. Ends with the command's status.

First it says what the machine has, and then every five minutes how far the run is, so that a log that is cut off tells
where it stood: the minutes since the beginning, processors, load and free memory, how many checks have ended, the
processor minutes of the command itself without its checks, and each check that runs with those that it has taken.
"""
import argparse
import collections
import os
import pathlib
import re
import subprocess
import sys
import threading
import time

KINDS = ("proof", "tests", "seed", "edits")
SECONDS_BETWEEN_LOOKS = 0.5
SECONDS_BETWEEN_LINES = 300
TICKS = os.sysconf("SC_CLK_TCK")
GROUP = "/sys/fs/cgroup"


def words_of(process):
    """The words of a process's command, or none where it is gone."""
    try:
        return pathlib.Path(f"/proc/{process}/cmdline").read_bytes().decode(errors="replace").split("\0")
    except OSError:
        return []


def fields_of(process):
    """What the system says of a process behind its name, or nothing where it is gone."""
    try:
        return pathlib.Path(f"/proc/{process}/stat").read_text().rpartition(")")[2].split()
    except OSError:
        return []


def numbers_of(process):
    """A process's parent, and the seconds that it and the children that it waited for took."""
    said = fields_of(process)
    return (int(said[1]), sum(int(it) for it in said[11:15]) / TICKS) if said else None


def own_minutes_of(process):
    """The processor minutes that a process took without its children."""
    return sum(int(it) for it in fields_of(process)[11:13]) / TICKS / 60


def number_in(file, pattern):
    """The first number that a file has in this place, if there is one."""
    try:
        found = re.search(pattern, pathlib.Path(file).read_text())
    except OSError:
        return None
    return int(found[1]) if found else None


def free_gigabytes():
    """The memory that is free, under the limit of the control group too."""
    free = [1024 * (number_in("/proc/meminfo", r"MemAvailable:\s+(\d+)") or 0)]
    limit, held = number_in(f"{GROUP}/memory.max", r"^(\d+)"), number_in(f"{GROUP}/memory.stat", r"anon (\d+)")
    if limit and held is not None:
        free.append(limit - held)
    return min(free) / 1e9


def machine():
    """What the machine has now."""
    processors = len(os.sched_getaffinity(0))
    return f"{processors} processors, load {os.getloadavg()[0]:.1f}, {free_gigabytes():.1f} GB free"


def is_check(words):
    return "--crate-name" in words and os.path.basename(words[0]) == "rattle"


def kind_of(process, words):
    """What the check is for: an edit is checked in a folder of its own, over the seed's files or from nothing."""
    try:
        is_edit = "rt-edit-" in os.readlink(f"/proc/{process}/cwd")
    except OSError:
        return None
    over = words[words.index("--incremental") + 1] if "--incremental" in words else ""
    if over.endswith("/seed"):
        return "seed"
    if is_edit:
        return "edits"
    return "tests" if "--test" in words else "proof"


class Looks:
    """The checks seen so far: of each what it is for and what it took at the last look; and those that ran then."""

    def __init__(self):
        self.checks, self.running = {}, []

    def look(self):
        self.running = []
        processes = [int(name) for name in os.listdir("/proc") if name.isdigit()]
        words = {process: words_of(process) for process in processes}
        numbers = {process: numbers_of(process) for process in processes}
        for process in processes:
            if is_check(words[process]) and numbers[process]:
                self.take(process, words, numbers)

    def take(self, process, words, numbers):
        """A copy of itself that a check works with counts for the check that it was copied from."""
        first, seconds = process, numbers[process][1]
        while numbers.get(first) and is_check(words.get(numbers[first][0], [])):
            first = numbers[first][0]
        kind = kind_of(first, words[first])
        if kind and first == process:
            crate = words[first][words[first].index("--crate-name") + 1]
            key = first, crate, kind
            self.checks[key] = max(self.checks.get(key, 0), seconds)
            self.running.append(key)

    def line(self, begun, command):
        """How far the run is."""
        now = sorted(f"{key[1]} {key[2]} {self.checks[key] / 60:.1f}" for key in self.running)
        minutes, count = (time.monotonic() - begun) / 60, len(self.checks) - len(now)
        return (f"gate, minute {minutes:.0f}: {machine()}; {count} checks ended; processor minutes: "
                f"itself {own_minutes_of(command):.1f}, {', '.join(now) or 'no check'}")

    def by_crate(self):
        rows = collections.defaultdict(lambda: dict.fromkeys(KINDS, 0.0))
        for (_, crate, kind), seconds in self.checks.items():
            rows[crate][kind] += seconds
        return rows


def table(rows):
    """The rows as a table of text, dearest first, with the sums in minutes."""
    lines = [f"{'crate':28}" + "".join(f"{kind:>9}" for kind in KINDS) + f"{'sum':>9}"]
    for crate, row in sorted(rows.items(), key=lambda it: -sum(it[1].values())):
        lines.append(f"{crate:28}" + "".join(f"{row[kind]:9.0f}" for kind in KINDS) + f"{sum(row.values()):9.0f}")
    sums = [sum(row[kind] for row in rows.values()) / 60 for kind in KINDS]
    lines.append(f"{'minutes':28}" + "".join(f"{it:9.1f}" for it in sums) + f"{sum(sums):9.1f}")
    return "\n".join(lines) + "\n"


def look_until(ended, looks, begun, command):
    told = begun
    while not ended.wait(SECONDS_BETWEEN_LOOKS):
        looks.look()
        if time.monotonic() - told >= SECONDS_BETWEEN_LINES:
            told += SECONDS_BETWEEN_LINES
            print(looks.line(begun, command), flush=True)


def main():
    words = argparse.ArgumentParser(description="Tells where the gate's processor time goes.")
    words.add_argument("--to", type=pathlib.Path, help="a file for the rows")
    words.add_argument("command", nargs=argparse.REMAINDER, help="what to run, as rt ci")
    said = words.parse_args()
    looks, ended, begun = Looks(), threading.Event(), time.monotonic()
    whole = 1024 * (number_in("/proc/meminfo", r"MemTotal:\s+(\d+)") or 0) / 1e9
    print(f"gate: {machine()} of {whole:.1f}", flush=True)
    command = subprocess.Popen(said.command)
    looking = threading.Thread(target=look_until, args=(ended, looks, begun, command.pid))
    looking.start()
    status = command.wait()
    ended.set()
    looking.join()
    text = table(looks.by_crate()) + f"wall time {(time.monotonic() - begun) / 60:.1f} minutes\n"
    sys.stdout.write(text)
    if said.to:
        said.to.write_text(text)
    return status


if __name__ == "__main__":
    sys.exit(main())
