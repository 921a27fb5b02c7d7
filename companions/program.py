"""How companions call the program: where it is found, a session that takes files and answers reports, and `check`."""
import contextlib
import dataclasses
import os
import pathlib
import re
import subprocess
import threading

TOP = pathlib.Path(__file__).resolve().parent.parent
# What one session takes: files, bytes of a file, bytes in all.
MOST_FILES, MOST_BYTES, MOST_INPUT = 256, 1048576, 67108864
FILE_NAME = re.compile(r"[A-Za-z0-9_]{1,64}\.lsl")
TRAIT_LINE = re.compile(r"trait (\w+)(?: error (\d+):(\d+) ([A-Z-]+))?")


@dataclasses.dataclass(frozen=True)
class Refusal:
    """What the program says of a wrong trait: its file, the line and column from 1 and in bytes, and the code."""
    file: str
    line: int
    column: int
    code: str


def found():
    """The program that is asked: that of the environment's LARCH, or the checkout's ./larch."""
    return os.environ.get("LARCH") or str(TOP / "larch")


def reported(lines):
    """What the lines of a report say: each trait's file name with nothing, or with line, column and code."""
    traits = (TRAIT_LINE.fullmatch(line) for line in lines)
    return {trait[1] + ".lsl": (int(trait[2]), int(trait[3]), trait[4]) if trait[2] else None
            for trait in traits if trait}


def refusals(report):
    """The refusals of a report, by the names of the files."""
    return [Refusal(name, *place) for name, place in sorted(report.items()) if place]


class Session:
    """The program's process and the files that it holds; it is started anew where it has ended."""

    def __init__(self, program=None, options=()):
        self.program, self.options, self.process, self.held, self.given = program or found(), options, None, {}, 0

    def __enter__(self):
        return self

    def __exit__(self, *trouble):
        self.close()

    def report(self, files):
        """What a report says of these files: each trait's file name with nothing, or with line, column and code."""
        return reported(self.lines(files))

    def lines(self, files):
        """The lines of a report on these files, without its last one, `end`."""
        return next(self.all_lines([files]))

    def all_lines(self, ways):
        """The lines of the report on each of several ways to have the files. They are handed over together, so that the
        program needn't wait; where its process has ended it is started anew, once for each way."""
        done = 0
        while done < len(ways):
            before = done
            try:
                for lines in self.ask(ways[done:]):
                    done += 1
                    yield lines
            except (OSError, EOFError):
                self.close()
                if done == before:
                    yield from self.ask(ways[done:])
                    return

    def ask(self, ways):
        text = self.questions(ways)
        if self.process is None or self.given + len(text) > MOST_INPUT:
            self.close()
            words = [self.program, "session", *self.options]
            self.process = subprocess.Popen(words, stdin=subprocess.PIPE, stdout=subprocess.PIPE)
            text = self.questions(ways)
        self.held, self.given = dict(ways[-1]), self.given + len(text)
        writing = threading.Thread(target=self.write, args=(self.process.stdin, text), daemon=True)
        writing.start()
        for _ in ways:
            lines = []
            for line in iter(self.process.stdout.readline, b"end\n"):
                if not line:
                    raise EOFError(f"{self.program} ended with status {self.process.wait()}")
                lines.append(line.decode().rstrip("\n"))
            yield lines
        writing.join()

    @staticmethod
    def write(stream, text):
        with contextlib.suppress(OSError, ValueError):  # where the process has ended, no `end` will come
            stream.write(text)
            stream.flush()

    def questions(self, ways):
        """What hands over several ways to have the files, each with its report."""
        held, texts = self.held, []
        for files in ways:
            texts.append(self.commands(files))
            self.held = files
        self.held = held
        return b"".join(texts)

    def commands(self, files):
        """What takes the files that are gone out, hands over those that are new or changed, and asks for a report."""
        drops = [b"drop %s\n" % name.encode() for name in self.held.keys() - files.keys()]
        puts = [b"put %s %d\n%s" % (name.encode(), len(text), text) for name, text in files.items()
                if self.held.get(name) != text]
        return b"".join(drops + puts) + b"report\n"

    def close(self):
        if self.process is not None:
            self.process.kill()
            self.process.communicate()
        self.process, self.held, self.given = None, {}, 0


class Disk:
    """The traits of a folder on disk; a file is read again where its time or size has changed."""

    def __init__(self, folder):
        self.folder, self.known = pathlib.Path(folder), {}

    def traits(self):
        """Each file's bytes; of one that is too long, one byte more than a session takes."""
        seen = {}
        for path in sorted(self.folder.glob("*.lsl")):
            try:
                stamp = (path.stat().st_mtime_ns, path.stat().st_size)
                if path.is_file() and self.known.get(path.name, ())[:1] != (stamp,):
                    with path.open("rb") as file:
                        self.known[path.name] = (stamp, file.read(MOST_BYTES + 1))
                seen[path.name] = self.known[path.name]
            except (OSError, KeyError):
                pass  # it is no file, or went while it was looked at
        self.known = seen
        return {name: text for name, (_, text) in seen.items()}


def stamps(folder):
    """The scripts and certificates of a folder, each with its time and size."""
    found = {}
    for path in sorted(pathlib.Path(folder).glob("*.*")):
        if path.suffix in (".lp", ".cert"):
            with contextlib.suppress(OSError):
                if path.is_file():
                    found[path.name] = path.stat().st_mtime_ns, path.stat().st_size
    return found


def beside(folder):
    """The scripts of a folder, and its certificates, of which the names alone count."""
    found = {}
    for name, (_, size) in stamps(folder).items():
        with contextlib.suppress(OSError):
            is_read = name.endswith(".lp") and size <= MOST_BYTES
            found[name] = (pathlib.Path(folder) / name).read_bytes() if is_read else b""
    return found


def fitting(files, first=()):
    """The files that one session takes, those of `first` before the others, and why each of the rest isn't taken."""
    taken, rest, size = {}, {}, 0
    for name in sorted(files, key=lambda name: (name not in first, name)):
        length = len(files[name]) + 200
        if not FILE_NAME.fullmatch(name):
            rest[name] = "not looked at: a trait's file has 1 to 64 letters, digits and `_`, then `.lsl`"
        elif len(files[name]) > MOST_BYTES:
            rest[name] = f"not looked at: more than {MOST_BYTES:,} bytes"
        elif len(taken) == MOST_FILES or size + length > MOST_INPUT - 200:
            rest[name] = f"not looked at: a session takes {MOST_FILES} files and {MOST_INPUT:,} bytes"
        else:
            taken[name], size = files[name], size + length
    return taken, rest


def check(folder, names, program=None):
    """What `check` says of these files of a folder, as a report, and its status."""
    words = [program or found(), "check", *names]
    done = subprocess.run(words, cwd=folder, stdout=subprocess.PIPE, text=True, check=False)
    return reported(done.stdout.splitlines()), done.returncode
