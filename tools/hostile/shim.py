"""Runs a program so that each of its calls of a kind fails once: what fail.c beside this file does, for Python."""
import collections
import os
import pathlib
import shutil
import struct
import subprocess
import tempfile

HERE = pathlib.Path(__file__).resolve().parent
RECORD = struct.Struct("<c3xiQQQQ64s")
# What became of a copy of the program: its kind, which call failed, how it ended, what had been read and written.
Record = collections.namedtuple("Record", "kind number status given length common rest")
# What became of the program itself, its calls by kind, and the records of its copies.
Run = collections.namedtuple("Run", "status length common counts records")
KINDS = {"r": "reads of the input", "e": "ends of the input", "i": "interrupted reads", "f": "reads of files",
         "o": "openings of files", "w": "writes", "j": "interrupted writes", "a": "allocations",
         "z": "allocations with all behind them"}


def compiler():
    """A C compiler; None where there is none."""
    return next((found for name in ("cc", "gcc", "clang") if (found := shutil.which(name))), None)


class Shim:
    """The compiled fail.c, in a folder of its own that goes with it."""

    def __init__(self):
        self.room = tempfile.TemporaryDirectory(prefix="larch-fail-")
        self.folder = pathlib.Path(self.room.name)
        self.library = self.folder / "fail.so"
        subprocess.run([compiler(), "-O2", "-shared", "-fPIC", "-o", self.library, HERE / "fail.c", "-ldl"], check=True)

    def run(self, program, words, folder, source=b"", expected=b"", kinds="", **settings):
        """Runs a program with words in a folder on an input; settings are those of fail.c, in small letters."""
        paths = {name: self.folder / name for name in ("input", "expected", "records", "errors")}
        paths["input"].write_bytes(source)
        paths["expected"].write_bytes(expected)
        paths["records"].unlink(missing_ok=True)
        surroundings = {**os.environ, "LD_PRELOAD": str(self.library), "LARCH_FAIL_KINDS": kinds,
                        "LARCH_FAIL_RECORDS": str(paths["records"]), "LARCH_FAIL_EXPECTED": str(paths["expected"]),
                        "ASAN_OPTIONS": "allocator_may_return_null=1:detect_leaks=0",
                        **{f"LARCH_FAIL_{name.upper()}": str(value) for name, value in settings.items()}}
        with paths["input"].open("rb") as given, paths["errors"].open("wb") as errors:
            done = subprocess.run([program, *words], cwd=folder, stdin=given, stdout=subprocess.DEVNULL, stderr=errors,
                                  env=surroundings, check=False)
        return self.told(done.returncode, paths["records"])

    def told(self, status, path):
        """What the records of a run say; without its own last one the run itself was cut off."""
        records = [Record(kind.decode(), number, how, given, length, common, rest[:max(0, min(64, length - common))])
                   for kind, how, number, given, length, common, rest in RECORD.iter_unpack(path.read_bytes())]
        own = [record for record in records if record.kind == "."]
        if not own:
            return Run(status, None, None, {}, records)
        counts = {chr(record.status): record.number for record in records if record.kind == "#"}
        copies = [record for record in records if record.kind not in ".#"]
        return Run(status, own[0].length, own[0].common, counts, copies)


def ended(record):
    """The status that a copy ended with; a negative number where a signal ended it."""
    return os.waitstatus_to_exitcode(record.status)
