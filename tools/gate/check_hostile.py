#!/usr/bin/env python3
"""Tests calls over what a stranger may hand over: python3 tools/gate/check_hostile.py PROGRAM [PART..]

PART is folders, streams, cuts, certificates or failures; without one all are looked at.

folders       under a file's name lies what can't be read, a folder, a link of each kind, a pipe, a socket, a device, or
              a file that grows while it is read: each call has the defined answer, and none waits but for a pipe that
              nobody writes to, which ./larch doesn't let it do
streams       the standard input and output are closed, full, folders, or never end
cuts          sessions that are cut off at each byte
certificates  certificates of which one line is another
failures      each kind of failure that tools/hostile/fail_each.py tries, a few of each

Ends with 'N passed, N failed', and with status 1 where one failed."""
import contextlib
import os
import pathlib
import shutil
import socket
import subprocess
import sys
import tempfile
import threading

TOP = pathlib.Path(__file__).resolve().parents[2]
sys.path[:0] = [str(TOP / "tools/hostile"), str(TOP / "tools/compare")]
import call_texts  # noqa: E402
import calls  # noqa: E402
import fail_each  # noqa: E402
import replies  # noqa: E402
import shim  # noqa: E402
from tests import Tests  # noqa: E402

SECONDS = 120
# A user without rights, as whom calls are made where this one has all of them.
NOBODY = 65534
# Where that user may go too.
PLACE = "/tmp" if os.geteuid() == 0 else None
# Calls in which the thing that is tried has the name of a trait, a script, a certificate or a model.
WORDS = ["check One.lsl Bad.lsl", "obligations Bad.lsl One.lsl", "replay One.lsl Bad.lp", "replay Bad.lsl",
         "verify One imply.1 Bad.cert One.lsl", "trim One imply.1 Bad.cert One.lsl", "model One Bad.mod One.lsl"]
FURTHER = {"complete": "complete One One.lsl Bad.lsl", "migrate": "migrate Bad.cert",
           "derive": "derive One imply.1 One.lsl Bad.lp"}
ENDINGS = ("lsl", "lp", "cert", "mod")


def made_unreadable(path):
    path.write_bytes(calls.ONE)
    path.chmod(0)


def made_hidden(path):
    """A link to a file in a folder that may not be gone into."""
    hidden = path.parent / "hidden"
    if not hidden.exists():
        hidden.mkdir()
        (hidden / "file").write_bytes(calls.ONE)
        hidden.chmod(0)
    path.symlink_to(hidden / "file")


def made_socket(path):
    with socket.socket(socket.AF_UNIX) as made:
        made.bind(str(path))


# What lies there, and what comes of a call: its status and what it writes, NAME being the file's name.
NOTHING = (3, b"")
THINGS = {
    "a file without the right to read": (made_unreadable, NOTHING),
    "a link into a folder without the right": (made_hidden, NOTHING),
    "a folder": (pathlib.Path.mkdir, NOTHING),
    "a link to a folder": (lambda path: path.symlink_to("."), NOTHING),
    "a link to nothing": (lambda path: path.symlink_to("nothing"), (8, b"no file NAME\n")),
    "a link to itself": (lambda path: path.symlink_to(path.name), NOTHING),
    "a link through a file": (lambda path: path.symlink_to("One.lsl/file"), (8, b"no file NAME\n")),
    "a socket": (made_socket, NOTHING),
    "a link to zeros without end": (lambda path: path.symlink_to("/dev/zero"), (7, b"too large\n")),
    "a link to memory": (lambda path: path.symlink_to("/proc/self/mem"), NOTHING),
}


@contextlib.contextmanager
def stranger_folder():
    """A folder with one right trait, into which each user may go."""
    with tempfile.TemporaryDirectory(prefix="larch-hostile-", dir=PLACE) as name:
        folder = pathlib.Path(name)
        folder.chmod(0o755)
        (folder / "One.lsl").write_bytes(calls.ONE)
        yield folder
        for path in folder.iterdir():
            if path.is_dir() and not path.is_symlink():
                path.chmod(0o700)


def call(program, folder, words, **streams):
    """What a call writes and its status, as a user for whom rights count; 'it waits' where it doesn't end."""
    user = {"user": NOBODY, "group": NOBODY, "extra_groups": []} if os.geteuid() == 0 else {}
    streams = {"stdin": subprocess.DEVNULL, "stdout": subprocess.PIPE, **streams}
    try:
        done = subprocess.run([program, *words], cwd=folder, stderr=subprocess.DEVNULL, timeout=SECONDS, check=False,
                              **user, **streams)
    except subprocess.TimeoutExpired:
        return "it waits"
    return done.returncode, done.stdout


def reachable(program, room):
    """The program, where each user can run it."""
    copied = pathlib.Path(room) / "larch"
    shutil.copyfile(program, copied)
    copied.chmod(0o755)
    pathlib.Path(room).chmod(0o755)
    return str(copied)


def see_things(tests, program):
    words = WORDS + [line for command, line in FURTHER.items() if calls.has(program, command)]
    for title, (make, (status, written)) in THINGS.items():
        with stranger_folder() as folder:
            for ending in ENDINGS:
                make(folder / f"Bad.{ending}")
            for line in words:
                name = next(word for word in line.split() if word.startswith("Bad."))
                wanted = status, written.replace(b"NAME", name.encode())
                tests.see(f"{title}: {line}", call(program, folder, line.split()), wanted)


def see_links(tests, program):
    """Links to files are followed; to nothing but what is named is looked, and nothing is changed."""
    with stranger_folder() as folder:
        (folder / "Link.lsl").symlink_to("One.lsl")
        (folder / "Null.lsl").symlink_to("/dev/null")
        (folder / "Two.lsl").write_bytes(b"Two: trait\n  includes One\n")
        before = {path.name: path.lstat() for path in folder.iterdir()}
        tests.see("a link to a trait", call(program, folder, ["check", "Link.lsl"])[1].split(b"\n")[0],
                  b"trait Link error 1:1 TRAIT-NAME")
        tests.see("a link to no bytes", call(program, folder, ["check", "Null.lsl"])[1].split(b"\n")[0],
                  b"trait Null error 1:1 SYNTAX")
        tests.see("a trait that lies there and isn't named",
                  call(program, folder, ["check", "Two.lsl"])[1].split(b"\n")[0], b"trait Two error 2:12 UNKNOWN-TRAIT")
        after = {path.name: path.lstat() for path in folder.iterdir()}
        tests.see("what lies there", {name: (one.st_mode, one.st_size, one.st_mtime_ns) for name, one in after.items()},
                  {name: (one.st_mode, one.st_size, one.st_mtime_ns) for name, one in before.items()})


def feed(path, texts):
    """Writes to a pipe as long as somebody reads."""
    with contextlib.suppress(BrokenPipeError), path.open("wb", buffering=0) as pipe:
        for text in texts:
            pipe.write(text)


def grow(path, is_over):
    """Makes a file longer until it is over or has four times the bytes that a file may have."""
    with path.open("ab", buffering=0) as file:
        while not is_over.is_set() and path.stat().st_size < 4 << 20:
            file.write(b"% more\n" * 50)


def see_pipes(tests, program):
    """Pipes are read to the end, and no further than a file may go; so is a file that grows."""
    endless = (b"%" * 4096 for _ in range(10**6))
    for title, texts, wanted in (
            ("a pipe", [calls.ONE.replace(b"One", b"Bad")], b"trait Bad"),
            ("a pipe in pieces", [b"Bad: tr", b"ait\n"], b"trait Bad"),
            ("a pipe without a byte", [], b"trait Bad error 1:1 SYNTAX"),
            ("a pipe without an end", endless, b"too large")):
        with stranger_folder() as folder:
            os.mkfifo(folder / "Bad.lsl")
            (folder / "Bad.lsl").chmod(0o644)
            writer = threading.Thread(target=feed, args=(folder / "Bad.lsl", texts), daemon=True)
            writer.start()
            tests.see(title, call(program, folder, ["check", "Bad.lsl"])[1].split(b"\n")[0], wanted)
            writer.join(SECONDS)
    with stranger_folder() as folder:
        is_over, path = threading.Event(), folder / "Bad.lsl"
        path.write_bytes(b"Bad: trait\n")
        writer = threading.Thread(target=grow, args=(path, is_over), daemon=True)
        writer.start()
        for _ in range(20):
            line = call(program, folder, ["check", "Bad.lsl"])[1].split(b"\n")[0]
            tests.look(line in (b"trait Bad", b"too large") or line.startswith(b"trait Bad error "),
                       f"a file that grows: {line!r}")
        is_over.set()
        writer.join()


def see_waiting(tests, program):
    """A pipe that nobody writes to: ./larch says so, and doesn't wait."""
    for ending, words in (("lsl", "check One.lsl Bad.lsl"), ("lp", "replay One.lsl Bad.lp"),
                          ("cert", "verify One imply.1 Bad.cert One.lsl"), ("mod", "model One Bad.mod One.lsl")):
        with stranger_folder() as folder:
            os.mkfifo(folder / f"Bad.{ending}")
            done = subprocess.run([TOP / "larch", *words.split()], cwd=folder, capture_output=True, timeout=SECONDS,
                                  env={**os.environ, "LARCH_PROGRAM": program}, check=False)
            tests.see(f"a pipe that nobody writes to: {words}", (done.returncode, done.stdout, done.stderr),
                      (3, b"", b"larch: Bad.%s is a pipe or a device, and no file\n" % ending.encode()))


def see_folders(tests, program):
    with tempfile.TemporaryDirectory(dir=PLACE) as room:
        reached = reachable(program, room)
        see_things(tests, reached)
        see_links(tests, reached)
        see_pipes(tests, reached)
    see_waiting(tests, program)


def see_streams(tests, program):
    """Standard streams that fail at once, and an input without an end."""
    with stranger_folder() as folder, open("/dev/full", "wb") as full, open("/dev/zero", "rb") as zeros:
        place = os.open(folder, os.O_RDONLY)
        gone, into = os.pipe()
        os.close(gone)
        (folder / "input").write_bytes(b"report\n")
        report = (folder / "input").open("rb")
        for title, words, streams, wanted in (
                ("an input that is a folder", ["session"], {"stdin": place}, (3, b"")),
                ("an input without lines or end", ["session"], {"stdin": zeros}, (6, b"malformed at byte 0\n")),
                ("an output without room", ["check", "One.lsl"], {"stdout": full}, (4, None)),
                ("an output that nobody reads", ["obligations", "One.lsl"], {"stdout": into}, (4, None)),
                ("an output without room for a report", ["session"], {"stdin": report, "stdout": full}, (4, None)),
                ("an output without room for the usage", ["frobnicate"], {"stdout": full}, (4, None))):
            tests.see(title, call(program, folder, words, **streams), wanted)
        report.close()
        os.close(place)
        os.close(into)
    for title, words, closed, wanted in (("a closed input", "session", "<&-", 3),
                                         ("a closed output", "nothing", ">&-", 4)):
        done = subprocess.run(["bash", "-c", f'"$0" {words} {closed}', program], stdin=subprocess.DEVNULL,
                              capture_output=True, timeout=SECONDS, check=False)
        tests.see(title, done.returncode, wanted)


# What the first bytes of a session of one trait come to, by the number of bytes: the byte of which it is told that the
# line there is malformed; nothing where all is well.
CUT = {**dict.fromkeys(range(1, 51), 0), **dict.fromkeys(range(52, 57), 51), **dict.fromkeys(range(59, 62), 58)}


def see_cuts(tests, program):
    texts = calls.sessions(calls.derives(program))
    for title in ("of one trait", "cut short", "with edits"):
        source = texts[title]
        judge = replies.Replies(program, source)
        for given in range(len(source) + 1):
            length, more, status = judge.at_cut(given)
            tests.see(f"session {title}, {given} bytes", calls.answer(program, ["session"], {}, source[:given]),
                      (judge.expected[:length] + more, status))
            if title == "of one trait":
                wanted = b"malformed at byte %d\n" % CUT[given] if given in CUT else b""
                tests.see(f"the first {given} bytes", (more, len(source)), (wanted, 63))


# Lines of the certificate by their numbers, what they are changed to, and what is said of it then; in each version.
CHANGES = [
    (2, b"2 axiom 9", b"axiom statement=9", b"refused 2"),
    (5, b"5 inst 2 x:N=#2", b"inst line=3 by=x:N=#2", b"refused 5"),
    (8, b"8 inst 3 x:N=#1;x:N=@7.1", b"inst line=5 by=x:N=#1;x:N=@1.1", b"refused 8"),
    (8, b"8 inst 13 x:N=#1", b"inst line=+5 by=x:N=#1", b"refused 8"),
    (9, b"9 hyp 7 2", b"hyp box=2 number=2", b"refused 9"),
    (9, b"9 hyp 4 1", b"hyp box=5 number=1", b"refused 9"),
    (10, b"10 repl 8 1.1 9", b"repl line=2 at=1.1 with=1", b"refused 10"),
    (11, b"11 refl #1", b"refl term=#1", b"refused 12"),
    (4, b"4 box N>Bool | -", b"box sorts=N>Bool hyps=-", b"refused 12"),
    (12, b"12 induct 1 x:N #3(#1,x:N)==x:N 7,4", b"induct line=11 var=x:N goal=#3(#1,x:N)==x:N boxes=5,8",
     b"refused 12"),
    (12, b"", b"", b"refused 12"),
    (12, b"12 refl #1", b"refl term=#1", b"refused 13"),
    (12, b"12 box - | -\n13 refl #1", b"box sorts=- hyps=-\nrefl term=#1", b"refused 14"),
    (0, b"certificate 7", b"certificate 7", b"malformed at line 1"),
    (1, b"1 axiom one", b"axiom statement=one", b"malformed at line 2"),
    (3, b"4 axiom 3", b"axiom  statement=3", b"malformed at line 4"),
    (9, b"9 hyp 7 1 ", b"hyp box=10 number=1", b"malformed at line 10"),
]
ADDED = [(b"13 hyp 7 1\n", b"hyp box=6 number=1\n", b"refused 13"),
         (b"13 box - | -\n", b"box sorts=- hyps=-\n", b"refused 14"),
         (b"13 refl #1", b"refl term=#1", b"malformed at line 14"), (b"\n", b"\n", b"malformed at line 14")]


def changed(text, number, line):
    lines = text.split(b"\n")
    lines[number:number + 1] = [line] if line else []
    return b"\n".join(lines)


def see_certificates(tests, program):
    """No certificate is accepted of which a line is another; the first line is told that is wrong."""
    whole = call_texts.proof(), calls.SECOND
    tries = [(whole[i], b"accepted") for i in (0, 1)] + [(b"", b"malformed at line 1")]
    tries += [(changed(whole[i], row[0], row[1 + i]), row[3]) for row in CHANGES for i in (0, 1)]
    tries += [(whole[i] + row[i], row[2]) for row in ADDED for i in (0, 1)]
    for text, wanted in tries:
        files = {"Nat.lsl": calls.NAT, "A.cert": text}
        status = {b"a": 0, b"r": 1, b"m": 6}[wanted[:1]]
        for command in ("verify", "trim"):
            written, ended = calls.answer(program, [command, "Nat", "imply.1", "A.cert", "Nat.lsl"], files)
            if command == "trim" and status == 0:
                tests.see("trim of the whole", (written, ended), (calls.SECOND, 0))
            else:
                tests.see(f"{command} of {text[-200:]!r}", (written, ended), (wanted + b"\n", status))


def see_failures(tests, program):
    if not shim.compiler():
        print("left out: there is no C compiler, so no failures are made")
        return
    tests.see("failures", fail_each.main([program, "--most", "12", "--quiet"]), 0)


PARTS = {"folders": see_folders, "streams": see_streams, "cuts": see_cuts, "certificates": see_certificates,
         "failures": see_failures}


def main():
    program, tests = str(pathlib.Path(sys.argv[1]).resolve()), Tests()
    for part in sys.argv[2:] or PARTS:
        PARTS[part](tests, program)
    return tests.end("hostile")


if __name__ == "__main__":
    sys.exit(main())
