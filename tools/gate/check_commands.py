#!/usr/bin/env python3
"""Tests that what is said of the commands agrees: python3 tools/gate/check_commands.py PROGRAM

PROGRAM is a command, in quotes where it has words of its own. docs/COMMANDS.md, the definitions, the program, the man
page and both files of completion have the same commands, and the completions the words that ./larch has besides; the
man page is the one that tools/make/make_manual.py makes, and nothing is wrong with it as far as `mandoc` is there to
say so. Each status of the page's table, but those of faults and of memory, comes in each command that the table has it
for, with the last line that it says. The completions are tried: in bash, and in zsh where that is installed. Ends with
'N passed, N failed', and status 1 where one failed."""
import os
import pathlib
import pty
import re
import select
import shlex
import shutil
import subprocess
import sys
import tempfile
import time

TOP = pathlib.Path(__file__).resolve().parents[2]
sys.path[:0] = [str(TOP / "tools" / part) for part in ("compare", "make")]
import call_texts  # noqa: E402
import make_manual  # noqa: E402
from tests import Tests  # noqa: E402

BASH, ZSH = TOP / "completion/larch.bash", TOP / "completion/_larch"


def put(name):
    """The line of a session that puts a file, and the file."""
    return b"put %s %d\n" % (name.encode(), len(call_texts.TEXTS[name])) + call_texts.TEXTS[name]


PUT, WRONG = put("One.lsl"), put("Two.lsl")
# The last line of the certificate of Nat in the second version, and a line that it doesn't need.
TOTAL = "total {} traits, 0 errors, {} proved, 0 suspended, 0 refused"
LAST = "induct line=11 var=x:N goal=#3(#1,x:N)==x:N boxes=8,5"
IDLE = call_texts.proof((12, b"12 refl #1\n13 induct 1 x:N #3(#1,x:N)==x:N 4,7"))
# Calls for each status and command: the words, the input, and the last line, of which nothing is said by None.
FILES = {0: [("One.lsl Nat.lsl", None)], 1: [("Two.lsl One.lsl", None)],
         2: [("", "USAGE"), ("a/One.lsl", "USAGE"), ("One.lsl --limit 5", "USAGE")],
         7: [("Big.lsl", "too large"), (" ".join(f"F{number}.lsl" for number in range(257)), "too large")],
         8: [("One.lsl Nope.lsl", "no file Nope.lsl")]}
CALLS = {
    "session": {0: [("", PUT + b"report\n", "end"), ("", b"", None), ("--limit 5", PUT + b"report\n", "end")],
                1: [("", WRONG + b"report\n", "end"), ("", put("Nat.lsl") + b"report\n", "end")],
                2: [("One.lsl", b"", "USAGE"), ("--limit 0", b"", "USAGE")],
                6: [("", b"\nbad\n", "malformed at byte 1")],
                7: [("", b"put One.lsl 1048577\n", "too large")]},
    "replay": {0: [("One.lsl Nat.lsl Nat.lp --limit 900", b"", "end")],
               1: [("Two.lsl One.lsl", b"", "end"), ("Nat.lsl", b"", "end"), ("--limit=1 Nat.lsl Nat.lp", b"", "end"),
                   ("One.lp", b"", "end")],
               2: [("", b"", "USAGE"), ("One.lsl --limit 0", b"", "USAGE"), ("One.lsl --limit 100001", b"", "USAGE"),
                   ("One.lsl --limit 010", b"", "USAGE"), ("One.lsl --seed 1", b"", "USAGE")],
               **{status: [(words, b"", last) for words, last in FILES[status]] for status in (7, 8)}},
    "check": {status: [(words, b"", last) for words, last in calls] for status, calls in FILES.items()},
    "obligations": {status: [(words, b"", last) for words, last in calls] for status, calls in FILES.items()},
    "derive": {0: [("Nat imply.1 Nat.lsl Nat.lp", b"", None), ("--limit 900 Nat imply.1 Nat.lp Nat.lsl", b"", None)],
               1: [("Nat imply.1 Nat.lsl", b"", "none"), ("Nat imply.9 Nat.lsl Nat.lp", b"", "none"),
                   ("Two imply.1 Two.lsl", b"", "none"), ("Nope imply.1 Nat.lsl", b"", "none"),
                   ("--limit=1 Nat imply.1 Nat.lsl Nat.lp", b"", "none")],
               2: [("Nat imply.1", b"", "USAGE"), ("Nat imply.0 Nat.lsl", b"", "USAGE"),
                   ("Nat imply.1 Nat.lsl --seed 1", b"", "USAGE")],
               **{status: [("Nat imply.1 " + words, b"", last) for words, last in FILES[status]] for status in (7, 8)}},
    "verify": {0: [("Nat imply.1 Nat.cert Nat.lsl", b"", "accepted")],
               1: [("Nat imply.1 Place.cert Nat.lsl", b"", "refused 10"),
                   ("Nat imply.9 Nat.cert Nat.lsl", b"", "no duty"), ("Two imply.1 Nat.cert Two.lsl", b"", "no duty")],
               2: [("Nat imply.1 Nat.cert", b"", "USAGE"), ("Nat imply.0 Nat.cert Nat.lsl", b"", "USAGE")],
               6: [("Nat imply.9 Form.cert Nat.lsl", b"", "malformed at line 2")],
               7: [("Nat imply.1 Big.cert Nat.lsl", b"", "too large")],
               8: [("Nat imply.1 Nope.cert Nat.lsl", b"", "no file Nope.cert"),
                   ("Nat imply.1 Nat.cert Nope.lsl", b"", "no file Nope.lsl")]},
    "model": {0: [("Nat Nat.mod Nat.lsl", b"", "end"), ("Nat -- Nat.mod Nat.lsl", b"", "end")],
              1: [("Nat Wrong.mod Nat.lsl", b"", "fails 3"), ("Claim Point.mod One.lsl", b"", "no trait"),
                  ("Two Form.mod Two.lsl", b"", "no trait"), ("Near Near.mod Near.lsl", b"", "end")],
              2: [("Nat Nat.mod", b"", "USAGE"), ("Nat .mod Nat.lsl", b"", "USAGE"),
                  ("Nat a/Nat.mod Nat.lsl", b"", "USAGE")],
              6: [("Nat Form.mod Nat.lsl", b"", "malformed at line 4")],
              7: [("Nat Big.mod Nat.lsl", b"", "too large"), ("Near Sixteen.mod Near.lsl", b"", "too large")],
              8: [("Nat Nope.mod Nat.lsl", b"", "no file Nope.mod"),
                  ("Nat Nat.mod Nope.lsl", b"", "no file Nope.lsl")]},
    "trim": {0: [("Nat imply.1 Nat.cert Nat.lsl", b"", LAST), ("Nat imply.1 Idle.cert Nat.lsl", b"", LAST),
                 ("Nat -- imply.1 Left.cert Nat.lsl", b"", LAST)],
             1: [("Nat imply.1 Place.cert Nat.lsl", b"", "refused 10"),
                 ("Nat imply.2 Nat.cert Nat.lsl", b"", "refused 13"), ("Nat imply.9 Nat.cert Nat.lsl", b"", "no duty")],
             2: [("Nat imply.1 Nat.cert", b"", "USAGE"), ("Nat imply.1 Nat.lsl Nat.lsl", b"", "USAGE")],
             6: [("Nat imply.9 Form.cert Nat.lsl", b"", "malformed at line 2")],
             7: [("Nat imply.1 Big.cert Nat.lsl", b"", "too large")],
             8: [("Nat imply.1 Nope.cert Nat.lsl", b"", "no file Nope.cert"),
                 ("Nat imply.1 Nat.cert Nope.lsl", b"", "no file Nope.lsl")]},
    "migrate": {0: [("Nat.cert", b"", LAST), ("-- Left.cert", b"", LAST), ("Short.cert", b"", "done")],
                2: [("", b"", "USAGE"), ("Nat.lsl", b"", "USAGE"), ("Nat.cert Nat.cert", b"", "USAGE"),
                    ("Nat.cert --limit 5", b"", "USAGE")],
                6: [("Form.cert", b"", "malformed at line 2")], 7: [("Big.cert", b"", "too large")],
                8: [("Nope.cert", b"", "no file Nope.cert")]},
    "complete": {0: [("Rules Rules.lsl", b"", "end"), ("One One.lsl One.lp", b"", "end"),
                     ("Rules Rules.lsl --limit=2", b"", "end")],
                 1: [("Near One.lsl", b"", "no trait"), ("Two Two.lsl", b"", "no trait"),
                     ("Com Com.lsl", b"", "unoriented x + y == y + x"), ("Grown Grown.lsl", b"", "SIZE"),
                     ("Grown Grown.lsl --limit 1", b"", "LIMIT"), ("Spent Spent.lsl", b"", "spent")],
                 2: [("Rules", b"", "USAGE"), ("a-b Rules.lsl", b"", "USAGE"),
                     ("Rules Rules.lsl --limit 0", b"", "USAGE")],
                 **{status: [("One " + words, b"", last) for words, last in FILES[status]] for status in (7, 8)}},
    "generate": {0: [("--seed 1 --size 1", b"", TOTAL.format(1, 2)), ("--size=3 --seed=0", b"", TOTAL.format(3, 6))],
                 2: [("", b"", "USAGE"), ("--seed 1", b"", "USAGE"), ("--size 1", b"", "USAGE"),
                     ("--seed 1 --size 0", b"", "USAGE"), ("--seed 1 --size 129", b"", "USAGE"),
                     ("--seed 2147483648 --size 1", b"", "USAGE"), ("--seed 1 --size 1 x", b"", "USAGE"),
                     ("--seed 1 --size 1 --limit 5", b"", "USAGE")]},
}
# Traits and models beside the texts that calls are compared on.
NEAR = (b"Near: trait\n  introduces\n    c: -> S\n  implies\n    \\forall p, q, r, t, u: S\n"
        b"      p = q == (r = t) /\\ (u = p)\n")
MODELS = {"Nat.mod": b"model\nsort N 2\nop 1 0\nop 2 1 0\nop 3 0 1 1 0\n", "Near.lsl": NEAR,
          "Wrong.mod": b"model\nsort N 2\nop 1 0\nop 2 1 0\nop 3 0 0 1 1\n", "Form.mod": b"model\nsort N 2\nop 1 0\n\n",
          "Near.mod": b"model\nsort S 2\nop 1 0\n", "Sixteen.mod": b"model\nsort S 16\nop 1 0\n",
          "Point.mod": b"model\nop 1 0\n", "Big.mod": b"model\n".ljust(1048577, b" ")}
# Traits whose completions end in each way.
ENDINGS = {
    "Rules.lsl": b"Rules: trait\n  introduces\n    g, f: -> S\n  asserts\n    f == g\n",
    "Com.lsl": b"Com: trait\n  introduces\n    __ + __: N, N -> N\n  asserts \\forall x, y: N\n    x + y == y + x\n",
    "Grown.lsl": b"Grown: trait\n  introduces\n    p: S, S -> S\n    c: -> S\n    f: S -> S\n  asserts\n"
                 b"    f(f(f(f(f(c))))) == c\n"
                 b"    \\forall x: S\n      f(x) == p(p(p(x, x), p(x, x)), p(p(x, x), p(x, x)))\n",
    "Spent.lsl": b"Spent: trait\n  introduces\n    e: -> G\n    __ * __: G, G -> G\n    inv: G -> G\n"
                 b"  asserts \\forall x, y, z: G\n"
                 b"    e * x == x;\n    inv(x) * x == e;\n    (x * y) * z == x * (y * z)\n"}
TRIMMED = {"Idle.cert": IDLE, "Left.cert": b"".join(line + b"\n" for line in (
    b"certificate 2", b"axiom statement=1", b"axiom statement=2", b"axiom statement=3", b"box sorts=- hyps=-",
    b"inst line=3 by=x:N=#1", b"done", b"box sorts=N hyps=#3(#1,@0.1)==@0.1", b"inst line=5 by=x:N=#1;y:N=@1.1",
    b"hyp box=2 number=1", b"repl line=2 at=1 with=1", b"done", LAST.encode()))}
# What the script around the program has besides, and its options.
AROUND = ["help", "explain", "watch"]
OPTIONS = ["--build", "--help", "--install", "--program", "--uninstall", "--unproved", "--version"]
# Words before the cursor, the last of which is begun, and what may stand there.
COMPLETED = [
    ([""], ["check", "complete", "derive", "explain", "generate", "help", "migrate", "model", "obligations", "replay",
            "session", "trim", "verify", "watch"]),
    (["ob"], ["obligations"]), (["Frob"], []), (["--"], OPTIONS), (["--un"], ["--uninstall", "--unproved"]),
    (["--unproved", "verify", "Na"], ["Nat"]), (["--install", ""], ["sub/"]), (["--build", ""], []),
    (["help", "v"], ["verify"]), (["help", "SYN"], ["SYNTAX"]), (["explain", "CY"], ["CYCLE"]),
    (["explain", "On"], ["One.lsl"]), (["watch", "s"], ["sub/"]),
    (["watch", "--"], ["--larch", "--no-hints", "--once"]),
    (["check", "s"], ["sub/"]), (["check", "sub/"], ["sub/Two.lsl"]), (["check", "--"], ["--with-included"]),
    (["verify", "Nat", "imply.1", "sub/"], ["sub/Two.cert"]),
    (["check", "On"], ["One.lp", "One.lsl"]), (["check", "One.lp", "On"], ["One.lsl"]),
    (["--", "obligations", "Na"], ["Nat.lsl"]), (["session", ""], []), (["session", "--"], ["--limit"]),
    (["frobnicate", ""], []),
    (["re"], ["replay"]), (["replay", "Nat.lsl", "On"], ["One.lp", "One.lsl"]), (["replay", "s"], ["sub/"]),
    (["replay", "--"], ["--limit", "--with-included"]),
    (["verify", "Na"], ["Nat"]), (["verify", "Nat", "i"], ["imply.1", "imply.2"]),
    (["verify", "Nat", "c"], ["convert.1"]), (["verify", "One", ""], []),
    (["model", "Na"], ["Nat"]), (["model", "Nat", ""], ["Nat.mod", "sub/"]),
    (["model", "Nat", "Nat.mod", "Na"], ["Nat.lsl"]), (["help", "mo"], ["model"]),
    (["trim", "Na"], ["Nat"]), (["trim", "Nat", "i"], ["imply.1", "imply.2"]),
    (["trim", "Nat", "imply.1", "sub/"], ["sub/Two.cert"]), (["trim", "Nat", "imply.1", "Nat.cert", "Na"], ["Nat.lsl"]),
    (["derive", "Na"], ["Nat"]), (["derive", "Nat", "i"], ["imply.1", "imply.2"]),
    (["derive", "Nat", "imply.1", "Nat.lsl", "On"], ["One.lp", "One.lsl"]),
    (["derive", "Nat", "imply.1", "Nat.lsl", "--"], ["--limit", "--with-included"]),
    (["migrate", "F"], ["Form.cert"]), (["migrate", "sub/"], ["sub/Two.cert"]), (["complete", "Na"], ["Nat"]),
    (["complete", "Nat", "Na"], ["Nat.lsl"]), (["complete", "Nat", "--"], ["--limit", "--with-included"]),
    (["generate", ""], []), (["generate", "--"], ["--seed", "--size"]), (["help", "ge"], ["generate"]),
    (["verify", "Nat", "imply.1", "F"], ["Form.cert"]), (["check", "a"], []),
    (["verify", "Nat", "imply.1", "Nat.cert", "Na"], ["Nat.lsl"])]
WITHOUT = (["verify", "Nat", ""], ["assume.1", "convert.1", "imply.1"])

# A shell that writes what may stand behind words, and says when it has written all.
CAPTURE = r"""
fpath=({folder} $fpath)
autoload -Uz compinit && compinit -u -D
zstyle ':completion:*' list-prompt ''
compadd() {{
    [[ " $* " == *' -'[OAD]' '* ]] && {{ builtin compadd "$@"; return }}
    local -a hits
    builtin compadd -A hits "$@"
    (( $#hits )) && print -rl -- $hits >> $SHOWN
    builtin compadd "$@"
}}
said() {{ print -r -- . >> $SHOWN; BUFFER= }}
zle -N said
bindkey '^I' list-choices '^T' said
print -r -- . >> $SHOWN
"""


def run(program, words, given, folder):
    """The output and the status of a call."""
    done = subprocess.run([*program, *words], input=given, cwd=folder, stdout=subprocess.PIPE, check=False)
    return done.stdout.decode("latin-1"), done.returncode


# The same commands everywhere --------------------------------------------------------------------

def agreement(tests, program, folder):
    """What has commands has the same, and usage lines and the man page are the same."""
    documented = [words.split()[0] for words, _ in make_manual.commands()]
    definitions = (TOP / "crates/larch_words/specs/Call.antt").read_text()
    defined = re.findall(r'bytes_eq command \(codes "(\w+)"\)', definitions)
    tests.see("commands in the definitions", sorted(set(defined)), sorted(documented))
    tests.see("commands of the man page", re.findall(r"^\.TP\n\\fB(\w+)", made("COMMANDS"), re.M), documented)
    known = documented + AROUND
    tests.see("commands in completion/_larch", re.findall(r"^ +['\"](\w+):", ZSH.read_text(), re.M), known)
    tests.see("commands in completion/larch.bash", by_bash(folder, [""]), sorted(known))
    script = (TOP / "larch").read_text()
    branches = {word for line in re.findall(r"^ +([\w| -]+)\)", script, re.M) for word in line.split(" | ")}
    around = {word for word in branches if word in AROUND or word.startswith("--")}
    tests.see("words of ./larch", sorted(around), sorted([*AROUND, *OPTIONS]))
    tests.see("commands that are tried here", list(CALLS), documented)
    tests.see("the usage line", run(program, [], b"", folder), (make_manual.usage() + "\n", 2))
    same = make_manual.MADE.read_text() == make_manual.manual()
    tests.see("manual/larch.1 is what tools/make/make_manual.py makes", same, True)
    if shutil.which("mandoc"):
        lint = ["mandoc", "-Tlint", "-W", "warning", make_manual.MADE]
        found = subprocess.run(lint, capture_output=True, check=False)
        tests.see("mandoc on manual/larch.1", (found.stdout.decode(), found.returncode), ("", 0))
    else:
        print("mandoc is not installed: nothing was asked of it")


def made(heading):
    """The section of the man page with this heading."""
    return re.search(rf"^\.SH {heading}\n(.*?)(?=^\.S[HS] )", make_manual.MADE.read_text(), re.M | re.S)[1]


# The table of statuses ---------------------------------------------------------------------------

def statuses():
    """The page's table: for each status the commands that it comes in, and what is written last."""
    titles, *rows = re.search(r"^\| Status \|.*\n((?:\|.*\n)+)", make_manual.PAGE.read_text(), re.M)[0].splitlines()
    commands = [re.findall(r"`(\w+)`", title) for title in make_manual.cells(titles)[1:-1]]
    for status, *cells, last in map(make_manual.cells, rows[1:]):
        ends = [command for cell, names in zip(cells, commands) if cell or status == "2" for command in names]
        yield int(status), ends, last


def answers(tests, program, folder):
    """Each status of the table by each command that has it, and of no other."""
    for status, commands, last in statuses():
        if status in (3, 4, 5):
            continue
        tried = [command for command, calls in CALLS.items() if status in calls]
        tests.see(f"commands with status {status}", tried, [name for name in CALLS if name in commands])
        for command in tried:
            for words, given, line in CALLS[command][status]:
                output, found = run(program, [command, *words.split()], given, folder)
                title = f"larch {command} {words[:60]}"
                tests.see(title, found, status)
                line = make_manual.usage() if line == "USAGE" else line
                tests.see(f"{title}: the last line", (output.splitlines() or [None])[-1] if line else line, line)
                if line and status in (2, 6, 7, 8):
                    tests.see(f"{title}: the page has the line", is_told(line, last), True)


def is_told(line, cell):
    """Whether a line is one that a cell of the table shows, with something for N and NAME."""
    patterns = [re.sub("N(AME)?$", "\0", shown) for shown in re.findall(r"`([^`]*)`", cell)]
    return any(re.fullmatch(re.escape(pattern).replace("\0", r"\S+"), line) for pattern in patterns)


# The completions ---------------------------------------------------------------------------------

def by_bash(folder, words, path=None):
    """What bash completes the last of these words to."""
    script = ('source "$1"; COMP_WORDS=(larch "${@:2}"); COMP_CWORD=$(($# - 1)); function=$(complete -p larch); '
              'function=${function#*-F }; ${function% larch}; printf "%s\\n" "${COMPREPLY[@]}"')
    done = subprocess.run(["bash", "--norc", "-c", script, "bash", BASH, *words], cwd=folder, capture_output=True,
                          env={**os.environ, "PATH": path or os.environ["PATH"]}, timeout=600, check=False)
    return sorted(line for line in done.stdout.decode().splitlines() if line)


class Zsh:
    """A shell on a terminal, in a folder, that is asked what completes words."""

    def __init__(self, folder, path):
        self.shown = folder / ".shown"
        self.shown.write_text("")
        (folder / ".capture").write_text(CAPTURE.format(folder=shlex.quote(str(TOP / "completion"))))
        self.process, self.terminal = pty.fork()
        if self.process == 0:
            os.chdir(folder)
            os.execvpe("zsh", ["zsh", "-f", "-i"],
                       {**os.environ, "PATH": path, "SHOWN": str(self.shown), "TERM": "dumb", "HOME": str(folder)})
        self.ready = self.written("source .capture\n") is not None

    def written(self, keys):
        """What was written after these keys; None where the shell doesn't answer."""
        self.shown.write_text("")
        end = time.monotonic() + 60
        os.write(self.terminal, keys.encode())
        while time.monotonic() < end:
            self.read()
            lines = self.shown.read_text().splitlines()
            if lines[-1:] == ["."]:
                return sorted(set(lines[:-1]))
            time.sleep(0.02)
        return None

    def read(self):
        """Takes what stands on the terminal, so that the shell can go on."""
        try:
            while select.select([self.terminal], [], [], 0)[0]:
                os.read(self.terminal, 100000)
        except OSError:  # the shell has ended
            pass

    def asked(self, words):
        return self.written(" ".join(["larch", *words]) + "\t\x14")

    def end(self):
        os.close(self.terminal)
        os.waitpid(self.process, 0)


def completions(tests, program, folder):
    """What each shell completes, with the program on the path and without it."""
    with tempfile.TemporaryDirectory() as place:
        larch = pathlib.Path(place, "larch")
        explain = shlex.join([sys.executable, str(TOP / "tools/explain")])
        larch.write_text(f'#!/bin/sh\n[ "$1" = explain ] && exec {explain}\nexec {shlex.join(program)} "$@"\n')
        larch.chmod(0o755)
        path, bare = f"{place}:{os.environ['PATH']}", without_larch()
        for words, wanted in COMPLETED:
            tests.see(f"bash completes larch {' '.join(words)}", by_bash(folder, words, path), wanted)
        tests.see("bash completes a label without the program", by_bash(folder, WITHOUT[0], bare), WITHOUT[1])
        if not shutil.which("zsh"):
            print("zsh is not installed: nothing was completed by it")
            return
        for here, asked in ((path, COMPLETED), (bare, [WITHOUT])):
            shell = Zsh(folder, here)
            tests.see("zsh takes completion/_larch", shell.ready, True)
            for words, wanted in asked if shell.ready else ():
                tests.see(f"zsh completes larch {' '.join(words)}", shell.asked(words), wanted)
            shell.end()


def without_larch():
    """The path without the folders that have a program of this name."""
    return ":".join(folder for folder in os.environ["PATH"].split(":") if not os.path.exists(f"{folder}/larch"))


def main():
    if len(sys.argv) != 2:
        sys.exit(__doc__)
    program = shlex.split(sys.argv[1])
    program[0] = str(pathlib.Path(shutil.which(program[0]) or program[0]).resolve())
    tests = Tests()
    with tempfile.TemporaryDirectory() as place:
        folder = pathlib.Path(place)
        for name, text in {**call_texts.fixed_folder(), **MODELS, **ENDINGS, **TRIMMED}.items():
            (folder / name).write_bytes(text)
        (folder / "a-b.lsl").write_text("")
        agreement(tests, program, folder)
        answers(tests, program, folder)
    with tempfile.TemporaryDirectory() as place:
        folder = pathlib.Path(place)
        for name in ("One.lsl", "One.lp", "Nat.lsl", "Nat.cert", "Form.cert", "Nat.mod"):
            (folder / name).write_bytes({**call_texts.TEXTS, **call_texts.CERTIFICATES, **MODELS}[name])
        (folder / "sub").mkdir()
        for name in ("a-b.lsl", "sub/Two.lsl", "sub/Two.cert"):
            (folder / name).write_text("")
        completions(tests, program, folder)
    return tests.end()


if __name__ == "__main__":
    sys.exit(main())
