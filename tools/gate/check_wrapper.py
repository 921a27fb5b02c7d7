#!/usr/bin/env python3
"""Tests ./larch as people type it: python3 tools/gate/check_wrapper.py PROGRAM

PROGRAM is run by it in the place of the checkout's, so nothing is built. Whatever is asked of the program itself, its
output and its status are those that PROGRAM gives for the call that it comes to; what is said besides is looked at
where it is said, on standard error. The rest is tried with a copy of the script beside small stand-ins: that a program
older than a source is built, and that calls one after another search once; and an installation is made, used and taken
away in a scratch folder. Ends with 'N passed, N failed', and status 1 where one failed."""
import os
import pathlib
import pty
import re
import shutil
import subprocess
import sys
import tempfile
import time

from tests import Tests

TOP = pathlib.Path(__file__).resolve().parents[2]
USAGE = "usage: larch COMMAND [WORD..] [--limit N] [--seed N] [--size N]\n"
TRAITS = {"One.lsl": "One: trait\n  includes Two\n", "Two.lsl": "Two: trait\n  introduces\n    c: -> S\n",
          "Wrong.lsl": "Wrong: trait\n  introduces\n    c -> S\n", "Two.lp": "duty imply.1\n"}
MANY = [f"F{number}.lsl" for number in range(257)]
# The commands, and what stands around the program.
HELPED = ("session", "replay", "check", "obligations", "derive", "verify", "model", "trim", "migrate", "complete",
          "generate", "explain", "watch")
CERTIFIED = ("Natural.lsl", "Natural.imply.1.cert")
# A call's words in a folder `a` with the traits and a folder `b`; the program's words and their folder; what is said.
CALLS = [
    ("check a/Two.lsl", "check Two.lsl", "a", ""),
    ("check ./a/Two.lsl a/Wrong.lsl", "check Two.lsl Wrong.lsl", "a", ""),
    ("-- check a/Two.lsl", "check Two.lsl", "a", ""),
    ("-- chekc Two.lsl", "-- chekc Two.lsl", "a", "`chekc`: did you mean `check`?"),
    ("check -- a/Two.lsl", "check Two.lsl", "a", ""),
    ("obligations a/Two.lsl", "obligations Two.lsl", "a", ""),
    ("check --with-included a/One.lsl", "check One.lsl Two.lsl", "a", ""),
    ("obligations a/One.lsl --with-included", "obligations One.lsl Two.lsl", "a", ""),
    ("check a/One.lsl", "check One.lsl", "a", ""),
    ("replay a/Two.lsl a/Two.lp --limit 5", "replay Two.lsl Two.lp --limit 5", "a", ""),
    ("replay --limit=5 a/Two.lsl", "replay Two.lsl --limit=5", "a", ""),
    ("replay --with-included a/One.lsl", "replay One.lsl Two.lsl Two.lp", "a", ""),
    ("replay --limit 0 a/Two.lsl", "replay --limit 0 Two.lsl", "a", "behind --limit stands a number from 1 to 100,000"),
    ("replay --limit 2 --limit 3 a/Two.lsl", "replay --limit 2 --limit 3 Two.lsl", "a",
     "--limit stands more than once"),
    ("session --limit", "session --limit", ".", "behind --limit stands a number"),
    ("session a/Two.lsl", "session a/Two.lsl", ".", "`session` takes no words but --limit N"),
    ("check a/Two.lsl b/Four.lsl", "check a/Two.lsl b/Four.lsl", ".", "lie in one folder, and these in a and b"),
    ("check c/Two.lsl", "check c/Two.lsl", ".", "there is no folder c"),
    ("verify Natural imply.1 a/Natural.imply.1.cert a/Natural.lsl",
     "verify Natural imply.1 Natural.imply.1.cert Natural.lsl", "a", ""),
    ("verify Natural imply.1 b/Natural.imply.1.cert a/Natural.lsl",
     "verify Natural imply.1 ../b/Natural.imply.1.cert Natural.lsl", "a", ""),
    ("trim Natural imply.1 b/Natural.imply.1.cert a/Natural.lsl",
     "trim Natural imply.1 ../b/Natural.imply.1.cert Natural.lsl", "a", ""),
    ("trim Natural imply.1 a/Form.cert a/Natural.lsl", "trim Natural imply.1 Form.cert Natural.lsl", "a",
     "that is a line of the certificate Form.cert; "),
    ("trim Natural imply.1 a/Form.cert", "trim Natural imply.1 Form.cert", ".",
     "too few words: larch trim TRAIT LABEL CERT FILE.."),
    ("model Two a/Two.mod a/Two.lsl", "model Two Two.mod Two.lsl", "a", ""),
    ("model Two b/Two.mod a/Two.lsl", "model Two b/Two.mod a/Two.lsl", ".", "lie in one folder, and these in b and a"),
    ("model Two a/Two.lsl a/Two.lsl", "model Two Two.lsl Two.lsl", "a", "`Two.lsl` is no model: 1 to 64 letters"),
    ("model Two a/Form.mod a/Two.lsl", "model Two Form.mod Two.lsl", "a",
     "that is a line of the model Form.mod; "),
    ("model Two a/Two.mod", "model Two Two.mod", "a", "too few words: larch model TRAIT MODEL FILE.."),
    ("derive Two imply.1 a/Two.lsl a/Two.lp --limit 5", "derive Two imply.1 Two.lsl Two.lp --limit 5", "a", ""),
    ("derive --with-included Two imply.1 a/One.lsl", "derive Two imply.1 One.lsl Two.lsl Two.lp", "a", ""),
    ("derive Two imply a/Two.lsl", "derive Two imply Two.lsl", "a", "`imply` is no label: assume.N"),
    ("derive Two a/Two.lsl", "derive Two a/Two.lsl", ".", "too few words: larch derive TRAIT LABEL FILE.."),
    ("migrate a/Natural.imply.1.cert", "migrate Natural.imply.1.cert", "a", ""),
    ("migrate a/Form.cert", "migrate Form.cert", "a", "that is a line of the certificate a/Form.cert; "),
    ("migrate a/Nope.cert", "migrate a/Nope.cert", ".", "there is no Nope.cert in "),
    ("migrate a/Two.lsl", "migrate Two.lsl", "a", "`a/Two.lsl` is no certificate: its name ends in `.cert`"),
    ("migrate a/Form.cert a/Two.lsl", "migrate Form.cert Two.lsl", "a", "`migrate` takes a certificate and nothing"),
    ("complete Two a/Two.lsl", "complete Two Two.lsl", "a", ""),
    ("complete --limit 9 --with-included One a/One.lsl", "complete One One.lsl Two.lsl --limit 9", "a", ""),
    ("complete a/Two.lsl", "complete a/Two.lsl", ".", "too few words: larch complete TRAIT FILE.."),
    ("generate --seed 1 --size=1", "generate --seed 1 --size=1", ".", ""),
    ("generate --seed 1", "generate --seed 1", ".", "`generate` needs --seed N and --size N"),
    ("generate --seed 1 --size 129", "generate --seed 1 --size 129", ".", "behind --size stands a number from 1 to"),
    ("generate --size 1 --seed 1 x", "generate --size 1 --seed 1 x", ".", "`generate` takes no words but --seed N"),
    ("check --seed=3 a/Two.lsl", "check --seed=3 Two.lsl", "a", "only `generate` takes --seed"),
    ("migrat", "migrat", "a", "`migrat`: did you mean `migrate`?"),
    ("chekc One.lsl", "chekc One.lsl", "a", "`chekc`: did you mean `check`?"),
    ("frobnicate", "frobnicate", "a", "`frobnicate` is no command"),
    ("show Two.lsl", "show Two.lsl", "a", "there is no `show`: `larch obligations FILE..` lists"),
    ("prove Two.lsl", "prove Two.lsl", "a", "there is no `prove`: `larch replay FILE..` carries out"),
    ("install", "install", "a", "`install`: did you mean `larch --install`?"),
    ("--verison", "--verison", "a", "did you mean `larch --version`?"),
    ("a/Two.lsl", "a/Two.lsl", ".", "did you mean `larch check a/Two.lsl`?"),
    ("", "", "a", "`larch help` lists the commands"),
    ("check", "check", "a", "too few words"),
    ("check a", "check a", ".", "`a` is a folder: name its files, a/*.lsl"),
    ("check a/Two", "check Two", "a", "`Two` is no file: its name ends in `.lsl` or `.lp`; did you mean `Two.lsl`?"),
    ("check a/My-Trait.lsl", "check My-Trait.lsl", "a", "letters, digits and `_`"),
    ("check b/*.lsl", "check *.lsl", "b", "no file is called *.lsl"),
    ("check --limit=3 a/Two.lsl", "check --limit=3 Two.lsl", "a",
     "only `session`, `replay`, `derive` and `complete` take --limit"),
    ("verify Natural imply1 N.cert a/Natural.lsl", "verify Natural imply1 N.cert Natural.lsl", "a", "is no label"),
    ("verify Natural imply.1 a/Form.cert a/Natural.lsl", "verify Natural imply.1 Form.cert Natural.lsl", "a",
     "that is a line of the certificate Form.cert; "),
    ("check a/Tow.lsl", "check Tow.lsl", "a", "did you mean `Two.lsl`?"),
    ("check a/Big.lsl", "check Big.lsl", "a", "Big.lsl has 1,048,577 bytes, and a file 1,048,576 at most"),
    ("check " + " ".join(f"many/{name}" for name in MANY), "check " + " ".join(MANY), "many",
     "257 files are named, and a call takes 256; ")]


def run(call, folder, given="", **environment):
    """Output, status and what is said on standard error; an environment's variable that is nothing is taken out."""
    full = {name: value for name, value in {**os.environ, **environment}.items() if value is not None}
    done = subprocess.run([str(word) for word in call], cwd=folder, input=given, text=True, capture_output=True,
                          env=full, timeout=120, check=False)
    return done.stdout, done.returncode, done.stderr


def make_folder(folder):
    """The traits in a folder `a`, and a folder `b` without any but with a certificate."""
    for name in ("a", "b", "many"):
        (folder / name).mkdir()
    for name in MANY:
        (folder / "many" / name).write_text(f"{name[:-4]}: trait\n")
    for name, text in TRAITS.items():
        (folder / "a" / name).write_text(text)
    for name in CERTIFIED:
        shutil.copy(TOP / "examples/lessons" / name, folder / "a" / name)
    shutil.copy(TOP / "examples/lessons" / CERTIFIED[1], folder / "b" / CERTIFIED[1])
    (folder / "a/Form.cert").write_text("no certificate\n")
    (folder / "a/Two.mod").write_text("model\nop 1 0\n")
    (folder / "a/Form.mod").write_text("no model\n")
    (folder / "a/Big.lsl").write_text("Big: trait".ljust(1048577))


def calls(tests, larch, program, folder):
    """Each call is the program's that it comes to, and says what it says."""
    for words, there, place, said in CALLS:
        title, words, there = f"larch {words[:60]}", words.split(), there.split()
        found = run([larch, *words], folder if place == "." or "/" in "".join(words) else folder / place)
        tests.see(title, found[:2], run([program, *there], folder / place)[:2])
        tests.has(f"{title}: what is said", found[2], said)
        tests.see(f"{title}: how much is said", len(found[2].splitlines()), 1 if said or found[1] > 1 else 0)
    puts = f"put Two.lsl {len(TRAITS['Two.lsl'])}\n{TRAITS['Two.lsl']}report\n"
    tests.see("larch session", run([larch, "session"], folder, puts)[:2], run([program, "session"], folder, puts)[:2])


def around(tests, larch, folder):
    """What stands around the program."""
    for word in ("help", "--help", "-h"):
        output, status, _ = run([larch, word], folder)
        tests.see(f"larch {word}: the status", status, 0)
        for command in (*HELPED, "--install"):
            tests.has(f"larch {word}", output, f"larch {command}")
    for command in HELPED:
        output, status, _ = run([larch, "help", command], folder)
        tests.see(f"larch help {command}", (bool(output), status), (True, 0))
        tests.see(f"larch {command} --help", run([larch, command, "--help"], folder)[1], 0)
    tests.see("larch help and no command", run([larch, "help", "chekc"], folder),
              ("", 2, "larch: `chekc`: did you mean `check`?\n"))
    output, status, _ = run([larch, "--version"], folder)
    tests.see("larch --version", (bool(re.match(r"larch \w+", output)), status), (True, 0))
    for words in (["SYNTAX"], ["a/Wrong.lsl"], []):
        tests.see(f"larch explain {' '.join(words)}", run([larch, "explain", *words], folder)[:2],
                  run([TOP / "tools/explain", *words], folder)[:2])
    output, status, _ = run([larch, "watch", "a", "--once"], folder)
    tests.has("larch watch a --once", output, "Wrong.lsl:3:7: ")
    tests.see("larch watch a --once: the status", status, 1)


def on_a_terminal(tests, larch, folder):
    """What is said on a terminal of wrong traits."""
    for words, said in (("check a/Wrong.lsl", "larch: `larch explain FILE..` says why"),
                        ("check a/One.lsl", "larch: Two.lsl lies here and isn't named; `--with-included` adds")):
        head, tail = pty.openpty()
        done = subprocess.run([larch, *words.split()], cwd=folder, stdout=subprocess.DEVNULL, stderr=tail, check=False)
        tests.see(f"larch {words} on a terminal: the status", done.returncode, 1)
        tests.has(f"larch {words} on a terminal", os.read(head, 10000).decode(), said)
        os.close(head)
        os.close(tail)


def links(tests, folder):
    """Links to the script find what it stands beside, from another folder too."""
    (folder / "link").symlink_to(TOP / "larch")
    (folder / "second").symlink_to("link")
    tests.see("a link to ./larch", run([folder / "second", "check", "Two.lsl"], folder / "a")[1], 0)
    tests.see("--program", run([folder / "second", "--program"], folder)[0], os.environ["LARCH_PROGRAM"] + "\n")


# Building, with stand-ins -------------------------------------------------------------------------

def checkout(folder):
    """A checkout with the script alone: its build makes a program that says so, and `rt` is there."""
    for name in ("tools/make", "crates/larch/src", "crates/larch/out", "path"):
        (folder / name).mkdir(parents=True)
    shutil.copy(TOP / "larch", folder / "larch")
    (folder / "crates.txt").write_text("larch:\n")
    (folder / "crates/larch/src/main.rt").write_text("")
    made = f"{folder}/crates/larch/out/larch"
    (folder / "tools/make/build.py").write_text(f"open({made!r}, 'w').write('#!/bin/sh\\necho ran\\n')\n"
                                                f"import os\nos.chmod({made!r}, 0o755)\n")
    made = f"{folder}/crates/larch/out/larch-unproved"
    (folder / "tools/make/build_unproved.py").write_text(f"open({made!r}, 'w').write('#!/bin/sh\\necho tried\\n')\n"
                                                         f"import os\nos.chmod({made!r}, 0o755)\n")
    (folder / "tools/call.py").write_text("import sys\nprint('asked', *sys.argv[1:])\n")
    for name, text in {"rt": "", "find": 'echo searched >&2\nexec /usr/bin/find "$@"\n'}.items():
        (folder / "path" / name).write_text("#!/bin/sh\n" + text)
        (folder / "path" / name).chmod(0o755)
    return folder / "larch"


def building(tests, place):
    """A program is built where it is missing or older than a source, and calls in a row search once."""
    larch = checkout(place)
    environment = {"PATH": f"{place}/path:{os.environ['PATH']}", "LARCH_PROGRAM": None}

    def call(*words):
        output, status, said = run([larch, *words], place, **environment)
        return output, status, "building" in said, said.count("searched")

    past = time.time() - 1000
    os.utime(place / "crates/larch/src/main.rt", (past, past))
    os.utime(place / "crates.txt", (past, past))
    tests.see("a word that is no command, and no program", call("chekc"), ("asked why 2 chekc\n", 2, False, 0))
    output, status, said = run([larch, "--unproved", "check"], place, **environment)
    tests.see("--unproved", (output, status, "NOT PROVED" in said, "compiling" in said), ("tried\n", 0, True, True))
    tests.see("--unproved --version", call("--unproved", "--version")[:2], ("asked --version\n", 0))
    tests.see("a program that isn't there", call("check"), ("ran\n", 0, True, 0))
    time.sleep(2.1)
    tests.see("a program that is new", call("check"), ("ran\n", 0, False, 1))
    looks = [call("check")[3] for _ in range(4)]
    tests.see("calls in a row search once or twice", sum(looks) <= 1, True)
    tests.see("--build searches always", call("--build"), ("", 0, False, 1))
    time.sleep(1)
    (place / "crates/larch/src/main.rt").write_text("new")
    tests.see("--build and a source that is newer", call("--build"), ("", 0, True, 1))
    time.sleep(1)
    (place / "crates/larch/src/main.rt").write_text("newer")
    time.sleep(2.1)
    tests.see("a source that is newer", call("check"), ("ran\n", 0, True, 1))
    (place / "tools/make/build.py").write_text("raise SystemExit(1)\n")
    (place / "crates/larch/out/larch").unlink()
    tests.see("a build that fails", call("check")[:3], ("", 70, True))


# The installation ---------------------------------------------------------------------------------

def tree(folder):
    """All that lies below a folder, with the texts of files and of links."""
    return {str(path.relative_to(folder)): os.readlink(path) if path.is_symlink() else path.read_bytes()
            if path.is_file() else None for path in sorted(folder.rglob("*"))}


def installation(tests, program, prefix, folder):
    """It is put, used, put anew and taken away, and what else lies there stays as it is."""
    (prefix / "bin").mkdir()
    (prefix / "bin/other").write_text("mine")
    before, larch = tree(prefix), prefix / "bin/larch"
    tests.see("--install", run([TOP / "larch", "--install", prefix], folder)[:2], ("", 0))
    tests.see("the program that is put", (prefix / "bin/larch-program").read_bytes(), program.read_bytes())
    for name in ("share/man/man1/larch.1", "share/bash-completion/completions/larch", "share/zsh/site-functions/_larch",
                 "share/larch/editors/vim/ftdetect/larch.vim", "share/larch/editors/emacs/larch-mode.el"):
        tests.see(f"{name} is there", (prefix / name).is_file(), True)
    used(tests, program, prefix, folder)
    tests.see("--install again", run([TOP / "larch", "--install", prefix], folder)[:2], ("", 0))
    tests.see("--uninstall", run([larch, "--uninstall", prefix], folder, LARCH_PROGRAM=None), ("", 0, ""))
    tests.see("what is left", tree(prefix), before)
    tests.see("--uninstall again", run([TOP / "larch", "--uninstall", prefix], folder)[1], 1)
    larch.write_text("mine")
    before = tree(prefix)
    tests.see("--install over another program", run([TOP / "larch", "--install", prefix], folder)[1], 1)
    tests.see("nothing was done", tree(prefix), before)
    tests.see("--install without a folder", run([TOP / "larch", "--install"], folder)[1], 2)


def used(tests, program, prefix, folder):
    """What is put runs with nothing of the checkout."""
    free = {"LARCH_PROGRAM": None, "LARCH": None, "PATH": f"{prefix}/bin:/usr/bin:/bin"}
    found = run([prefix / "bin/larch", "check", "a/Two.lsl"], folder, **free)
    tests.see("the installed larch", found, (*run([program, "check", "Two.lsl"], folder / "a")[:2], ""))
    tests.see("its --program", run([prefix / "bin/larch", "--program"], folder, **free)[0],
              f"{prefix}/bin/larch-program\n")
    output = run([prefix / "bin/larch", "explain", "a/Wrong.lsl"], folder, **free)[0]
    tests.has("its explain", output, "Wrong.lsl:3:7: ")
    found = run([prefix / "bin/larch-find-model", "Two", "a/Two.lsl"], folder, **free)
    tests.see("its larch-find-model", found, ("model\nsort S 1\nop 1 0\n", 0, ""))
    found = run([prefix / "bin/larch-try", "Two", "imply.1", "a/Two.lsl"], folder, **free)
    tests.see("its larch-try", found, ("", 2, "larch-try: Two has no duty imply.1\n"))
    tests.has("its larch-watch", run([prefix / "bin/larch-watch", "a", "--once"], folder, **free)[0], "Wrong.lsl:3:7: ")
    tests.see("its --version", run([prefix / "bin/larch", "--version"], folder, **free),
              run([TOP / "larch", "--version"], folder))
    left = [name for name in tree(prefix) if "__pycache__" in name]
    tests.see("nothing is written there", left, [])


def main():
    if len(sys.argv) != 2:
        sys.exit(__doc__)
    program = pathlib.Path(sys.argv[1]).resolve()
    os.environ["LARCH_PROGRAM"] = str(program)
    os.environ.pop("LARCH", None)
    tests = Tests()
    with tempfile.TemporaryDirectory() as place, tempfile.TemporaryDirectory() as other, \
            tempfile.TemporaryDirectory() as prefix:
        folder = pathlib.Path(place)
        make_folder(folder)
        calls(tests, TOP / "larch", program, folder)
        around(tests, TOP / "larch", folder)
        on_a_terminal(tests, TOP / "larch", folder)
        links(tests, folder)
        building(tests, pathlib.Path(other).resolve())
        installation(tests, program, pathlib.Path(prefix).resolve(), folder)
    return tests.end()


if __name__ == "__main__":
    sys.exit(main())
