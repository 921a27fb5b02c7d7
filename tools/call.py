#!/usr/bin/env python3
"""What ./larch hands on, since it takes more than a few lines.

call.py words WORD..        the folder to go to for a call, and the call's words there, with a zero byte behind each
call.py why STATUS WORD..   says on standard error what the program's line for this status doesn't say
call.py help [WORD]         what there is; of a command what docs/COMMANDS.md says, of a code what it means
call.py --version           which sources the program is of, and where it lies"""
import itertools
import os
import re
import subprocess
import sys

from desk import TOP
from companions import explain
from companions.program import FILE_NAME, MOST_BYTES, MOST_FILES
from companions.scope import reached
from companions.spelling import nearest

COMMANDS = ("session", "replay", "check", "obligations", "derive", "verify", "model", "trim", "migrate", "complete",
            "generate")
# The options that commands take, and from where to where their values go.
TAKEN = {**dict.fromkeys(("session", "replay", "derive", "complete"), ("--limit",)), "generate": ("--seed", "--size")}
RANGES = {"--limit": (1, 100_000), "--seed": (0, 2_147_483_647), "--size": (1, 128)}
# Those that take the files which a trait refers to with them, and of these those that take scripts.
INCLUDING, SCRIPTED = ("check", "obligations", "replay", "derive", "complete"), ("replay", "derive")
# Those that name no files of traits, with what they take.
WITHOUT_FILES = {"session": "no words but --limit N; its files come over standard input",
                 "migrate": "a certificate and nothing else", "generate": "no words but --seed N and --size N"}
AROUND = ("help", "explain", "watch")
OPTIONS = ("--build", "--help", "--install", "--program", "--uninstall", "--unproved", "--version")
# What people type that isn't there, and what there is.
NOT_THERE = {
    **dict.fromkeys(("show", "print", "list", "duties"), "`larch obligations FILE..` lists what a trait consists of"),
    **dict.fromkeys(("prove", "proof", "qed"),
                    "`larch replay FILE..` carries out proof scripts; `larch-try` looks for them"),
    **dict.fromkeys(("certify", "certificate", "derivation"), "`larch derive` writes the certificate of a proved duty"),
    **dict.fromkeys(("convert", "upgrade"), "`larch migrate CERT` writes a certificate in the second version"),
    **dict.fromkeys(("shorten", "minimize", "prune"), "`larch trim` leaves out of a certificate what isn't needed"),
    **dict.fromkeys(("find", "find-model", "search"), "`tools/larch-find-model TRAIT FILE..` looks for a small model"),
    **dict.fromkeys(("eval", "reduce", "rewrite"), "nothing computes the value of a term yet"),
    **dict.fromkeys(("lint", "parse", "typecheck", "compile"), "`larch check FILE..` says whether something is wrong"),
    **dict.fromkeys(("fmt", "format"), "nothing lays traits out"),
    **dict.fromkeys(("-V", "-v", "-version"), "`larch --version` says which program it is")}
FILE, CERT = re.compile(r"[A-Za-z0-9_]{1,64}\.(?:lsl|lp)"), re.compile(r"(?s).*\.cert")
MODEL = re.compile(r"[A-Za-z0-9_]{1,64}\.mod")
LABEL = re.compile(r"(?:assume|imply|convert)\.[1-9][0-9]{0,5}")
# What the words before the files have to be, by what they stand for.
FORMS = {"TRAIT": (re.compile(r"[A-Za-z0-9_]{1,64}"), "trait: its name without `.lsl` is wanted"),
         "LABEL": (LABEL, "label: assume.N, imply.N or convert.N"),
         "CERT": (CERT, "certificate: its name ends in `.cert`"),
         "MODEL": (MODEL, "model: 1 to 64 letters, digits and `_` stand before its ending `.mod`")}
NUMBER = re.compile(r"0|[1-9][0-9]{0,9}")
WITH_INCLUDED = "--with-included"
# The words before the files of a command.
FRONTS = {"derive": ("TRAIT", "LABEL"), "verify": ("TRAIT", "LABEL", "CERT"), "model": ("TRAIT", "MODEL"),
          "trim": ("TRAIT", "LABEL", "CERT"), "migrate": ("CERT",), "complete": ("TRAIT",)}
HELP = """\
larch checks specifications in the Larch Shared Language.

  larch replay FILE.. [--limit N]       what is proved of these traits by the scripts among the files?
  larch check FILE..                    is something wrong with these traits?
  larch obligations FILE..              what each consists of, and what is to be proved of it
  larch derive TRAIT LABEL FILE..       a certificate of a duty that is proved; [--limit N] as for replay
  larch verify TRAIT LABEL CERT FILE..  does this certificate show that duty?
  larch trim TRAIT LABEL CERT FILE..    the certificate without the lines that its end doesn't need
  larch migrate CERT                    the certificate in the second version
  larch model TRAIT MODEL FILE..        is this a finite model of the trait, and which claims hold in it?
  larch complete TRAIT FILE..           rules that decide the trait's equations; [--limit N]
  larch generate --seed N --size N      traits to try the prover with, and how many of their duties are proved
  larch session [--limit N]             reports and certificates for programs, over standard input

  larch explain FILE..                  why a trait is refused, and how to mend it
  larch explain CODE                    what a code means; without a word, all codes
  larch watch [FOLDER..]                says so at each change
  larch help COMMAND                    more of a command

FILE is NAME.lsl or NAME.lp; it may lie in another folder, all files of a call in one. A trait sees the files that are
named; `--with-included` adds those of the folder that it refers to. Status 0: all is right, and proved where proofs are
asked for; 1: something isn't; above: the call came to nothing.

  larch --build                         builds the program and proves it
  larch --unproved WORD..               a try, compiled with no proof
  larch --install PREFIX                puts larch and what belongs to it below PREFIX; --uninstall takes it away
  larch --version, --program            which program it is, and where it lies
"""


def say(text):
    print(f"larch: {text}", file=sys.stderr)


def without_options(words):
    """The words of a call without those for the options that its command takes, and these."""
    rest, given, taken = [], [], TAKEN.get(words[0], ())
    words = iter(words)
    for word in words:
        if word == "--":
            return [*rest, word, *words], given
        if word in taken:
            given.append([word, *itertools.islice(words, 1)])
        elif word.partition("=")[0] in taken:
            given.append([word])
        else:
            rest.append(word)
    return rest, given


def cut(words):
    """A call's command, the words before its files, its files, and whether what they reach is to be added."""
    rest, wants = without_options(words)[0][1:], False
    if words[0] in INCLUDING and WITH_INCLUDED in rest:
        rest, wants = [word for word in rest if word != WITH_INCLUDED], True
    if rest[:1] == ["--"]:
        rest = rest[1:]
    number = len(FRONTS.get(words[0], ()))
    return words[0], rest[:number], rest[number:], wants


def kinds(command, front):
    """The words before the files of a call, each behind what it stands for."""
    return zip(FRONTS.get(command, ()), front)


def evidence(command, front):
    """The certificate or the model of a call, in a list."""
    return [word for kind, word in kinds(command, front) if kind in ("CERT", "MODEL")]


def bare(words):
    """Words without a first `--`, which is no word of its own."""
    return words[words[:1] == ["--"]:]


# The folder of a call ----------------------------------------------------------------------------

class Files:
    """The files of a folder, each read where it is asked for."""

    def __init__(self, folder):
        self.folder = folder

    def __contains__(self, name):
        return bool(FILE_NAME.fullmatch(name)) and os.path.isfile(os.path.join(self.folder, name))

    def __getitem__(self, name):
        with open(os.path.join(self.folder, name), "rb") as file:
            return file.read(MOST_BYTES)


def one_folder(files):
    """The folder that all these files lie in, or nothing, and then why there is none."""
    named = list(dict.fromkeys(os.path.dirname(file) or "." for file in files if file[:1] != "-")) or ["."]
    for folder in named:
        if not os.path.isdir(folder):
            return None, f"there is no folder {folder}"
        if not os.path.samefile(folder, named[0]):
            return None, f"all files of a call lie in one folder, and these in {named[0]} and {folder}"
    return os.path.abspath(named[0]), ""


def beside(words):
    """The words for what lies in the folder of a call: its files, and a model."""
    command, front, files, _ = cut(words)
    return [*evidence(command, front), *files] if command == "model" else files


def there(kind, word, folder):
    """A word before the files of a call as it stands in their folder."""
    if kind == "MODEL":
        return os.path.basename(word)
    if kind != "CERT" or os.path.samefile(folder, "."):
        return word
    place, name = os.path.split(word)
    same = os.path.isdir(place or ".") and os.path.samefile(place or ".", folder)
    return name if same else os.path.abspath(word)


def words_there(words):
    """The folder and the words of the call there; nothing where the words are left as they are."""
    if not words or words[0] not in COMMANDS or words[0] in WITHOUT_FILES:
        return None
    command, front, files, wants = cut(words)
    folder, _ = one_folder(beside(words))
    if folder is None:
        return None
    names = [os.path.basename(file) for file in files]
    front = [there(kind, word, folder) for kind, word in kinds(command, front)]
    if wants:
        known = Files(folder)
        names += [name for trait in list(names) for name in reached(known, trait)]
        names += scripts_of(folder, names) if command in SCRIPTED else []
        names = list(dict.fromkeys(names))
    return [folder, command, *itertools.chain(*without_options(words)[1]), *front, *names]


def scripts_of(folder, names):
    """The scripts of these traits that lie in their folder."""
    scripts = [name[:-len(".lsl")] + ".lp" for name in names if name.endswith(".lsl")]
    return [name for name in scripts if os.path.isfile(os.path.join(folder, name))]


# What stands behind a status ---------------------------------------------------------------------

def why_usage(words):
    """Why words mean no command."""
    if not words:
        return "`larch help` lists the commands"
    if words[0] not in COMMANDS:
        return why_no_command(words[0])
    command, front, files, _ = cut(words)
    wanted = [*FRONTS.get(command, ()), *(() if command in WITHOUT_FILES else ("FILE..",))]
    bad = why_options(command, without_options(words)[1])
    if bad:
        return bad
    if command in WITHOUT_FILES and files:
        return f"`{command}` takes {WITHOUT_FILES[command]}"
    if len(front) + len(files) < len(wanted):
        return f"too few words: larch {' '.join([command, *wanted])}"
    for bad in (*why_front(command, front), one_folder(beside(words))[1], *map(why_file, files)):
        if bad:
            return bad
    return f"`larch help {command}` says what its words are"


def why_options(command, given):
    """Why the words for options aren't those of a command; empty where they are."""
    named = [words[0].partition("=")[0] for words in given]
    for option in TAKEN.get(command, ()):
        if named.count(option) > 1:
            return f"{option} stands more than once"
        if command == "generate" and option not in named:
            return f"`generate` needs {' and '.join(f'{one} N' for one in TAKEN[command])}"
    for option, words in zip(named, given):
        value = words[1] if len(words) > 1 else words[0].partition("=")[2]
        least, most = RANGES[option]
        if not NUMBER.fullmatch(value) or not least <= int(value) <= most:
            return f"behind {option} stands a number from {least} to {most:,}, without leading zeros"
    return ""


def why_no_command(word):
    if word in NOT_THERE:
        return f"there is no `{word}`: {NOT_THERE[word]}"
    near = nearest(word, (*COMMANDS, *AROUND))
    bare = [option[2:] for option in OPTIONS]
    option = word if word in bare else nearest(word.lstrip("-"), bare)
    if near and word not in bare:
        return f"`{word}`: did you mean `{near}`?"
    if option:
        return f"`{word}`: did you mean `larch --{option}`?"
    if word.endswith((".lsl", ".lp")):
        return f"`{word}`: did you mean `larch check {word}`?"
    return f"`{word}` is no command; `larch help` lists them"


def why_front(command, front):
    """Why the words before the files of a command are none."""
    for kind, word in kinds(command, front):
        name = os.path.basename(word) if kind == "MODEL" else word
        form, meant = FORMS[kind]
        yield "" if form.fullmatch(name) else f"`{word}` is no {meant}"


def in_a_sentence(names):
    """Names, one or more, as a sentence has them."""
    return " and ".join([", ".join(names[:-1]), names[-1]] if names[1:] else names)


def why_file(word):
    """Why a word is no name of a file; empty where it is one."""
    if FILE.fullmatch(word):
        return ""
    option = word.partition("=")[0]
    if option in RANGES:
        takes = [f"`{command}`" for command, options in TAKEN.items() if option in options]
        return f"only {in_a_sentence(takes)} {'take' if takes[1:] else 'takes'} {option}"
    if word.startswith("-"):
        return f"no command takes the option {word}"
    if os.path.isdir(word):
        return f"`{word}` is a folder: name its files, {word.rstrip('/')}/*.lsl"
    if "*" in word or "?" in word:
        return f"no file is called {word}"
    if not word.endswith((".lsl", ".lp")):
        meant = f"; did you mean `{word}.lsl`?" if os.path.isfile(word + ".lsl") else ""
        return f"`{word}` is no file: its name ends in `.lsl` or `.lp`{meant}"
    return f"`{word}`: the name of a file has 1 to 64 letters, digits and `_` before its ending"


def why_too_large(words):
    """Which number passes a limit."""
    command, front, files, _ = cut(words)
    more = f"; {TOP}/docs/SCALE.md says how more is checked"
    for name in evidence(command, front) + files:
        if os.path.isfile(name) and os.path.getsize(name) > MOST_BYTES:
            return f"{name} has {os.path.getsize(name):,} bytes, and a file {MOST_BYTES:,} at most{more}"
    number = len(set(files))
    if number > MOST_FILES:
        return f"{number:,} files are named, and a call takes {MOST_FILES}{more}"
    if command == "model":
        return "an equation has more than 1,000,000 assignments in this model; give its sorts fewer values"
    return f"a limit is passed{more}"


def why_no_file(words):
    """Which file isn't there, and where it was looked for."""
    command, front, files, _ = cut(words)
    gone = next((name for name in evidence(command, front) + files if not os.path.exists(name)), None)
    if gone is None:
        return "a file isn't there"
    folder = os.path.dirname(gone) or "."
    near = nearest(os.path.basename(gone), os.listdir(folder)) if os.path.isdir(folder) else None
    shown = os.path.abspath(folder)
    return f"there is no {os.path.basename(gone)} in {shown}" + (f"; did you mean `{near}`?" if near else "")


def why_wrong(words):
    """What to ask next where a trait is wrong: a file that is referred to may lie there without being named."""
    files = cut(words)[2]
    known = Files(".")
    lacking = [name for file in files for name in reached(known, file) if name not in files]
    if lacking:
        return f"{lacking[0]} lies here and isn't named; `--with-included` adds what the traits refer to"
    return "`larch explain FILE..` says why, and how to mend it"


def why(status, words):
    if status == "1":
        say(why_wrong(words))
    elif status == "6":
        command, front, _, _ = cut(words)
        kind, page = ("model", "MODELS") if command == "model" else ("certificate", "CERTIFICATES")
        for word in evidence(command, front):
            say(f"that is a line of the {kind} {word}; docs/{page}.md has its grammar")
    elif status == "7":
        say(why_too_large(words))
    else:
        say(why_usage(words) if status == "2" else why_no_file(words))


# Help --------------------------------------------------------------------------------------------

def sections():
    """The parts of docs/COMMANDS.md by their headings."""
    pieces = re.split(r"^## (.*)\n", (TOP / "docs/COMMANDS.md").read_text(encoding="utf-8"), flags=re.M)
    return {heading.strip("`"): part.strip() for heading, part in zip(pieces[1::2], pieces[2::2])}


def help_with(word):
    """More of a command or a code; the status."""
    found = {**sections(), **explain.code_parts()}
    if word == "session":
        print(f"larch session takes files and commands from standard input: {TOP}/docs/SESSION.md")
    elif word in ("explain", "watch"):
        tool = TOP / "tools" / {"explain": "explain", "watch": "larch-watch"}[word]
        return subprocess.run([sys.executable, tool, "--help"], check=False).returncode
    elif word in found or word.upper() in found:
        print(found.get(word) or found[word.upper()])
    elif word == "help":
        print(HELP, end="")
    else:
        say(why_no_command(word))
        return 2
    return 0


def version():
    """Prints which sources the program is of."""
    if (TOP / "installed").exists():
        print((TOP / "VERSION").read_text(encoding="utf-8"), end="")
    else:
        print(sources())
    return 0


def sources():
    """The commit of the checkout, as a line."""
    call = ["git", "-C", str(TOP), "log", "-1", "--format=%h of %cs"]
    done = subprocess.run(call, stdout=subprocess.PIPE, stderr=subprocess.DEVNULL, text=True, check=False)
    changed = subprocess.run([*call[:3], "diff", "--quiet", "HEAD", "--", "crates"], stderr=subprocess.DEVNULL,
                             check=False).returncode == 1
    known = done.stdout.strip() or "of unknown sources"
    return f"larch {known}{', with changes' if changed else ''}, a program in Rattle"


def main():
    what, rest = sys.argv[1], sys.argv[2:]
    if what == "words":
        found = words_there(bare(rest))
        sys.stdout.buffer.write(b"".join(os.fsencode(word) + b"\0" for word in found or ()))
        return 0
    if what == "why":
        return why(rest[0], bare(rest[1:]))
    if what == "--version":
        return version()
    if rest:
        return help_with(rest[0])
    print(HELP, end="")
    return 0


if __name__ == "__main__":
    sys.exit(main())
