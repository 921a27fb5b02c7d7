"""Derivations that a program writes: asked for by a session over some files, and looked at by other calls."""
import json
import pathlib
import re
import subprocess
import tempfile

HEAD = re.compile(rb"derivation (\d+)\n")
NONE = b"none\n"
PROVED = re.compile(r"(\S+) proved")
CERT = "Derived.cert"


def session(program, files, lines):
    """What a session on these files writes for these lines."""
    put = [b"put %s %d\n%s" % (name.encode(), len(text), text) for name, text in files.items()]
    given = b"".join(put) + "".join(line + "\n" for line in lines).encode()
    return subprocess.run([*program, "session"], input=given, stdout=subprocess.PIPE, check=False).stdout


def proved(program, files):
    """The trait and the label of each duty of these files that is proved."""
    trait, found = "", []
    for line in session(program, files, ["report"]).decode("latin-1").splitlines():
        if line.startswith("trait "):
            trait = line.split()[1]
        elif PROVED.fullmatch(line):
            found.append((trait, line.split()[0]))
    return found


def derivations(program, files, duties):
    """What a session derives of each of these duties: a text, which is empty where it derives nothing."""
    written = session(program, files, [f"derive {trait} {label}" for trait, label in duties])
    place, found = 0, []
    for _ in duties:
        head = HEAD.match(written, place)
        start = head.end() if head else place + len(NONE)
        place = start + (int(head[1]) if head else 0)
        found.append(written[start:place])
    return found


def told(program, command, files, duty, text):
    """What a call of `verify` or `trim` writes of a derivation over the traits of some files, without scripts; and its
    status."""
    traits = {name: content for name, content in files.items() if name.endswith(".lsl")}
    with tempfile.TemporaryDirectory() as place:
        for name, content in {**traits, CERT: text}.items():
            pathlib.Path(place, name).write_bytes(content)
        done = subprocess.run([*program, command, *duty, CERT, *traits], cwd=place, stdout=subprocess.PIPE, check=False)
    return done.stdout, done.returncode


def worked(path):
    """The files of each worked row with a script, those that a session puts last among them."""
    known = set()
    for row in json.loads(pathlib.Path(path).read_text(encoding="utf-8")):
        files = {name: text.encode("latin-1") for name, text in row["files"].items()}
        text = row["stdin"].encode("latin-1")
        for found in re.finditer(rb"put (\S+) (\d+)\n", text):
            files[found[1].decode()] = text[found.end():found.end() + int(found[2])]
        files = {name: content for name, content in files.items() if name.endswith((".lsl", ".lp"))}
        same = tuple(sorted(files.items()))
        if same not in known and any(name.endswith(".lp") for name in files):
            known.add(same)
            yield files
