#!/usr/bin/env python3
"""Puts larch below a folder, or takes it away: install.py --install PREFIX PROGRAM | --uninstall PREFIX

The program lies in PREFIX/bin as `larch-program`, and what stands around it in PREFIX/share/larch, laid out as in the
checkout; `larch`, `larch-watch`, `larch-lsp`, `larch-ninja`, `larch-find-model` and `larch-try` in PREFIX/bin are links
to that. The man page and completions lie where they are looked for. PREFIX/share/larch/installed lists each file and
each folder that was made, and those are what is taken away. Nothing is written over: a file that is there and isn't of
an installation stops it."""
import os
import pathlib
import shutil
import sys

from desk import TOP
from call import sources

HOME = "share/larch"
LIST = f"{HOME}/installed"
# What is taken over as it lies in the checkout.
TAKEN = ("larch", "LICENSE", "docs/*.md", "companions/*.py", "tools/*.py", "tools/explain", "tools/larch-*",
         "editors/larch*", "editors/vim/*/*", "editors/emacs/larch-*.el", "editors/vscode/*.js*",
         "editors/vscode/syntaxes/*")
LINKS = {"larch": "larch", "larch-watch": "tools/larch-watch", "larch-ninja": "tools/larch-ninja",
         "larch-find-model": "tools/larch-find-model", "larch-try": "tools/larch-try",
         "larch-lsp": "editors/larch-lsp"}
FOUND = {"manual/larch.1": "share/man/man1/larch.1", "completion/_larch": "share/zsh/site-functions/_larch",
         "completion/larch.bash": "share/bash-completion/completions/larch"}


def plan(program):
    """What comes to be below the prefix: for each path the file that is copied, or the text of a link."""
    files = {f"{HOME}/{path.relative_to(TOP)}": path for pattern in TAKEN for path in sorted(TOP.glob(pattern))
             if path.is_file()}
    files.update({to: TOP / path for path, to in FOUND.items()})
    files["bin/larch-program"] = pathlib.Path(program)
    links = {f"bin/{name}": f"../{HOME}/{target}" for name, target in LINKS.items()}
    return {**files, **links}


class Prefix:
    """The folder of an installation, and what was made in it."""

    def __init__(self, top):
        self.top, self.made = pathlib.Path(os.path.abspath(top)), []

    def folder(self, path):
        """Makes the folder and those above it that aren't there."""
        missing = [folder for folder in (path, *path.parents) if not folder.exists()]
        for folder in reversed(missing):
            folder.mkdir()
            self.made.append(f"{self.shown(folder)}/")

    def shown(self, path):
        return os.path.relpath(path, self.top)

    def put(self, name, source):
        """Copies a file, or makes a link."""
        path = self.top / name
        self.folder(path.parent)
        if isinstance(source, str):
            path.symlink_to(source)
        else:
            shutil.copy(source, path)
        self.made.append(name)

    def write(self, name, text):
        (self.top / name).write_text(text, encoding="utf-8")
        self.made.append(name)

    def remove(self, names):
        """Takes files away, and those of the folders that are empty then."""
        for name in (name for name in names if not name.endswith("/")):
            (self.top / name).unlink(missing_ok=True)
        for name in sorted((name for name in names if name.endswith("/")), key=len, reverse=True):
            path = self.top / name
            if path.is_dir() and not any(path.iterdir()):
                path.rmdir()

    def listed(self):
        """What an installation made here, or nothing where there is none."""
        path = self.top / LIST
        return path.read_text(encoding="utf-8").splitlines() if path.is_file() else None


def refuse(why):
    print(f"larch: {why}", file=sys.stderr)
    return 1


def uninstall(prefix):
    if prefix.listed() is None:
        return refuse(f"there is no installation below {prefix.top}")
    prefix.remove(prefix.listed())
    return 0


def install(prefix, program):
    """Takes an older installation away, and puts all in its place."""
    if (TOP / "installed").exists():
        return refuse("this is an installation itself; the checkout's ./larch makes others")
    wanted, old = plan(program), prefix.listed() or []
    there = next((name for name in wanted if os.path.lexists(prefix.top / name) and name not in old), None)
    if there:
        return refuse(f"{prefix.top / there} is there, and isn't of an installation; nothing was done")
    prefix.remove(old)
    try:
        put_all(prefix, wanted)
    except OSError:
        prefix.remove(prefix.made)
        raise
    print(f"larch lies in {prefix.top}/bin; larch --uninstall {prefix.top} takes it away", file=sys.stderr)
    return 0


def put_all(prefix, wanted):
    """Puts each file and each link, which sources it is of, and the list of all."""
    for name, source in wanted.items():
        prefix.put(name, source)
    (prefix.top / "bin/larch-program").chmod(0o755)
    prefix.write(f"{HOME}/VERSION", f"{sources()}\n")
    prefix.write(LIST, "\n".join([*prefix.made, LIST]) + "\n")


def main():
    if sys.argv[1:2] == ["--install"] and len(sys.argv) == 4 or sys.argv[1:2] == ["--uninstall"] and len(sys.argv) == 3:
        prefix = Prefix(sys.argv[2])
        return install(prefix, sys.argv[3]) if len(sys.argv) == 4 else uninstall(prefix)
    print("larch: one word goes with it: larch --install PREFIX, larch --uninstall PREFIX", file=sys.stderr)
    return 2


if __name__ == "__main__":
    try:
        sys.exit(main())
    except OSError as trouble:
        print(f"larch: {trouble}", file=sys.stderr)
        sys.exit(1)
