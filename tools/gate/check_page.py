#!/usr/bin/env python3
"""Tests the page for browsers: python3 tools/gate/check_page.py [PROGRAM] [--all]

Looks whether the page's parts go together: each script imports what is exported, and each part is there. Where `node`
is there, the scripts are tried without a browser. Where page/larch.html is made of the sources as they stand, and
Chromium is there too, the module is compared with the program on some random sessions, and the page is tried in
Chromium. Nothing is compiled: page/make.py makes the page. With --all it does all that docs/PAGE.md lists, which takes
minutes. What is left out is said; the status is 0 then, and 1 where something fails."""
import argparse
import pathlib
import re
import shutil
import subprocess
import sys

from tests import Tests

TOP = pathlib.Path(__file__).resolve().parents[2]
PAGE = TOP / "page"
sys.path[:0] = [str(TOP), str(PAGE)]
sys.dont_write_bytecode = True
import bundle  # noqa: E402
import make  # noqa: E402


def parts(looks):
    """The scripts name one another rightly, and the page has a place for each part."""
    texts = {path.stem: path.read_text(encoding="utf-8") for path in sorted((PAGE / "src").glob("*.mjs"))}
    for name, text in texts.items():
        imports = bundle.IMPORT.findall(text)
        looks.look(len(re.findall(r"^import", text, re.M)) == len(imports), f"{name}: an import of another form")
        for imported, source in imports:
            exported = {it for _, it in bundle.EXPORT.findall(texts.get(source, ""))}
            for word in imported.split(","):
                looks.look(word.strip() in exported, f"{name}: {source} exports no {word.strip()}")
    page = bundle.page(b"", "", "")
    looks.look(not re.search(r"/\*[A-Z]+\*/", page), "a part of the page isn't there")
    used = set(re.findall(r"byId\('([\w-]+)'\)", "".join(texts.values())))
    for name in sorted(used - set(re.findall(r'id="([\w-]+)"', page))):
        looks.look(False, f"the page has no element {name}")
    looks.see("codes without a text", [code for code, text in bundle.codes().items() if not text], [])


def missing():
    """Why the page isn't tried; nothing where it is."""
    made = PAGE / "out/made.txt"
    if not (PAGE / "larch.html").exists() or not made.exists():
        return "page/larch.html isn't made: page/make.py makes it"
    stamp = make.sum_of_sources()
    if made.read_text().split("\n")[0] != stamp or stamp not in (PAGE / "larch.html").read_text(encoding="utf-8"):
        return "page/larch.html isn't of these sources: page/make.py makes it anew"
    absent = [tool for tool in ("node", "chromium") if not shutil.which(tool)]
    return f"not installed: {', '.join(absent)}" if absent else ""


def without_browser(program, everything):
    """The commands that try the scripts."""
    if not shutil.which("node"):
        print("left out, the page's scripts: node isn't installed")
        return []
    return [["node", PAGE / "tests/parts.mjs", *([program] if everything else [])]]


def with_browser(program, everything):
    """The commands that try the page."""
    page = ["node", PAGE / "tests/page.mjs", PAGE / "larch.html", program]
    compare = [sys.executable, PAGE / "tests/compare.py", program]
    if not everything:
        return [[*compare, "--sessions", "60"], [*page, "--quick"]]
    return [compare, page, *([[*page, "--browser", "firefox"]] if shutil.which("firefox-esr") else [])]


def main():
    words = argparse.ArgumentParser(description=__doc__, formatter_class=argparse.RawDescriptionHelpFormatter)
    words.add_argument("program", nargs="?", type=pathlib.Path, default=TOP / "crates/larch/out/larch")
    words.add_argument("--all", action="store_true")
    asked = words.parse_args()
    looks = Tests()
    parts(looks)
    why = missing() or ("" if asked.program.exists() else f"there is no {asked.program}")
    if why:
        print(f"left out, the page in a browser: {why}")
    program = asked.program.resolve()
    tries = [] if why else with_browser(program, asked.all)
    for command in [*without_browser(program, asked.all and program.exists()), *tries]:
        looks.look(subprocess.run(command).returncode == 0, f"failed: {' '.join(str(word) for word in command)}")
    return looks.end("page")


if __name__ == "__main__":
    sys.exit(main())
