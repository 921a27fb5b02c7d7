#!/usr/bin/env python3
"""Tests that pages and files agree: python3 tools/gate/check_pages.py

Each crate of crates.txt has a folder, a page and a line in docs/ARCHITECTURE.md, and no other folder is there. A
crate's page names each of its sources and each of its files of definitions; what only holds the crate together
(`lib.rt`, `Lib.antt`) goes without saying. Definitions that have the name of a source but for a letter have all of it:
`specs/Refusal.antt` stands beside `src/refusal.rt`. It has the shape of all others: its name, a sentence or two, an
example whose calls and definitions are there, and the table of files. Each file that a page names is there, and each
link leads somewhere, to a heading that is there where it says which. Each name of a function, a type or a definition
that the documents have in backticks stands in the sources. Each name of a contract in docs/PROMISES.md is one of the
crates that stand beside it. docs/SESSION.md has a row for each code of traits, and no other. Ends with 'N looks, N
failed', and status 1 where one failed."""
import pathlib
import re
import sys

from tests import Tests

TOP = pathlib.Path(__file__).resolve().parents[2]
CRATES = TOP / "crates"
UNSAID = {"lib.rt", "Lib.antt"}
# What is a file's name: one with an ending of the sources, or a path below a folder of the repository.
FILE = re.compile(r"\w+\.(?:rt|antt)|(?:crates|larch\w*|src|specs|proofs|tools|docs|bench|examples)/[\w./+-]*")
LINK = re.compile(r"\]\(([^)#:]*)(?:#([^)]+))?\)")
# What looks like a name of the sources: words joined by `_`, or two words or more in capitals.
NAME = re.compile(r"[a-z][a-z0-9]*(?:_[a-z0-9]+)+|(?:[A-Z][a-z]+){2,}")
# The titles of the table of files.
TITLES = ("| File | Has |", "| File | Has | Defined in |")
BLOCK = re.compile(r"```(\w+)\n(.*?)```", re.S)


def quoted(text):
    """What a page writes in backticks, word by word; examples of several lines are none."""
    text = re.sub("```.*?```", "", text, flags=re.S)
    return [word for part in re.findall("`([^`\n]+)`", text) for word in part.split()]


def is_there(word, page, files):
    """Whether a file that a page names is there: by its path from the top, from the crates or from the page, or, where
    pages of a folder of documents say `specs/X` of a crate that they speak of, as the end of a path."""
    word = word.rstrip("/")
    near = (TOP, CRATES, page.parent, page.parent / "src", page.parent / "specs", page.parent / "proofs")
    return any((folder / (word + ending)).exists() for folder in near for ending in ("", ".antt")) \
        or any(name.endswith("/" + word) for name in files)


def anchors(page):
    """What links to the headings of a page end with."""
    headings = re.findall(r"^#+ (.*)$", page.read_text(encoding="utf-8"), re.M) if page.suffix == ".md" else []
    return {re.sub(r"[^\w -]", "", heading.lower()).replace(" ", "-") for heading in headings}


def words_of(*folders):
    """All words of the files below folders."""
    return {word for folder in folders for path in folder.rglob("*")
            if path.is_file() and path.suffix in (".rt", ".antt", ".py", ".txt", "") and "out" not in path.parts
            for word in re.findall(r"\w+", path.read_text(encoding="utf-8", errors="replace"))}


def pages(looks):
    """What pages name is there."""
    files = [str(path.relative_to(TOP)) for path in CRATES.rglob("*") if "out" not in path.parts]
    known = words_of(CRATES, TOP / "tools", TOP / "editors", TOP / "bench") | {path.name for path in CRATES.iterdir()}
    for page in [TOP / "README.md", *sorted((TOP / "bench").glob("*.md")), *sorted((TOP / "docs").glob("*.md")),
                 *sorted((TOP / "tools").rglob("*.md")), *sorted(CRATES.glob("*/README.md"))]:
        text, name = page.read_text(encoding="utf-8"), page.relative_to(TOP)
        for link, anchor in LINK.findall(text):
            to = page.parent / link if link else page
            looks.look(to.exists(), f"{name}: the link {link} leads nowhere")
            looks.look(not anchor or not to.exists() or anchor in anchors(to), f"{name}: {link} has no {anchor}")
        for word in quoted(text):
            if FILE.fullmatch(word):
                looks.look(is_there(word, page, files), f"{name}: there is no {word}")
            elif NAME.fullmatch(word) and page.name != "TRAITS.md":  # there names are those of traits
                looks.look(word in known, f"{name}: nothing is called {word}")


def crates(looks):
    """Each crate has its page, its line, and says what is in it."""
    listed = set(re.findall(r"^(\w+):", (TOP / "crates.txt").read_text(encoding="utf-8"), re.M))
    house = (TOP / "docs/ARCHITECTURE.md").read_text(encoding="utf-8")
    for folder in sorted(CRATES.iterdir()):
        name, page = folder.name, folder / "README.md"
        looks.look(name in listed, f"crates.txt doesn't list {name}")
        looks.look(f"(../crates/{name}/README.md)" in house, f"docs/ARCHITECTURE.md doesn't list {name}")
        looks.look(page.exists(), f"{name} has no page")
        said = {word.split("/")[-1] for word in quoted(page.read_text(encoding="utf-8"))} if page.exists() else set()
        for path in [*sorted((folder / "src").rglob("*.rt")), *sorted((folder / "specs").glob("*.antt"))]:
            if path.name not in UNSAID:
                looks.look({path.name, path.stem} & said, f"the page of {name} doesn't name {path.name}")
    for name in sorted(listed - {folder.name for folder in CRATES.iterdir()}):
        looks.look(False, f"crates.txt lists {name}, which has no folder")


def bare(name):
    """A file's name without what makes it a plural."""
    name = name.replace("_", "").lower()
    return name[:-3] + "y" if name.endswith("ies") else name[:-1] if re.search("[^s]s$", name) else name


def spec_names(looks):
    """Definitions stand in the spec with the name of the source."""
    for folder in sorted(CRATES.iterdir()):
        sources = {path.stem for path in (folder / "src").rglob("*.rt")}
        for spec in sorted((folder / "specs").glob("*.antt")):
            near = [name for name in sources if bare(name) == bare(spec.stem)]
            looks.look(not near or spec.stem.lower() in {name.replace("_", "") for name in near},
                       f"{folder.name}: specs/{spec.name} stands beside src/{near[0] if near else ''}.rt")


def shapes(looks):
    """Each page of a crate has the shape of the others."""
    calls = {name for path in CRATES.glob("*/src/**/*.rt") for name in
             re.findall(r"\b(?:fn|struct|enum) (\w+)|^    ([A-Z]\w+)[(,]", path.read_text(encoding="utf-8"), re.M)}
    calls = {name for pair in calls for name in pair if name} | {"Some", "Ok", "Err", "alloc"}
    for page in sorted(CRATES.glob("*/README.md")):
        text, crate = page.read_text(encoding="utf-8"), page.parent.name
        pieces = text.split("\n\n", 3)
        looks.look(pieces[0] == f"# {crate}", f"{crate}: the page doesn't begin with the crate's name")
        looks.look(len(pieces) == 4 and not re.match(r"[#|`-]", pieces[1]) and len(pieces[1]) <= 450,
                   f"{crate}: behind the name doesn't stand what it is, in a sentence or two")
        block = BLOCK.match(text.split("\n\n", 2)[-1])
        looks.look(block, f"{crate}: behind what it is no example stands")
        named = re.findall(r"\b(\w+)\(", re.sub("//.*", "", block[2])) if block and block[1] == "rust" else []
        for word in named:
            looks.look(word in calls, f"{crate}: the example calls {word}, which isn't there")
        if block and block[1] == "text":
            specs = "".join(path.read_text(encoding="utf-8") for path in (page.parent / "specs").glob("*.antt"))
            word = re.match(r"\w+", block[2])[0]
            looks.look(re.search(rf"\b{word}\b", specs), f"{crate}: no spec has {word}")
        headings = re.findall("^## (.*)$", text, re.M)
        looks.look(headings in (["Files"], ["Files", "Decisions"]), f"{crate}: the headings are {headings}")
        table = text.partition("\n## Files\n\n")[2].split("\n")[0]
        looks.look(table in TITLES, f"{crate}: under Files doesn't stand the table of files")
        long = [line for line in text.split("\n") if len(line) > 120 and line[0] != "|"]
        looks.look(not long, f"{crate}: lines of more than 120 columns: {long}")


def codes(looks):
    """The page of sessions has a row for each code, those of scripts left out."""
    known = set(re.findall(r'"([A-Z-]+)"', (CRATES / "larch_base/src/code.rt").read_text(encoding="utf-8")))
    scripts = (TOP / "docs/TRAITS.md").read_text(encoding="utf-8").partition("\n## Codes of scripts\n")[2]
    page = (TOP / "docs/SESSION.md").read_text(encoding="utf-8")
    rows = re.findall(r"^\| (`[A-Z-]+`(?:, `[A-Z-]+`)*) \|", page, re.M)
    told = [code for row in rows for code in re.findall("[A-Z-]+", row)]
    for code in sorted(known - set(re.findall(r"^### ([A-Z-]+)$", scripts, re.M))):
        looks.look(told.count(code) == 1, f"docs/SESSION.md: {code} has {told.count(code)} rows")
    for code in sorted(set(told) - known):
        looks.look(False, f"docs/SESSION.md: {code} is no code")


def promises(looks):
    """The contracts of the tables of promises are those of their crates."""
    for row in re.findall(r"^\| [^|]*[^-|][^|]* \| ([^|]*) \| ([^|]*larch[^|]*) \|$",
                          (TOP / "docs/PROMISES.md").read_text(encoding="utf-8"), re.M):
        named = [name for cell in row for name in re.findall(r"`(larch\w*)`", cell)]
        sources = "".join(path.read_text(encoding="utf-8") for name in named
                          for path in (CRATES / name / "src").rglob("*.rt"))
        for word in set(re.findall(r"`(\w+)`", row[0])) - set(named):
            looks.look(re.search(rf"\b(fn|struct|enum|ensures) {word}\b", sources),
                       f"docs/PROMISES.md: {named} have no {word}")


def main():
    looks = Tests()
    crates(looks)
    spec_names(looks)
    shapes(looks)
    pages(looks)
    codes(looks)
    promises(looks)
    print(f"{looks.passed + looks.failed} looks, {looks.failed} failed")
    return 1 if looks.failed else 0


if __name__ == "__main__":
    sys.exit(main())
