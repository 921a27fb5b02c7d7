#!/usr/bin/env python3
"""Looks at the form of the sources: python3 tools/gate/check_style.py [--columns N] [--parameters N] [--lines N]

Lists, in `crates/`, the lines of code, clauses, definitions and proofs above so many columns (120), the functions
with more than so many parameters (6, `alloc` among them), the files with more than so many lines (500), the functions
and definitions whose whole name is a participle (`joined`, `taken`), and, where there are more of them than now,
forms that only hand on: `Ok(x) => Ok(x)`, `Err(x) => return Err(x)`, and `let x = f()?; Ok(x)` at the end of a body.
Of the programs in Python it lists the lines above 120 columns and the texts in single quotes, of the page's other
files the lines above 120 columns. In code, lines that only name what is cited don't count, `ghost use` and the lemmas
of a `tactic`, nor do texts in quotes; in proofs, an import of a single name. Files and functions of which
docs/DECISIONS.md says why they stay as they are, are left out. Ends with a line that counts what was found and looked
at, and with status 1 where something was found."""
import argparse
import io
import pathlib
import re
import sys
import tokenize

TOP = pathlib.Path(__file__).resolve().parents[2]
CITES = re.compile(r"\s*(ghost use |#\[tactic\()")
ALONE = re.compile(r"use [^{]*\{[^,}]*\}$")
TEXT = re.compile(r'b?"(?:[^"\\]|\\.)*"')
OPEN, CLOSED = "([{<", ")]}>"
# Files that are longer, for the reasons in docs/DECISIONS.md.
LONG = {"larch_certificate_text/proofs/LineLaws.antt", "larch_grammar/specs/Machine.antt",
        "larch_grammar/proofs/CompleteTraits.antt", "larch_grammar/proofs/Ends.antt", "larch_grammar/proofs/Words.antt",
        "larch_shorthand/proofs/Expansions.antt", "larch_prove_examples/specs/Worked.antt",
        "larch_prove_examples/src/examples.rt", "larch_verify_law/proofs/Carried.antt",
        "larch_derive_join/proofs/Accepted.antt"}
# What ends as a participle does and is none, and participles that are names of their own.
NO_PARTICIPLES = {"between", "even", "feed", "flatten", "heighten", "len", "need", "open", "read", "seed", "speed",
                  "token", "weaken"}
PARTICIPLE = re.compile(r"[a-z]*(?:ed|en|told)")
DEFINITION = re.compile(r"^ *(?:abbrev |unfoldable |pattern )*pub (?:abbrev )?([a-z]+)(?: \{[^}]*\})? :", re.M)
AGAIN = re.compile(r"\bOk\((\w+)\) => Ok\(\1\)|\bErr\((\w+)\) => return Err\(\2\)")
HANDED_ON = re.compile(r"let (\w+) = [^;]*\?;\s*Ok\(\1\)\s*\}")
# Names that stay, as crate:name: mostly of functions whose answer a caller keeps under the same name.
LEFT = {"larch_base:numbered", "larch_pairs_critical:marked", "larch_pairs_critical:named",
        "larch_pairs_critical:numbered", "larch_duties:implied", "larch_duties:renamed",
        "larch_flat_gathering:listed", "larch_flat_sources:listed", "larch_flat_sources:reached",
        "larch_grammar:named", "larch_grammar:qualified", "larch_io:taken",
        "larch_methods:supposed", "larch_pairs:replaced",
        "larch_prove_plans:joined", "larch_verify_pool:copied", "larch_verify_pool:numbered",
        "larch_rewrite_match:turned", "larch_flat_replacing:renamed",
        "larch_shorthand:generated", "larch_shorthand:injected",
        "larch_shorthand:partitioned", "larch_sorts_counts:copied", "larch_sorts_counts:named",
        "larch_sorts_signature:named", "larch_syntax:counted", "larch_syntax:refused", "larch_tables:numbered",
        "larch_words:asked"}
# So many functions end with `let x = f()?; Ok(x)`, for the reason in docs/DECISIONS.md, and so many arms wrap again
# what they unwrapped: no more of them.
HANDED_ON_AT_MOST, AGAIN_AT_MOST = 387, 11


def parts(text, start):
    """What stands between the bracket at a place and the one that closes it, cut at its own commas."""
    found, depth, begin = [], 0, start + 1
    for place in range(start, len(text)):
        sign = text[place]
        if sign == ">" and text[place - 1] in "-=":
            continue
        if sign in OPEN:
            depth += 1
        elif sign in CLOSED:
            depth -= 1
        if depth == 0 or (depth == 1 and sign == ","):
            found.append(text[begin:place].strip())
            begin = place + 1
        if depth == 0:
            return [part for part in found if part]
    return []


def functions(text):
    """Each function of a source: its line, its name and its parameters."""
    text = re.sub("//[^\n]*", lambda comment: " " * len(comment[0]), text)
    for head in re.finditer(r"\bfn (\w+)\s*", text):
        place = head.end()
        if text[place] == "<":
            place = text.index("(", text.index(">", place))
        yield text.count("\n", 0, head.start()) + 1, head[1], [part.split(":")[0] for part in parts(text, place)]


def is_field(text, place):
    """Whether what stands indented at a place is a field or a constructor: the line that it belongs to says so."""
    indent = re.match(" *", text[place:])[0]
    above = [line for line in text[:place].split("\n") if line.strip() and len(line) - len(line.lstrip()) < len(indent)]
    return bool(indent and above and re.search(r"\b(?:record|data)\b|^ *: Type", above[-1]))


def participles(path, text):
    """The functions and public definitions of a file that are named by a participle alone."""
    if path.suffix == ".rt":
        named = [(number, name) for number, name, _ in functions(text)]
    else:
        named = [(text.count("\n", 0, word.start()) + 1, word[1]) for word in DEFINITION.finditer(text)
                 if "specs" in path.parts and not is_field(text, word.start())]
    crate = path.relative_to(TOP / "crates").parts[0]
    return [(number, name) for number, name in named
            if PARTICIPLE.fullmatch(name) and name not in NO_PARTICIPLES and f"{crate}:{name}" not in LEFT]


def handed_on(name, text):
    """The forms of a source that only hand on what they were given, each with its line."""
    text = re.sub("//[^\n]*", lambda comment: " " * len(comment[0]), text)
    for form in [*AGAIN.finditer(text), *HANDED_ON.finditer(text)]:
        number, words = text.count("\n", 0, form.start()) + 1, " ".join(form[0].split())
        yield form.re, f"{name}:{number}: hands on: {words[:60]}"


def too_many_handed_on(files):
    """The forms that only hand on, where there are more of a kind than there may be."""
    found = [form for path in files if path.suffix == ".rt"
             for form in handed_on(str(path.relative_to(TOP / "crates")), path.read_text(encoding="utf-8"))]
    for kind, most in ((HANDED_ON, HANDED_ON_AT_MOST), (AGAIN, AGAIN_AT_MOST)):
        said = [text for of, text in found if of is kind]
        if len(said) > most:
            yield from [*said, f"{len(said)} forms that hand on, and at most {most} may be"]


def python_form(path, columns):
    """What is to be said of a program in Python."""
    text = path.read_text(encoding="utf-8")
    name = path.relative_to(TOP)
    for number, line in enumerate(text.split("\n"), 1):
        if len(line) > columns:
            yield f"{name}:{number}: {len(line)} columns"
    for token in tokenize.generate_tokens(io.StringIO(text).readline):
        if token.type == tokenize.STRING and token.string.lstrip("rbfRBF")[0] == "'" and '"' not in token.string:
            yield f"{name}:{token.start[0]}: single quotes: {token.string[:40]}"


def programs():
    """The programs in Python beside the crates."""
    for folder in ("tools", "bench", "companions", "editors", "page"):
        for path in sorted((TOP / folder).rglob("*")):
            if path.is_file() and (path.suffix == ".py" or not path.suffix and
                                   path.open(encoding="utf-8",
                                             errors="replace").readline().rstrip().endswith("python3")):
                yield path


def of_the_page(columns):
    """The files of the page that aren't in Python, and what is to be said of them."""
    files = [path for folder in (".", "src", "tests") for path in sorted((TOP / "page" / folder).glob("*"))
             if path.suffix in (".mjs", ".c", ".css") or path.parent.name == "src"]
    said = [f"{path.relative_to(TOP)}:{number}: {len(line)} columns" for path in files
            for number, line in enumerate(path.read_text(encoding="utf-8").split("\n"), 1) if len(line) > columns]
    return files, said


def long_lines(text, columns):
    """The lines of code above some columns, with how many they have."""
    for number, line in enumerate(text.split("\n"), 1):
        if len(line) > columns and not CITES.match(line) and len(TEXT.sub('""', line)) > columns:
            yield number, len(line)


def looked_at(path, limits):
    """What is to be said of a file, a line for each thing."""
    name, text = str(path.relative_to(TOP / "crates")), path.read_text(encoding="utf-8")
    lines = text.count("\n")
    if lines > limits.lines and name not in LONG:
        yield f"{name}: {lines} lines"
    for number, word in participles(path, text):
        yield f"{name}:{number}: {word} is a participle"
    if path.suffix == ".rt":
        for number, columns in long_lines(text, limits.columns):
            yield f"{name}:{number}: {columns} columns"
        for number, function, parameters in functions(text):
            if len(parameters) > limits.parameters:
                yield f"{name}:{number}: {function} has {len(parameters)} parameters: {', '.join(parameters)}"
    else:
        for number, line in enumerate(text.split("\n"), 1):
            if len(line) > limits.columns and not ALONE.match(line):
                yield f"{name}:{number}: {len(line)} columns"


def main():
    words = argparse.ArgumentParser(description=__doc__, formatter_class=argparse.RawDescriptionHelpFormatter)
    words.add_argument("--columns", type=int, default=120)
    words.add_argument("--parameters", type=int, default=6)
    words.add_argument("--lines", type=int, default=500)
    limits = words.parse_args()
    files = [path for folder in sorted((TOP / "crates").iterdir()) for kind in ("src", "specs", "proofs")
             for path in sorted((folder / kind).rglob("*")) if path.suffix in (".rt", ".antt")]
    said = [*(line for path in files for line in looked_at(path, limits)), *too_many_handed_on(files)]
    beside = list(programs())
    said += [line for path in beside for line in python_form(path, limits.columns)]
    shown, long = of_the_page(limits.columns)
    beside, said = beside + shown, said + long
    print("\n".join(said + [f"{len(said)} found in {len(files) + len(beside)} files"]))
    return 1 if said else 0


if __name__ == "__main__":
    sys.exit(main())
