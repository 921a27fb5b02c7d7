"""Puts the page's parts into one file: the module, the handbook, what codes mean, and the scripts of page/src.

A script of page/src becomes a function that gives back what it exports; those that it imports stand before it."""
import base64
import gzip
import html
import json
import pathlib
import re

PAGE = pathlib.Path(__file__).resolve().parent
TOP = PAGE.parent
SOURCES = PAGE / "src"
IMPORT = re.compile(r"^import \{ ([^}]*) \} from '\./(\w+)\.mjs';\n", re.M)
EXPORT = re.compile(r"^export ((?:async )?(?:function|class|const|let) (\w+))", re.M)
ROW = re.compile(r"^\| \[(\w+)\]\(\1\.lsl\) \| ([^|]*) \|", re.M)


def in_order(name, found):
    """A script and all that it imports, those first."""
    text = (SOURCES / f"{name}.mjs").read_text(encoding="utf-8")
    for _, need in IMPORT.findall(text):
        if need not in found:
            in_order(need, found)
    found[name] = text
    return found


def script(name):
    """One script of a script and all that it imports."""
    parts = []
    for part, text in in_order(name, {}).items():
        exports = ", ".join(exported for _, exported in EXPORT.findall(text))
        text = IMPORT.sub(r"const { \1 } = of_\2;\n", text)
        text = EXPORT.sub(r"\1", text)
        parts.append(f"// {part}.mjs\nconst of_{part} = (() => {{\n{text}return {{ {exports} }};\n}})();\n")
    made = "".join(parts)
    if "</script" in made:
        raise ValueError(f"page/src/{name}.mjs or what it imports has the end of a script in it")
    return made


def inline(text):
    """A line of a page's text as HTML: code and emphasis; of links the text is left."""
    text = re.sub(r"\[([^\]]*)\]\([^)]*\)", r"\1", html.escape(text, quote=False))
    text = re.sub(r"`([^`]*)`", r"<code>\1</code>", text)
    return re.sub(r"\*\*([^*]*)\*\*", r"<strong>\1</strong>", text)


def as_html(part):
    """The part of a page on a code as HTML: paragraphs and examples."""
    made = []
    for number, piece in enumerate(re.split(r"^```\w*\n(.*?)^```\n?", part + "\n", flags=re.M | re.S)):
        if number % 2:
            made.append(f"<pre>{html.escape(piece.rstrip(), quote=False)}</pre>")
        else:
            made += [f"<p>{inline(' '.join(text.split()))}</p>" for text in re.split(r"\n\s*\n", piece) if text.strip()]
    return "".join(made)


def codes():
    """What each code means, from docs/TRAITS.md."""
    from companions import explain
    return {code: as_html(part) for code, part in explain.code_parts().items() if re.fullmatch("[A-Z-]+", code)}


def grammars():
    """What is coloured: the grammars that are made of editors/words.txt."""
    folder = TOP / "editors/vscode/syntaxes"
    found = {path.name.split(".")[0]: json.loads(path.read_text(encoding="utf-8")) for path in folder.glob("*.json")}
    return {ending: next(it for it in found.values() if ending in it["fileTypes"]) for ending in ("lsl", "lp")}


def books():
    """The handbook: its files, and what each trait is for."""
    folder = TOP / "examples/handbook"
    paths = sorted([*folder.glob("*.lsl"), *folder.glob("*.lp")])
    about = ROW.findall((folder / "README.md").read_text(encoding="utf-8"))
    return {"files": {path.name: path.read_text(encoding="utf-8") for path in paths}, "about": dict(about)}


def first():
    """What a first visit shows: the trait and the script of README.md's first minute."""
    readme = (TOP / "README.md").read_text(encoding="utf-8")
    trait = re.search(r"```lsl\n(\w+): trait\n.*?```", readme, re.S)
    text = re.search(r"```text\n(duty .*?)```", readme, re.S)
    return {f"{trait[1]}.lsl": trait[0][len("```lsl\n"):-3], f"{trait[1]}.lp": text[1]}


def as_json(value):
    """A value as JSON that may stand in a page."""
    return json.dumps(value, ensure_ascii=False).replace("<", "\\u003c")


def packed(held):
    return base64.b64encode(gzip.compress(held, 9, mtime=0)).decode()


def page(module, stamp, proof):
    """The whole page."""
    data = {"codes": codes(), "grammars": grammars(), "first": first(), "program": {"stamp": stamp, "proof": proof}}
    parts = {"STYLE": (SOURCES / "page.css").read_text(encoding="utf-8"), "DATA": as_json(data),
             "MODULE": packed(module), "BOOKS": packed(as_json(books()).encode()), "WORKER": script("worker"),
             "PAGE": script("page")}
    text = (SOURCES / "page.html").read_text(encoding="utf-8")
    return re.sub(r"/\*([A-Z]+)\*/", lambda it: parts[it[1]], text)
