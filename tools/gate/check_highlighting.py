#!/usr/bin/env python3
"""Tests what editors colour: python3 tools/gate/check_highlighting.py [--write]

The table of words has the reserved words and fixed symbols of the program's own definitions, and runs the bytes of its
table of tokens; the editors' files are those that tools/make/make_highlighting.py makes of it; Vim, Emacs and the
TextMate grammar colour the traits of examples, of examples/library and of editors/samples as editors/expected.txt says;
the extension's files are whole and agree, its patterns are such of its editor's language, and it starts the server and
shows goals, or says what it lacks, as far as that can be seen without its editor. An editor that isn't installed is
named and left out. With --write the kept file is written anew, from the TextMate grammar, which Python reads."""
import json
import os
import pathlib
import re
import shutil
import subprocess
import sys
import tempfile
import unittest

sys.path[:0] = [str(pathlib.Path(__file__).resolve().parents[1] / part) for part in ("", "make")]
import make_highlighting  # noqa: E402
from desk import TOP  # noqa: E402
import larch_look  # noqa: E402
import larch_names  # noqa: E402

EXTENSION = TOP / "editors/vscode"
# What a TextMate scope begins with where themes have a colour for it.
SCOPES = ("comment", "constant", "entity", "keyword", "markup", "punctuation", "support")
KEPT = TOP / "editors/expected.txt"
FILES = sorted(str(path.relative_to(TOP)) for folder in ("examples", "examples/library", "editors/samples")
               for path in (TOP / folder).iterdir() if path.suffix in (".lsl", ".lp"))


def definitions():
    """The texts in the definitions that say what each token is to the grammar: the specs that name `introduces`."""
    specs = [path.read_text() for path in (TOP / "crates").glob("*/specs/**/*.antt")]
    return {text.replace("\\\\", "\\") for spec in specs if 'codes "introduces"' in spec
            for text in re.findall(r'codes "([^"]+)"', spec)}


def textmate(path):
    """The dump of a file as a reader of TextMate grammars without nesting makes it."""
    grammar = json.loads((TOP / f"editors/vscode/syntaxes/{pathlib.Path(path).suffix[1:]}.tmLanguage.json").read_text())
    rules = [(re.compile(rule["match"]), rule) for rule in grammar["patterns"]]
    lines = [f"== {path}"]
    for number, line in enumerate((TOP / path).read_text().splitlines(), 1):
        kinds, at = [None] * len(line), 0
        while at < len(line):
            found = [(match.start(), place, match, rule) for place, (pattern, rule) in enumerate(rules)
                     for match in [pattern.search(line, at)] if match]
            if not found:
                break
            _, _, match, rule = min(found, key=lambda entry: entry[:2])
            named = rule.get("captures", {"0": rule})
            for group, name in named.items():
                for place in range(*match.span(int(group))):
                    kinds[place] = name["name"].split(".")[-2].replace("percentage", "comment")
            at = match.end()
        start = 0
        for place in range(1, len(line) + 1):
            if place == len(line) or kinds[place] != kinds[start]:
                if kinds[start]:
                    lines.append(f"{number}:{start + 1} {kinds[start]} {line[start:place]}")
                start = place
    return lines


class Coloured(unittest.TestCase):
    maxDiff = None

    def kept(self):
        return KEPT.read_text().splitlines()

    def installed(self, editor):
        if not shutil.which(editor):
            self.skipTest(f"{editor} is not installed")

    def test_words_are_the_programs(self):
        table, found = make_highlighting.words(), definitions()
        reserved = {word for kind in ("part", "clause", "choice") for word in table[kind]}
        self.assertEqual(reserved, {text for text in found if re.fullmatch("[a-z]+", text)})
        # The two connectives of slashes are given there by their bytes.
        fixed = set(table["fixed"] + table["quantifier"]) - {"/\\", "\\/"}
        self.assertEqual(fixed, {text for text in found if re.fullmatch(r"[!#$&*+/<>=?@^|~-]+|\\[a-z]+", text)})

    def test_runs_are_the_programs(self):
        table = (TOP / "crates/larch_lexer/specs/TokenTable.antt").read_text()
        runs = re.search('^is_symbol byte = one_of [(]codes "(.*)"[)] byte$', table, re.M)[1]
        self.assertEqual(sorted(make_highlighting.RUN + "/"), sorted(runs))
        self.assertEqual({byte for byte in map(chr, range(33, 127)) if larch_names.TOKEN.fullmatch(byte.encode() * 3)
                          and not byte.isalnum()}, set(runs))

    def test_words_are_those_of_the_guide(self):
        told = re.search(r"words are reserved: `([a-z ]+)`", (TOP / "docs/TRAITS.md").read_text())[1].split()
        self.assertEqual(sorted(told), sorted(word for kind in ("part", "clause", "choice")
                                              for word in make_highlighting.words()[kind]))

    def test_words_are_the_servers(self):
        parts = {word for word in make_highlighting.words()["part"] if word != "trait"}
        self.assertEqual(parts, set(re.findall("[a-z]{2,}", larch_names.PART.pattern.decode())))

    def test_files_are_made_of_the_table(self):
        for path, text in make_highlighting.files().items():
            self.assertEqual((TOP / path).read_text(), text, path)

    def test_manifest(self):
        manifest = self.manifest()
        contributed = manifest["contributes"]
        named = [manifest["main"], *(grammar["path"] for grammar in contributed["grammars"]),
                 *(language["configuration"] for language in contributed["languages"])]
        for name in named:
            self.assertTrue((EXTENSION / name).is_file(), name)
        languages = {language["id"]: language["extensions"] for language in contributed["languages"]}
        self.assertEqual(languages, {"lsl": [".lsl"], "lp": [".lp"]})
        self.assertEqual(manifest["activationEvents"], ["onLanguage:lsl", "onLanguage:lp"])
        read = re.findall(r'settings\.get\("(\w+)"\)', (EXTENSION / "extension.js").read_text())
        settings = contributed["configuration"]["properties"]
        self.assertEqual(sorted(f"larch.{name}" for name in read), sorted(settings))
        for setting in settings.values():
            self.assertEqual(type(setting["default"]).__name__, {"string": "str", "boolean": "bool"}[setting["type"]])
        needed = {name for name in re.findall(r'CLIENT = "([^"]+)"', (EXTENSION / "extension.js").read_text())}
        self.assertEqual(set(manifest["dependencies"]), needed)

    def manifest(self):
        return json.loads((EXTENSION / "package.json").read_text())

    def test_grammars(self):
        configuration = json.loads((EXTENSION / "language-configuration.json").read_text())
        self.assertEqual(configuration["wordPattern"], larch_look.WORD.pattern)
        patterns = [configuration["wordPattern"]]
        for entry in self.manifest()["contributes"]["grammars"]:
            grammar, language = json.loads((EXTENSION / entry["path"]).read_text()), entry["language"]
            self.assertEqual((grammar["scopeName"], grammar["fileTypes"]), (entry["scopeName"], [language]))
            for rule in grammar["patterns"]:
                self.assertLessEqual(set(rule), {"name", "match", "captures"})
                patterns.append(rule["match"])
                for named in rule.get("captures", {"0": rule}).values():
                    self.assertTrue(named["name"].endswith("." + language), named)
                    self.assertIn(named["name"].split(".")[0], SCOPES)
        self.installed("node")
        done = subprocess.run(["node", "-e", "for (const one of JSON.parse(process.argv[1])) new RegExp(one)",
                               json.dumps(patterns)], timeout=60, capture_output=True, text=True)
        self.assertEqual(done.returncode, 0, done.stderr)

    def extension(self, known):
        """What the extension's start gives and says, with these modules in the place of its editor's."""
        self.installed("node")
        script = f"""
            const modules = require("module"), load = modules._load, said = [], known_commands = {{}}, asked = [];
            class LanguageClient {{
              constructor(...words) {{ this.words = words; }}
              start() {{ return this.words; }}
              async sendRequest(...words) {{ asked.push(words); return {{ lines: ["imply.1  f(x)"] }}; }}
            }}
            const settings = {{ program: "a/larch", hints: false }};
            const workspace = {{ getConfiguration: () => ({{ get: name => settings[name] }}) }};
            const editor = {{ document: {{ languageId: "lp", uri: "file:///T.lp" }},
                              selection: {{ active: {{ line: 3, character: 1 }} }} }};
            const window = {{
              showErrorMessage: text => said.push(text), activeTextEditor: editor,
              createOutputChannel: name => ({{ show: () => said.push(name), replace: text => said.push(text) }}),
              onDidChangeTextEditorSelection: () => 0, onDidChangeActiveTextEditor: () => 0,
            }};
            const commands = {{ registerCommand: (name, does) => {{ known_commands[name] = does; }} }};
            const known = {known};
            modules._load = (name, ...rest) => known[name] || load(name, ...rest);
            const given = require("./editors/vscode/extension.js").activate({{ subscriptions: [] }});
            const end = () => console.log(JSON.stringify([given || null, said, asked]));
            if (known_commands["larch.goal"]) known_commands["larch.goal"]().then(end); else end();"""
        done = subprocess.run(["node", "-e", script], cwd=TOP, timeout=60, capture_output=True, text=True, check=True)
        return json.loads(done.stdout)

    def test_extension_starts_the_server(self):
        given, said, asked = self.extension('{ vscode: { commands, window, workspace }, "vscode-languageclient/node": '
                                            "{ LanguageClient } }")
        self.assertEqual(given[2:], [
            {"command": str(TOP / "editors/larch-lsp"), "args": ["--larch", "a/larch"]},
            {"documentSelector": [{"scheme": "file", "language": "lsl"}, {"scheme": "file", "language": "lp"}],
             "initializationOptions": {"hints": False}}])
        self.assertEqual(said, ["Larch goal", "imply.1  f(x)\n"])
        self.assertEqual(asked, [["larch/goal", {"textDocument": {"uri": "file:///T.lp"},
                                                 "position": {"line": 3, "character": 1}}]])
        self.assertTrue(os.access(TOP / "editors/larch-lsp", os.X_OK))

    def test_extension_without_its_client(self):
        if (EXTENSION / "node_modules").exists():
            self.skipTest("the client is installed")
        given, said, _ = self.extension("{ vscode: { commands, window, workspace } }")
        self.assertIsNone(given)
        self.assertIn(f"run npm install in {EXTENSION}", said[0])

    def test_textmate(self):
        self.assertEqual([line for path in FILES for line in textmate(path)], self.kept())

    def test_vim(self):
        self.installed("vim")
        with tempfile.TemporaryDirectory() as place:
            subprocess.run(["vim", "-es", "-u", "NONE", "-N", "-i", "NONE", "-S", "editors/vim/dump.vim"], cwd=TOP,
                           env={**os.environ, "FILES": " ".join(FILES), "DUMP": f"{place}/dump"}, timeout=60,
                           stdin=subprocess.DEVNULL, stdout=subprocess.DEVNULL)
            self.assertEqual(pathlib.Path(place, "dump").read_text().splitlines(), self.kept())

    def emacs(self, *words):
        self.installed("emacs")
        done = subprocess.run(["emacs", "--batch", "-Q", "-L", "editors/emacs", *words], cwd=TOP, timeout=60,
                              capture_output=True, text=True)
        self.assertEqual(done.returncode, 0, done.stderr)
        return done.stdout

    def test_emacs(self):
        self.assertEqual(self.emacs("-l", "editors/emacs/dump.el", *FILES).splitlines(), self.kept())

    def test_emacs_indents_and_comments(self):
        for name in FILES:
            text = (TOP / name).read_text()
            flat = re.sub("(?m)^ +", "", text)
            with tempfile.TemporaryDirectory() as place:
                path = pathlib.Path(place, pathlib.Path(name).name)
                path.write_text(flat)
                self.emacs("-l", "larch-mode", "--eval", f'(progn (find-file "{path}") '
                           "(let ((inhibit-message t)) (indent-region (point-min) (point-max)) (save-buffer)))")
                self.assertEqual(path.read_text(), text)
                self.emacs("-l", "larch-mode", "--eval", f'(progn (find-file "{path}") (let ((inhibit-message t)) '
                           "(comment-region (point-min) (point-max)) (save-buffer)))")
                self.assertTrue(all(line.lstrip().startswith("%") for line in path.read_text().splitlines()))


if __name__ == "__main__":
    if sys.argv[1:] == ["--write"]:
        KEPT.write_text("".join(line + "\n" for path in FILES for line in textmate(path)))
    else:
        unittest.main()
