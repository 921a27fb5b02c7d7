#!/usr/bin/env python3
"""Tests the language server: python3 tools/gate/check_lsp.py [PROGRAM]

A small client speaks to editors/larch-lsp over its standard input and output, as an editor does, and looks at what is
published and answered. Without PROGRAM the checkout's ./larch is taken."""
import json
import os
import pathlib
import queue
import signal
import subprocess
import sys
import tempfile
import threading
import time
import unittest

sys.path.insert(0, str(pathlib.Path(__file__).resolve().parents[1]))
from desk import TOP  # noqa: E402
from companions.explain import code_parts, sentence  # noqa: E402
from companions.program import MOST_BYTES  # noqa: E402
import larch_names  # noqa: E402
from larch_behind import Report  # noqa: E402
from larch_names import offset_at  # noqa: E402

PROGRAM = str(TOP / "larch")
RIGHT = "T: trait\n  introduces\n    c: -> S\n"
WRONG = "T: trait\n  introduces\n    c -> S\n"
USED = ("T: trait\n  introduces\n    c: -> S\n    __ ++ __: S, S -> S\n    g: S, S -> S\n  asserts\n"
        "    \\forall x, y: S\n      c == c;\n      g(x, y) == g(x, y) ++ c\n")


class Client:
    """An editor: sends messages, and keeps the published diagnostics by the file's name."""

    def __init__(self, program=None, words=(), options=None, window=None, **environment):
        self.process = subprocess.Popen(
            [sys.executable, str(TOP / "editors/larch-lsp"), *(["--larch", program] if program else []), *words],
            stdin=subprocess.PIPE, stdout=subprocess.PIPE, env={**os.environ, **environment})
        self.answers, self.notes, self.last = queue.Queue(), queue.Queue(), 0
        threading.Thread(target=self.listen, daemon=True).start()
        self.skills = self.request("initialize", {"processId": None, "rootUri": None, "initializationOptions": options,
                                                  "capabilities": {"window": window or {}}})
        self.notify("initialized", {})

    def listen(self):
        out = self.process.stdout
        for line in iter(out.readline, b""):
            length = int(line.split(b":")[1])
            out.readline()
            message = json.loads(out.read(length))
            (self.notes if "method" in message else self.answers).put(message)

    def send(self, message):
        body = json.dumps({"jsonrpc": "2.0", **message}).encode()
        self.process.stdin.write(b"Content-Length: %d\r\n\r\n" % len(body) + body)
        self.process.stdin.flush()

    def notify(self, method, params):
        self.send({"method": method, "params": params})

    def request(self, method, params):
        self.last += 1
        self.send({"id": self.last, "method": method, "params": params})
        answer = self.answers.get(timeout=20)
        assert answer["id"] == self.last, answer
        return answer.get("result", answer.get("error"))

    def published(self, name, wanted, seconds=30):
        """Waits until the codes published for a file are the wanted ones; the diagnostics."""
        return self.shown(name, lambda found: [diagnostic.get("code") for diagnostic in found] == wanted, seconds)

    def shown(self, name, is_wanted, seconds=30):
        """Waits until what is published for a file is wanted; the diagnostics."""
        end = time.monotonic() + seconds
        while True:
            note = self.notes.get(timeout=max(0.01, end - time.monotonic()))
            if note["method"] == "textDocument/publishDiagnostics" and note["params"]["uri"].endswith("/" + name):
                if is_wanted(note["params"]["diagnostics"]):
                    return note["params"]["diagnostics"]

    def open(self, path, text):
        self.notify("textDocument/didOpen", {"textDocument": {
            "uri": path.as_uri(), "languageId": "lsl", "version": 1, "text": text}})

    def change(self, path, text, version=2):
        self.notify("textDocument/didChange", {"textDocument": {"uri": path.as_uri(), "version": version},
                                               "contentChanges": [{"text": text}]})

    def close(self, path):
        self.notify("textDocument/didClose", {"textDocument": {"uri": path.as_uri()}})

    def at(self, method, path, line, character):
        return self.request("textDocument/" + method, {"textDocument": {"uri": path.as_uri()},
                                                       "position": {"line": line, "character": character}})

    def end(self):
        self.request("shutdown", None)
        self.notify("exit", None)
        status = self.process.wait(10)
        self.process.stdin.close()
        self.process.stdout.close()
        return status


class Served(unittest.TestCase):
    def setUp(self):
        self.place = tempfile.TemporaryDirectory()
        self.folder = pathlib.Path(self.place.name)
        self.client = Client(PROGRAM)

    def tearDown(self):
        if self.client.process.poll() is None:
            self.client.end()
        self.place.cleanup()

    def write(self, name, text):
        (self.folder / name).write_bytes(text if isinstance(text, bytes) else text.encode())
        return self.folder / name

    def sessions(self):
        """The numbers of the server's processes."""
        found = subprocess.run(["ps", "-o", "pid=", "--ppid", str(self.client.process.pid)], capture_output=True)
        return found.stdout.split()

    def test_error_comes_and_goes(self):
        path = self.write("T.lsl", RIGHT)
        self.client.open(path, WRONG)
        found = self.client.published("T.lsl", ["SYNTAX"])[0]
        self.assertEqual(found["range"], {"start": {"line": 2, "character": 6}, "end": {"line": 2, "character": 8}})
        self.assertEqual(found["message"], sentence("SYNTAX", code_parts()))
        self.assertIn("a `;` or `,` may be missing", found["message"])
        self.client.change(path, RIGHT)
        self.assertEqual(self.client.published("T.lsl", []), [])

    def test_columns_are_counted_in_16_bit_pieces(self):
        path = self.write("T.lsl", RIGHT)
        self.client.open(path, "T: trait % é\n  introduces c: -> S \U0001f600 d\r\n")
        found = self.client.published("T.lsl", ["LEX"])[0]
        self.assertEqual(found["range"]["start"], {"line": 1, "character": 21})
        self.client.change(path, "T: trait\r\n  introduces\r\n    c -> S\r\n")
        self.assertEqual(self.client.published("T.lsl", ["SYNTAX"])[0]["range"]["start"], {"line": 2, "character": 6})

    def test_end_of_file(self):
        path = self.write("T.lsl", "")
        self.client.open(path, "")
        found = self.client.published("T.lsl", ["SYNTAX"])[0]
        self.assertEqual(found["range"], larch_names.AT_START)

    def test_files_of_the_folder_and_closing(self):
        path = self.write("T.lsl", RIGHT)
        self.write("U.lsl", "U: trait\n  introduces\n    c -> S\n")
        self.client.open(path, WRONG)
        self.client.published("U.lsl", ["SYNTAX"])
        self.client.close(path)
        self.client.published("T.lsl", [])
        self.client.open(path, RIGHT)
        self.write("U.lsl", "U: trait")
        self.client.published("U.lsl", [])
        self.write("U.lsl", "V: trait")
        self.client.published("U.lsl", ["TRAIT-NAME"])
        before = self.sessions()
        (self.folder / "U.lsl").unlink()
        self.client.published("U.lsl", [])
        self.assertEqual(self.sessions(), before)

    def test_closed_file_that_was_never_saved(self):
        self.write("U.lsl", "U: trait")
        path = self.folder / "T.lsl"
        self.client.open(path, WRONG)
        self.client.published("T.lsl", ["SYNTAX"])
        self.client.close(path)
        self.client.published("T.lsl", [])

    def test_hover_and_symbols(self):
        path = self.write("T.lsl", RIGHT)
        self.client.open(path, "T: trait introduces a, [__, __]: M, N -> N\n  asserts )\n  implies a(x, y) ==\n"
                               "    [x, y]; b\n")
        self.client.published("T.lsl", ["SYNTAX"])
        shown = self.client.at("hover", path, 1, 10)
        self.assertTrue(shown["contents"]["value"].endswith("**SYNTAX** " + code_parts()["SYNTAX"]))
        self.assertIn("```lsl\nT: trait", shown["contents"]["value"])
        self.assertIsNone(self.client.at("hover", path, 0, 3))
        symbols = self.client.request("textDocument/documentSymbol", {"textDocument": {"uri": path.as_uri()}})
        self.assertEqual([(symbol["name"], symbol["detail"]) for symbol in symbols],
                         [("a", "M, N -> N"), ("[__, __]", "M, N -> N"), ("a(x, y) == [x, y]", "implied"),
                          ("b", "implied")])

    def test_symbols_of_shorthands(self):
        path = self.folder / "T.lsl"
        self.client.open(path, "T: trait\n  C enumeration of red, green\n  P tuple of x, y: C, z: P % of\n"
                               "  U union of one: C\n  introduces__ + __: C, C -> C\n")
        symbols = self.client.request("textDocument/documentSymbol", {"textDocument": {"uri": path.as_uri()}})
        self.assertEqual([(symbol["name"], symbol["detail"], symbol["kind"]) for symbol in symbols],
                         [("red", "-> C", 14), ("green", "-> C", 14), ("x", "P -> C", 12), ("y", "P -> C", 12),
                          ("z", "P -> P", 12), ("one", "C -> U", 12), ("__ + __", "C, C -> C", 12)])
        self.assertEqual(symbols[4]["range"]["start"], {"line": 2, "character": 22})

    def test_definition(self):
        other = self.write("Other.lsl", "Other: trait")
        text = "T: trait % Other\n  includes One,\n    Other (a for b)\n  assumes Other\n  implies Other\n"
        path = self.write("T.lsl", text)
        self.client.open(path, text)
        for line, character in ((2, 4), (2, 9), (3, 11), (4, 11)):
            self.assertEqual(self.client.at("definition", path, line, character)["uri"], other.as_uri())
        for line, character in ((0, 12), (1, 12), (2, 11)):
            self.assertIsNone(self.client.at("definition", path, line, character))

    def test_session_is_started_anew(self):
        path = self.write("T.lsl", RIGHT)
        self.client.open(path, WRONG)
        self.client.published("T.lsl", ["SYNTAX"])
        for child in self.sessions():
            os.kill(int(child), signal.SIGKILL)
        self.client.change(path, RIGHT)
        self.client.published("T.lsl", [])

    def test_what_a_session_does_not_take(self):
        long = self.write("Long.lsl", b"Long: trait" + b" " * MOST_BYTES)
        path = self.write("T.lsl", RIGHT)
        odd = self.write("a-b.lsl", "")
        self.client.open(path, WRONG)
        for name in (long.name, path.name, odd.name):
            self.client.published(name, ["SYNTAX"] if name == "T.lsl" else [None])

    def test_more_input_than_a_session_takes(self):
        path = self.write("T.lsl", RIGHT)
        self.client.open(path, WRONG)
        self.client.published("T.lsl", ["SYNTAX"])
        for count in range(68):
            self.client.change(path, RIGHT + " " * (MOST_BYTES - 100), 2 * count)
            self.client.published("T.lsl", [])
            if count % 17 == 16:
                self.client.change(path, WRONG, 2 * count + 1)
                self.client.published("T.lsl", ["SYNTAX"])
            else:
                self.client.notes.put({"method": "textDocument/publishDiagnostics", "params": {
                    "uri": "/T.lsl", "diagnostics": []}})

    def test_program_that_is_not_there(self):
        for client in (Client("/nowhere/larch"), Client(None, LARCH="/nowhere/larch"), Client("/bin/false")):
            client.open(self.folder / "T.lsl", RIGHT)
            note = client.notes.get(timeout=20)
            self.assertEqual(note["method"], "window/showMessage")
            self.assertIn("/bin/false ended" if "false" in str(note) else "/nowhere/larch", note["params"]["message"])
            self.assertEqual(client.end(), 0)

    def test_protocol(self):
        self.assertEqual(self.client.skills["capabilities"]["textDocumentSync"]["change"], 1)
        self.assertEqual(self.client.request("no/such", {})["code"], -32601)
        self.assertEqual(self.client.request("textDocument/hover", {})["code"], -32602)
        self.client.notify("$/setTrace", {"value": "off"})
        self.client.notify("textDocument/didOpen", {})
        self.client.process.stdin.write(b"Content-Length: 3\r\n\r\n{x}")
        self.client.open(pathlib.Path("/"), "")
        untitled = {"textDocument": {"uri": "untitled:1", "version": 1, "languageId": "lsl", "text": WRONG}}
        self.client.notify("textDocument/didOpen", untitled)
        self.assertEqual(self.client.request("textDocument/documentSymbol", untitled), [])
        self.assertEqual(self.client.end(), 0)

    def test_fault_in_an_included_file(self):
        base = self.write("Base.lsl", WRONG.replace("T", "Base"))
        path = self.write("T.lsl", "T: trait\n  assumes Base\n")
        self.client.open(path, path.read_text())
        wrong = self.client.published("Base.lsl", ["SYNTAX"])[0]
        self.assertEqual(wrong["range"]["start"], {"line": 2, "character": 6})
        found = self.client.published("T.lsl", ["BAD-REFERENCE"])[0]
        self.assertEqual(found["range"], {"start": {"line": 1, "character": 10}, "end": {"line": 1, "character": 14}})
        self.assertEqual(found["message"], "BAD-REFERENCE: " + code_parts()["BAD-REFERENCE"].splitlines()[0])
        self.write("Base.lsl", RIGHT.replace("T", "Base"))
        self.client.notify("textDocument/didSave", {"textDocument": {"uri": path.as_uri()}})
        self.client.published("T.lsl", [])
        self.client.open(base, "Base: trait includes Nothing")
        self.client.published("Base.lsl", ["UNKNOWN-TRAIT"])
        self.client.published("T.lsl", ["BAD-REFERENCE"])
        self.client.close(base)
        self.client.published("T.lsl", [])

    def test_title_and_quick_fix(self):
        path = self.write("T.lsl", RIGHT)
        self.client.open(path, WRONG)
        title = "missing `:` before `->`?"
        found = self.client.shown("T.lsl", lambda shown: shown and shown[0]["message"].startswith(title))[0]
        self.assertTrue(found["message"].endswith(sentence("SYNTAX", code_parts())))
        self.assertTrue(self.client.at("hover", path, 2, 6)["contents"]["value"].startswith(title))
        fix = self.client.request("textDocument/codeAction", {
            "textDocument": {"uri": path.as_uri()}, "range": found["range"], "context": {"diagnostics": [found]}})[0]
        edits = fix["edit"]["changes"][path.as_uri()]
        self.assertEqual((fix["kind"], fix["isPreferred"], applied(WRONG, edits)), ("quickfix", True, RIGHT))
        self.client.change(path, RIGHT)
        self.client.published("T.lsl", [])

    def test_hints(self):
        path = self.write("T.lsl", USED)
        hinted = USED.replace("x, y: S", "x, y, z: S")
        self.client.open(path, hinted)
        found = self.client.published("T.lsl", ["unused-variable"])[0]
        self.assertEqual((found["severity"], found["range"]["start"]), (4, {"line": 6, "character": 18}))
        fix = self.client.request("textDocument/codeAction", {
            "textDocument": {"uri": path.as_uri()}, "range": found["range"], "context": {"diagnostics": [found]}})[0]
        self.client.change(path, applied(hinted, fix["edit"]["changes"][path.as_uri()]))
        self.client.published("T.lsl", [])
        for client in (Client(PROGRAM, words=["--no-hints"]), Client(PROGRAM, options={"hints": False})):
            client.open(path, hinted)
            client.change(path, WRONG)
            client.published("T.lsl", ["SYNTAX"])
            client.change(path, hinted)
            client.published("T.lsl", [])
            time.sleep(0.5)
            self.assertTrue(client.notes.empty())
            client.end()

    def test_what_is_waited_for_comes_first(self):
        found = {"A.lsl": None, "B.lsl": None, "C.lsl": (1, 1, "LEX"), "D.lsl": (1, 1, "LEX"), "E.lsl": None}
        opened = dict.fromkeys(["A.lsl", "D.lsl", "E.lsl", "B.lsl"])  # B was changed last
        report = Report(dict.fromkeys(found, b""), opened, found, None)
        self.assertEqual(report.by_need(), ["B.lsl", "D.lsl", "C.lsl", "E.lsl", "A.lsl"])

    def test_names(self):
        base = self.write("Base.lsl", "Base: trait\n  introduces\n    f: N -> N\n    0: -> N\n")
        path = self.write("T.lsl", USED)
        text = USED.replace("introduces", "includes Base\n  introduces", 1).replace("c == c", "f(0) == 0; c == c")
        self.client.open(path, text)
        for (line, character), said in {(8, 6): "f: N -> N", (8, 17): "c: -> S", (7, 12): "x: S", (3, 10): "sort S",
                                        (1, 12): "Base: trait", (0, 0): "T: trait"}.items():
            self.assertIn(said, self.client.at("hover", path, line, character)["contents"]["value"])
        found = self.client.at("definition", path, 8, 6)
        self.assertEqual((found["uri"], found["range"]["start"]), (base.as_uri(), {"line": 2, "character": 4}))
        for (line, character), start in {(8, 17): (3, 4), (9, 8): (7, 12), (7, 18): (3, 10)}.items():
            found = self.client.at("definition", path, line, character)
            self.assertEqual((found["uri"], found["range"]["start"]),
                             (path.as_uri(), {"line": start[0], "character": start[1]}))
        self.assertIsNone(self.client.at("definition", path, 3, 6))
        found = [(place["uri"].rsplit("/")[-1], place["range"]["start"]["line"])
                 for place in self.client.at("references", path, 8, 6)]
        self.assertEqual(found, [("T.lsl", 8), ("Base.lsl", 2)])
        self.assertEqual(len(self.client.at("references", path, 9, 8)), 3)
        words = {item["label"]: item for item in self.client.at("completion", path, 8, 6)}
        self.assertEqual({word: words[word].get("detail") for word in ("f", "c", "x", "S", "if")},
                         {"f": "f: N -> N", "c": "c: -> S", "x": "x: S", "S": "sort", "if": None})
        self.assertIn("Base", [item["label"] for item in self.client.at("completion", path, 1, 11)])

    def test_rename(self):
        self.write("Base.lsl", "Base: trait\n  introduces\n    f: N -> N\n")
        path = self.write("T.lsl", USED)
        text = USED.replace("introduces", "includes Base\n  introduces", 1)
        self.client.open(path, text)

        def renamed(line, character, new):
            params = {"textDocument": {"uri": path.as_uri()}, "position": {"line": line, "character": character}}
            found = self.client.request("textDocument/rename", {**params, "newName": new})
            return applied(text, found["changes"][path.as_uri()]) if "changes" in found else found["message"]

        self.assertEqual(renamed(3, 4, "made"), text.replace(" c", " made"))
        self.assertEqual(renamed(7, 12, "w"), text.replace("x, y: S", "w, y: S").replace("(x", "(w"))
        self.assertEqual(renamed(3, 10, "Thing"), text.replace(" S", " Thing"))
        self.assertEqual(renamed(4, 7, "**"), text.replace("++", "**"))
        self.assertIn("stands in the trait already", renamed(3, 4, "x"))
        self.assertIn("can't stand in the place", renamed(3, 4, "if"))
        self.assertIn("can't stand in the place", renamed(3, 4, "+"))
        self.assertIn("like its file", renamed(1, 12, "Other"))
        self.assertIn("no name", renamed(0, 3, "Other"))

    def test_kinds_of_names(self):
        path = self.write("T.lsl", USED)
        self.client.open(path, USED)
        data = self.client.request("textDocument/semanticTokens/full", {"textDocument": {"uri": path.as_uri()}})["data"]
        kinds = self.client.skills["capabilities"]["semanticTokensProvider"]["legend"]["tokenTypes"]
        line = character = 0
        found = []
        for down, right, length, kind, _ in zip(*[iter(data)] * 5):
            line, character = line + down, right if down else character + right
            found.append((USED.split("\n")[line][character:character + length], kinds[kind]))
        self.assertEqual(found[:6], [("T", "namespace"), ("c", "function"), ("S", "type"), ("++", "function"),
                                     ("S", "type"), ("S", "type")])
        self.assertIn(("x", "variable"), found)

    def test_progress(self):
        slow = self.folder / "slow"
        slow.write_text(f"#!/bin/sh\nsleep 1.5\nexec {PROGRAM} \"$@\"\n")
        slow.chmod(0o755)
        client = Client(str(slow), window={"workDoneProgress": True})
        client.open(self.folder / "T.lsl", RIGHT + "% d\n")
        seen = []
        while "end" not in seen:
            note = client.notes.get(timeout=60)
            seen.append(note["params"].get("value", {}).get("kind", note["method"]))
        self.assertEqual(seen, ["window/workDoneProgress/create", "begin", "end"])
        client.end()


def applied(text, edits):
    """A text with an editor's changes."""
    for edit in sorted(edits, key=lambda edit: -offset_at(text.encode(), edit["range"]["start"])):
        start, end = (offset_at(text.encode(), edit["range"][edge]) for edge in ("start", "end"))
        text = text[:start] + edit["newText"] + text[end:]
    return text


PLUS = """Plus: trait
  introduces
    0: -> N
    s: N -> N
    __ + __: N, N -> N
  asserts
    N generated by 0, s
    \\forall x, y: N
      x + 0 == x;
      x + s(y) == s(x + y)
  implies
    \\forall x, y: N
      0 + x == x;
      s(x) + y == s(x + y)
"""
PROOF = "duty imply.1\n  resume by induction on x\n  qed\n"
BEHIND = "duty imply.2\n  resume by induction on y\n  qed\n"
# Scripts with a refused line: the code, the text, and the line from 0.
REFUSED = [
    ("LEX", "duty imply.1\n  prove \"0 + x\n", 1), ("COMMAND", "duty imply.1\n  resume by induction x\n", 1),
    ("UNKNOWN-SORT", "declare variable y: Nat\n" + PROOF, 0), ("NO-READING", "duty imply.1\n  prove y = 0\n", 1),
    ("VARIABLE", "duty imply.1\n  resume by contradiction\n  resume by induction on x\n", 2),
    ("OPERATOR", "register height __ + __ > succ\n" + PROOF, 0), ("SHAPE", "duty imply.1\n  resume by =>\n", 1),
    ("PARTITIONED", "duty imply.1\n  resume by partition\n", 1), ("FACT", "duty imply.1\n  normalize H7\n", 1),
    ("OPEN", "duty imply.1\n  qed\n", 1), ("UNKNOWN-DUTY", PROOF + "duty imply.9\n", 3),
    ("DUTY-TWICE", PROOF + PROOF, 3), ("LIMIT", "set rewriting-limit 1\n" + PROOF, 2)]


class ServedScripts(unittest.TestCase):
    """What is said of scripts, beside the trait PLUS."""
    tearDown, write = Served.tearDown, Served.write

    def setUp(self):
        Served.setUp(self)
        self.write("Plus.lsl", PLUS)
        self.path = self.folder / "Plus.lp"

    def fixed(self, text, line):
        """The texts that the quick fixes at a line make of a text, by their titles."""
        uri, place = self.path.as_uri(), {"line": line, "character": 0}
        found = self.client.request("textDocument/codeAction", {
            "textDocument": {"uri": uri}, "range": {"start": place, "end": place}, "context": {"diagnostics": []}})
        return {one["title"]: applied(text, one["edit"]["changes"][uri]) for one in found}

    def test_each_code_comes_and_goes(self):
        self.client.open(self.path, PROOF + BEHIND)
        for code, text, line in REFUSED:
            self.client.change(self.path, text)
            found = self.client.shown("Plus.lp", lambda shown: code in [one["code"] for one in shown])
            first = next(one for one in found if one["code"] == code)
            self.assertEqual((first["severity"], first["range"]["start"]["line"]), (1, line), code)
            self.assertIn(sentence(code, code_parts()), first["message"])
            self.assertIn(code, self.client.at("hover", self.path, line, 1)["contents"]["value"])
            self.client.change(self.path, PROOF + BEHIND)
            self.client.shown("Plus.lp", lambda shown: not shown)

    def test_what_is_open_is_told(self):
        self.client.open(self.path, "duty imply.1\n  resume by contradiction\n")
        found = self.client.published("Plus.lp", ["no-block", "suspended"])
        self.assertEqual(found[0]["message"], "not proved, and without a block: imply.2")
        self.assertEqual(found[1]["message"], "imply.1: 1 goal is open: false")

    def test_the_goal_moves_as_commands_are_typed(self):
        self.client.open(self.path, PROOF + BEHIND)

        def lines(line):
            found = self.client.request("larch/goal", {"textDocument": {"uri": self.path.as_uri()},
                                                       "position": {"line": line, "character": 0}})
            return found and found["lines"]

        self.assertEqual(lines(3), ["imply.2  s(x) + y == s(x + y)", "behind line 4: 1 goal is open",
                                    "  (s(x) + y) = s(x + y)"])
        self.assertEqual(lines(4), ["imply.2  s(x) + y == s(x + y)", "behind line 5: proved"])
        self.client.change(self.path, PROOF + "duty imply.2\n  resume by induction on x\n  qed\n")
        self.assertEqual(lines(4)[1:], ["behind line 5: 2 goals are open; the first", "  (s(0) + y) = s(y)"])
        self.assertEqual(lines(5)[1:], ["behind line 6: line 6 is refused, OPEN",
                                        "before line 6: 2 goals are open; the first", "  (s(0) + y) = s(y)"])
        hover = self.client.at("hover", self.path, 4, 5)["contents"]["value"]
        self.assertIn("2 goals are open; the first\n  (s(0) + y) = s(y)", hover)
        self.client.change(self.path, "% nothing yet\n")
        self.assertIsNone(lines(0))

    def test_facts_have_their_statements(self):
        self.client.open(self.path, PROOF + "duty imply.2\n  critical-pairs A2 with L1.1\n")
        self.assertIn("A2  x + 0 == x", self.client.at("hover", self.path, 4, 18)["contents"]["value"])
        self.assertIn("L1.1  0 + x == x", self.client.at("hover", self.path, 4, 26)["contents"]["value"])

    def test_completion(self):
        def completed(line):
            self.client.change(self.path, PROOF + line)
            found = self.client.at("completion", self.path, 3 + line.count("\n"), len(line.rsplit("\n", 1)[-1]))
            return {one["label"]: one.get("detail") for one in found}, found

        self.client.open(self.path, PROOF)
        self.assertEqual(completed("duty im")[0], {"imply.2": "s(x) + y == s(x + y)"})
        self.assertEqual(completed("duty im")[1][0]["textEdit"]["range"]["start"]["character"], 5)
        self.assertIn("resume by contradiction", completed("duty imply.2\n  res")[0])
        self.assertEqual(completed("duty imply.2\n  resume by c")[1][1]["textEdit"]["range"]["start"]["character"], 12)
        self.assertEqual(list(completed("duty imply.2\n  resume by induction on ")[0]), ["x", "y"])
        self.assertEqual(completed("duty imply.2\n  resume by induction on y\n  normalize ")[0]["L1"], "0 + x == x")
        facts = completed("duty imply.2\n  resume by induction on x\n  instantiate y by 0 in ")[0]
        self.assertEqual(list(facts), ["A2", "A3", "L1"])
        self.assertEqual(list(completed("duty imply.2\n  resume by contradiction\n  normalize ")[0])[0], "H1")
        names = completed("duty imply.2\n  resume by contradiction\n  resume by cases ")[0]
        self.assertEqual(names["+"], "__ + __: N, N -> N")
        self.assertEqual(completed("duty imply.2\n  resume by cases ")[0]["x"], "in the goal")

    def test_blocks_are_added(self):
        self.client.open(self.path, BEHIND)
        self.client.published("Plus.lp", ["no-block"])
        found = self.fixed(BEHIND, 0)
        self.assertEqual(found, {"Add a block for imply.1": "% 0 + x == x\nduty imply.1\n\n" + BEHIND})
        self.client.change(self.path, "")
        self.client.published("Plus.lp", ["no-block"])
        found = self.fixed("", 0)
        self.assertEqual(list(found)[-1], "Add 2 blocks, for all that isn't proved")
        self.assertEqual(found["Add a block for imply.2"], "% s(x) + y == s(x + y)\nduty imply.2\n\n")

    def test_marks_are_written(self):
        text = "set box-checking on\n" + PROOF + BEHIND
        self.client.open(self.path, text)
        for _ in range(20):
            found = self.client.shown("Plus.lp", lambda shown: True)
            wrong = [one["range"]["start"]["line"] for one in found if one["code"] == "MARK"]
            if not wrong:
                break
            text = next(iter(self.fixed(text, wrong[0]).values()))
            self.client.change(self.path, text)
        marks = "  <>\n  []\n  <>\n  []\n  []\n  qed\n"
        self.assertEqual(text, "set box-checking on\n" + (PROOF + BEHIND).replace("  qed\n", marks))

    def test_what_is_too_much_is_taken_out(self):
        text = PROOF.replace("  qed", "  normalize H1\n  normalize A2\n  qed") + BEHIND
        self.client.open(self.path, text)
        self.client.published("Plus.lp", ["DONE"])
        self.assertEqual(self.fixed(text, 2), {"Take these 2 lines out": PROOF + BEHIND})

    def test_traits_beside_a_script(self):
        other = self.folder / "Other.lp"
        self.client.open(other, PROOF)
        self.assertIn("no trait Other", self.client.published("Other.lp", ["script"])[0]["message"])
        self.client.open(self.path, PROOF + BEHIND)
        self.client.open(self.folder / "Plus.lsl", PLUS.replace("s: N -> N", "s N -> N"))
        self.assertIn("is refused", self.client.published("Plus.lp", ["script"])[0]["message"])
        self.client.change(self.folder / "Plus.lsl", PLUS)
        self.client.published("Plus.lp", [])

    def test_blocks_are_listed(self):
        self.client.open(self.path, PROOF + BEHIND)
        found = self.client.request("textDocument/documentSymbol", {"textDocument": {"uri": self.path.as_uri()}})
        self.assertEqual([(one["name"], one["range"]["start"]["line"]) for one in found],
                         [("imply.1", 0), ("imply.2", 3)])


if __name__ == "__main__":
    if sys.argv[1:] and not sys.argv[1].startswith("-"):
        PROGRAM = str(pathlib.Path(sys.argv.pop(1)).resolve())
    unittest.main()
