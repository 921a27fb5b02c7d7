#!/usr/bin/env python3
"""Tests tools/larch-watch and tools/explain: python3 tools/gate/check_watch.py [PROGRAM]; else the checkout's
./larch"""
import os
import pathlib
import pty
import subprocess
import sys
import tempfile
import unittest

sys.path.insert(0, str(pathlib.Path(__file__).resolve().parents[1]))
from desk import TOP  # noqa: E402
from companions.explain import code_parts, codes_of_traits, sentence  # noqa: E402

RIGHT = "U: trait\n  introduces\n    c: -> S\n  asserts\n    \\forall x: S\n      c == c\n"
PROGRAM = str(TOP / "larch")
WRONG = "T: trait\n\tintroduces % \u4e2d\u6587\n\t\tc -> S % \x1b[31m\n"


class Watched(unittest.TestCase):
    def setUp(self):
        self.place = tempfile.TemporaryDirectory()
        self.path = pathlib.Path(self.place.name, "T.lsl")
        self.path.write_text(WRONG)
        self.call = [sys.executable, TOP / "tools/larch-watch", self.place.name, "--larch", PROGRAM]

    def tearDown(self):
        self.place.cleanup()

    def once(self, *words):
        return subprocess.run([*self.call, "--once", *words], capture_output=True, text=True)

    def test_line_and_caret(self):
        done = self.once()
        lines = done.stdout.split("\n")
        self.assertEqual(lines[0], "T.lsl:3:5: missing `:` before `->`? [SYNTAX]")
        self.assertEqual(lines[1:3], ["    \t\tc -> S % \ufffd[31m", "    \t\t  ^"])
        self.assertEqual(lines[3], "  To mend it: put `:` before `->`, and the program takes the file:")
        self.assertEqual(lines[4], "    \t\tc: -> S % \ufffd[31m")
        self.assertEqual(lines[5:7], ["  " + sentence("SYNTAX", code_parts()), ""])
        self.assertTrue(lines[7].endswith(" 1 traits, 1 errors"))
        self.assertEqual(done.returncode, 1)
        self.path.write_text(WRONG.replace("c ->", "c: ->").replace("\x1b", ""))
        self.assertEqual(self.once().returncode, 0)

    def test_hints_come_last(self):
        self.path.with_name("U.lsl").write_text(RIGHT)
        lines = self.once().stdout.splitlines()
        self.assertEqual(lines[-2], "U.lsl:5:13: hint: the variable `x` isn't used [unused-variable]")
        self.assertTrue(lines[-1].endswith(" 2 traits, 1 errors, 1 hints"))
        self.assertNotIn("hint", self.once("--no-hints").stdout)
        self.path.with_name("U.lsl").write_text(RIGHT + "%% larch: no hint unused-variable\n")
        self.assertNotIn("hint", self.once().stdout)
        self.path.write_text("T: trait")
        self.assertEqual(self.once().returncode, 0)

    def test_further_errors(self):
        self.path.write_text(RIGHT.replace("U:", "T:").replace("c: -> S", "c -> S").replace("c == c", "c == d; x == y"))
        heads = [line for line in self.once().stdout.splitlines() if line.startswith("T.lsl:")]
        self.assertEqual([line.split(":")[1:3] for line in heads], [["3", "7"], ["6", "12"], ["6", "20"]])
        self.assertEqual([line.endswith(", further, once the first is mended]") for line in heads], [False, True, True])

    def test_a_code_is_explained_once(self):
        self.path.with_name("U.lsl").write_text(WRONG.replace("T:", "U:"))
        shown = self.once().stdout
        self.assertEqual(shown.count(sentence("SYNTAX", code_parts())), 1)
        self.assertTrue(shown.splitlines()[-1].endswith(" 2 traits, 2 errors"))

    def test_folders_below(self):
        below = pathlib.Path(self.place.name, "one", "two")
        below.mkdir(parents=True)
        pathlib.Path(self.place.name, ".hidden").mkdir()
        pathlib.Path(self.place.name, ".hidden", "T.lsl").write_text(WRONG)
        (below / "T.lsl").write_text(WRONG)
        self.path.write_text("T: trait")
        done = self.once()
        self.assertTrue(done.stdout.startswith("one/two/T.lsl:3:5: missing"))
        self.assertTrue(done.stdout.splitlines()[-1].endswith(" 2 traits, 1 errors"))
        self.path.unlink()
        self.assertEqual(self.once().returncode, 1)

    def test_no_traits(self):
        self.path.unlink()
        for call in (self.call, [*self.call, "--once"]):
            done = subprocess.run(call, capture_output=True, text=True)
            self.assertEqual((done.returncode, done.stdout), (2, ""))
            self.assertTrue(done.stderr.startswith("larch-watch: no traits: "))

    def test_reports_at_each_change(self):
        watch = subprocess.Popen([*self.call], stdout=subprocess.PIPE, text=True)
        try:
            for errors in (1, 0, 1):
                self.path.write_text(WRONG if errors else "T: trait")
                while f"{errors} errors" not in watch.stdout.readline():
                    pass
        finally:
            watch.kill()
            watch.communicate()

    def test_colour_on_a_terminal(self):
        head, tail = pty.openpty()
        environment = {name: value for name, value in os.environ.items() if name != "NO_COLOR"}
        subprocess.run([*self.call, "--once"], stdout=tail, env=environment)
        shown = os.read(head, 100000).decode()
        self.assertIn("\x1b[31m[SYNTAX]\x1b[0m", shown)
        self.assertNotIn("\x1b[31m\n", shown)
        os.close(head)
        os.close(tail)

    def test_progress_on_a_terminal(self):
        slow = self.path.with_name("slow")
        slow.write_text(f"#!/bin/sh\nsleep 1.5\nexec {PROGRAM} \"$@\"\n")
        slow.chmod(0o755)
        for call in (self.call[:3], [TOP / "tools/explain", self.place.name]):
            words = ["--once"] if len(call) == 3 else []
            head, tail = pty.openpty()
            subprocess.run([*call, "--larch", slow, *words], stdout=subprocess.DEVNULL, stderr=tail)
            shown = os.read(head, 100000).decode()
            self.assertIn("larch: looks at 1 traits", shown)
            self.assertTrue(shown.endswith("\r\x1b[K"))
            os.close(head)
            os.close(tail)

    def test_explain(self):
        def explain(*words):
            done = subprocess.run([TOP / "tools/explain", *words], capture_output=True, text=True)
            return done.returncode, done.stdout

        parts = code_parts()
        for code, part in parts.items():
            self.assertEqual(explain(code.lower()), (0, f"{code}\n\n{part}\n\n"))
        self.assertEqual(explain("NONE")[0], 1)
        self.assertEqual(explain("sintax"), (1, "SINTAX is no code (did you mean `SYNTAX`?); without words all are "
                                                "listed\n\n"))
        self.assertIn("FILE", explain("--help")[1])
        status, shown = explain()
        traits, _, scripts = shown.partition("\n\nof scripts, which no command reads yet:\n")
        self.assertEqual((status, traits.splitlines()), (0, codes_of_traits()))
        self.assertEqual(sorted(traits.splitlines() + scripts.splitlines()), sorted(parts))

    def test_explain_files(self):
        def explain(*words):
            call = [TOP / "tools/explain", "--larch", PROGRAM, *words]
            done = subprocess.run(call, capture_output=True, text=True)
            return done.returncode, done.stdout, done.stderr

        status, shown, _ = explain(self.path)
        self.assertEqual((status, shown.splitlines()[0]), (1, f"{self.path}:3:5: missing `:` before `->`? [SYNTAX]"))
        other = self.path.with_name("U.lsl")
        other.write_text(RIGHT)
        status, shown, _ = explain(other, "lex")
        self.assertEqual(status, 0)
        self.assertTrue(shown.startswith("LEX\n\n"))
        self.assertTrue(shown.endswith(f"{other}: right\n{other}:5:13: hint: the variable `x` isn't used"
                                       " [unused-variable]\n"))
        self.assertEqual(explain(self.place.name, "--no-hints")[1].count("\n" + str(other)), 1)
        self.assertEqual(explain(self.place.name + "/None.lsl")[0], 2)


if __name__ == "__main__":
    if sys.argv[1:] and not sys.argv[1].startswith("-"):
        PROGRAM = str(pathlib.Path(sys.argv.pop(1)).resolve())
    unittest.main()
