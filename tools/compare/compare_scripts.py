#!/usr/bin/env python3
"""Compares the commands and blocks that are read of random and mutated scripts with another reader's.

    compare_scripts.py PROGRAM REFERENCE [--count N] [--seed N] [--short]

PROGRAM is a command that prints what `larch_script_table` prints; it is run once, with all scripts as its input.
REFERENCE is the folder with a Python package `larchref`, whose module `script` has `read_script`. The scripts have
every command, with blanks and comments in all places, words apart that are written with a dash, facts and labels of
wrong form, terms that are refused in every way, marks with anything behind them, and bytes above 126; the other half
are the same with words or bytes taken out, put in, doubled or changed. With --short no term is at the limits of nesting
and size. The seed is printed first, then how often each kind of line came up. A script on which the two differ is
written to a file that the output names. Ends with 'N passed, N failed', and status 1 where one failed.
"""
import collections
import sys

import comparing

WORDS = ["x", "y", "s", "N", "x'", "f_1", "0", "12", "in", "on", "with", "by", "set", "qed", "if", "of", "trait",
         "prove", "A1",
         "multiset", "implies", "a__b"]
SYMBOLS = ["+", "-", "!", "*", ">", "<", "\\in", "~", "<>", "/"]
CONNECTIVES = ["/\\", "\\/", "=>", "<=>"]
NUMBERS = ["0", "1", "2", "7", "12", "007", "01", "99999", "100000", "100001", "999999", "1000000", "1a", "4294967296"]
SOUP = [" ", "\t", "\r", "%", "_", "__", "'", ".", ",", ";", ":", "(", ")", "[", "]", "{", "}", "==", "=", "~=", "->",
        "\\",
        "\\forall", "[]", "<>", "\x0b", "\x7f", "\x80", "\xff", "D", "A1", "by", "in", "duty", "0", "00", "\n",
        "resume by",
        "set", "-"]
LONG = ["(" * 201 + "x" + ")" * 201, "(" * 200 + "x" + ")" * 200, "if p then x else " * 201 + "y", "x = " * 2500 + "x",
        "x = " * 2499 + "x", "f(" * 200 + "x" + ")" * 200]


class Writer:
    """Lines of scripts. Each part is a list of tokens."""

    def __init__(self, pick, long):
        self.pick, self.long = pick, long

    def word(self):
        return [self.pick.choice(WORDS[:8] if self.pick.random() < 0.7 else WORDS)]

    def number(self):
        return [self.pick.choice(NUMBERS)]

    def primary(self, depth):
        kind = self.pick.randint(0, 5) if depth else 0
        if kind <= 2:
            return self.word()
        if kind == 3:
            return ["("] + self.term(depth - 1) + [")"]
        inside = self.term(depth - 1)
        while self.pick.random() < 0.4:
            inside = inside + [","] + self.term(depth - 1)
        if kind == 4:
            return self.word() + ["("] + inside + [")"]
        return ["["] + inside + ["]"] if self.pick.random() < 0.5 else ["{"] + (inside if self.pick.random() < 0.7
                else []) + ["}"]

    def post(self, depth):
        made = self.primary(depth)
        while self.pick.random() < 0.1:
            made = made + [".", *self.word()]
        return made + [":", *self.word()] if self.pick.random() < 0.1 else made

    def operation(self, depth):
        symbol = [self.pick.choice(SYMBOLS)]
        kind = self.pick.randint(0, 7)
        if kind == 0:
            return symbol + self.post(depth)
        if kind == 1:
            return self.post(depth) + symbol
        made = self.post(depth)
        while kind < 5 and self.pick.random() < 0.5:
            made = made + (symbol if self.pick.random() < 0.9 else [self.pick.choice(SYMBOLS)]) + self.post(depth)
        return made

    def chain(self, depth, links, part):
        link, made = self.pick.choice(links), part(depth)
        while self.pick.random() < 0.2:
            made = made + [link if self.pick.random() < 0.9 else self.pick.choice(links)] + part(depth)
        return made

    def term(self, depth=2):
        if depth and self.pick.random() < 0.08:
            return ["if"] + self.term(depth - 1) + ["then"] + self.term(depth - 1) + ["else"] + self.term(depth - 1)
        return self.chain(depth, CONNECTIVES, lambda d: self.chain(d, ["=", "~="], self.operation))

    def equation(self):
        if self.pick.random() < self.long:
            return [self.pick.choice(LONG)]
        return self.term() + (["=="] + self.term() if self.pick.random() < 0.4 else [])

    def form(self):
        symbol = self.pick.choice(SYMBOLS)
        return self.pick.choice([
            self.word(), [symbol], ["__", symbol, "__"], [symbol, "__"], ["__", symbol], [".", *self.word()],
            ["__", ".", *self.word()], ["[", "__", ",", "__", "]"], ["{", "}"], ["__", "[", "__", "]"],
            ["{", "__", "]"]])

    def reference(self):
        made = self.form()
        if self.pick.random() < 0.3:
            domain = self.word() if self.pick.random() < 0.7 else []
            while domain and self.pick.random() < 0.3:
                domain = domain + [","] + self.word()
            made = made + [":"] + domain + ["->"] + self.word()
        return made

    def fact(self):
        name = [self.pick.choice("ALHDALHDBa") + self.pick.choice(NUMBERS[:5] if self.pick.random() < 0.8 else NUMBERS)]
        return name + [".", *self.number()] if self.pick.random() < 0.3 else name

    def label(self):
        return ["duty", self.pick.choice(["assume", "imply", "convert", "implies"]), ".", *self.number()]

    def names(self):
        made = self.word()
        while self.pick.random() < 0.4:
            made = made + [","] + self.word()
        return made

    def instances(self):
        made = self.word() + ["by"] + self.term()
        while self.pick.random() < 0.4:
            made = made + [","] + self.word() + ["by"] + self.term()
        return made

    def command(self):
        dash = "-"
        kinds = [
            lambda: ["declare", self.pick.choice(["variable", "variables"])] + self.names() + [":"] + self.word(),
            lambda: ["set", "rewriting", dash, "limit"] + self.number(),
            lambda: ["set", "box", dash, "checking", self.pick.choice(["on", "off", "yes"])],
            lambda: ["register", "height"] + self.reference() + [">"] + self.reference(),
            lambda: ["register", "status"] + self.pick.choice(
                [["multiset"], ["left", "-", "to", "-", "right"], ["right", "-", "to", "-", "left"],
                 ["left", "-", "to", "-", "left"]])
            + self.reference(),
            lambda: ["prove"] + self.equation(),
            lambda: ["resume", "by", "cases"] + self.equation(),
            lambda: ["resume", "by", self.pick.choice(["=>", "/\\", "contradiction", "partition", "\\/", "cases"])],
            lambda: ["resume", "by", "induction", "on"] + self.word(),
            lambda: ["instantiate"] + self.instances() + ["in"] + self.fact(),
            lambda: ["critical", dash, "pairs"] + self.fact() + ["with"] + self.fact(),
            lambda: ["normalize"] + self.fact(),
            lambda: ["qed"],
        ]
        return self.pick.choice(kinds)()

    def spaced(self, tokens):
        """The tokens as a line: apart where they have to be, and now and then where they don't."""
        line, before = "", ""
        for token in tokens:
            apart = before[-1:].isalnum() and token[:1].isalnum() or before[-1:] in "'_" or token[:1] in "'_"
            joins = set(before[-1:] + token[:1]) & set("!#$&*+-/<>=?@^|~\\") and before[-1:] in "!#$&*+-/<>=?@^|~\\"
            dashed = before == "-" or token == "-"
            if line and (apart or joins and not dashed or self.pick.random() < (0.2 if dashed else 0.7)):
                line += self.pick.choice([" ", " ", " ", "  ", "\t", "\r"])
            line, before = line + token, token
        return line

    def mutated(self, line):
        for _ in range(self.pick.randint(1, 2)):
            at = self.pick.randint(0, len(line))
            kind = self.pick.randint(0, 3)
            if kind == 0:
                line = line[:at] + self.pick.choice(SOUP) + line[at:]
            elif kind == 1:
                line = line[:at] + line[at + self.pick.randint(1, 3):]
            elif kind == 2:
                line = line[:at] + line[max(0, at - self.pick.randint(1, 6)):]
            else:
                line = line[:at] + self.pick.choice(SOUP) + line[at + 1:]
        return line

    def line(self, changed):
        kind = self.pick.random()
        if kind < 0.08:
            made = self.pick.choice(["", "  ", "\t\r", "% words _ \\ \x80", " %"])
        elif kind < 0.18:
            made = self.pick.choice(["[]", "<>", " []", "\t<>", "[ ]", "< >", "<>[]", "[]]", "<>="])
            made += "".join(self.pick.choice(SOUP[:-7]) for _ in range(self.pick.randint(0, 3))).replace("\n", "")
        elif kind < 0.3:
            made = self.spaced(self.label())
        else:
            made = self.spaced(self.command())
        if self.pick.random() < 0.15:
            made = self.pick.choice([" ", "  ", "\t"]) + made
        if self.pick.random() < 0.1:
            made += self.pick.choice([" % behind", "% \xe9_\\", " ", "\r", " x", " ,"])
        return self.mutated(made) if changed and self.pick.random() < 0.6 else made

    def script(self, changed):
        lines = [self.line(changed) for _ in range(self.pick.randint(0, 12))]
        return "\n".join(lines) + self.pick.choice(["", "\n"])


class Printer:
    """Prints what the reference reads as the program prints it."""

    def pos(self, pos):
        return f"{pos[0]}:{pos[1]}"

    def word(self, word):
        return f" |{word.name}|{self.pos(word.pos)}"

    def words(self, words):
        return " (" + "".join(map(self.word, words)) + ")"

    def reference(self, reference):
        form = reference.form
        made = " (" + self.word(form) + (" word" if form.word else " form") + f" {form.markers}"
        if reference.sig is not None:
            made += self.words(reference.sig.domain) + self.word(reference.sig.range)
        return made + ")"

    def term(self, term):
        if hasattr(term, "args"):
            return " (" + self.word(term) + "".join(map(self.term, term.args)) + ")"
        return f" (:{self.pos(term.pos)}" + self.term(term.term) + self.word(term.sort) + ")"

    def equation(self, equation):
        made = f" {self.pos(equation.first)}" + self.term(equation.left)
        if equation.right is not None:
            made += f" =={self.pos(equation.right.pos)}" + self.term(equation.right.term)
        return made

    def fact(self, fact):
        return f" {fact[0]} {fact[1]} {fact[2]}"

    def kind(self, kind):
        name, parts = kind[0], kind[1:]
        if name == "declare":
            return f" declare {' '.join(parts[0])} : {parts[1]}"
        if name == "limit":
            return f" limit {parts[0]}"
        if name in ("boxes", "mark"):
            return f" {name} " + ("yes" if parts[0] else "no")
        if name == "height":
            return " height" + self.reference(parts[0]) + self.reference(parts[1])
        if name == "status":
            return f" status {parts[0]}" + self.reference(parts[1])
        if name in ("prove", "cases"):
            return f" {name}" + self.equation(parts[0])
        if name == "induction":
            return f" induction {parts[0]}"
        if name == "instantiate":
            return " instantiate (" + "".join(f" {n}" + self.equation(t) for n,
                                              t in parts[0]) + ")" + self.fact(parts[1])
        if name in ("pairs", "normalize"):
            return f" {name}" + "".join(map(self.fact, parts))
        return f" {name}" + "".join(f" {part}" for part in parts)

    def commands(self, commands):
        return "".join(f" {command.line}{self.kind(command.kind)}\n" for command in commands)

    def script(self, script):
        made = self.commands(script.preamble)
        for block in script.blocks:
            made += f"block {block.line} {block.label[0]}.{block.label[1]}\n" + self.commands(block.commands)
        return made


def kinds_of(answer):
    """The kinds of the lines of an answer."""
    for line in answer.splitlines():
        words = line.split(" ")
        yield "block" if words[0] == "block" else " ".join(words[2:4]) if words[2] in ("bad", "mark", "boxes",
                "status") else words[2]


def main():
    words = comparing.words_of(__doc__, 2000, "program", "reference")
    words.add_argument("--short", action="store_true")
    said = words.parse_args()
    read_script = comparing.module_of(said.reference, "script").read_script
    writer, printer = Writer(comparing.choices(said.seed), 0 if said.short else 0.002), Printer()
    scripts = [writer.script(i % 2 == 1).replace("\0", "") for i in range(said.count)]
    answers = [answer.decode("latin-1")
               for answer in comparing.answers(said.program, [s.encode("latin-1") for s in scripts])]
    counted, differences = collections.Counter(), comparing.Differences(".txt", abs(len(answers) - len(scripts)))
    for script, answer in zip(scripts, answers):
        wanted = printer.script(read_script(script, False))
        counted.update(kinds_of(wanted))
        differences.look(script, answer, wanted)
    print(", ".join(f"{kind} {count}" for kind, count in sorted(counted.items())))
    return differences.end(said.count)


if __name__ == "__main__":
    sys.exit(main())
