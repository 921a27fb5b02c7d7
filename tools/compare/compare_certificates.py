#!/usr/bin/env python3
"""Compares two readers and printers of certificates on random and mutated texts.

    compare_certificates.py PROGRAM OTHER [--count N] [--seed N]

PROGRAM and OTHER are commands, in quotes where they have words of their own. Each is run once; its input is all texts
with a byte 0 between any two, and it prints for each the certificate in the first version, or `malformed at line N`,
with a byte 0 behind it, as `larch_certificate_table` does. The texts are of both versions: lines of all rules with
random terms, equations of bare connectives, and the same with bytes and words taken out, put in, doubled or changed,
with zeros, signs and blanks put in, or cut short. The seed is printed first. A text on which the two differ is written
to a file that the output names. Ends with 'N passed, N failed', and status 1 where one failed.
"""
import sys

import comparing

WORDS = ["x", "y", "S", "N", "x'", "f_1", "0", "12", "if", "Bool", "trait"]
BUILT_IN = ["true", "false", "if", "~", "/\\", "\\/", "=>", "<=>", "=", "~="]
SOUP = ["0", "-", "+", "+0", "=", "==", "~", "~=", " ", "  ", "\n", "\n\n", "(", ")", ",", ";", ":", ".", "|", "#", "@",
        "#1", "@1.1", "x:S", "00", "18446744073709551615", "18446744073709551616", "line=", "by=", "term=", "box=",
        ">Bool",
        ">", ">S", "->Bool", "#0", "ops=", "goal=", "lines=", "sort=", "observe", "generated", "partitioned",
        "certificate 2", "certificate 1", "\r", "\t", "_", "'", "\x01", "done", "axiom"]


class Writer:
    """The parts of one line, as its version spells them."""

    def __init__(self, pick, second, line):
        self.pick, self.second, self.line = pick, second, line

    def number(self):
        return str(self.pick.choice([0, 1, 2, 3, 7, 10, 40, 2 ** 64 - 1, 2 ** 63]))

    def ref(self):
        named = self.pick.choice([0, 1, 2, 3, self.line, self.line + 1, self.line + 5, max(0, self.line - 1)])
        if not self.second:
            return str(named)
        return str(self.line - named) if named <= self.line else "+" + str(named - self.line)

    def symbol(self):
        kind = self.pick.randint(0, 3)
        if kind == 0:
            return "#" + self.number()
        if kind == 1:
            return "@" + self.ref() + "." + self.number()
        return self.pick.choice(BUILT_IN)

    def variable(self):
        return self.pick.choice(WORDS) + ":" + self.pick.choice(WORDS)

    def term(self, depth=3):
        if depth == 0 or self.pick.random() < 0.4:
            return self.variable() if self.pick.random() < 0.4 else self.symbol()
        count = self.pick.randint(1, 3)
        return self.symbol() + "(" + ",".join(self.term(depth - 1) for _ in range(count)) + ")"

    def equation(self):
        if self.pick.random() < 0.3:
            return self.pick.choice(BUILT_IN) + "==" + self.pick.choice(BUILT_IN + ["x:S", "=(x:S)", "~=(~,=)"])
        return self.term() + "==" + self.term()

    def some(self, item, separator):
        return separator.join(item() for _ in range(self.pick.randint(0, 3))) or "-"

    def place(self):
        return self.some(lambda: str(self.pick.randint(1, 12)), ".")

    def bindings(self):
        return self.some(lambda: self.variable() + "=" + self.term(), ";")

    def operators(self):
        return self.some(lambda: "#" + self.number(), ",")

    def box_part(self):
        return self.pick.choice(WORDS) + self.pick.choice(["", ">Bool"])

    def rule(self):
        sort, ref, number = (lambda: self.pick.choice(WORDS)), self.ref, self.number
        return self.pick.choice([
            ("axiom", [("statement", number)]), ("hyp", [("box", ref), ("number", number)]),
            ("row", [("number", number)]), ("row", [("number", number), ("sort", sort)]),
            ("refl", [("term", self.term)]), ("sym", [("line", ref)]),
            ("inst", [("line", ref), ("by", self.bindings)]),
            ("repl", [("line", ref), ("at", self.place), ("with", ref)]), ("equal", [("line", ref)]),
            ("box", [("sorts", lambda: self.some(self.box_part, ",")),
                     ("hyps", lambda: self.some(self.equation, ";"))]),
            ("done", []), ("fresh", [("box", ref), ("by", lambda: self.some(self.variable, ";"))]),
            ("cases", [("true", ref), ("false", ref)]),
            ("induct", [("line", ref), ("var", self.variable), ("goal", self.equation),
                        ("boxes", lambda: self.some(ref, ","))]),
            ("observe", [("line", ref), ("goal", self.equation), ("lines", lambda: self.some(ref, ","))]),
            ("generated", [("box", ref), ("sort", sort), ("ops", self.operators)]),
            ("partitioned", [("box", ref), ("sort", sort), ("ops", self.operators)]),
        ])

    def text(self):
        word, parts = self.rule()
        spelled = [(name + "=" if self.second else "") + part() for name, part in parts]
        if word == "box" and not self.second:
            spelled.insert(1, "|")
        return " ".join(([] if self.second else [str(self.line)]) + [word] + spelled)


def certificate(pick):
    second = pick.random() < 0.5
    lines = [Writer(pick, second, line).text() for line in range(1, pick.randint(0, 8) + 1)]
    return "".join(line + "\n" for line in ["certificate 2" if second else "certificate 1"] + lines)


def mutated(pick, text):
    for _ in range(pick.choice([0, 1, 1, 1, 2, 4])):
        place = pick.randint(0, len(text))
        change = pick.randint(0, 4)
        if change == 0:
            text = text[:place] + text[place + pick.randint(1, 2):]
        elif change == 1:
            text = text[:place] + pick.choice(SOUP) + text[place:]
        elif change == 2:
            text = text[:place] + text[place:place + 1] + text[place:]
        elif change == 3:
            text = text[:place] + pick.choice(SOUP) + text[place + 1:]
        elif pick.random() < 0.1:
            text = text[:place]
    return text.replace("\0", "")


def main():
    said = comparing.words_of(__doc__, 20000, "program", "other").parse_args()
    pick = comparing.choices(said.seed)
    texts = ["", "certificate 1\n", "certificate 1", "certificate 2\n"]
    texts += [mutated(pick, certificate(pick)) for _ in range(said.count - len(texts))]
    given = [text.encode() for text in texts]
    left, right = comparing.answers(said.program, given), comparing.answers(said.other, given)
    differences = comparing.Differences(".cert", abs(len(left) - len(right)))
    for text, ours, theirs in zip(texts, left, right):
        differences.look(text, ours, theirs)
    whole = sum(answer.startswith(b"certificate") for answer in left)
    print(f"{whole} certificates and {len(left) - whole} refusals")
    sys.exit(differences.end(len(texts)))


if __name__ == "__main__":
    main()
