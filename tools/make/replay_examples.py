#!/usr/bin/env python3
"""Writes examples of replays for the definitions of the prover, with the outcomes that another reading of the language
computes.

    tools/make/replay_examples.py rows EVALUATOR   the kept examples: specs and contracts of
                                                   crates/larch_prove_examples
    tools/make/replay_examples.py random EVALUATOR SEED COUNT [--small | --wide]
                                                   random blocks as lemmas,
                                                   crates/larch_prove_examples/proofs/Random.antt;
                                                   with --small under rewriting limits from 1 to 8, so that many
                                                   are refused with LIMIT, with --wide over traits whose terms grow,
                                                   so that many are refused with SIZE

EVALUATOR is FOLDER:PACKAGE, a Python package that is no part of this repository: its modules base, syntax, traits,
duties, script, prove and session read traits and scripts and say what each block comes to. `rows` is run where a worked
example changes; what it writes is kept, and the gate evaluates it by the definitions alone. `random` is no part of the
gate: run it, check the crate, see that each lemma holds, and delete the file. It prints how often each command, code
and outcome came up.
"""
import collections
import importlib
import os
import random
import re
import sys

ROOT = os.path.dirname(os.path.dirname(os.path.dirname(os.path.abspath(__file__))))
CRATE = os.path.join(ROOT, "crates", "larch_prove_examples")
WIDTH = 118


# ---- what is written: an expression is a text, or a head with arguments, or a list, or a record

class Call:
    def __init__(self, head, *arguments):
        self.head, self.arguments = head, arguments


class Items:
    def __init__(self, items):
        self.items = list(items)


class Record:
    def __init__(self, **fields):
        self.fields = fields


def flat(e, inside=False):
    """An expression on one line."""
    if isinstance(e, str):
        return e
    if isinstance(e, Items):
        text = " ∷ ".join([flat(i) for i in e.items] + ["[]"])
        return f"({text})" if inside and e.items else text
    if isinstance(e, Record):
        return "record { " + "; ".join(f"{k} = {flat(v)}" for k,
                                       v in e.fields.items()) + " }" if not inside else f"({flat(e)})"
    if not e.arguments:
        return e.head
    text = " ".join([e.head] + [flat(a, True) for a in e.arguments])
    return f"({text})" if inside else text


def laid_out(e, indent, inside=False, ahead=0, behind=0):
    """An expression, broken where it is too long for a line; `ahead` and `behind` are taken on its first and last."""
    text = flat(e, inside)
    if indent + ahead + len(text) + behind <= WIDTH or isinstance(e, str):
        return text
    pad = " " * indent
    if isinstance(e, Items):
        lines = []
        for n, i in enumerate(e.items):
            lines.append(laid_out(i, indent, ahead=0 if n else ahead, behind=3))
        body = f" ∷\n{pad}".join(lines + ["[]"])
        return f"({body})" if inside else body
    if isinstance(e, Record):
        body = "".join(f"\n{pad}  {k} = {laid_out(v, indent + 2, ahead=len(k) + 3, behind=1)};" for k,
                       v in e.fields.items())
        body = "record {" + body + f"\n{pad}}}"
        return f"({body})" if inside else body
    body = e.head
    for a in e.arguments:
        one = flat(a, True)
        if isinstance(a, str) or indent + 2 + len(one) <= WIDTH:
            body += f"\n{pad}  {one}"
        else:
            body += f"\n{pad}  {laid_out(a, indent + 2, True)}"
    return f"({body})" if inside else body


def codes(text):
    return Call("codes", '"' + text.replace("\\", "\\\\").replace('"', '\\"') + '"')


SPELLED = {"{}": "braces", "+": "plus", "*": "times", "\\in": "in", "0": "nought", "[]": "brackets", "-": "minus",
           "<": "less", ".": "dot", "'": "copy", "!": "bang"}


def word_for(name):
    """A name of a definition for an operator's name."""
    parts = []
    for piece in re.findall(r"[A-Za-z0-9]+|\\\w+|[^\sA-Za-z0-9_]+", name.replace("__", " ")):
        parts.append(piece if re.fullmatch("[A-Za-z][A-Za-z0-9]*", piece)
                     else SPELLED.get(piece, f"sign{sum(map(ord, piece))}"))
    return "_".join(parts) or "nameless"


BUILT_IN = {"true": "True", "false": "False", "~ __": "Not", "__ /\\ __": "And", "__ \\/ __": "Or",
            "__ => __": "Implies",
            "__ <=> __": "Iff", "__ = __": "Equal", "__ ~= __": "Unequal", "if __ then __ else __": "If"}


class Writer:
    """What the traits and blocks of one trait are called, and the definitions that they need."""

    def __init__(self, larch, prefix):
        self.larch, self.prefix = larch, prefix
        self.operators, self.definitions, self.used = {}, [], set()

    def operator(self, o):
        if self.larch.is_built_in(o):
            kind = BUILT_IN[o.name]
            sort = "bool_sort" if not o.domain or o.domain[-1] == "Bool" else None
            return Call("built_in", kind, sort or codes(o.domain[-1]))
        if o not in self.operators:
            name = f"{self.prefix}_{word_for(o.name)}"
            while name in self.used:
                name += "_too"
            self.used.add(name)
            self.operators[o] = name
            value = Record(name=Call("plain", codes(o.name)), domain=Items(codes(d) for d in o.domain),
                           range=codes(o.range))
            self.definitions.append((None, name, "PlainOperator", value))
        return self.operators[o]

    def term(self, t):
        if isinstance(t, self.larch.base.Var):
            return Call("var", codes(t.name), codes(t.sort))
        if self.larch.is_built_in(t.op) and t.op.name == "true":
            return "truth"
        head = self.operator(t.op)
        arguments = [self.term(a) for a in t.args]
        if len(arguments) <= 2:
            return Call(["constant", "apply_one", "apply_two"][len(arguments)], head, *arguments)
        return Call("app", head, Call("forest_of", Items(arguments)))

    def statement(self, s):
        if isinstance(s, self.larch.base.Equation):
            return Call("Equation", self.term(s.left), self.term(s.right))
        kind = "Generated" if isinstance(s, self.larch.base.Generated) else "Partitioned"
        return Call(kind, codes(s.sort), Items(self.operator(o) for o in s.ops))

    def raw(self, r):
        if isinstance(r, self.larch.syntax.Qualified):
            return Call("said_of", self.raw(r.term), codes(r.sort.name))
        return Call("said", codes(r.name), Items(self.raw(a) for a in r.args))

    def equation(self, e):
        if e.right is None:
            return Call("lone", self.raw(e.left))
        return Call("equal", self.raw(e.left), self.raw(e.right.term))

    def word(self, text):
        return Call("word", codes(text))

    def reference(self, r):
        form = Call("form", codes(r.form.name), str(r.form.word).lower(), str(r.form.markers))
        if r.sig is None:
            return Call("by_name", form)
        return Call("by_signature", form, Items(self.word(w.name) for w in r.sig.domain), self.word(r.sig.range.name))

    def fact(self, f):
        letter = {"A": "Axiom", "L": "Lemma", "H": "Hypothesis", "D": "Derived"}[f[0]]
        if f[2] == 1:
            return Call("whole_name", letter, str(f[1]))
        return Record(letter=letter, number=str(f[1]), part=str(f[2]))

    def code(self, c):
        return "refusal." + "".join(w.capitalize() for w in c.split("-"))

    def command(self, kind):
        k = kind[0]
        plain = {"=>": "Implication", "/\\": "Conjunction", "contradiction": "Contradiction",
                 "partition": "Partition", "qed": "Qed"}
        if k in plain:
            return f"command.{plain[k]}"
        if k == "declare":
            return Call("command.Declare", Items(self.word(n) for n in kind[1]), self.word(kind[2]))
        if k == "limit":
            return Call("command.Limit", str(kind[1]))
        if k == "boxes":
            return Call("command.BoxChecking", str(kind[1]).lower())
        if k == "height":
            return Call("command.Height", self.reference(kind[1]), self.reference(kind[2]))
        if k == "status":
            way = {"left-to-right": "LeftToRight", "right-to-left": "RightToLeft", "multiset": "Multiset"}[kind[1]]
            return Call("command.Status", way, self.reference(kind[2]))
        if k == "prove":
            return Call("command.Prove", self.equation(kind[1]))
        if k == "cases":
            return Call("command.Cases", self.equation(kind[1]))
        if k == "induction":
            return Call("command.Induction", self.word(kind[1]))
        if k == "instantiate":
            pairs = Items(Call("instead", codes(n), self.raw(e.left)) for n, e in kind[1])
            return Call("command.Instantiate", pairs, self.fact(kind[2]))
        if k == "pairs":
            return Call("command.CriticalPairs", self.fact(kind[1]), self.fact(kind[2]))
        if k == "normalize":
            return Call("command.Normalize", self.fact(kind[1]))
        if k == "mark":
            return Call("command.Mark", str(kind[1]).lower())
        if k == "bad":
            return Call("command.Bad", self.code(kind[1]))
        raise ValueError(k)

    def commands(self, commands):
        """Commands in order, a hundred or more equal ones as a repetition."""
        found = [self.command(c.kind) for c in commands]
        if len(found) > 100 and len({flat(f) for f in found[:-1]}) == 1:
            return f"(repeat {len(found) - 1} {flat(Items(found[:1]), True)} ++ {flat(Items(found[-1:]), True)})"
        return Items(found)

    def outcome(self, o):
        if o[0] == "proved":
            return "Proved"
        if o[0] == "suspended":
            return Call("Suspended", str(o[1]), self.term(o[2]))
        place = {"preamble": "InPreamble", "opening": "AtOpening", "command": "AtCommand"}[o[1][0]]
        place = Call(place, *(str(n) for n in o[1][1:]))
        return Call("Refused", Record(place=place, code=self.code(o[2])))

    def lemmas(self, lemmas):
        return Items(Record(number=str(l.number), statement=self.statement(l.statement)) for l in lemmas)

    def theory(self, t, name, comment):
        value = Record(operators=Items(self.operator(o) for o in t.operators),
                       statements=Items(self.statement(s) for s in t.statements))
        self.definitions.append((comment, name, "Theory", value))
        return name


class Larch:
    """The other reading."""

    def __init__(self, evaluator):
        folder, package = evaluator.rsplit(":", 1)
        sys.path.insert(0, folder)
        modules = ("base", "duties", "prove", "script", "session", "syntax", "traits")
        self.base, self.duties, self.prove, self.script, self.session, self.syntax, self.traits = (
            importlib.import_module(f"{package}.{module}") for module in modules)

    def is_built_in(self, o):
        if o.name not in BUILT_IN:
            return False
        if o.name == "if __ then __ else __":
            return len(o.domain) == 3 and o.domain[0] == "Bool" and o.domain[1] == o.domain[2] == o.range
        if o.range != "Bool":
            return False
        if o.name in ("__ = __", "__ ~= __"):
            return len(o.domain) == 2 and o.domain[0] == o.domain[1]
        return len(o.domain) == {"true": 0, "false": 0, "~ __": 1}.get(o.name, 2) and all(d == "Bool" for d in o.domain)

    def evaluate(self, files, limit):
        return self.session.evaluate(files, limit, ac=False)


def definition(comment, name, kind, value):
    head = f"abbrev pub {name} : {kind}\n"
    one = f"{name} = {flat(value)}"
    if len(one) > WIDTH:
        one = f"{name} = {laid_out(value, 0, ahead=len(name) + 3)}" if isinstance(value,
                Record) else f"{name} =\n    {laid_out(value, 4)}"
    return (f"-- {comment}\n" if comment else "") + head + one + "\n"


# ---- the kept examples

TRUTHS = "Truths: trait\n introduces f: Bool -> Bool\n asserts f(true); f(false)\n implies \\forall b: Bool f(b)\n"

NUMBERS = """Numbers: trait
  introduces
    0: -> N
    s: N -> N
    __ + __: N, N -> N
  asserts
    N generated by 0, s
    \\forall x, y: N
      x + 0 == x;
      x + s(y) == s(x + y)
  implies
"""
SUMS = NUMBERS + """    \\forall x, y: N
      0 + x == x;
      s(x) + y == s(x + y);
      x + y == y + x
"""
THREE = NUMBERS.replace("Numbers", "Three") + "    s(0) + s(s(0)) == s(s(s(0)))\n"

STEPS = """Steps: trait
  introduces
    0: -> N
    s, p: N -> N
  asserts
    N generated by 0, s
    \\forall x: N p(x) == s(x)
  implies
    N generated by 0, p
"""

SETS = """Sets: trait
  introduces
    {}: -> C
    insert: E, C -> C
    __ \\in __: E, C -> Bool
  asserts
    C generated by {}, insert
    C partitioned by \\in
    \\forall e, e1, e2: E, s: C
      ~(e \\in {});
      e1 \\in insert(e2, s) == e1 = e2 \\/ e1 \\in s
  implies
    \\forall e: E, s: C
      ~(insert(e, s) = {});
      insert(e, insert(e, s)) == insert(e, s)
"""

TABLES = """Tables: trait
  introduces
    new: -> Tab
    add: Tab, Ind, Val -> Tab
    __ \\in __: Ind, Tab -> Bool
    lookup: Tab, Ind -> Val
    isEmpty: Tab -> Bool
  asserts
    Tab generated by new, add
    \\forall i, j: Ind, v: Val, t: Tab
      ~(i \\in new);
      i \\in add(t, j, v) == i = j \\/ i \\in t;
      lookup(add(t, j, v), i) == if i = j then v else lookup(t, i);
      isEmpty(new);
      ~isEmpty(add(t, j, v))
  implies
    \\forall i: Ind, t: Tab
      i \\in t => ~isEmpty(t)
  converts isEmpty, lookup exempting \\forall i: Ind lookup(new, i)
"""

TOTAL = "Total: trait\n introduces le: E, E -> Bool\n asserts \\forall x: E le(x, x)\n"
SORTER = "Sorter: trait\n assumes Total\n"
USER = "User: trait\n includes Sorter\n introduces le: E, E -> Bool\n asserts \\forall y: E le(y, y)\n"

SHAPES = """Shapes: trait
  introduces
    tip: -> T
    up, mirror: T -> T
    join: T, T -> T
  asserts
    T generated by tip, up, join
    \\forall t, u: T
      mirror(tip) == tip;
      mirror(up(t)) == up(mirror(t));
      mirror(join(t, u)) == join(mirror(u), mirror(t))
  implies
    \\forall t: T mirror(t) == t
"""

DOUBLES = """Doubles: trait
  introduces
    0, c: -> N
    s: N -> N
    p, f: N, N -> N
  asserts
    \\forall x, y: N f(s(x), y) == f(x, p(y, y))
  implies
    f(DEEP, c) == c
"""


def doubles(n):
    return DOUBLES.replace("DEEP", "s(" * n + "0" + ")" * n)


# the name of the contract, what it says, the trait, the other traits, the duty, the preamble and the block
ROWS = [
    ("an_open_goal_is_suspended", "Neither fact says what `f(b)` is: one goal stays open.", TRUTHS, [], "imply.1", "",
     ""),
    ("cases_close_it", "By cases on `b`, each fact proves one goal.", TRUTHS, [], "imply.1", "",
     "resume by cases b\nqed"),
    ("an_implication_is_wanted", "`=>` is refused where the goal is no implication.", TRUTHS, [], "imply.1", "",
     "resume by =>\nqed"),
    ("induction_on_numbers", "Zero on the left: by induction.", SUMS, [], "imply.1", "", "resume by induction on x"),
    ("induction_with_a_lemma", "Successor on the left: by induction, with the first duty as a lemma.", SUMS, [],
     "imply.2", "",
     "resume by induction on y"),
    ("a_hypothesis_is_instantiated",
     "Sums can be exchanged: by induction, then by contradiction, with an instance of a "
     "hypothesis.", SUMS, [], "imply.3", "",
     "resume by induction on y\nresume by contradiction\ninstantiate x by xc in H1\nnormalize H2\nqed"),
    ("the_wrong_variable_is_suspended", "By induction on the other variable two goals stay open.", SUMS, [], "imply.2",
     "",
     "resume by induction on x"),
    ("qed_wants_all_proved", "`qed` is refused while a goal is open.", SUMS, [], "imply.2", "",
     "resume by induction on x\nqed"),
    ("a_limit_is_passed", "Four applications are one too many under a limit of three.", THREE, [], "imply.1",
     "set rewriting-limit 3", ""),
    ("a_limit_is_met", "A limit of four lets them be.", THREE, [], "imply.1", "set rewriting-limit 4", ""),
    ("a_generation_is_proved", "A sort is generated by other operators, by induction on its values.", STEPS, [],
     "imply.1", "",
     "resume by induction on x\ninstantiate x1 by xc in H2\nqed"),
    ("a_critical_pair_contradicts",
     "A set with a member is no empty one: a critical pair of a fact and the hypothesis.", SETS,
     [], "imply.1", "", "resume by contradiction\ncritical-pairs A4 with H1\ninstantiate v1 by ec in D1\nqed"),
    ("observers_show_the_same", "Inserting twice: by partition, then by cases.", SETS, [], "imply.2", "",
     "resume by partition\nresume by cases ac = e\nqed"),
    ("a_table_without_a_proof", "An implied statement with an empty block.", TABLES, [], "imply.1", "", ""),
    ("a_conversion_without_a_proof", "A converted operator and its copy, with an empty block.", TABLES, [], "convert.2",
     "", ""),
    ("marks_in_order", "Marks where they wait, boxes being checked.", TABLES, [], "imply.1", "set box-checking on",
     "resume by induction on t\n<> basis\n[] basis\n<> step\n[] step\n[] conjecture\nqed"),
    ("a_mark_out_of_order", "A mark that isn't the next to wait is refused.", TABLES, [], "imply.1",
     "set box-checking on",
     "resume by induction on t\n[] basis"),
    ("marks_unchecked", "The same mark does nothing where boxes aren't checked.", TABLES, [], "imply.1",
     "set box-checking off",
     "resume by induction on t\n[] basis"),
    ("a_mark_is_owed", "While a mark waits, no other command is taken.", TABLES, [], "imply.1", "set box-checking on",
     "resume by induction on t\nqed"),
    ("a_waiting_mark_comes_first", "A mark that waits comes before the end of the proof.", TABLES, [], "imply.1",
     "set box-checking on", "resume by induction on t\nset rewriting-limit 10"),
    ("a_proved_formula_is_a_fact", "What a command proves is a fact of the level below.", SUMS, [], "imply.1", "",
     "prove s(0) + x == s(x)\nresume by induction on x\ninstantiate x by 0 in D1"),
    ("constants_of_all_subgoals_differ", "The constants of a subgoal are new beside those of the one before.", SHAPES,
     [],
     "imply.1", "", "resume by induction on t"),
    ("a_conversion_is_proved", "An operator is converted, by induction.", TABLES, [], "convert.1", "",
     "resume by induction on x1"),
    ("a_conversion_with_a_choice", "Another one, whose definition has a choice.", TABLES, [], "convert.2", "",
     "resume by induction on x1"),
    ("an_assumption_is_discharged", "What an included trait assumes holds in another spelling of its variable.", USER,
     [TOTAL, SORTER], "assume.1", "", ""),
    ("a_term_grows", "Eight doublings leave a term that is small enough.", doubles(8), [], "imply.1", "", ""),
    ("a_term_is_too_large", "Twelve doublings pass 5,000 nodes.", doubles(12), [], "imply.1", "", ""),
]

LOGIC = """Logic: trait
  introduces
    c: -> S
    p, q: S -> Bool
  asserts
    \\forall x: S
      p(x) => q(x)
  implies
    \\forall x: S
      p(x) => (q(x) /\\ p(x));
      (q(x) \\/ ~p(x)) /\\ ((p(x) => q(x)) /\\ (q(c) \\/ ~p(c)))
"""

TURNS = """Turns: trait
  introduces
    f, g: S -> S
    s: S -> S
    h: S, S -> S
    p: S -> Bool
  asserts
    \\forall x, y: S
      f(x) == g(x);
      h(s(x), y) == h(x, s(y))
  implies
    \\forall x, y: S
      p(f(x));
      p(h(s(x), s(y)))
"""

MEETS = """Meets: trait
  introduces
    a, b, c: -> S
    f, k: S -> S
    h: S, S -> Bool
    q: S -> Bool
  asserts
    \\forall x, y: S
      h(f(x), f(y));
      f(a) == b;
      k(x) == x;
      f(f(x)) == x
  implies
    h(b, f(c));
    h(b, k(b))
"""

EMPTIES = """Empties: trait
  introduces
    empty: -> Bag
    empty: -> Set
    card: Bag -> N
    card: Set -> N
  asserts
    N generated by card: Bag -> N, card: Set -> N
  implies
    \\forall b: Bag, n: N
      card(b) = n
"""

DOUBLED = """Doubled: trait
  introduces
    0: -> N
    s: N -> N
    d, t: N -> N
  asserts
    N generated by 0, s
    \\forall x: N
      d(0) == 0;
      d(s(x)) == s(s(d(x)));
      t(0) == 0;
      t(s(x)) == s(s(s(t(x))))
  converts d
  converts t
"""
DOUBLED_AT_ONCE = DOUBLED.replace("Doubled:", "Both:").replace("converts d\n  converts t", "converts d, t")

ROWS += [
    ("an_implication_is_proved", "`=>` supposes the premise of a constant, and the conclusion is the goal.", LOGIC, [],
     "imply.1", "", "resume by =>\ninstantiate x by xc in A1\nqed"),
    ("conjuncts_are_subgoals", "`/\\` opens each conjunct, nested ones taken apart.", LOGIC, [], "imply.2", "",
     "resume by /\\"),
    ("truth_values_are_generated", "Induction on a variable of sort Bool needs no clause.", TRUTHS, [], "imply.1", "",
     "resume by induction on b"),
    ("a_declared_variable_has_a_reading", "What is declared in a block can be named.", SUMS, [], "imply.1", "",
     "declare variables k: N\nprove k + 0 == k\nresume by induction on x\nqed"),
    ("a_name_in_scope_may_be_declared_again", "A name that is in scope may be declared at its sort.", SUMS, [],
     "imply.1", "", "declare variables x, k: N\nresume by induction on x"),
    ("a_proof_may_end_twice", "`qed` and marks may stand behind the end of a proof.", SUMS, [], "imply.1", "",
     "resume by induction on x\nqed\n[] all\nqed"),
]

# the name of the contract, what it says, and for each clause its name, the trait, the duty, the preamble and the block
REFUSALS = [
    ("registered_heights", "By default a fact goes from `g` to `f`; a height of `f` above `g` turns it.", [
        ("default", TURNS, "imply.1", "", ""),
        ("above", TURNS, "imply.1", "register height f > g", ""),
        ("already_above", TURNS, "imply.1", "register height g > f", ""),
        ("behind_it", TURNS, "imply.1", "", "register height f > g\nnormalize A1")]),
    ("registered_statuses", "How an operator compares its arguments decides which side of a fact is the greater one.", [
        ("default", TURNS, "imply.2", "", ""),
        ("left_to_right", TURNS, "imply.2", "register status left-to-right h", ""),
        ("right_to_left", TURNS, "imply.2", "register status right-to-left h", ""),
        ("multiset", TURNS, "imply.2", "register status multiset h: S, S -> S", "")]),
    ("what_is_no_operator", "References name one operator that isn't built in.", [
        ("nothing", TURNS, "imply.1", "", "register height k > f"),
        ("nothing_below", TURNS, "imply.1", "", "register height f > k"),
        ("built_in", TURNS, "imply.1", "", "register height true > f"),
        ("other_sorts", TURNS, "imply.2", "", "register status multiset h: S -> S"),
        ("two", EMPTIES, "imply.1", "", "register status multiset card"),
        ("one_of_two", EMPTIES, "imply.1", "", "register status multiset card: Set -> N")]),
    ("what_is_not_declared", "A name has one sort in scope, which exists, and is no constant of the block.", [
        ("unknown_sort", SUMS, "imply.1", "", "declare variables k: Nowhere"),
        ("other_sort", SUMS, "imply.1", "", "declare variables x: Bool"),
        ("sort_comes_first", SUMS, "imply.1", "", "declare variables x: Nowhere"),
        ("declared_before", SUMS, "imply.1", "", "declare variables k: N\ndeclare variables k: Bool"),
        ("one_of_several", SUMS, "imply.1", "", "declare variables k, x: Bool"),
        ("constant", SUMS, "imply.2", "", "resume by induction on x\ndeclare variables xc: N")]),
    ("what_has_no_reading", "Terms of commands are read by the theory, the scope and the constants of the block.", [
        ("undeclared", SUMS, "imply.1", "", "prove k + 0 == k"),
        ("several", EMPTIES, "imply.1", "", "prove empty = empty"),
        ("qualified", EMPTIES, "imply.1", "", "prove empty: Bag = empty"),
        ("unknown_sort", EMPTIES, "imply.1", "", "prove empty: Nowhere = empty"),
        ("case", EMPTIES, "imply.1", "", "resume by cases card(b) = card(empty)"),
        ("no_formula", SUMS, "imply.1", "", "resume by cases x + 0")]),
    ("shapes_and_clauses", "A method wants a goal of its shape, and induction and partition want a clause.", [
        ("implication", EMPTIES, "imply.1", "", "resume by =>"),
        ("conjunction", EMPTIES, "imply.1", "", "resume by /\\"),
        ("equality", SETS, "imply.1", "", "resume by partition"),
        ("partitioned", EMPTIES, "imply.1", "", "resume by partition"),
        ("variable", EMPTIES, "imply.1", "", "resume by induction on k"),
        ("generated", EMPTIES, "imply.1", "", "resume by induction on b")]),
    ("what_is_not_instantiated", "The fact comes first, and then pair by pair the variable before its term.", [
        ("fact", SETS, "imply.1", "", "instantiate q by e in A9"),
        ("clause", SETS, "imply.1", "", "instantiate e by e in A1"),
        ("variable", SETS, "imply.1", "", "instantiate q by e in A3"),
        ("reading", SETS, "imply.1", "", "instantiate e by undefined in A3"),
        ("other_sort", SETS, "imply.1", "", "instantiate e by {} in A3"),
        ("reading_of_the_first", SETS, "imply.1", "", "instantiate e by undefined, q by e in A3"),
        ("variable_of_the_first", SETS, "imply.1", "", "instantiate q by e, e by undefined in A3"),
        ("twice", SETS, "imply.1", "", "instantiate e by undefined, e by e in A3")]),
    ("facts_by_name", "Facts are those of the current level, by letter, number and part.", [
        ("first_of_pair", SETS, "imply.1", "", "critical-pairs A9 with A3"),
        ("second_of_pair", SETS, "imply.1", "", "critical-pairs A3 with A9"),
        ("number", SETS, "imply.1", "", "normalize A9"),
        ("part", SETS, "imply.1", "", "normalize A3.2"),
        ("first_part", SETS, "imply.1", "", "normalize A3.1"),
        ("letter", SETS, "imply.1", "", "normalize L3"),
        ("taken_out", SETS, "imply.1", "", "normalize A3\nnormalize A3")]),
    ("pairs_in_turn", "Pairs are added until the goal is proved; of one fact the root is left out.", [
        ("proved_by_the_first", MEETS, "imply.1", "", "critical-pairs A1 with A2"),
        ("rest_takes_no_number", MEETS, "imply.1", "",
         "resume by cases q(c)\ncritical-pairs A1 with A2\ninstantiate x by c in A3\nnormalize D2"),
        ("each_takes_a_number", MEETS, "imply.2", "", "critical-pairs A1 with A2\nnormalize D2"),
        ("no_more", MEETS, "imply.2", "", "critical-pairs A1 with A2\nnormalize D3"),
        ("without_the_root", MEETS, "imply.2", "",
         "critical-pairs A4 with A4\ncritical-pairs A1 with A2\nnormalize D2")]),
]

# the same, of what comes first
ORDER = [
    ("what_comes_first", "Of two refusals of a command this one is told.", [
        ("line_before_mark", SUMS, "imply.1", "set box-checking on", "resume by induction on x\nwhat"),
        ("line_before_end", SUMS, "imply.1", "", 'resume by induction on x\nprove x " y'),
        ("end_before_setting", SUMS, "imply.1", "", "resume by induction on x\nset rewriting-limit 5"),
        ("end_before_unchecking", SUMS, "imply.1", "", "resume by induction on x\nset box-checking off"),
        ("end_before_reading", SUMS, "imply.1", "", "resume by induction on x\nresume by cases undefined"),
        ("mark_before_reading", TABLES, "imply.1", "set box-checking on",
         "resume by cases i \\in t\nresume by cases undefined"),
        ("mark_before_open", TABLES, "imply.1", "set box-checking on", "resume by cases i \\in t\nqed"),
        ("unchecking_where_marks_wait", TABLES, "imply.1", "set box-checking on",
         "resume by induction on t\nset box-checking off"),
        ("limit_before_size", doubles(12), "imply.1", "set rewriting-limit 11", "")]),
    ("at_most_a_thousand_commands", "The 1,001st command of a block is SIZE, before a mark that is out of place.", [
        ("last", TRUTHS, "imply.1", "", "set rewriting-limit 7\n" * 999 + "set rewriting-limit 8"),
        ("one_more", TRUTHS, "imply.1", "set box-checking on", "set rewriting-limit 7\n" * 1000 + "[] none")]),
    ("preambles", "Only declarations, settings and registrations stand in a preamble.", [
        ("declared", SUMS, "imply.1", "declare variables k: N", "prove k + 0 == k"),
        ("goal_comes_first", SUMS, "imply.1", "declare variables x: Bool", "declare variables x: Bool"),
        ("end", SUMS, "imply.1", "qed", ""),
        ("formula", SUMS, "imply.1", "set rewriting-limit 5\nprove 0 == 0", ""),
        ("mark", SUMS, "imply.1", "set box-checking on\n[] none", ""),
        ("line", SUMS, "imply.1", "what", ""),
        ("bytes", SUMS, "imply.1", 'prove x " y', ""),
        ("sort", SUMS, "imply.1", "declare variables k: N\ndeclare variables k: Nowhere", ""),
        ("operator", SUMS, "imply.1", "register height zero > s", "")]),
]

FIRST_SCRIPT = """duty imply.1
  resume by induction on x
duty imply.2
  resume by induction on y
duty imply.3
  resume by induction on y
  resume by contradiction
  instantiate x by xc in H1
  normalize H2
qed
"""
SECOND_SCRIPT = FIRST_SCRIPT.replace("imply.2\n  resume by induction on y", "imply.2\n  resume by induction on x")
SLOW_SCRIPT = "set rewriting-limit 3\nduty imply.1\n"
FAULTY_SCRIPT = """duty imply.9
qed
duty imply.1
  resume by cases undefined
duty imply.1
duty convert.7
"""
UNREADY_SCRIPT = "% a remark\nset rewriting-limit 5\nqed\n"
OTHER_CLAUSE = "duty convert.1\nresume by induction on x1\nduty convert.2\nnormalize L1\n"

# the name of the contract, what it says, and for each clause its name (none where it is the only one), the trait and
# its script
REPORTS = [
    ("a_session_of_two_reports", "Sums are proved; behind an edit of the second block the third has no lemma.", [
        ("first", SUMS, FIRST_SCRIPT), ("second", SUMS, SECOND_SCRIPT)]),
    ("refused_openings", "An opening is refused at the line of its block, wherever that is; without one at line 0.", [
        ("block", THREE, SLOW_SCRIPT), ("moved", THREE, "% slow\n" + SLOW_SCRIPT), ("no_block", doubles(12), "")]),
    ("refused_preambles", "A refused preamble refuses each duty, at its own line.", [
        ("", SUMS, UNREADY_SCRIPT)]),
    ("blocks_of_no_duty", "Behind the duties come the blocks that aren't replayed, in order.", [
        ("", TRUTHS, FAULTY_SCRIPT)]),
    ("lemmas_of_conversions", "A conversion serves those of its own clause alone.", [
        ("another_clause", DOUBLED, OTHER_CLAUSE), ("one_clause", DOUBLED_AT_ONCE, OTHER_CLAUSE)]),
]

# the name of the contract, what it says, and for each clause its name, the trait, the script before and the script now;
# None where nothing was reported before
REDONE = [
    ("what_is_done_again", "How many steps a report takes behind another one.", [
        ("nothing_before", SUMS, None, FIRST_SCRIPT),
        ("nothing_changed", SUMS, FIRST_SCRIPT, FIRST_SCRIPT),
        ("edited", SUMS, FIRST_SCRIPT, SECOND_SCRIPT),
        ("edited_back", SUMS, SECOND_SCRIPT, FIRST_SCRIPT),
        ("moved", THREE, SLOW_SCRIPT, "% slow\n" + SLOW_SCRIPT),
        ("other_preamble", THREE, SLOW_SCRIPT, SLOW_SCRIPT.replace("3", "4")),
        ("cut", SUMS, FIRST_SCRIPT, FIRST_SCRIPT.replace("qed\n", "")),
        ("last_command", SUMS, FIRST_SCRIPT, FIRST_SCRIPT.replace("normalize H2", "normalize H1"))]),
]

HEAD = """-- Traits, duties and scripts of the examples. Written by tools/make/replay_examples.py.
use Rattle.std.specs.Prelude.{[], ◌∷◌, List, None, Some, codes}
use Rattle.larch_base.specs.declared.fact_name.FactLetter.TheVariants.{Hypothesis, Lemma}
use Rattle.larch_base.specs.declared.label.Label.TheVariants.{Convert, Imply}
use Rattle.larch_base.specs.declared.code.Code.TheVariants as refusal
use Rattle.larch_script_commands.specs.Written.{instead, lone, said, word}
use Rattle.larch_script_commands.specs.declared.command.CommandKind.TheVariants as command
use Rattle.larch_script_commands.specs.declared.script.Script.{Script}
use Rattle.larch_term.specs.Operator.{PlainOperator, plain}
use Rattle.larch_term.specs.Tree.{var, app, forest_of}
use Rattle.larch_term.specs.BuiltIn.{built_in, bool_sort}
use Rattle.larch_term.specs.Truth.{truth}
use Rattle.larch_term.specs.declared.built_in.BuiltIn.TheVariants.{False, Not, And, Or, Implies, Equal, If}
use Rattle.larch_term.specs.declared.statement.Statement.TheVariants.{Equation, Generated, Partitioned}
use Rattle.larch_term.specs.declared.statement.Theory.{Theory}
use Rattle.larch_calculus.specs.Formula.{constant, apply_one, apply_two}
use Rattle.larch_prove_meaning.specs.Facts.{whole_name}
use Rattle.larch_prove_meaning.specs.Replays.{Duty}
use Rattle.larch_prove_meaning.specs.Scripts.{ClaimedDuty}

"""

RUST_HEAD = """//! SAYS No function here does anything.
//!
//! Written by `tools/make/replay_examples.py`; the traits and duties are in `specs/Worked.antt`.
ghost use Rattle.std.specs.Prelude.{◌≡◌, true, false, [], ◌∷◌, ◌++◌, codes, None, Some};
ghost use Rattle.std.specs.List.{repeat};
ghost use Rattle.larch_base.specs.declared.code.Code.TheVariants as refusal;
ghost use Rattle.larch_base.specs.declared.fact_name.FactLetter.TheVariants.{Axiom, Derived, Hypothesis, Lemma};
ghost use Rattle.larch_base.specs.declared.label.Label.TheVariants.{Convert, Imply};
ghost use Rattle.larch_base.specs.declared.way.Way.TheVariants.{LeftToRight, RightToLeft, Multiset};
ghost use Rattle.larch_script_commands.specs.Written.{by_name, by_signature, equal, form, instead, lone, said, said_of};
ghost use Rattle.larch_script_commands.specs.Written.{word};
ghost use Rattle.larch_script_commands.specs.declared.command.CommandKind.TheVariants as command;
ghost use Rattle.larch_term.specs.Tree.{var, app, forest_of};
ghost use Rattle.larch_term.specs.BuiltIn.{built_in, bool_sort};
ghost use Rattle.larch_term.specs.declared.built_in.BuiltIn.TheVariants.{And, Or, Not, Equal, Iff, Implies, If, False};
ghost use Rattle.larch_calculus.specs.Formula.{constant, apply_one, apply_two};
ghost use Rattle.larch_prove_meaning.specs.Facts.{whole_name};
ghost use Rattle.larch_prove_meaning.specs.Redo.{redo, trait_replayed};
ghost use Rattle.larch_prove_meaning.specs.Replays.{replay, Proved, Suspended, Refused, InPreamble, AtOpening};
ghost use Rattle.larch_prove_meaning.specs.Replays.{AtCommand};
ghost use Rattle.larch_prove_meaning.specs.Reports.{DutyProved, DutyRefused, DutySuspended, ScriptFault, trait_lines};
ghost use Rattle.larch_prove_examples.specs.Worked as worked;
"""


def title(text):
    return text.split(":")[0].strip()


def stem(text):
    name = title(text)
    return re.sub(r"(?<!^)([A-Z])", r"_\1", name).lower()


class Book:
    """The definitions that examples name: of each trait its operators, theories, duties and scripts."""

    def __init__(self, larch):
        self.larch, self.writers, self.names = larch, {}, {}

    def writer(self, trait):
        if trait not in self.writers:
            prefix = f'doubles_{trait.count("s(") - 1}' if trait.startswith("Doubles") else stem(trait)
            self.writers[trait] = Writer(self.larch, prefix)
        return self.writers[trait]

    def named(self, trait, kind, key, name, value):
        """The name of a definition, which is made where it is wanted first."""
        if (trait, kind, key) not in self.names:
            self.names[trait, kind, key] = name
            self.writer(trait).used.add(name)
            self.writer(trait).definitions.append((None, name, kind, value))
        return self.names[trait, kind, key]

    def theory(self, trait, theory, label):
        if (trait, "Theory", theory) in self.names:
            return self.names[trait, "Theory", theory]
        writer = self.writer(trait)
        name = writer.prefix
        if label.startswith("convert"):
            name += "_converted" if f"{name}_converted" not in writer.used else "_converted_too"
        value = Record(operators=Items(writer.operator(o) for o in theory.operators),
                       statements=Items(writer.statement(s) for s in theory.statements))
        return self.named(trait, "Theory", theory, name, value)

    def replay(self, trait, others, label, preamble, block):
        """What a block is said to come to, and what it comes to."""
        writer = self.writer(trait)
        files = {f"{title(t)}.lsl": t for t in [trait] + others}
        files[f"{title(trait)}.lp"] = ((preamble + "\n" if preamble else "") + proofs_before(trait, label)
                                       + f"duty {label}\n" + block + "\n")
        (found,) = [d for t in self.larch.evaluate(files, 1000) if t.name == title(trait)
                    for d in t.duties if str(d.label) == label]
        lemmas = found.lemmas if found.outcome[1:2] != (("preamble", 1),) and found.outcome[1:2] != (
            ("preamble", 2),) else ()
        name = f'{writer.prefix}_{label.replace(".", "_")}'
        value = Record(theory=self.theory(trait, found.theory, label), statement=writer.statement(found.statement),
                       lemmas=writer.lemmas(lemmas))
        name = self.named(trait, "Duty", (label, lemmas), name, value)
        clause = Call("replay", name, "1000", writer.commands(found.preamble), writer.commands(found.block))
        return qualified(clause, writer), qualified(writer.outcome(found.outcome), writer)

    def script(self, trait, text):
        """The name of a script, and the file from which it is read."""
        writer, script = self.writer(trait), self.larch.script.read_script(text, False)
        number = sum(1 for t, kind, _ in self.names if t == trait and kind == "Script") + 1
        value = Record(preamble=self.lines(writer, script.preamble),
                       blocks=Items(Record(line=str(b.line), label=label(".".join(map(str, b.label))),
                                           commands=self.lines(writer, b.commands)) for b in script.blocks))
        return self.named(trait, "Script", text, f"{writer.prefix}_script_{number}", value)

    def lines(self, writer, commands):
        return Items(Record(line=str(c.line), kind=writer.command(c.kind)) for c in commands)

    def claims(self, trait):
        """The name of a trait's duties."""
        writer, files = self.writer(trait), {f"{title(trait)}.lsl": trait}
        flat_trait = self.larch.traits.flatten(files, title(trait), {})
        duties = self.larch.duties.duties(files, title(trait), flat_trait, {})
        value = Items(Record(label=label(str(d.label)),
                             clause="None" if d.clause is None else Call("Some", str(d.clause + 1)),
                             theory=self.theory(trait, d.theory, str(d.label)),
                             statement=writer.statement(d.statement)) for d in duties)
        return self.named(trait, "List ClaimedDuty", None, f"{writer.prefix}_claims", value)

    def evaluated(self, trait, text):
        (found,) = self.larch.evaluate({f"{title(trait)}.lsl": trait, f"{title(trait)}.lp": text}, 1000)
        return found

    def report(self, trait, text):
        """The lines of a trait's report, and what they are."""
        writer, found = self.writer(trait), self.evaluated(trait, text)
        clause = Call("trait_lines", "1000", self.script(trait, text), self.claims(trait))
        lines = []
        for d in found.duties:
            name = label(str(d.label))
            if d.outcome[0] == "proved":
                lines.append(Call("DutyProved", name))
            elif d.outcome[0] == "suspended":
                lines.append(Call("DutySuspended", name, str(d.outcome[1]), writer.term(d.outcome[2])))
            else:
                line = str(self.larch.session.refused_line(d))
                lines.append(Call("DutyRefused", name, line, writer.code(d.outcome[2])))
        for text in found.script_lines:
            _, line, code = text.split()
            lines.append(Call("ScriptFault", line, writer.code(code)))
        return qualified(clause, writer), qualified(Items(lines), writer)

    def redone(self, trait, before, now):
        """How many steps a report takes behind another one."""
        writer = self.writer(trait)

        def replayed(text):
            return "[]" if text is None else Call("trait_replayed", "1000", codes(title(trait)),
                                                  self.script(trait, text), self.claims(trait))
        clause = Call("redo", replayed(before), replayed(now))
        steps = self.larch.session.redo_of([] if before is None else [self.evaluated(trait, before)],
                                           [self.evaluated(trait, now)])
        return qualified(clause, writer), str(steps)


def label(text):
    kind, number = text.split(".")
    return Call(kind.capitalize(), number)


def contract(module, name, says, clauses):
    """A function whose clauses, by their names, are equations; and the answers to them."""
    body = ""
    for clause, left, right in clauses:
        head = f"    ensures {clause} {{ " if clause else "    ensures { "
        line = f"{head}{flat(left)} ≡ {flat(right)} }}"
        if len(line) > WIDTH:
            first = laid_out(left, 8, ahead=len(head) - 8, behind=1)
            line = f"{head}{first}\n        ≡ {laid_out(right, 10, behind=2)} }}"
        body += line + "\n"
    answers(module, name, [clause for clause, _, _ in clauses])
    return f"/// {says}\npub fn {name}()\n{body}{{}}\n"


def rows(larch):
    book = Book(larch)
    examples = [contract("examples", name, says, [("", *book.replay(trait, others, of, preamble, block))])
                for name, says, trait, others, of, preamble, block in ROWS]
    refusals = [contract("refusals", name, says, [(clause, *book.replay(trait, [], of, preamble, block))
                                                  for clause, trait, of, preamble, block in clauses])
                for name, says, clauses in REFUSALS]
    orders = [contract("order", name, says, [(clause, *book.replay(trait, [], of, preamble, block))
                                             for clause, trait, of, preamble, block in clauses])
              for name, says, clauses in ORDER]
    reports = [contract("reports", name, says, [(clause, *book.report(trait, text)) for clause, trait, text in clauses])
               for name, says, clauses in REPORTS]
    reports += [contract("reports", name, says, [(clause, *book.redone(trait, before, now))
                                                 for clause, trait, before, now in clauses])
                for name, says, clauses in REDONE]
    specs = [HEAD]
    for trait, writer in book.writers.items():
        specs.append(f"-- ---- the trait {title(trait)}\n")
        specs += [definition(*d) for d in writer.definitions]
    write(os.path.join(CRATE, "specs", "Worked.antt"), "\n".join(specs))
    for module, says, functions in [("examples", "What blocks come to, computed by the definitions.", examples),
                                    ("refusals", "What single commands do, and when they are refused.", refusals),
                                    ("order", "What comes first of several refusals, and what a preamble may have.",
                                     orders),
                                    ("reports", "What reports say, and how much of them is done again.", reports)]:
        text = "\n".join(functions)
        write(os.path.join(CRATE, "src", f"{module}.rt"), used(RUST_HEAD.replace("SAYS", says), text) + "\n" + text)


def used(head, text):
    """The lines of a head, with what the text names of them alone."""
    out = []
    for line in head.splitlines():
        found = re.fullmatch(r"(ghost use .*\.)\{(.*)\};", line)
        if found:
            names = [n for n in found.group(2).split(", ")
                     if re.search(r"(?<![\w.])" + re.escape(n.strip("◌")) + r"(?!\w)", text)]
            if names:
                out.append(f"{found.group(1)}{{{', '.join(names)}}};")
        elif " as " not in line or f'{line.split(" as ")[1].strip(";")}.' in text:
            out.append(line)
    return "\n".join(out) + "\n"


def qualified(e, writer):
    """An expression of a contract, in which the traits' definitions are named by their spec."""
    if isinstance(e, str):
        return f"worked.{e}" if e in writer.used else e
    if isinstance(e, Items):
        return Items(qualified(i, writer) for i in e.items)
    if isinstance(e, Record):
        return Record(**{k: qualified(v, writer) for k, v in e.fields.items()})
    return Call(e.head, *(qualified(a, writer) for a in e.arguments))


def proofs_before(trait, label):
    """Blocks that prove the earlier duties of the trait of sums, so that they serve as lemmas."""
    if trait != SUMS or label == "imply.1":
        return ""
    proofs = ["duty imply.1\nresume by induction on x\n", "duty imply.2\nresume by induction on y\n"]
    return "".join(proofs[:int(label.split(".")[1]) - 1])


def answers(module, name, clauses):
    folder = os.path.join(CRATE, "proofs", module, name)
    os.makedirs(folder, exist_ok=True)
    text = f"""use Rattle.std.specs.Prelude.{{refl}}
use Rattle.larch_prove_meaning.specs.Computing.{{replaying}}
use Rattle.larch_prove_examples.proofs.{module}.{name}.Goals as goal
"""
    for clause in clauses:
        returns = f"returns-clause-{clause}" if clause else "returns"
        text += f"\npub {returns} : goal.{returns}\nunfolding replaying\n{returns} c = refl\n"
    write(os.path.join(folder, "Answers.antt"), text)


# ---- random blocks

MIX = """Mix: trait
  introduces
    0: -> N
    s: N -> N
    __ + __: N, N -> N
    even, odd: N -> Bool
    nil: -> L
    cons: N, L -> L
    hd: L -> N
    len: L -> N
    __ \\in __: N, L -> Bool
    pick: Bool, N -> N
  asserts
    N generated by 0, s
    L generated by nil, cons
    L partitioned by hd, \\in
    N partitioned by +, even
    \\forall x, y: N, l: L, b: Bool
      x + 0 == x;
      x + s(y) == s(x + y);
      even(0);
      even(s(x)) == ~even(x);
      odd(x) <=> ~even(x);
      ~(x \\in nil);
      x \\in cons(y, l) == x = y \\/ x \\in l;
      hd(cons(x, l)) == x;
      len(nil) == 0;
      len(cons(x, l)) == s(len(l));
      pick(b, x) == if b then x else s(x);
      (x = y) => (s(x) = s(y));
      ~(even(x) /\\ odd(x))
  implies
    N generated by 0, s, +
    L partitioned by hd, len, \\in
    \\forall x, y, z: N, l, m: L, a, b: Bool
      0 + x == x;
      x + y == y + x;
      even(x) \\/ odd(x);
      (even(x) /\\ even(y)) => even(x + y);
      cons(x, cons(x, l)) == cons(x, l);
      pick(a, x) = pick(b, x) => (a = b);
      (a /\\ b) => (b /\\ a);
      ((a => b) /\\ (b => a)) <=> (a <=> b);
      if a then x else y == if ~a then y else x
"""
ORDERS = """Orders: trait
  introduces
    __ < __, __ \\le __: E, E -> Bool
    min: E, E -> E
  asserts
    \\forall x, y, z: E
      ~(x < x);
      (x < y /\\ y < z) => x < z;
      x \\le y == x < y \\/ x = y;
      min(x, y) == if x \\le y then x else y
  implies
    \\forall x, y: E
      x \\le x;
      ~(x < y /\\ y < x);
      min(x, x) == x;
      min(x, y) = x \\/ min(x, y) = y
"""
TREES = """Trees: trait
  introduces
    leaf: E -> T
    node: T, T -> T
    flip: T -> T
    __ \\in __: E, T -> Bool
  asserts
    T generated by leaf, node
    \\forall e, d: E, t, u: T
      flip(leaf(e)) == leaf(e);
      flip(node(t, u)) == node(flip(u), flip(t));
      e \\in leaf(d) == e = d;
      e \\in node(t, u) == e \\in t \\/ e \\in u
  implies
    \\forall e: E, t: T
      flip(flip(t)) == t;
      e \\in flip(t) == e \\in t
  converts flip
"""
GROUPS = """Groups: trait
  introduces
    e: -> G
    __ * __: G, G -> G
    inv: G -> G
  asserts
    \\forall x, y, z: G
      e * x == x;
      inv(x) * x == e;
      (x * y) * z == x * (y * z)
  implies
    \\forall x, y: G
      inv(x) * (x * y) == y;
      x * e == x;
      x * inv(x) == e
"""
SWITCHES = """Switches: trait
  introduces
    on, off: -> S
    not: S -> S
    both: S, S -> S
  asserts
    S generated by on, off
    \\forall x: S
      not(on) == off;
      not(off) == on;
      both(on, x) == x;
      both(off, x) == off
  implies
    S generated by on, not
    \\forall x, y: S
      not(not(x)) == x;
      both(x, y) == both(y, x);
      x = on \\/ x = off
"""
GROWING = """Growing: trait
  introduces
    0, c: -> N
    s: N -> N
    p, f: N, N -> N
  asserts
    \\forall x, y: N
      f(s(x), y) == f(x, p(y, y));
      f(0, y) == y
  implies
    \\forall x, y: N
      f(s(s(s(s(s(s(s(s(s(s(s(x))))))))))), c) == c;
      f(s(s(s(s(s(s(s(s(s(s(x)))))))))), p(x, c)) == y;
      f(s(s(s(x))), y) == f(s(s(x)), p(y, y));
      (f(s(x), p(x, y)) = p(y, x)) => (f(x, x) = x)
"""
WIDE = """Wide: trait
  introduces
    c, e: -> N
    m: N, N, N, N, N, N, N, N, N, N -> N
    p: N -> Bool
    d, g, h: N -> N
  asserts
    \\forall x: N
      d(x) == m(x, x, x, x, x, x, x, x, x, x);
      g(x) == d(d(x));
      h(x) == g(g(x));
      p(e)
  implies
    \\forall x, y: N
      d(x) == y;
      g(x) = y => p(x);
      p(d(x)) /\\ (p(e) \\/ p(y));
      p(x) => (p(y) <=> p(d(y)))
"""
RANDOM = [MIX, SUMS, SETS, TABLES, STEPS, TRUTHS, THREE, ORDERS, TREES, GROUPS, SWITCHES, GROWING]
MORE_WORDS = ["x1", "x2", "v1", "v2", "xc", "xc1", "yc", "ac", "bc", "lc", "rc", "ec", "sc", "tc", "ac1", "gen"]


class Random:
    """Random commands about one trait."""

    def __init__(self, r, duties, depth):
        self.r, self.depth = r, depth
        self.operators = list(duties[0].theory.operators)
        self.sorts = sorted({"Bool"} | {o.range for o in self.operators}
                            | {d for o in self.operators for d in o.domain})
        self.variables = sorted({v for d in duties for v in variables(d.statement)})

    def term(self, sort, depth):
        r = self.r
        if r.random() < .25:
            return r.choice(MORE_WORDS)
        near = [n for n, z in self.variables if z == sort]
        if near and (depth == 0 or r.random() < .4):
            return r.choice(near)
        if r.random() < (.35 if sort == "Bool" else .05):
            return self.formula(depth)
        fit = [o for o in self.operators if o.range == sort and (depth > 0 or not o.domain)]
        if not fit:
            return r.choice(near or MORE_WORDS + ["true"])
        o = r.choice(fit)
        return spelled(o.name, [self.term(d, max(depth - 1, 0)) for d in o.domain])

    def formula(self, depth):
        r, down = self.r, max(depth - 1, 0)
        kind = r.randrange(6)
        if kind == 0:
            sort = r.choice(self.sorts)
            return f"({self.term(sort, down)} = {self.term(sort, down)})"
        if kind == 1:
            return f'(~{self.term("Bool", down)})'
        if kind == 2:
            return f'(if {self.term("Bool", down)} then {self.term("Bool", down)} else {self.term("Bool", down)})'
        left, sign = self.term("Bool", down), r.choice(["/\\", "\\/", "=>", "<=>"])
        return f"({left} {sign} {self.term('Bool', down)})"

    def fact(self):
        r = self.r
        number = r.randint(1, 6) if r.random() < .7 else r.randint(1, 16)
        return r.choice("AAHHHDDL") + str(number) + r.choice(["", "", "", ".1", ".2"])

    def name(self):
        names = [n for n, _ in self.variables] + ["x1", "v1", "v2", "x2"]
        return self.r.choice(names)

    def command(self):
        r, k = self.r, self.r.random()
        if k < .12:
            return f"resume by induction on {self.name()}"
        if k < .22:
            return f'resume by cases {self.term("Bool", self.depth)}'
        if k < .40:
            return "resume by " + r.choice(["contradiction", "=>", "/" + chr(92), "partition"])
        if k < .50:
            sort = r.choice(self.sorts)
            return r.choice([f'prove {self.term("Bool", self.depth)}',
                             f"prove {self.term(sort, self.depth)} == {self.term(sort, self.depth)}"])
        if k < .66:
            pairs = [f"{self.name()} by {self.term(r.choice(self.sorts), self.depth - 1)}"
                     for _ in range(r.choice([1, 1, 2]))]
            return f'instantiate {", ".join(pairs)} in {self.fact()}'
        if k < .75:
            return f"critical-pairs {self.fact()} with {self.fact()}"
        if k < .82:
            return f"normalize {self.fact()}"
        if k < .86:
            return f'declare variables {r.choice(MORE_WORDS + ["x", "q"])}: {r.choice(self.sorts + ["Nowhere"])}'
        if k < .89:
            return f"set rewriting-limit {r.choice([1, 3, 5, 10, 50, 1000])}"
        if k < .91:
            return f'set box-checking {r.choice(["on", "off"])}'
        if k < .94:
            f, g = r.choice(self.operators), r.choice(self.operators)
            return r.choice([f"register height {reference(f)} > {reference(g)}",
                             f"register status {r.choice(['multiset', 'right-to-left', 'left-to-right'])} "
                             f"{reference(f)}"])
        if k < .96:
            return "qed"
        if k < .99:
            return r.choice(["<> here", "[] there"])
        return r.choice(["what", "resume by", "prove x @ y"])


def variables(statement):
    found = []

    def walk(t):
        if hasattr(t, "args"):
            for a in t.args:
                walk(a)
        else:
            found.append((t.name, t.sort))
    if hasattr(statement, "left"):
        walk(statement.left)
        walk(statement.right)
    return found


def spelled(name, arguments):
    """A term in parentheses by its operator's canonical name."""
    if "__" not in name:
        return name + (f'({", ".join(arguments)})' if arguments else "")
    for a in arguments:
        name = name.replace("__", a, 1)
    return f"({name})"


def reference(o):
    return re.sub(r"\s*__\s*", "", o.name) if "__" in o.name else o.name


# which traits are taken, how often a block that LIMIT or SIZE refuses is kept, and how deep terms are
MODES = {"": (RANDOM, .5, 2), "--small": (RANDOM, .9, 2), "--wide": ([WIDE, WIDE, WIDE, GROWING], .9, 3)}


def random_blocks(larch, seed, count, mode):
    traits, kept, depth = MODES[mode]
    r, counts, out = random.Random(seed), collections.Counter(), []
    writers = {}
    while counts["blocks"] < count:
        trait = r.choice(traits)
        name = title(trait)
        limit = r.randint(1, 8) if mode == "--small" else 1000
        script = "".join(r.choice(["set rewriting-limit 200\n", "set rewriting-limit 20\n", "set box-checking on\n"])
                         for _ in range(r.choice([0, 0, 0, 1, 2])))
        preamble = larch.script.read_script(script, False).preamble
        (empty,) = [t for t in larch.evaluate({f"{name}.lsl": trait, f"{name}.lp": script}, limit) if t.name == name]
        source = Random(r, empty.duties, depth)
        lines, labels = script, []
        for d in r.sample(list(empty.duties), min(4, len(empty.duties))):
            if d.outcome[0] == "proved":
                continue
            block = []
            while d.outcome[0] == "suspended" and len(block) < r.randint(1, 8):
                for _ in range(25):
                    c = source.command()
                    commands = larch.script.read_script("duty imply.1\n" + "\n".join(block + [c]) + "\n",
                                                        False).blocks[0].commands
                    o = larch.prove.replay(d.theory, d.statement, d.lemmas, preamble, commands, limit)
                    if o[0] != "refused" or r.random() < (kept if o[2] in ("LIMIT", "SIZE") else .04):
                        break
                block.append(c)
                if o[0] != "suspended":
                    break
            lines += f"duty {d.label}\n" + "".join(f"{c}\n" for c in block)
            labels.append(str(d.label))
        (found,) = [t for t in larch.evaluate({f"{name}.lsl": trait, f"{name}.lp": lines}, limit) if t.name == name]
        writer = writers.setdefault(name, Writer(larch, name.lower()))
        for d in found.duties:
            if str(d.label) not in labels or counts["blocks"] >= count:
                continue
            counts["blocks"] += 1
            counts[f"trait {name}"] += 1
            counts[d.outcome[0] + (f" {d.outcome[2]}" if d.outcome[0] == "refused" else "")] += 1
            for c in d.block:
                counts[f"command {c.kind[0]}"] += 1
            theory = writer.__dict__.setdefault("theories", {})
            if d.theory not in theory:
                theory[d.theory] = writer.theory(d.theory, f"{writer.prefix}_{len(theory)}", None)
            duty = Record(theory=theory[d.theory], statement=writer.statement(d.statement),
                          lemmas=writer.lemmas(d.lemmas))
            lemma = f'block_{counts["blocks"]}'
            call = Call("replay", duty, str(limit), writer.commands(d.preamble), writer.commands(d.block))
            outcome = flat(writer.outcome(d.outcome))
            out.append(f"{lemma} : {flat(call)} ≡ {outcome}\nunfolding replaying\n{lemma} = refl\n")
    definitions = [definition(*d) for w in writers.values() for d in w.definitions]
    write(os.path.join(CRATE, "proofs", "Random.antt"), RANDOM_HEAD + "\n".join(definitions + out))
    for key, n in sorted(counts.items()):
        print(f"{n:6} {key}")


ALL_BUILT_IN = "{True, False, Not, And, Or, Implies, Iff, Equal, Unequal, If}"
RANDOM_HEAD = re.sub(r"(BuiltIn\.TheVariants\.)\{.*\}", lambda m: m.group(1) + ALL_BUILT_IN, HEAD).replace(
    "-- Traits, duties and scripts of the examples.", "-- Random blocks.").replace(
    "{[], ◌∷◌, List, None, Some, codes}", "{◌≡◌, refl, [], ◌∷◌, true, false, List, None, Some, codes}").replace(
    "{instead, lone, said, word}", "{by_name, by_signature, equal, form, instead, lone, said, said_of, word}").replace(
    "{Hypothesis, Lemma}", "{Axiom, Derived, Hypothesis, Lemma}").replace(
    "specs.Replays.{Duty}", "specs.Replays.{Duty, replay, Proved, Suspended, Refused, InPreamble, AtOpening, AtCommand}"
) + """use Rattle.larch_base.specs.declared.way.Way.TheVariants.{LeftToRight, RightToLeft, Multiset}
use Rattle.larch_prove_meaning.specs.Computing.{replaying}

"""


def write(path, text):
    with open(path, "w") as file:
        file.write(text)


if __name__ == "__main__":
    if sys.argv[1:2] == ["rows"] and len(sys.argv) == 3:
        rows(Larch(sys.argv[2]))
    elif sys.argv[1:2] == ["random"] and len(sys.argv) in (5, 6) and "".join(sys.argv[5:]) in MODES:
        random_blocks(Larch(sys.argv[2]), int(sys.argv[3]), int(sys.argv[4]), "".join(sys.argv[5:]))
    else:
        sys.exit(__doc__)
