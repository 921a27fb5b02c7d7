"""Random theories and certificates over them, as texts: terms, statements, a writer of lines by all rules, and what
changes lines so that they are wrong. Most lines that the writer writes are good."""
import re

BOOL = "Bool"
TRUE, FALSE = ("true", ()), ("false", ())
PLAIN = {"true": [], "false": [], "~": [BOOL], "/\\": [BOOL, BOOL], "\\/": [BOOL, BOOL], "=>": [BOOL, BOOL],
         "<=>": [BOOL, BOOL]}

# The names of each rule's parts in the second version, and those whose numbers are distances there.
PARTS = {"axiom": ["statement"], "hyp": ["box", "number"], "row": ["number", "sort"], "refl": ["term"], "sym": ["line"],
         "inst": ["line", "by"], "repl": ["line", "at", "with"], "equal": ["line"], "box": ["sorts", "hyps"],
         "done": [],
         "fresh": ["box", "by"], "cases": ["true", "false"], "induct": ["line", "var", "goal", "boxes"],
         "observe": ["line", "goal", "lines"], "generated": ["box", "sort", "ops"],
         "partitioned": ["box", "sort", "ops"]}
DISTANCES = {"box", "line", "with", "true", "false", "boxes", "lines"}


# Terms are pairs: ('x:S', None) is a variable, (symbol, arguments) an application.

def variable(name, sort):
    return f"{name}:{sort}", None


def spelled(term):
    symbol, arguments = term
    return symbol + ("(" + ",".join(map(spelled, arguments)) + ")" if arguments else "")


def equation(left, right):
    return spelled(left) + "==" + spelled(right)


def substituted(term, by):
    if term[1] is None:
        return by.get(term[0], term)
    return term[0], tuple(substituted(argument, by) for argument in term[1])


def variables(term):
    if term[1] is None:
        return {term[0]}
    return set().union(*(variables(argument) for argument in term[1]), set())


def places(term):
    yield (), term
    for number, argument in enumerate(term[1] or (), 1):
        for place, found in places(argument):
            yield (number,) + place, found


def put(term, place, by):
    if not place:
        return by
    arguments = list(term[1])
    arguments[place[0] - 1] = put(arguments[place[0] - 1], place[1:], by)
    return term[0], tuple(arguments)


class Theory:
    """Operators as (name, domain, range), and statements: ('eq', left, right), ('generated', sort, numbers) or
    ('partitioned', sort, numbers)."""

    def __init__(self, pick):
        self.pick = pick
        self.sorts = ["S", "T", "U"][:pick.randint(1, 3)] + [BOOL]
        self.operators = [("c" + sort, [], sort) for sort in self.sorts[:-1]]
        for number in range(pick.randint(1, 6)):
            domain = [pick.choice(self.sorts) for _ in range(pick.randint(1, 3))]
            self.operators.append((f"f{number}", domain, pick.choice(self.sorts)))
        self.statements = []
        for _ in range(pick.randint(1, 4)):
            sort = pick.choice(self.sorts)
            self.statements.append(("eq", self.term(sort), self.term(sort)))
        for sort in self.sorts[:-1]:
            self.clause("generated", sort, [k for k, f in enumerate(self.operators, 1) if f[2] == sort])
            self.clause("partitioned", sort, [k for k, f in enumerate(self.operators, 1) if sort in f[1]])
        pick.shuffle(self.statements)

    def clause(self, kind, sort, numbers):
        if numbers and self.pick.random() < 0.7:
            self.statements.append((kind, sort, self.pick.sample(numbers, self.pick.randint(1, min(3, len(numbers))))))

    def operator(self, number):
        return self.operators[number - 1]

    def term(self, sort, depth=2, constants=(), open_too=True):
        """A random term; `constants` are pairs of a symbol and a sort."""
        pick = self.pick
        known = [symbol for symbol, of in constants if of == sort]
        if known and pick.random() < 0.4:
            return pick.choice(known), ()
        if open_too and pick.random() < (0.25 if depth else 0.6):
            return variable(pick.choice("xyz"), sort)
        fits = [(f"#{k}", f[1]) for k, f in enumerate(self.operators, 1) if f[2] == sort and (depth or not f[1])]
        if sort == BOOL:
            fits += [(symbol, domain) for symbol, domain in PLAIN.items() if depth or not domain]
            other = pick.choice(self.sorts)
            fits += [(symbol, [other, other]) for symbol in ("=", "~=") if depth]
        if depth:
            fits.append(("if", [BOOL, sort, sort]))
        if not fits:
            return variable("x", sort)
        symbol, domain = pick.choice(fits)
        return symbol, tuple(self.term(of, depth - 1 if depth else 0, constants, open_too) for of in domain)

    def text(self):
        return "".join("\t".join([name, *domain, result]) + "\n" for name, domain, result in self.operators)


def statement_text(number, statement):
    if statement[0] == "eq":
        return f"{number} box - | {equation(*statement[1:])}\n"
    return f'{number} {statement[0]} 0 {statement[1]} {",".join(f"#{k}" for k in statement[2])}\n'


def sort_in(theory, term, parts):
    symbol, arguments = term
    if arguments is None:
        return symbol.split(":")[1]
    if symbol == "if":
        return sort_in(theory, arguments[1], parts)
    if symbol[0] == "#":
        return theory.operator(int(symbol[1:]))[2]
    if symbol[0] == "@":
        return parts[symbol]
    return BOOL


class Writer:
    """A certificate that grows: its lines, what each of them says, and the boxes that are open."""

    def __init__(self, pick, theory):
        self.pick, self.theory = pick, theory
        self.lines, self.said, self.open, self.parts = [], {}, [], {}

    def line(self, text, says=None):
        self.lines.append(text)
        self.said[len(self.lines)] = (list(self.open), says)
        return len(self.lines)

    def constants(self):
        return [(symbol, of) for symbol, of in self.parts.items() if int(symbol[1:].split(".")[0]) in self.open
                and ">" not in of]

    def term(self, sort, depth=2, open_too=True):
        return self.theory.term(sort, depth, self.constants(), open_too)

    def clause(self, kind):
        """A line that says a clause of this kind, and the clause; None where the theory has none."""
        fits = [k for k, says in enumerate(self.theory.statements, 1) if says[0] == kind]
        if fits and (self.pick.random() < 0.5 or not self.known(kind)):
            k = self.pick.choice(fits)
            return self.line(f"axiom {k}", self.theory.statements[k - 1]), self.theory.statements[k - 1]
        known = self.known(kind)
        return self.pick.choice(known) if known else None

    def known(self, kind):
        return [(m, says) for m, (boxes, says) in self.said.items()
                if says and says[0] == kind and self.open[:len(boxes)] == boxes]

    # lines of one rule

    def axiom(self):
        k = self.pick.randint(0, len(self.theory.statements))
        return self.line(f"axiom {k}", self.theory.statements[k - 1] if k else None)

    def refl(self, term=None):
        term = term or self.term(self.pick.choice(self.theory.sorts))
        return self.line("refl " + spelled(term), ("eq", term, term))

    def sym(self, m):
        _, left, right = self.said[m][1]
        return self.line(f"sym {m}", ("eq", right, left))

    def inst(self, m, by):
        _, left, right = self.said[m][1]
        text = ";".join(f"{name}={spelled(term)}" for name, term in by.items()) or "-"
        return self.line(f"inst {m} {text}", ("eq", substituted(left, by), substituted(right, by)))

    def repl(self, m, place, by):
        _, left, right = self.said[m][1]
        return self.line(f'repl {m} {".".join(map(str, place)) or "-"} {by}',
                         ("eq", left, put(right, place, self.said[by][1][2])))

    def row(self, number, left, right, sort=None):
        return self.line(f"row {number}" + (f" {sort}" if sort else ""), ("eq", left, right))

    def hyp(self, box, number, says):
        return self.line(f"hyp {box} {number}", ("eq", *says))

    def begin(self, parts, hypotheses):
        """Opens a box; the hypotheses are made from its constants."""
        number = len(self.lines) + 1
        constants = []
        for k, part in enumerate(parts, 1):
            self.parts[f"@{number}.{k}"] = part
            constants.append((f"@{number}.{k}", ()))
        self.open.append(number)
        made = hypotheses(constants)
        self.open.pop()
        self.line(f'box {",".join(parts) or "-"} | {";".join(equation(*sides) for sides in made) or "-"}')
        self.open.append(number)
        return number, constants, made

    def done(self):
        self.line("done")
        return self.open.pop()

    # several lines for one thing

    def some_row(self):
        x = variable("x", BOOL)
        sort = self.pick.choice(self.theory.sorts)
        a, b = variable("a", sort), variable("b", sort)
        self.row(*self.pick.choice([
            (3, ("~", (("~", (x,)),)), x), (4, ("/\\", (TRUE, x)), x), (11, ("\\/", (FALSE, x)), x),
            (18, ("=>", (x, x)), TRUE),
            (24, ("=", (a, a)), TRUE, sort), (26, ("~=", (a, b)), ("~", (("=", (a, b)),)), sort),
            (27, ("if", (TRUE, a, b)), a, sort), (34, ("=", (a, b)), ("=", (b, a)), sort)]))

    def some_inst(self):
        known = self.known("eq")
        if known:
            m, (_, left, right) = self.pick.choice(known)
            names = sorted(variables(left) | variables(right))
            names = self.pick.sample(names, self.pick.randint(0, len(names)))
            self.inst(m, {name: self.term(name.split(":")[1]) for name in names})

    def some_repl(self):
        known = self.known("eq")
        if not known:
            return
        by, (_, left, _) = self.pick.choice(known)
        fits = [(m, place) for m, says in known for place, there in places(says[2]) if there == left]
        if fits and self.pick.random() < 0.7:
            m, place = self.pick.choice(fits)
        else:
            sort = sort_in(self.theory, left, self.parts)
            whole = self.term(self.pick.choice(self.theory.sorts))
            holes = [place for place, there in places(whole) if sort_in(self.theory, there, self.parts) == sort]
            place = self.pick.choice(holes) if holes else ()
            m = self.refl(put(whole, place, left) if holes else left)
        self.repl(m, place, by)

    def some_sym(self):
        known = self.known("eq")
        if known:
            self.sym(self.pick.choice(known)[0])

    def some_equal(self):
        sort = self.pick.choice(self.theory.sorts)
        box, _, made = self.begin([sort], lambda cs: [(("=", (cs[0], self.term(sort))), TRUE)])
        m = self.hyp(box, 1, made[0])
        left, right = made[0][0][1]
        self.line(f"equal {m}", ("eq", left, right))
        self.done()

    def some_box(self):
        parts = [self.pick.choice(self.theory.sorts) for _ in range(self.pick.randint(0, 2))]
        sort = self.pick.choice(self.theory.sorts)
        box, _, made = self.begin(parts,
                                  lambda cs: [(self.term(sort), self.term(sort))
                                              for _ in range(self.pick.randint(0, 2))])
        for number, sides in enumerate(made, 1):
            self.hyp(box, number, sides)
        self.steps(self.pick.randint(0, 2))
        if not self.said[len(self.lines)][1]:
            self.refl()
        self.done()

    def some_fresh(self):
        parts = [self.pick.choice(self.theory.sorts) for _ in range(self.pick.randint(1, 2))]
        self.begin(parts, lambda cs: [])
        m = self.refl()
        term = self.said[m][1][1]
        box = self.done()
        by = [variable(self.pick.choice("uvx"), sort) for sort in parts]
        made = self.freed(term, {f"@{box}.{k}": image for k, image in enumerate(by, 1)})
        self.line(f'fresh {box} {";".join(map(spelled, by))}', ("eq", made, made))

    def freed(self, term, by):
        if term[1] is None:
            return term
        return by.get(term[0]) or (term[0], tuple(self.freed(argument, by) for argument in term[1]))

    def some_cases(self):
        formula = self.term(BOOL, 2, open_too=False)
        result = self.term(self.pick.choice(self.theory.sorts))
        if variables(formula):
            return
        boxes = []
        for value in (TRUE, FALSE):
            self.begin([], lambda cs: [(formula, value)])
            self.refl(result)
            boxes.append(self.done())
        self.line(f"cases {boxes[0]} {boxes[1]}", ("eq", result, result))

    def some_induct(self):
        clause = self.clause("generated")
        if not clause:
            return
        m, (_, sort, numbers) = clause
        x = variable("x", sort)
        goal = put(("#1", ()), (), self.term(self.pick.choice(self.theory.sorts)))
        boxes = []
        for k in numbers:
            domain = self.theory.operator(k)[1]
            _, constants, _ = self.begin(list(domain), lambda cs: [
                (substituted(goal, {x[0]: c}), substituted(goal, {x[0]: c})) for c,
                of in zip(cs, domain) if of == sort])
            self.refl(substituted(goal, {x[0]: (f"#{k}", tuple(constants))}))
            boxes.append(self.done())
        self.line(f'induct {m} {x[0]} {equation(goal, goal)} {",".join(map(str, boxes)) or "-"}', ("eq", goal, goal))

    def observed(self, k, place, term):
        domain = self.theory.operator(k)[1]
        return f"#{k}", tuple(term if i == place else variable(f"x{i}", of) for i, of in enumerate(domain, 1))

    def observations(self, sort, numbers):
        return [(k, place) for k in numbers for place, of in enumerate(self.theory.operator(k)[1], 1) if of == sort]

    def some_observe(self):
        clause = self.clause("partitioned")
        if not clause:
            return
        m, (_, sort, numbers) = clause
        term = self.term(sort)
        lines = [self.refl(self.observed(k, place, term)) for k, place in self.observations(sort, numbers)]
        self.line(f'observe {m} {equation(term, term)} {",".join(map(str, lines)) or "-"}', ("eq", term, term))

    def some_partitioned(self):
        clause = self.clause("partitioned")
        if not clause:
            return
        m, (_, sort, numbers) = clause
        seen = self.observations(sort, numbers)
        box, (c, d), made = self.begin([sort, sort], lambda cs: [
            (self.observed(k, place, cs[0]), self.observed(k, place, cs[1])) for k, place in seen])
        lines = [self.hyp(box, number, sides) for number, sides in enumerate(made, 1)]
        self.line(f'observe {m} {equation(c, d)} {",".join(map(str, lines)) or "-"}', ("eq", c, d))
        self.done()
        self.line(f'partitioned {box} {sort} {",".join(f"#{k}" for k in numbers)}', ("partitioned", sort, numbers))

    def step_of(self, box, k, sort, arguments):
        """What the hypothesis about an operator says of arguments: the formula, and what it supposes."""
        holds = [(f"@{box}.1", (t,)) for t, of in zip(arguments, self.theory.operator(k)[1]) if of == sort]
        last = (f"@{box}.1", ((f"#{k}", tuple(arguments)),))
        if not holds:
            return last, None
        first = holds[0]
        for more in holds[1:]:
            first = "/\\", (first, more)
        return ("=>", (first, last)), first

    def some_generated(self):
        clause = self.clause("generated")
        if not clause:
            return
        m, (_, sort, numbers) = clause
        number = len(self.lines) + 1
        at_places = {k: [variable(f"x{i}", of) for i, of in enumerate(self.theory.operator(k)[1], 1)] for k in numbers}
        self.begin([sort + ">Bool"],
                   lambda cs: [(self.step_of(number, k, sort, at_places[k])[0], TRUE) for k in numbers])
        boxes = [self.generated_by(number, place, k, sort, at_places[k]) for place, k in enumerate(numbers, 1)]
        x = variable("x", sort)
        holds = f"@{number}.1", (x,)
        self.line(f'induct {m} {x[0]} {equation(holds, TRUE)} {",".join(map(str, boxes))}', ("eq", holds, TRUE))
        self.done()
        self.line(f'generated {number} {sort} {",".join(f"#{k}" for k in numbers)}', ("generated", sort, numbers))

    def generated_by(self, number, place, k, sort, names):
        domain = self.theory.operator(k)[1]
        box, constants, made = self.begin(list(domain), lambda cs: [
            ((f"@{number}.1", (c,)), TRUE) for c, of in zip(cs, domain) if of == sort])
        hyps = [self.hyp(box, i, sides) for i, sides in enumerate(made, 1)]
        line = self.hyp(number, place, (self.step_of(number, k, sort, names)[0], TRUE))
        line = self.sym(self.inst(line, {name[0]: c for name, c in zip(names, constants)}))
        for by in hyps:
            there = [p for p, t in places(self.said[line][1][2]) if t == self.said[by][1][1] and p[:1] == (1,)]
            line = self.repl(line, there[0], by)
        x = variable("x", BOOL)
        for _ in hyps[1:]:
            row = self.inst(self.row(4, ("/\\", (TRUE, x)), x), {x[0]: TRUE})
            there = [p for p, t in places(self.said[line][1][2]) if t == ("/\\", (TRUE, TRUE))]
            line = self.repl(line, there[0], row)
        if hyps:
            row = self.inst(self.row(14, ("=>", (TRUE, x)), x),
                            {x[0]: (f"@{number}.1", ((f"#{k}", tuple(constants)),))})
            line = self.repl(line, (), row)
        self.sym(line)
        return self.done()

    def steps(self, count):
        kinds = [self.axiom] * 4 + [self.refl, self.some_row, self.some_inst, self.some_inst, self.some_repl,
                                    self.some_repl,
                                    self.some_sym, self.some_equal, self.some_fresh, self.some_cases, self.some_induct,
                                    self.some_observe, self.some_partitioned, self.some_generated]
        if len(self.open) < 3:
            kinds.append(self.some_box)
        for _ in range(count):
            self.pick.choice(kinds)()

    def text(self):
        return lines_text(self.lines)


def lines_text(lines):
    return "certificate 1\n" + "".join(f"{number} {line}\n" for number, line in enumerate(lines, 1))


def in_second(number, line):
    """The line with this number, written in the second version."""
    def distance(found):
        named = int(found.group())
        return str(number - named) if named <= number else f"+{named - number}"
    word, *parts = line.split(" ")
    parts = [part for part in parts if part != "|"]
    named = [(name, re.sub(r"\d+" if name in DISTANCES else r"(?<=@)\d+", distance, part))
             for name, part in zip(PARTS[word], parts)]
    return " ".join([word] + [f"{name}={part}" for name, part in named])


def mutated(pick, lines):
    """Lines changed; where one is left out or put in, the numbers behind it aren't mended."""
    lines = list(lines)
    for _ in range(pick.choice([1, 1, 1, 2, 3])):
        if not lines:
            break
        at = pick.randrange(len(lines))
        change = pick.randint(0, 9)
        if change == 0:
            del lines[at]
        elif change == 1:
            lines.insert(at, lines[at])
        elif change == 2 and at + 1 < len(lines):
            lines[at], lines[at + 1] = lines[at + 1], lines[at]
        else:
            lines[at] = changed(pick, lines[at])
    return lines


def changed(pick, line):
    found = list(re.finditer(r"\d+|[A-Za-z]\w*|[~=<>/\\]+|[;,.|-]", line))
    if not found:
        return line
    at = pick.choice(found)
    word = at.group()
    if word.isdigit():
        word = str(max(0, int(word) + pick.choice([-2, -1, 1, 1, 2])))
    elif word[0].isalpha():
        word = pick.choice(["x", "y", "S", "T", "Bool", "true", "false", "if", word])
    else:
        word = pick.choice([word, "=", "~", "/\\", "\\/", "=>", "<=>", "-", "==", ",", ";"])
    return line[:at.start()] + word + line[at.end():]
