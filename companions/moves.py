"""The moves that a prover's users try first, for a goal that is open: commands, each with what it costs to try it
before others. `Theory` is what is listed of a duty's trait, `Place` what is known of an open goal."""
import dataclasses
import itertools
import re

from .formulas import (
    FALSE, TRUE, Language, atoms, conditions, conjuncts, matches, names, parts_of, replaced, size, subterms)
from .listed import BOOL, CLAUSE, MOST_READINGS, forms, lines_of, operator_of

STATEMENT = re.compile(r"(A\d+) (?:asserted|assumed|copied|exempt) (.*)")
DUTY = re.compile(r"((?:assume|imply|convert)\.\d+) (.*)")
MOST_INSTANCES, MOST_TARGETS, MOST_PAIRS, MOST_CASES, MOST_GROWN = 14, 40, 40, 12, 8


@dataclasses.dataclass(frozen=True)
class Fact:
    """A fact: its name, the sides of its equation, and the sorts of its variables."""
    name: str
    left: tuple
    right: tuple
    sorts: tuple

    def formulas(self):
        """What its instances may be about: the sides of an equation, or the atoms of a formula."""
        if self.right == TRUE:
            return [atom for part in conjuncts(self.left) for atom in atoms(part)]
        return [self.left, self.right]

    def patterns(self):
        """What is looked for in a goal: the formulas, and then the arguments in them that are applications."""
        found = [formula for formula in self.formulas() if formula[0] not in ("variable", "value")]
        return found + [part for formula in found for part in parts_of(formula) if part[0] == "operator"]

    def variables(self):
        return {name for name, _ in self.sorts}

    def is_conditional(self):
        return self.right == TRUE and any(part[0] in ("=>", "\\/", "<=>") for part in subterms(self.left))


class Theory:
    """What is listed of a trait, as far as it serves a duty: the statements, the earlier duties that are proved, which
    operators make or observe a sort, and at which arguments equations look."""

    def __init__(self, listing, trait, label, proved):
        self.sections, number = sections(lines_of(listing, trait) or []), 0
        of = next((place for place, lines in enumerate(self.sections) if duties_of(lines).get(label)), 0)
        self.near = [line for place in sorted({0, of}) for line in self.sections[place]]
        self.operators = [operator_of(line[3:]) for line in self.near if line.startswith("op ")]
        self.language, self.facts, self.generators, self.observers = Language(self.operators), [], {BOOL: None}, {}
        self.statement, self.statements = duties_of(self.near).get(label, ""), []
        self.take_statements()
        for place, lines in enumerate(self.sections):
            for name, statement in duties_of(lines).items():
                number += 1
                if name in proved and place in (0, of) and self.is_before(name, label):
                    self.take(f"L{number}", statement)
        self.looked_at = self.recursions()

    def is_before(self, name, label):
        """Whether a duty comes before another one; both are of this theory."""
        order = list(duties_of(self.near))
        return order.index(name) < order.index(label)

    def take_statements(self):
        for line in self.near:
            found = STATEMENT.fullmatch(line)
            if found:
                self.take(*found.groups())

    def take(self, name, statement):
        """Takes a statement. Of several that are printed alike, each has a reading of its own."""
        before = sum(said == statement for _, said, _ in self.statements)
        readings = list(itertools.islice(self.language.equations(statement), before + 1))
        found = readings[-1] if readings else None
        self.statements.append((name, statement, found[2] if found else {}))
        clause = CLAUSE.fullmatch(statement)
        if clause:
            known = self.generators if clause[2] == "generated" else self.observers
            known.setdefault(clause[1], forms(clause[3]))
            return
        if found:
            self.facts.append(Fact(name, found[0], found[1], tuple(found[2].items())))

    def makes(self, sort):
        """The operators that generate a sort."""
        chosen = [[one for one in self.language.operators if one.name == name and one.range == sort]
                  for name in self.generators.get(sort) or ()]
        return [found[0] for found in chosen if found]

    def observes(self, sort):
        """The operators that tell values of a sort apart, each with the argument at which it does."""
        for name in self.observers.get(sort) or ():
            one = next((one for one in self.language.operators if one.name == name and sort in one.domain), None)
            if one:
                yield from ((one, place) for place, domain in enumerate(one.domain) if domain == sort)

    def scope(self, goal):
        """The sorts of the duty's variables, by a reading with which its goal can be read too."""
        known = [found[2] for found in itertools.islice(self.language.equations(self.statement), MOST_READINGS)]
        return next((sorts for sorts in known if self.language.formula(goal, sorts)), known[0] if known else {})

    def recursions(self):
        """The arguments at which an equation of an operator has one that generates: pairs of an operator and a
        place."""
        made = {one for sort in self.generators for one in self.makes(sort)}
        found = set()
        for fact in self.facts:
            for part in subterms(fact.left):
                if part[0] != "operator":
                    continue
                for place, argument in enumerate(part[2]):
                    if argument[0] == "operator" and self.language.operators[argument[1]] in made:
                        found.add((part[1], place))
        return found


def sections(lines):
    """The lines of a trait, and those that each clause `converts` adds, each beginning with operators."""
    found = []
    for number, line in enumerate(lines):
        if line.startswith("op ") and (number == 0 or not lines[number - 1].startswith("op ")) or not found:
            found.append([])
        found[-1].append(line)
    return found or [[]]


def duties_of(lines):
    """The duties that some lines list: their statements by their labels."""
    return {found[1]: found[2] for found in map(DUTY.fullmatch, lines) if found}


@dataclasses.dataclass
class Place:
    """What is known of an open goal: the formula, the sorts of the names in it, which of these are constants of the
    proof, and the hypotheses by their names. `former` is the goal that was supposed to be false, if there is one."""
    goal: tuple
    sorts: dict
    constants: dict
    hypotheses: list
    former: object = None
    added: int = 0
    derived: tuple = ()

    def variables(self):
        return [name for name in names(self.goal) if name not in self.constants]


@dataclasses.dataclass(frozen=True)
class Move:
    """A command, what it costs, and what kind of move it is."""
    command: str
    cost: float
    kind: str
    detail: object = None


def moves(theory, place):
    """The moves for a goal, those first that cost least; each once."""
    found = [*methods(theory, place), *cases(theory, place), *instances(theory, place), *pairs(theory, place),
             *normalizings(theory, place)]
    best = {}
    for move in sorted(found, key=lambda move: move.cost):
        best.setdefault(move.command, move)
    return list(best.values())


# Methods -----------------------------------------------------------------------------------------

def methods(theory, place):
    goal, language = place.goal, theory.language
    if goal[0] == "=>":
        yield Move("resume by =>", 0.7 if not place.variables() else 1.1, "=>")
    if goal[0] == "/\\":
        yield Move("resume by /\\", 0.9, "/\\")
    if goal[0] == "=" and theory.observers.get(language.sort(goal[1], place.sorts)):
        yield Move("resume by partition", 0.9, "partition")
    yield from inductions(theory, place)
    if goal != FALSE:
        is_denial = goal[0] in ("~", "=") or goal[0] == "operator"
        yield Move("resume by contradiction", 1.6 if is_denial else 2.4, "contradiction")


def inductions(theory, place):
    """Induction on each variable; those come first at which equations look."""
    wanted = {}
    for part in subterms(place.goal):
        if part[0] == "operator":
            for number, argument in enumerate(part[2]):
                if argument[0] == "variable" and (part[1], number) in theory.looked_at:
                    wanted[argument[1]] = wanted.get(argument[1], 0) + 1
    most = max(wanted.values(), default=0)
    for name in place.variables():
        sort = place.sorts.get(name)
        if sort in theory.generators:
            cost = 1.0 if wanted.get(name) == most and most else 1.2 if name in wanted else 1.7
            yield Move(f"resume by induction on {name}", cost + 0.2 * (sort == BOOL), "induction", (name, sort))


# Cases -------------------------------------------------------------------------------------------

def cases(theory, place):
    """Cases on what stands before `then`, on the atoms of the goal, and on other formulas in it and in hypotheses."""
    costs = {}
    for formula in conditions(place.goal):
        for atom in atoms(formula):
            costs.setdefault(atom, 1.0)
    for atom in atoms(place.goal):
        if atom != place.goal:
            costs.setdefault(atom, 1.2)
    for part in subterms(place.goal):
        if part != place.goal and theory.language.sort(part, place.sorts) == BOOL:
            for atom in atoms(part):
                costs.setdefault(atom, 1.5)
    for _, left, right in place.hypotheses[-4:]:
        for part in (left, right):
            for atom in (*conditions(part), *(atoms(part) if part[0] in ("\\/", "=>", "<=>", "=") else ())):
                costs.setdefault(atom, 1.9)
    if place.former is not None:
        for atom in (*conditions(place.former), *atoms(place.former)):
            costs.setdefault(atom, 2.0)
    shown = [(formula, cost) for formula, cost in costs.items()
             if formula[0] not in ("value", "if") and not any(part[0] == "if" for part in subterms(formula))]
    for formula, cost in sorted(shown, key=lambda pair: pair[1])[:MOST_CASES]:
        yield Move(f"resume by cases {theory.language.shown(formula)}", cost, "cases", formula)


# Facts -------------------------------------------------------------------------------------------

def facts(theory, place):
    """All facts of which instances may be taken."""
    made = [Fact(name, left, right, tuple((one, place.sorts[one]) for one in names(left, right)
                                          if one not in place.constants and one in place.sorts))
            for name, left, right in place.hypotheses]
    return [*reversed(made), *reversed(theory.facts)]


def targets(place):
    """The terms that instances may be about, those of the goal first, by what stands at their heads."""
    known = [place.goal] + ([place.former] if place.former is not None else [])
    known += [side for _, left, right in reversed(place.hypotheses) for side in (left, right)]
    found = dict.fromkeys(part for term in known for part in subterms(term) if part[0] not in ("value", "variable"))
    by_head = {}
    for term in list(found)[:MOST_TARGETS]:
        by_head.setdefault(head_of(term), []).append(term)
    return by_head


def head_of(term):
    return term[:2] if term[0] == "operator" else term[:1]


def instances(theory, place):
    """Instances of facts that match something in the goal or in a hypothesis, the better ones first."""
    about, scored = targets(place), []
    known = {term for terms in about.values() for term in terms}
    for fact in facts(theory, place):
        if fact.sorts:
            is_hypothesis = fact.name[0] == "H"
            for by in bindings(theory, fact, about, place):
                scored.append((worth(fact, by, known, is_hypothesis), fact, by))
    scored.sort(key=lambda entry: -entry[0])
    for score, fact, by in scored[:MOST_INSTANCES]:
        given = ", ".join(f"{name} by {theory.language.shown(term)}" for name, term in by.items())
        yield Move(f"instantiate {given} in {fact.name}", 2.3 - 0.15 * min(score, 6), "instantiate", (fact, by))


def bindings(theory, fact, about, place):
    """The ways to match what a fact is about, as far as can be; each binds some variable to another term."""
    variables, sorts, found, grown = fact.variables(), dict(fact.sorts), {}, [{}]
    fixed = frozenset(names(fact.left, fact.right)) - variables
    for pattern in fact.patterns():
        more = []
        for by, term in itertools.product(grown[:MOST_GROWN], about.get(head_of(pattern), ())):
            match = matches(pattern, term, by, fixed)
            if match is not None and match != by and suits(theory, match, sorts, place):
                more.append(match)
        grown = unlike(more + grown)[:2 * MOST_GROWN] if more else grown
    for by in grown:
        by = {name: term for name, term in by.items() if name in variables}
        if by and any(term != ("variable", name) for name, term in by.items()):
            found.setdefault(tuple(sorted(by.items())), by)
    return found.values()


def unlike(ways):
    return list({tuple(sorted(by.items())): by for by in ways}.values())


def suits(theory, by, sorts, place):
    """Whether all terms have the sorts of their variables."""
    return all(name not in sorts or theory.language.sort(term, place.sorts) in (sorts[name], None)
               for name, term in by.items())


def worth(fact, by, known, is_hypothesis):
    """How much an instance promises: what of it stands in the goal or in hypotheses already, and that nothing in it is
    left open."""
    left = fact.variables() - set(by)
    said = [replaced(part, by) for part in fact.formulas()]
    score = sum(part in known for part in said) - 1.5 * len(left) + is_hypothesis + 0.5 * fact.is_conditional()
    return score - 0.02 * sum(map(size, by.values()))


def pairs(theory, place):
    """Critical pairs of hypotheses with the facts that have the same operators, and of facts with each other."""
    language, found = theory.language, []
    known = [Fact(name, left, right, ()) for name, left, right in place.hypotheses]
    for one in known:
        heads = {part[1] for side in (one.left, one.right) for part in subterms(side) if part[0] == "operator"}
        for fact in [*theory.facts, *known]:
            if fact is one:
                continue
            inside = {part[1] for part in subterms(fact.left) if part[0] == "operator"}
            if heads & inside:
                short = 0.02 * size(fact.left)
                found += [(1.8 + short, f"critical-pairs {fact.name} with {one.name}"),
                          (2.2 + short, f"critical-pairs {one.name} with {fact.name}")]
    if not place.added:
        mentioned = {part[1] for part in subterms(place.goal) if part[0] == "operator"}
        near = [fact for fact in theory.facts if fact.right != TRUE or fact.left[0] == "="]
        near = [fact for fact in near if mentioned & {part[1] for part in subterms(fact.left) if part[0] == "operator"}]
        for one, other in itertools.product(reversed(near[-9:]), repeat=2):
            found.append((2.5 + 0.01 * size(one.left), f"critical-pairs {one.name} with {other.name}"))
    for cost, command in sorted(found)[:MOST_PAIRS]:
        yield Move(command, cost, "pairs")


def normalizings(theory, place):
    """Hypotheses are looked at again once something came after them; and so are facts about a constant that has got
    another name by a hypothesis."""
    last = len(place.hypotheses) - 1
    for age, (name, left, _) in enumerate(reversed(place.hypotheses)):
        if place.added or age or left[0] in ("=>", "\\/", "/\\"):
            yield Move(f"normalize {name}", 1.0 + 0.1 * min(age, last), "normalize", name)
    for name in place.derived[-3:]:
        yield Move(f"normalize {name}", 1.5, "normalize", name)
    turned = set()
    for _, left, right in place.hypotheses:
        for part in conjuncts(left):
            if part[0] == "=" and right == TRUE:
                turned |= {side for side in part[1:] if side[0] == "operator" and all(
                    one[0] == "operator" for one in subterms(side))}
    for fact in theory.facts:
        if any(part in turned for part in subterms(fact.left)):
            yield Move(f"normalize {fact.name}", 1.3, "normalize", fact.name)
