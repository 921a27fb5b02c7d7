"""A proof as far as one can follow it without the program: which goals a block has opened, with what they suppose,
which names its constants have. What each goal looks like, and how many are open, a report says."""
import dataclasses

from .formulas import FALSE, TRUE, names, replaced
from .listed import CLAUSE, forms

# The number of the next fact, where it isn't known any more.
UNKNOWN = 1000000
# What a command costs more that changes nothing which a report shows.
UNSEEN = 0.3


@dataclasses.dataclass(frozen=True)
class Goal:
    """A goal that waits or is worked on: what it is for, its facts beside the theory's, what it will suppose once it is
    opened, the goal whose contrary it supposes, and what was paid on the way to it."""
    title: str
    key: object
    facts: tuple = ()
    supposes: tuple = ()
    former: object = None
    paid: float = 0.0
    added: int = 0


@dataclasses.dataclass(frozen=True)
class State:
    """A block with what came of it. `goals` are those that are open, the first one being worked on; `steps` has for
    each command the titles of the goals that it opened, and how many goals were closed behind it."""
    commands: tuple
    goals: tuple
    goal: object
    text: str
    sorts: dict
    constants: dict
    next_hypothesis: int = 1
    next_derived: int = 1
    steps: tuple = ()
    paid: float = 0.0
    moves: tuple = ()

    @property
    def here(self):
        return self.goals[0]

    def key(self):
        """States with the same key have the same to show."""
        return self.here.key, self.text, frozenset(fact[1:] for fact in self.here.facts), len(self.goals)


class Course:
    """The course of proofs of one duty."""

    def __init__(self, theory, scope):
        self.theory, self.language, self.scope = theory, theory.language, scope
        self.taken = {operator.name for operator in self.language.operators}

    def start(self, verdict):
        """The state of an empty block."""
        facts, constants = self.supposed_at_first()
        numbers = [int(fact[0][1:].split(".")[0]) for fact in facts]
        found = State((), (Goal("conjecture", "conjecture", facts),), None, "", {**self.scope, **constants}, constants,
                      1 + max(numbers, default=0))
        return self.seen(found, verdict)

    def supposed_at_first(self):
        """What the opening of a duty supposes that is a clause."""
        clause = CLAUSE.fullmatch(self.theory.statement)
        if clause is None:
            return (), {}
        made = [self.language.named[name] for name in forms(clause[3]) if name in self.language.named]
        if clause[2] == "generated":
            return self.generation(clause[1], made), {}
        constants = {self.free("lc", {}, None): clause[1]}
        constants[self.free("rc", constants, None)] = clause[1]
        left, right = (("variable", name) for name in constants)
        equations = [(equation, TRUE) for equation, _ in self.observations(clause[1], made, left, right, {}, None)]
        return numbered(equations, 1), constants

    def generation(self, sort, made):
        """What is supposed of the predicate of a clause `generated`."""
        predicate, supposed = self.language.named.get("gen"), []
        if predicate is None:
            return ()
        for number in made:
            domain = self.language.operators[number].domain
            arguments = tuple(("variable", f"x{place}") for place in range(1, len(domain) + 1))
            there = ("operator", predicate, (("operator", number, arguments),))
            mine = [("operator", predicate, (one,)) for one, of in zip(arguments, domain) if of == sort]
            front = None
            for one in mine:
                front = one if front is None else ("/\\", front, one)
            supposed.append(((("=>", front, there) if front else there), TRUE))
        return numbered(supposed, 1)

    def free(self, base, made, goal):
        """The first of some names that is free."""
        used = self.taken | set(self.scope) | set(made) | set(names(goal) if goal is not None else ())
        number, name = 0, base
        while name in used:
            number += 1
            name = f"{base}{number}"
        return name

    def closed(self, term, state, made):
        """Constants in the place of a term's variables; they are added to those that are made."""
        by = {}
        for name in names(term):
            if name not in state.constants:
                new = self.free(f"{name}c", made, state.goal)
                made[new] = state.sorts.get(name)
                by[name] = ("variable", new)
        return by

    def observations(self, sort, operators, left, right, made, goal):
        """What observers show of two terms, each as an equation with the operator that shows it."""
        found = []
        for number in operators:
            operator = self.language.operators[number]
            for place, domain in enumerate(operator.domain):
                if domain == sort:
                    rest = [("variable", self.other(index, one, place, made, goal))
                            for index, one in enumerate(operator.domain)]
                    sides = [("operator", number, tuple(one if index == place else other
                                                        for index, other in enumerate(rest))) for one in (left, right)]
                    sign = "<=>" if operator.range == "Bool" else "="
                    found.append(((sign, *sides), operator))
        return found

    def other(self, index, sort, place, made, goal):
        """The name of another argument of an observer: a constant where a goal is observed."""
        if index == place:
            return ""
        if goal is None:
            return f"x{index + 1}"
        name = self.free("ac", made, goal)
        made[name] = sort
        return name

    # Methods -------------------------------------------------------------------------------------

    def opened(self, state, move, made):
        """The goals that a method opens, each with its title, what it supposes, and the goal that it denies."""
        goal = state.goal
        if goal is None:
            return [("goal", (), None)]
        if move.kind == "cases":
            formula = replaced(move.detail, self.closed(move.detail, state, made))
            shown = self.language.shown(formula)
            return [(f"case {shown}", ((formula, TRUE),), None), (f"case ~({shown})", ((formula, FALSE),), None)]
        if move.kind == "=>":
            by = self.closed(goal[1], state, made)
            return [("implication", ((replaced(goal[1], by), TRUE),), None)]
        if move.kind == "contradiction":
            denied = replaced(goal, self.closed(goal, state, made))
            return [("contradiction", ((denied, FALSE),), denied)]
        if move.kind == "/\\":
            count = str(goal).count("/\\")
            return [("conjunct", (), None)] * max(2, self.count_of_conjuncts(goal) if count else 2)
        if move.kind == "partition":
            return self.observed(state, made)
        return self.induced(state, move, made)

    @staticmethod
    def count_of_conjuncts(goal):
        return sum(map(Course.count_of_conjuncts, goal[1:])) if goal[0] == "/\\" else 1

    def observed(self, state, made):
        sort = self.language.sort(state.goal[1], state.sorts)
        numbers = list(dict.fromkeys(self.language.named[one.name] for one, _ in self.theory.observes(sort)))
        return [("observer", (), None) for _ in self.observations(sort, numbers, *state.goal[1:], made, state.goal)]

    def induced(self, state, move, made):
        name, sort = move.detail
        if sort == "Bool":
            return [("basis true", (), None), ("basis false", (), None)]
        found = []
        for operator in self.theory.makes(sort):
            arguments = []
            for domain in operator.domain:
                new = self.free(f"{name}c" if domain == sort else "ac", made, state.goal)
                made[new] = domain
                arguments.append((new, domain == sort))
            supposed = tuple((replaced(state.goal, {name: ("variable", new)}), TRUE)
                             for new, is_mine in arguments if is_mine)
            shown = self.language.applied(operator.name, tuple(("variable", new) for new, _ in arguments))
            found.append((f"{'step' if supposed else 'basis'} {shown}", supposed, None))
        return found

    # What came of a command ----------------------------------------------------------------------

    def after(self, state, move, verdict):
        """The state behind one more command, of which a report has said what came; nothing where it is refused."""
        if verdict.kind == "refused":
            return None
        made, here, paid = dict(state.constants), state.here, state.paid + move.cost
        next_derived, opened = state.next_derived, []
        if move.kind in ("instantiate", "normalize", "pairs"):
            facts, next_derived = self.derived(state, move)
            changed = dataclasses.replace(here, facts=facts, added=here.added + 1)
            goals = [changed, *state.goals[1:]]
        else:
            opened = self.opened(state, move, made)
            front = hash(state.key())
            goals = [Goal(title, (front, move.command, number), here.facts, supposes, former or here.former, paid,
                          here.added)
                     for number, (title, supposes, former) in enumerate(opened)] + list(state.goals[1:])
        found = State((*state.commands, move.command), tuple(goals), None, "", {**state.sorts, **made}, made,
                      state.next_hypothesis, next_derived, state.steps, paid, (*state.moves, move))
        new = self.seen(found, verdict, [title for title, _, _ in opened])
        hides = not opened and (new.text, len(new.goals)) == (state.text, len(state.goals))
        return dataclasses.replace(new, paid=new.paid + UNSEEN) if hides else new

    def derived(self, state, move):
        """The facts of a goal behind a command that adds some, and the number of the next one."""
        facts, number = list(state.here.facts), state.next_derived
        if move.kind == "pairs":
            return (*facts, ("?", ("variable", f"?{move.command}"), TRUE, len(facts))), UNKNOWN
        if move.kind == "normalize":
            was = next((fact for fact in facts if fact[0] == move.detail), None)
            facts = [fact for fact in facts if fact[0] != move.detail]
            new = (was[1], was[2]) if was else (("variable", f"?{move.command}"), TRUE)
            return (*facts, (f"D{number}", *new, len(facts) + 1)), number + 1
        fact, by = move.detail
        new = replaced(fact.left, by), replaced(fact.right, by)
        return (*facts, *parts(f"D{number}", *new)), number + 1

    def seen(self, state, verdict, titles=()):
        """A state with what a report says of it: goals are closed from the first one on, and those that come to be
        worked on suppose what they are to."""
        left = verdict.goals if verdict.kind == "suspended" else 0
        goals, next_hypothesis = list(state.goals), state.next_hypothesis
        closed = max(0, len(goals) - left)
        while len(goals) < left:
            goals.append(Goal("goal", ("unknown", len(goals))))
        paid = state.paid
        fresh = len(titles)
        for number, goal in enumerate(goals[:closed + 1]):
            is_opened = number > 0 or fresh
            if is_opened and goal.supposes:
                supposed = numbered(goal.supposes, next_hypothesis)
                next_hypothesis += len(goal.supposes)
                goals[number] = dataclasses.replace(goal, facts=(*goal.facts, *supposed), supposes=())
        if closed and left:
            paid = goals[closed].paid
        goals = goals[closed:]
        text = verdict.goal if left else ""
        term, sorts = None, state.sorts
        if left:
            read = self.language.formula(text, {name: sort for name, sort in state.sorts.items() if sort})
            term, sorts = (read[0], {**state.sorts, **read[1]}) if read else (None, state.sorts)
        steps = (*state.steps, (titles, closed)) if state.commands else ()
        return dataclasses.replace(state, goals=tuple(goals), goal=term, text=text, sorts=sorts, steps=steps,
                                   next_hypothesis=next_hypothesis, paid=paid)


def numbered(supposed, number):
    """Hypotheses with their names, the parts of each by themselves."""
    return tuple(fact for at, (left, right) in enumerate(supposed, number) for fact in parts(f"H{at}", left, right))


def parts(name, left, right):
    """An equation as the facts that come of it, with their names."""
    found = list(taken_apart(left, right))
    if len(found) == 1:
        return [(name, *found[0], 0)]
    return [(f"{name}.{number}", *one, 0) for number, one in enumerate(found, 1)]


def taken_apart(left, right):
    if left[0] == "/\\" and right == TRUE or left[0] == "\\/" and right == FALSE:
        for part in left[1:]:
            yield from taken_apart(part, right)
    elif left[0] == "~" and right in (TRUE, FALSE):
        yield from taken_apart(left[1], FALSE if right == TRUE else TRUE)
    elif left[0] == "=>" and right == FALSE:
        yield from taken_apart(left[1], TRUE)
        yield from taken_apart(left[2], FALSE)
    else:
        yield left, right


def shown(label, statement, state, with_marks):
    """A block as one writes it."""
    lines, depth = [f"% {statement}", f"duty {label}"], 1
    waiting = []
    for command, (titles, closed) in zip(state.commands, state.steps):
        lines.append("  " * depth + command)
        if titles:
            waiting.append(list(titles))
            if with_marks:
                lines.append("  " * depth + f"<> {titles[0]}")
            depth += 1
        for _ in range(closed):
            depth = close(lines, waiting, depth, with_marks)
    if with_marks and not any(state.goals):
        lines.append("  [] conjecture")
    return "\n".join([*lines, "  qed"]) + "\n"


def close(lines, waiting, depth, with_marks):
    """Writes that a goal is closed, with those above it that are closed by it; the depth of the next one."""
    while waiting:
        title = waiting[-1].pop(0)
        depth -= 1
        if with_marks:
            lines.append("  " * depth + f"[] {title}")
        if waiting[-1]:
            if with_marks:
                lines.append("  " * depth + f"<> {waiting[-1][0]}")
            return depth + 1
        waiting.pop()
    return depth
