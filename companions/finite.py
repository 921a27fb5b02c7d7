"""Looks for a finite model: so many values for each sort, and a table for each operator, in which statements hold.

The entries of all tables are *places*, each with the values that it may still have, as the bits of a number. A place is
given a value by choice, what follows from the statements is worked out, and where nothing is left of a place, another
value is tried. Of values that nothing has told apart yet the least is tried alone: the others would give the same model
under other names."""
import itertools
import math
import time

from .listed import BOOL, Clause

MOST_PLACES, MOST_INSTANCES = 20000, 200000


class Stuck(Exception):
    """Nothing is left for some place, or a statement doesn't hold."""


class Ended(Exception):
    """The time or the number of choices is used up."""


class Search:
    """A search with so many values for each sort. Each of the statements is a list of readings, all of which are to
    hold; `goal` is a reading of a claim that is not to hold, or nothing."""

    def __init__(self, operators, sizes, statements, goal=None):
        self.operators, self.sizes, self.goal = list(operators), {**sizes, BOOL: 2}, goal
        self.clauses, self.instances, self.choices = [], [], 0
        self.begins, self.ranges, self.number = [], [], 0
        for operator in self.operators:
            self.declare(operator.domain, operator.range)
        for reading in itertools.chain(*statements):
            if isinstance(reading, Clause):
                self.clauses.append(reading)
            else:
                self.instantiate(reading)
        if goal and not isinstance(goal, Clause):
            self.deny(goal)
        self.left = [(1 << self.sizes[sort]) - 1 for sort in self.ranges]
        self.watchers, self.waiting = [set() for _ in self.left], set()
        self.trail, self.known_arguments = [], {}

    def declare(self, domain, result):
        """Places for the table of one more operator; the number of the first of them."""
        self.begins.append(self.number)
        count = math.prod(self.sizes[sort] for sort in domain)
        self.number += count
        if self.number > MOST_PLACES:
            raise Ended
        self.ranges += [result] * count
        return self.begins[-1]

    def instantiate(self, equation):
        """Takes an equation with all values for its variables."""
        values = [range(self.sizes[sort]) for sort in equation.sorts]
        if len(self.instances) + math.prod(map(len, values)) > MOST_INSTANCES:
            raise Ended
        self.instances += [(self.placed(equation.left, chosen), self.placed(equation.right, chosen))
                           for chosen in itertools.product(*values)]

    def deny(self, equation):
        """Takes that an equation doesn't hold for some values, which get places of their own."""
        chosen = [("place", self.declare((), sort)) for sort in equation.sorts]
        both = self.placed(equation.left, chosen), self.placed(equation.right, chosen)
        self.instances.append((("~=", *both), 1))

    def placed(self, term, chosen):
        """A term with values for its variables: a number where it has a value, and its operators' first places."""
        kind = term[0]
        if kind == "variable":
            return chosen[term[1]]
        if kind == "value":
            return term[1]
        if kind != "operator":
            return (kind, *(self.placed(part, chosen) for part in term[1:]))
        parts = tuple(self.placed(part, chosen) for part in term[2])
        sizes = tuple(self.sizes[sort] for sort in self.operators[term[1]].domain)
        return self.entry(self.begins[term[1]], sizes, parts)

    @staticmethod
    def entry(begin, sizes, parts):
        """The application of an operator: its place, where all arguments have values."""
        if any(isinstance(part, tuple) for part in parts):
            return ("table", begin, sizes, parts)
        place = 0
        for size, part in zip(sizes, parts):
            place = place * size + part
        return ("place", begin + place)

    # What a term has for a value -----------------------------------------------------------------

    def place_of(self, term, waits):
        """The place of an operator's application, as far as its arguments have values."""
        if term[0] == "place":
            return term[1]
        place = 0
        for size, part in zip(term[2], term[3]):
            value = part if isinstance(part, int) else self.value(part, waits)
            if value is None:
                return None
            place = place * size + value
        return term[1] + place

    def value(self, term, waits):
        """The value of a term, or nothing; the places that it waits for are put in a list."""
        if isinstance(term, int):
            return term
        kind = term[0]
        if kind in ("place", "table"):
            place = self.place_of(term, waits)
            if place is None:
                return None
            bits = self.left[place]
            if bits & (bits - 1):
                waits.append(place)
                return None
            return bits.bit_length() - 1
        return VALUES[kind](self, term, waits)

    def negated(self, term, waits):
        value = self.value(term[1], waits)
        return None if value is None else 1 - value

    def conjoined(self, term, waits):
        left = self.value(term[1], waits)
        if left == 0:
            return 0
        right = self.value(term[2], waits)
        return 0 if right == 0 else None if left is None or right is None else 1

    def disjoined(self, term, waits):
        left = self.value(term[1], waits)
        if left == 1:
            return 1
        right = self.value(term[2], waits)
        return 1 if right == 1 else None if left is None or right is None else 0

    def implied(self, term, waits):
        left = self.value(term[1], waits)
        if left == 0:
            return 1
        right = self.value(term[2], waits)
        return 1 if right == 1 else None if left is None or right is None else 0

    def equal(self, term, waits):
        left, right = self.value(term[1], waits), self.value(term[2], waits)
        return None if left is None or right is None else int(left == right)

    def different(self, term, waits):
        left, right = self.value(term[1], waits), self.value(term[2], waits)
        return None if left is None or right is None else int(left != right)

    def chosen(self, term, waits):
        which = self.value(term[1], waits)
        if which is not None:
            return self.value(term[2 if which else 3], waits)
        left, right = self.value(term[2], waits), self.value(term[3], waits)
        return left if left == right else None

    # What follows --------------------------------------------------------------------------------

    def keep(self, place, bits):
        """Leaves a place only some values; where one is left, those that wait for it are looked at again."""
        before = self.left[place]
        now = before & bits
        if now == before:
            return
        if not now:
            raise Stuck
        self.trail.append((place, before))
        self.left[place] = now
        if not now & (now - 1):
            self.waiting |= self.watchers[place]

    def want(self, term, value, wanted, waits):
        """Works out what follows of a term's having a value, or of its not having it."""
        if isinstance(term, int):
            if (term == value) != wanted:
                raise Stuck
            return
        kind = term[0]
        if kind in ("place", "table"):
            place = self.place_of(term, waits)
            if place is not None:
                self.keep(place, 1 << value if wanted else ~(1 << value))
        elif kind == "if":
            self.want_branch(term, value, wanted, waits)
        elif kind in ("=", "~=", "<=>"):
            self.want_equal(term, (value == 1) == wanted if kind != "~=" else (value == 0) == wanted, waits)
        elif kind == "~":
            self.want(term[1], 1 - value, wanted, waits)
        else:
            self.want_formula(term, (value == 1) == wanted, waits)

    def want_branch(self, term, value, wanted, waits):
        which = self.value(term[1], waits)
        if which is not None:
            self.want(term[2 if which else 3], value, wanted, waits)
            return
        for side, other in ((2, 0), (3, 1)):
            found = self.value(term[side], waits)
            if found is not None and (found == value) != wanted:
                self.want(term[1], other, True, waits)

    def want_equal(self, term, same, waits):
        left, right = self.value(term[1], waits), self.value(term[2], waits)
        if left is not None:
            self.want(term[2], left, same, waits)
        elif right is not None:
            self.want(term[1], right, same, waits)

    def want_formula(self, term, true, waits):
        """The same of `/\\`, `\\/` and `=>`, which have one value in three cases of four."""
        kind, left, right = term
        first = 0 if kind == "=>" else 1
        if true == (kind == "/\\"):
            self.want(left, int(true) if kind != "=>" else 1, True, waits)
            self.want(right, int(true), True, waits)
            return
        # One of both sides has to be so, and where the other one isn't, it is.
        wanted = int(true)
        here = wanted if kind != "=>" else first
        if self.value(left, waits) == 1 - here:
            self.want(right, wanted, True, waits)
        elif self.value(right, waits) == 1 - wanted:
            self.want(left, here, True, waits)

    def look(self, number):
        """Looks at an instance of a statement, and works out what follows of it."""
        left, right = self.instances[number]
        waits = []
        one, other = self.value(left, waits), self.value(right, waits)
        if one is not None and other is not None:
            if one != other:
                raise Stuck
            return
        if one is not None:
            self.want(right, one, True, waits)
        elif other is not None:
            self.want(left, other, True, waits)
        for place in waits:
            self.watchers[place].add(number)

    def follow(self):
        """Looks at instances until nothing more follows."""
        while self.waiting:
            self.look(self.waiting.pop())

    # Clauses -------------------------------------------------------------------------------------

    def entries(self, number):
        """The places of an operator's table, each with its arguments."""
        operator = self.operators[number]
        values = [range(self.sizes[sort]) for sort in operator.domain]
        return zip(itertools.count(self.begins[number]), itertools.product(*values))

    def reached(self, clause, all_left):
        """The values that the clause's operators may make, or make for certain, as bits."""
        found, grown = 0, True
        while grown:
            grown = False
            for number in clause.operators:
                domain = self.operators[number].domain
                for place, values in self.entries(number):
                    bits = self.left[place]
                    if bits & ~found and (all_left or not bits & (bits - 1)) and all(
                            sort != clause.sort or found >> value & 1 for sort, value in zip(domain, values)):
                        found, grown = found | bits, True
        return found

    def can_differ(self, clause, one, other):
        """Whether an operator of the clause may tell two values apart."""
        for number in clause.operators:
            domain, by_values = self.operators[number].domain, {v: p for p, v in self.entries(number)}
            for values, place in by_values.items():
                for at, sort in enumerate(domain):
                    if sort == clause.sort and values[at] == one:
                        bits = self.left[place] | self.left[by_values[(*values[:at], other, *values[at + 1:])]]
                        if bits & (bits - 1):
                            return True
        return False

    def may_hold(self, clause):
        """Whether a clause may hold; where all places have values, whether it does."""
        size = self.sizes[clause.sort]
        if clause.kind == "generated":
            return self.reached(clause, True) == (1 << size) - 1
        return all(self.can_differ(clause, *two) for two in itertools.combinations(range(size), 2))

    def may_fail(self, clause):
        """Whether a clause may not hold; where all places have values, whether it doesn't."""
        if clause.kind == "generated":
            return self.reached(clause, False) != (1 << self.sizes[clause.sort]) - 1
        return True

    def look_at_clauses(self, whole):
        if not all(map(self.may_hold, self.clauses)):
            raise Stuck
        if isinstance(self.goal, Clause) and not (
                not self.may_hold(self.goal) if whole else self.may_fail(self.goal)):
            raise Stuck

    # Choices -------------------------------------------------------------------------------------

    def models(self, choices, deadline):
        """Each model that is found, as the values of all places. Raises `Ended` where so many choices were made, or at
        the deadline."""
        self.waiting, levels = set(range(len(self.instances))), []
        self.choices, used = 0, {}
        while True:
            try:
                self.follow()
                place = self.next_place(used)
                self.look_at_clauses(place is None)
                if place is None:
                    yield [bits.bit_length() - 1 for bits in self.left]
                    raise Stuck
                levels.append((place, len(self.trail), used, self.tries(place, used)))
            except Stuck:
                pass
            used = self.choose(levels)
            if used is None:
                return
            self.choices += 1
            if self.choices > choices or time.monotonic() > deadline:
                raise Ended

    def choose(self, levels):
        """Gives the last place that has a choice its next value; the values that are told apart then, or nothing."""
        while levels:
            place, mark, used, tries = levels[-1]
            while len(self.trail) > mark:
                at, bits = self.trail.pop()
                self.left[at] = bits
            self.waiting = set()
            if tries:
                value = tries.pop(0)
                self.keep(place, 1 << value)
                return self.told_apart(place, value, used)
            levels.pop()
        return None

    def next_place(self, used):
        """The place to choose for: one with few values left, for which many wait, and whose arguments are told apart
        already, if there is one; nothing where all places have values."""
        best, key = None, None
        for place, bits in enumerate(self.left):
            if bits & (bits - 1):
                found = (self.newness(place, used), bits.bit_count(), -len(self.watchers[place]))
                if key is None or found < key:
                    best, key = place, found
        return best

    def arguments(self, place):
        """The arguments of a place, each with its sort."""
        number = next(at for at in range(len(self.begins) - 1, -1, -1) if self.begins[at] <= place)
        if number >= len(self.operators):
            return []
        found, rest = [], place - self.begins[number]
        for sort in reversed(self.operators[number].domain):
            rest, value = divmod(rest, self.sizes[sort])
            found.append((sort, value))
        return found

    def newness(self, place, used):
        """How many arguments of a place are values that nothing has told apart."""
        if place not in self.known_arguments:
            self.known_arguments[place] = self.arguments(place)
        return sum(sort != BOOL and value >= used.get(sort, 0) for sort, value in self.known_arguments[place])

    def told_apart(self, place, value, used):
        """How many values of each sort are told apart once a place has a value: as a rule it is one more at most."""
        found = dict(used)
        for sort, one in [*self.known_arguments[place], (self.ranges[place], value)]:
            found[sort] = max(found.get(sort, 0), one + 1)
        return found

    def tries(self, place, used):
        """The values to try for a place: those that are told apart, and the least of the others."""
        sort, bits = self.ranges[place], self.left[place]
        here = [value + 1 for of, value in self.known_arguments[place] if of == sort]
        known = 2 if sort == BOOL else max([used.get(sort, 0), *here])
        return [value for value in range(min(known + 1, self.sizes[sort])) if bits >> value & 1]

    def text(self, found):
        """The text of a model, by the values of all places."""
        sorts = dict.fromkeys(sort for one in self.operators for sort in (*one.domain, one.range))
        lines = ["model", *(f"sort {sort} {self.sizes[sort]}" for sort in sorts if sort != BOOL)]
        for number, (begin, operator) in enumerate(zip(self.begins, self.operators), 1):
            values = found[begin:begin + math.prod(self.sizes[sort] for sort in operator.domain)]
            lines.append(" ".join(["op", str(number), *map(str, values)]))
        return "".join(line + "\n" for line in lines)


VALUES = {"~": Search.negated, "/\\": Search.conjoined, "\\/": Search.disjoined, "=>": Search.implied,
          "<=>": Search.equal, "=": Search.equal, "~=": Search.different, "if": Search.chosen}
