"""A search for the block that proves a duty: the moves of `moves`, tried by replays in one running session, the
cheapest first."""
import dataclasses
import heapq
import itertools
import pathlib
import subprocess
import tempfile
import time

from .flat import LABEL, NAME, Flat
from .moves import Place, Theory, moves
from .proving import Course
from .scope import reached
from .scripts import Script, findings

BATCH, MOST_COMMANDS, SHOWN = 48, 40, 3


class Replays:
    """A session that replays blocks of one duty: the files that its trait reaches, and the trait's script up to it."""

    def __init__(self, session, files, trait, label):
        self.session, self.trait, self.label, self.count = session, trait, label, 0
        self.files = {name: files[name] for name in reached(files, f"{trait}.lsl")}
        self.script = Script(files.get(f"{trait}.lp", b""))
        self.off = ("set box-checking off",) if self.script.checks_boxes() else ()
        self.before = self.script.without({label}).rstrip()

    def text(self, commands):
        lines = [f"duty {self.label}", *(f"  {command}" for command in (*self.off, *commands))]
        return "\n".join([self.before, *lines, ""]).encode()

    def verdicts(self, blocks):
        """What is said of the duty with each of several blocks."""
        self.count += len(blocks)
        ways = [{**self.files, f"{self.trait}.lp": self.text(commands)} for commands in blocks]
        return [findings(lines)[self.trait].verdicts.get(self.label) for lines in self.session.all_lines(ways)]

    def now(self):
        """What is said of all duties of the trait, the tried one having no block."""
        files = {**self.files, f"{self.trait}.lp": (self.before + "\n").encode()}
        return findings(self.session.lines(files))[self.trait]


class FlatReplays:
    """A session that replays blocks of a duty in the trait of its theory alone."""

    def __init__(self, session, theory, scope, preamble):
        self.session, self.flat, self.count = session, Flat(theory, scope), 0
        self.preamble = "\n".join([*preamble, "set box-checking off", f"duty {LABEL}"])

    def verdicts(self, blocks):
        """What is said of the duty with each of several blocks."""
        self.count += len(blocks)
        texts = ["\n".join([self.preamble, *map(self.flat.command, commands), ""]) for commands in blocks]
        ways = [{f"{NAME}.lsl": self.flat.text, f"{NAME}.lp": text.encode()} for text in texts]
        found = [findings(lines).get(NAME) for lines in self.session.all_lines(ways)]
        return [one.verdicts.get(LABEL) if one else None for one in found]


@dataclasses.dataclass(frozen=True)
class Limits:
    """When a search stops: behind so many seconds, or so many replays."""
    seconds: float = 10
    replays: int = 1000000


@dataclasses.dataclass
class Outcome:
    """What a search came to: the state of the shortest block that proves the duty, or nothing; how many blocks were
    replayed, how long that took, and the states that came farthest."""
    state: object
    replays: int
    seconds: float
    farthest: list


class Search:
    """A search for a block of one duty."""

    def __init__(self, replays, theory, course, begun, limits):
        self.replays, self.theory, self.course = replays, theory, course
        self.begun, self.deadline, self.most = begun, begun + limits.seconds, limits.replays
        self.heap, self.seen, self.numbers, self.farthest = [], set(), itertools.count(), []

    def run(self, verdict):
        """The outcome, from what is said of an empty block."""
        found = None
        if verdict.kind == "suspended":
            self.push(self.course.start(verdict))
            while self.heap and found is None and not self.is_over():
                found = self.round()
        if found is not None:
            found = self.shortened(found)
        return Outcome(found, self.replays.count, time.monotonic() - self.begun, self.farthest)

    def is_over(self):
        return time.monotonic() >= self.deadline or self.replays.count >= self.most

    def push(self, state):
        """Takes a state that is to be gone on with."""
        if state.key() in self.seen:
            return
        self.seen.add(state.key())
        self.farthest = sorted([*self.farthest, state], key=remaining)[:SHOWN]
        heapq.heappush(self.heap, (rank(state), next(self.numbers), state))

    def round(self):
        """Tries the moves of the best states; the first state that is proved, or nothing."""
        tried = []
        while self.heap and len(tried) < BATCH:
            state = heapq.heappop(self.heap)[2]
            if state.goal is not None and len(state.commands) < MOST_COMMANDS:
                tried += [(state, move) for move in moves(self.theory, place_of(state))]
        verdicts = self.replays.verdicts([(*state.commands, move.command) for state, move in tried]) if tried else []
        proved = None
        for (state, move), verdict in zip(tried, verdicts):
            new = self.course.after(state, move, verdict) if verdict else None
            if new is None:
                continue
            if verdict.kind == "proved":
                proved = new if proved is None or len(new.commands) < len(proved.commands) else proved
            else:
                self.push(new)
        return proved

    def shortened(self, state):
        """A proved block without the commands that it doesn't need."""
        moves_of = state.moves
        while True:
            ways = [(*moves_of[:place], *moves_of[place + 1:]) for place in reversed(range(len(moves_of)))]
            verdicts = self.replays.verdicts([[move.command for move in way] for way in ways]) if ways else []
            shorter = next((way for way, verdict in zip(ways, verdicts) if verdict and verdict.kind == "proved"), None)
            if shorter is None:
                return self.followed(moves_of) or state
            moves_of = shorter

    def followed(self, chosen):
        """The state behind some moves, one after the other."""
        commands = [move.command for move in chosen]
        verdicts = self.replays.verdicts([commands[:count] for count in range(len(commands) + 1)])
        state = self.course.start(verdicts[0])
        for move, verdict in zip(chosen, verdicts[1:]):
            state = self.course.after(state, move, verdict) if state else None
        return state


def rank(state):
    """How late a state is gone on with: what was paid on the way to its goal, and how much is open."""
    hidden = 0.5 if state.text == "false" else 0.0025 * min(len(state.text), 200)
    return state.paid + 0.3 * (len(state.goals) - 1) + 0.05 * len(state.commands) + hidden


def remaining(state):
    """How much of a state is left: fewer goals are better, and then a shorter one."""
    return len(state.goals), len(state.text), len(state.commands)


def place_of(state):
    facts = [fact[:3] for fact in state.here.facts if fact[0] != "?" and fact[1][1:2] != "?"]
    derived = tuple(name for name, _, _ in facts if name[0] == "D")
    return Place(state.goal, state.sorts, state.constants, facts, state.here.former, state.here.added, derived)


def try_duty(session, files, trait, label, listing, limits):
    """Looks for a block of a duty: what is said of it now, and the outcome of the search where it is suspended, with
    the theory. Blocks are tried in the trait of the theory alone, where the program says the same of it; what is found
    is replayed in the trait itself."""
    begun = time.monotonic()
    replays = Replays(session, files, trait, label)
    now = replays.now()
    verdict = now.verdicts.get(label)
    if verdict is None or verdict.kind != "suspended":
        return verdict, None, None
    proved = {name for name, one in now.verdicts.items() if one.kind == "proved"}
    theory = Theory(listing, trait, label, proved)
    scope = theory.scope(verdict.goal)
    course = Course(theory, scope)
    flat = FlatReplays(session, theory, scope, replays.script.lines[:replays.script.preamble_end - 1])
    alone = flat.verdicts([()])[0]
    if alone and (alone.kind, alone.goals, alone.goal) == (verdict.kind, verdict.goals, verdict.goal):
        outcome = Search(flat, theory, course, begun, limits).run(verdict)
        commands = outcome.state.commands if outcome.state else ()
        if outcome.state is None or replays.verdicts([commands])[0].kind == "proved":
            return verdict, outcome, theory
    return verdict, Search(replays, theory, course, begun, limits).run(verdict), theory


def waiting(session, files, trait, label):
    """The duties that are to be tried: the one with a label or, for `all`, each that has no block and is suspended."""
    if label != "all":
        return [label]
    script = Script(files.get(f"{trait}.lp", b""))
    chosen = {name: files[name] for name in reached(files, f"{trait}.lsl")}
    chosen[f"{trait}.lp"] = files.get(f"{trait}.lp", b"")
    said = findings(session.lines(chosen))[trait].verdicts
    return [name for name, one in said.items() if one.kind == "suspended" and script.block(name) is None]


def listing(program, files, trait):
    """What `larch obligations` lists of a trait and those that it reaches."""
    chosen = reached(files, f"{trait}.lsl")
    with tempfile.TemporaryDirectory() as place:
        for name in chosen:
            (pathlib.Path(place) / name).write_bytes(files[name])
        done = subprocess.run([program, "obligations", *chosen], cwd=place, stdout=subprocess.PIPE,
                              stderr=subprocess.DEVNULL, stdin=subprocess.DEVNULL, check=False)
    return done.stdout.decode()
