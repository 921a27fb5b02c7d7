"""What companions say of a refusal: `explain(files, refusal)` gives its cause, and `all_causes(files, refusal)` that
and those of what is wrong behind it, marked as further.

`files` are the bytes of files by their names, the refused one and those that it refers to; a refusal is what a report
says of one of them. With a session the program itself is asked what a change comes to; without one the one that is
found is asked, and where there is none, causes are found by reading alone."""
import contextlib

from . import explain as texts
from . import further as behind
from . import items, lexical, reading, referring, syntax
from .cases import Case, Cause, Found
from .program import Session
from .scope import reached

TOPICS = {
    "LEX": lexical.cause, "SYNTAX": syntax.cause, "MIXED": reading.mixed, "DEEP": items.deep, "SIZE": items.size,
    "TRAIT-NAME": referring.trait_name, "UNKNOWN-TRAIT": referring.unknown_trait, "CYCLE": referring.cycle,
    "BAD-REFERENCE": referring.bad_reference, "RENAME": referring.rename, "FIELD-TWICE": referring.field_twice,
    "ARITY": referring.arity, "BUILT-IN": referring.built_in, "UNKNOWN-SORT": items.unknown_sort,
    "VARIABLE-TWICE": items.variable_twice, "GENERATOR": items.of_clause, "PARTITION": items.of_clause,
    "NO-READING": reading.no_reading, "AMBIGUOUS": reading.ambiguous, "CONVERTED": items.of_clause,
    "IMPLIED-OPERATOR": referring.implied_operator, "EXEMPT": items.exempt}


def explain(files, refusal, session=None, report=None):
    """The cause of a refusal. `report` is the report on the files where it is at hand."""
    with session_or_own(session) as asked:
        return cause_of(Case(files, refusal, asked, report))


def all_causes(files, refusal, session=None, report=None):
    """The cause of a refusal and, behind it, those of what is wrong further on."""
    with session_or_own(session) as asked:
        def explained(now, refused):
            return cause_of(Case(now, refused, asked, None, behind.MOST_PROBES, behind.MOST_SECONDS))
        first = cause_of(Case(files, refusal, asked, report))
        return [first, *behind.further(files, first, explained, asked)]


class Explainer:
    """Explains refusals for one who asks often: it holds a session for its probes, and what it found stays known as
    long as the files that a trait reaches are the same."""

    def __init__(self, program=None, most_known=1000):
        self.session, self.known, self.most_known = Session(program), {}, most_known

    def explain(self, files, refusal, report=None):
        """The causes of a refusal, the first and those behind it."""
        near = tuple((name, files[name]) for name in reached(files, refusal.file))
        key = refusal, near, tuple(sorted(files))
        if key not in self.known:
            if len(self.known) >= self.most_known:
                self.known.clear()
            self.known[key] = all_causes(files, refusal, self.session, report)
        return self.known[key]

    def close(self):
        self.session.close()


@contextlib.contextmanager
def session_or_own(session):
    """The session that is given, or one for this call."""
    if session is not None:
        yield session
    else:
        with Session() as own:
            yield own


def cause_of(case):
    """What the topic of the code finds; whatever the bytes are, something is said."""
    refusal, found = case.refusal, None
    with contextlib.suppress(RecursionError, IndexError, StopIteration):  # a message less, and no editor in trouble
        found = TOPICS.get(refusal.code, nothing)(case)
    found = found or nothing(case)
    start, end = found.span or span(case, found)
    return Cause(refusal.file, refusal.line, refusal.column, refusal.code, found.title, start, end,
                 found.where or refusal.file, found.change, tuple(found.more), texts.general(refusal.code))


def nothing(case):
    """What is said where no cause is known: the token, and where it stands."""
    return Found(f"{case.word(case.at)} is refused here", case.at, case.at)


def span(case, found):
    """The offsets of the tokens that are to be mended."""
    if found.first is None:
        token = case.token
        return (token.start, token.end) if token and token.start == case.offset else (case.offset, case.offset)
    size = len(case.tokens)
    if found.first >= size:
        return len(case.data), len(case.data)
    last = size - 1 if found.last is None or found.last >= size else found.last
    return case.tokens[found.first].start, max(case.tokens[last].end, case.tokens[found.first].end)
