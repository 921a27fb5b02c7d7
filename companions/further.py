"""What is wrong behind the first refusal of a file: it is mended as its cause proposes, or taken out, and the program
is asked again."""
import dataclasses

from .cases import LAST_STAGE, STAGES, Change, Edit, edited, former
from .declarations import trait_of
from .program import refusals
from .scope import reached

MOST_FURTHER, MOST_PROBES, MOST_SECONDS = 10, 16, 0.5


def further(files, cause, explained, session):
    """The causes behind a first one. `explained` gives the cause of a refusal among some files."""
    state, found, seen = State(files, cause), [], {(cause.line, cause.column, cause.code)}
    titles = {cause.title}
    for _ in range(3 * MOST_FURTHER):
        if len(found) == MOST_FURTHER or not state.mend(cause, explained, session):
            break
        refusal = state.refused(session)
        if refusal is None or (state.unsure and STAGES.get(refusal.code, LAST_STAGE) == LAST_STAGE):
            break
        cause = explained(state.files, refusal)
        shown = state.as_before(cause)
        if (shown.line, shown.column, shown.code) in seen:
            break
        seen.add((shown.line, shown.column, shown.code))
        if shown.code == "SYNTAX" or shown.title not in titles:
            titles.add(shown.title)
            found.append(shown)
    return found


class State:
    """The files with what was mended or taken out, and how places in the file were before."""

    def __init__(self, files, cause):
        self.first, self.name, self.files = files[cause.file], cause.file, dict(files)
        self.layers, self.places, self.unsure = [], [], False

    def mend(self, cause, explained, session):
        """Mends what is wrong, or takes it out; whether something was done."""
        if cause.change and cause.change.proved and cause.change.edits and not is_doubtful(cause):
            return self.apply(cause.change.edits)
        if cause.code == "BAD-REFERENCE" and self.mend_referred(cause, explained, session):
            return True
        span, unsure = faulty(self.files[self.name], cause)
        self.unsure = self.unsure or unsure
        if span is None:
            return False
        data = self.files[self.name]
        self.places.append((self.former(span[0]), self.former(span[1])))
        blank = bytes(byte if byte in b"\r\n" else 32 for byte in data[span[0]:span[1]])
        self.files[self.name] = data[:span[0]] + blank + data[span[1]:]
        return self.files[self.name] != data

    def apply(self, edits):
        before = self.files[self.name]
        self.places += [(self.former(edit.start), self.former(edit.end)) for edit in edits]
        self.files[self.name] = edited(before, edits)
        self.layers.append(edits)
        return self.files[self.name] != before

    def mend_referred(self, cause, explained, session):
        """Mends the trait that is refused behind a reference, where its cause has a change that makes it right."""
        wrong = next((refusal for refusal in self.report(session) if refusal.file == cause.where), None)
        if wrong is None or cause.where == self.name:
            return False
        change = explained(self.files, wrong).change
        if change is None or change.proved != "right":
            return False
        self.files[cause.where] = edited(self.files[cause.where], change.edits)
        return True

    def report(self, session):
        try:
            return refusals(session.report({name: self.files[name] for name in reached(self.files, self.name)}))
        except (OSError, EOFError):
            return []

    def refused(self, session):
        """What the program says now of the file, if something is wrong."""
        return next((refusal for refusal in self.report(session) if refusal.file == self.name), None)

    def former(self, offset):
        for edits in reversed(self.layers):
            offset = former(offset, edits)
        return max(0, min(offset, len(self.first)))

    def touches(self, edits):
        """Whether edits, by places in the file as it was, meet what was mended or taken out before."""
        return any(edit.start <= end and start <= edit.end for edit in edits for start, end in self.places)

    def as_before(self, cause):
        """A cause with the places that it has in the file as it was."""
        now = trait_of(self.files[self.name]).text
        offset = self.former(now.offset(cause.line, cause.column))
        line, column = trait_of(self.first).text.place(offset)
        start, end, change = cause.start, cause.end, cause.change
        if cause.where == self.name:
            start, end = self.former(start), self.former(end)
        if change:
            edits = tuple(Edit(self.former(edit.start), self.former(edit.end), edit.new) for edit in change.edits)
            change = Change(change.says, () if self.touches(edits) else edits, change.proved)
        return dataclasses.replace(cause, line=line, column=column, start=start, end=max(start, end), change=change,
                                   further=True)


def is_doubtful(cause):
    """Whether a change of the grammar's tokens only takes something out and leaves the file wrong."""
    change = cause.change
    return cause.code == "SYNTAX" and change.proved != "right" and not any(edit.new for edit in change.edits)


def faulty(data, cause):
    """The offsets of the item that is at fault, and whether what follows may depend on it."""
    trait = trait_of(data)
    offset = trait.text.offset(cause.line, cause.column)
    at, part = trait.text.index(offset), trait.part_at(offset)
    word = part.word if part else ""
    if cause.code == "LEX":
        return (cause.start, cause.end) if cause.end > cause.start else None, False
    if cause.code in ("SYNTAX", "TRAIT-NAME", "SIZE") and not word:
        return None, False
    spans = {"asserts": of_item, "implies": of_item, "exempting": of_item, "converts": of_form,
             "introduces": of_declaration, "includes": of_reference, "assumes": of_reference, "": of_shorthand}
    for finder in (of_reference, spans[word]) if word == "implies" else (spans[word],):
        span = finder(trait, at, offset)
        if span:
            tokens = trait.tokens
            last = min(span[1], len(tokens)) - 1
            return ((tokens[span[0]].start, tokens[last].end) if span[0] <= last else None,
                    word in ("introduces", "includes", "assumes", ""))
    return None, False


def of_item(trait, at, offset):
    """The equation or the clause; the whole item where it has one equation alone."""
    item, span = trait.equation_at(offset)
    if item is None:
        return None
    if item.kind in ("generated", "partitioned", "exempting", "converts") or span is None or len(item.equations) < 2:
        return item.first - (item.kind == "exempting"), item.last
    first, last = span
    return first, last + (trait.text.text(last) == ";" and last < item.last)


def of_form(trait, at, offset):
    """An operator of `converts`, with a comma; the whole clause where it has no other."""
    item = trait.item_at(offset)
    if item is None or item.kind != "converts":
        return None
    if len(item.forms) < 2:
        return item.first - 1, item.last
    for number, form in enumerate(item.forms):
        if form.first <= at < form.last:
            return (form.first, form.last + 1) if number == 0 else (form.first - 1, form.last)
    return item.first - 1, item.last


def of_declaration(trait, at, offset):
    for declaration in reversed(trait.declarations):
        if declaration.first <= at:
            return declaration.first, declaration.last
    return None


def of_reference(trait, at, offset):
    """A reference, with the comma before or behind it; with the word before it where it stands alone."""
    for reference in trait.references:
        if reference.first <= at < max(reference.last, reference.first + 1):
            if trait.text.text(reference.last) == ",":
                return reference.first, reference.last + 1
            return reference.first - 1, reference.last
    return None


def of_shorthand(trait, at, offset):
    for short in trait.shorthands:
        if short.first <= at < short.last:
            return short.first, short.last
    return None
