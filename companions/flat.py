"""A trait written out: the operators, statements and proved claims that are listed for a duty, as one trait that claims
the duty alone. A replay of it takes a small part of the time that one of the trait as it stands takes, and comes to the
same, since it has the same facts in the same order; but for the names of lemmas, which are statements here."""
import re

from .listed import CLAUSE


NAME = "Tried"
LABEL = "imply.1"
LEMMA = re.compile(r"\bL(\d+)(?=\.\d+\b|\b)")


class Flat:
    """A duty's theory as a trait: its text, and commands with the names that facts have in it."""

    def __init__(self, theory, scope):
        self.lemmas = {}
        lines = [f"{NAME}: trait", "  introduces"]
        lines += [f"    {one.name}: {', '.join(one.domain)} -> {one.range}" for one in theory.operators]
        lines.append("  asserts")
        for number, (name, statement, sorts) in enumerate(theory.statements, 1):
            if name[0] == "L":
                self.lemmas[name[1:]] = number
            lines += item(statement, sorts)
        self.text = "\n".join([*lines, "  implies", *item(theory.statement, scope), ""]).encode()

    def command(self, text):
        """A command with the names that facts have here."""
        if not text.startswith(("instantiate", "normalize", "critical-pairs")):
            return text
        front, word, facts = text.rpartition(" in ") if text.startswith("instantiate") else ("", "", text)
        return front + word + LEMMA.sub(lambda name: f"A{self.lemmas.get(name[1], 0)}", facts)


def item(statement, sorts):
    """A statement as an item, with its variables."""
    if CLAUSE.fullmatch(statement):
        return [f"    {statement}"]
    variables = ", ".join(f"{name}: {sort}" for name, sort in sorts.items())
    return [f"    \\forall {variables}"] * bool(variables) + [f"      {statement};"]
