#!/usr/bin/env python3
"""Makes the tables of the handbook of traits from its files: python3 tools/make/make_handbook.py

examples/handbook/README.md keeps what stands in it before the line MARK, and gets a table for each family behind it:
each trait's purpose, where its idea is from, and what is surprising, as the comments at the head of its file say it.
examples/handbook/INDEX.md is made whole: each trait's operators, what it claims, how many claims its script proves,
whether a finite model stands beside it, which traits include, assume or claim which, and the equations that it claims
in its own words. `files()` has each path with its text; run as a program it writes them, and ends with status 1 where a
trait is in no family or in several, or its head lacks a line."""
import pathlib
import re
import sys

sys.path.insert(0, str(pathlib.Path(__file__).resolve().parents[1]))
from desk import TOP  # noqa: E402
from companions.declarations import trait_of  # noqa: E402

BOOK = TOP / "examples/handbook"
MARK = "<!-- What follows is made by tools/make/make_handbook.py. -->"
FAMILIES = {
    "Truth values and orders": """Truth Equivalence Preorder PreorderEquivalence PartialOrder TotalOrder StrictOrder
        OrderOperators MinMax OrderLattice LexicographicOrder ProductOrder Monotone ClosureOperator GaloisConnection""",
    "One operation": """Semigroup Monoid CommutativeMonoid CancellativeMonoid Group AbelianGroup InvolutiveGroup
        ProductGroup MonoidHomomorphism GroupHomomorphism Transformation Bijection""",
    "Two operations": """Semiring CommutativeSemiring Ring BooleanRing Semilattice Lattice DistributiveLattice
        BooleanAlgebra""",
    "Numbers": """Natural NaturalOrder NaturalMinus NaturalProduct NaturalPower NaturalParity NaturalDivision
        NaturalSums Fibonacci Binary Integer IntegerProduct""",
    "Lists": """List ListAppend ListReverse ListLength ListMember ListCount ListTake ListPrefix ListMap ListFilter
        Reduce CommutativeReduce SumOfList""",
    "Containers": """SetBasics SetAlgebra SetSize Bag Stack Queue ListQueue Deque PriorityQueue Pair Maybe""",
    "Tables and relations": "Array FiniteMap SymbolTable BlockTable Relation Graph UndirectedGraph",
    "Trees": "BinaryTree TreeTraversal SearchTree",
    "Programs": "Permutation InsertionSort SortedBag Expression Compiler",
    "Machines": "Weekday TrafficLight Lift Bank MailBox Scheduler Protocol",
}
HEAD = re.compile(r"((?:% .*\n)+)")


class Entry:
    """A trait of the handbook: its light reading, what its head says, and how many claims its script proves."""

    def __init__(self, path):
        self.name, text = path.stem, path.read_text(encoding="utf-8")
        self.trait = trait_of(text.encode())
        found = HEAD.match(text)
        head = " ".join(line[2:] for line in found[1].splitlines()) if found else ""
        self.purpose, _, rest = head.partition(" Source: ")
        self.source, _, self.surprising = rest.partition(" Surprising: ")
        script = path.with_suffix(".lp")
        self.model = path.with_suffix(".mod").exists()
        self.proved = len(re.findall("^duty ", script.read_text(encoding="utf-8"), re.M)) if script.exists() else 0

    def referred(self, word):
        """The traits that stand behind a word, in order, each once."""
        names = [self.trait.text.text(one.name) for one in self.trait.references if one.word == word]
        return list(dict.fromkeys(names))

    def equations(self):
        """The equations that it claims in its own words, as they stand there."""
        return [self.trait.text.between(first, last) for item in self.trait.items
                if item.part == "implies" and item.kind == "equations" for first, last in item.equations]

    def clauses(self):
        """What is claimed of clauses and operators, in words."""
        text, said = self.trait.text.text, []
        for item in self.trait.items:
            if item.part == "implies" and item.kind in ("generated", "partitioned"):
                said.append(f"`{text(item.sort)}` {item.kind} by " + ", ".join(f"`{f.name}`" for f in item.forms))
        if any(part.word == "converts" for part in self.trait.parts):
            said.append("operators determined")
        return said


def link(name):
    return f"[{name}]({name}.lsl)"


def cell(text):
    return text.replace("|", "\\|")


def entries():
    """All traits by their names."""
    return {path.stem: Entry(path) for path in sorted(BOOK.glob("*.lsl"))}


def faults(book):
    """What is wrong with families and heads, in sentences."""
    placed = [name for names in FAMILIES.values() for name in names.split()]
    said = [f"{name} is in {placed.count(name)} families" for name in book if placed.count(name) != 1]
    said += [f"{name} is in a family and has no file" for name in placed if name not in book]
    return said + [f"{one.name}: the head lacks its purpose or its source" for one in book.values()
                   if not one.purpose or not one.source]


def tables(book):
    """The part of README.md that is made."""
    lines = [MARK]
    for family, names in FAMILIES.items():
        lines += ["", f"## {family}", "", "| Trait | What it is for | Source | Surprising |", "|---|---|---|---|"]
        for one in (book[name] for name in names.split()):
            cells = (link(one.name), one.purpose, one.source, one.surprising)
            lines.append("| " + " | ".join(cell(text) for text in cells) + " |")
    return "\n".join(lines) + "\n"


def index(book):
    """The text of INDEX.md."""
    total = sum(one.proved for one in book.values())
    count = sum(one.model for one in book.values())
    lines = ["# Index of the handbook", "", f"{len(book)} traits with {total} proved claims; {count} have a finite "
             "model beside them. Made by `tools/make/make_handbook.py` from the files; [README.md](README.md) says "
             "what each is for, and below stand [who includes whom](#who-includes-whom) and "
             "[what each claims](#what-each-claims)."]
    for family, names in FAMILIES.items():
        lines += ["", f"## {family}", "",
                  "| Trait | Own operators | Includes | Assumes | Claims traits | Claims clauses | Proved | Model |",
                  "|---|---|---|---|---|---|---|---|"]
        for one in (book[name] for name in names.split()):
            operators = ", ".join(f"`{operator.name}`" for operator in one.trait.own_operators())
            traits = [", ".join(map(link, one.referred(word))) for word in ("includes", "assumes", "implies")]
            model = f"[{one.name}.mod]({one.name}.mod)" if one.model else ""
            cells = (link(one.name), operators, *traits, "; ".join(one.clauses()), str(one.proved), model)
            lines.append("| " + " | ".join(cell(text) for text in cells) + " |")
    lines += ["", "## Who includes whom", "",
              "An arrow leads from a trait to one that includes it, a dotted one to one that assumes it.", "",
              "```mermaid", "graph LR"]
    for one in book.values():
        lines += [f"  {name} --> {one.name}" for name in one.referred("includes")]
        lines += [f"  {name} -.-> {one.name}" for name in one.referred("assumes")]
    lines += ["```", "", "## What each claims", "",
              "The equations that a trait claims in its own words; what it claims by traits and clauses stands above."]
    for one in book.values():
        if one.equations():
            lines += ["", f"### {one.name}", "", *(f"- ` {claim} `" if "`" in claim else f"- `{claim}`"
                                                   for claim in one.equations())]
    return "\n".join([*lines, ""])


def files():
    """Each path that is made, with its text."""
    book, readme = entries(), BOOK / "README.md"
    kept = readme.read_text(encoding="utf-8").partition(MARK)[0]
    return {readme: kept + tables(book), BOOK / "INDEX.md": index(book)}


def main():
    said = faults(entries())
    print("".join(f"{line}\n" for line in said), end="")
    if said:
        return 1
    for path, text in files().items():
        path.write_text(text, encoding="utf-8")
    return 0


if __name__ == "__main__":
    sys.exit(main())
