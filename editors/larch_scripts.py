"""What the language server knows of proof scripts, as far as replays tell it: a thread for each folder that asks for
reports on the open scripts, in one running session; the goal at a line, which is what is left where the block ends
there; and what is shown, offered and completed by these."""
import re
import threading
import time

from companions.explain import before_example, code_parts, sentence
from companions.listed import CLAUSE, lines_of
from companions.program import MOST_BYTES, MOST_FILES, TOP, Disk, Session
from companions.scope import reached
from companions.scripts import LABEL, Script, findings, is_mark, words
from companions.tokens import RESERVED, Text
from companions.trying import listing
from larch_names import range_of

PAUSE = 0.05
ERROR, INFORMATION, HINT = 1, 3, 4
MOST_SKELETONS, MOST_FACTS, MOST_PROBED = 5, 12, 200
COMMANDS = ("duty", "resume by induction on", "resume by cases", "resume by =>", "resume by /\\",
            "resume by contradiction", "resume by partition", "instantiate", "critical-pairs", "normalize", "prove",
            "qed", "declare variables", "register height", "register status", "set box-checking on",
            "set box-checking off", "set rewriting-limit")
METHODS = tuple(command.removeprefix("resume by ") for command in COMMANDS if command.startswith("resume by "))
STATUSES = ("left-to-right", "right-to-left", "multiset")
FACT_PLACE = re.compile(r"^\s*(?:normalize|critical-pairs)\s+\S*$|^\s*critical-pairs\s.*\swith\s+\S*$"
                        r"|^\s*instantiate\s.*\sin\s+\S*$")
STATEMENT = re.compile(r"(A\d+) (?:asserted|assumed|copied|exempt) (.*)")
DUTY = re.compile(rf"({LABEL}) (.*)")


class Scripts(threading.Thread):
    """The open scripts of a folder: a thread that asks for reports and publishes what they say of scripts."""

    def __init__(self, folder, program):
        super().__init__(daemon=True)
        self.folder, self.program, self.session = folder, program, Session(program)
        self.open, self.due, self.wake, self.asking = {}, None, threading.Condition(), threading.Lock()
        self.found, self.published, self.listings, self.trouble = {}, {}, {}, None
        self.disk, self.reading = Disk(folder.path), threading.Lock()
        self.start()

    def changed(self, name=None, document=None):
        """A script came, changed or, without a document, was closed; or a trait of the folder did."""
        with self.wake:
            if name:
                self.open.pop(name, None)
            if document:
                self.open[name] = document
            if name or self.open:
                self.due = time.monotonic() + PAUSE
                self.wake.notify()

    def run(self):
        while True:
            with self.wake:
                while self.due is None or self.due > time.monotonic():
                    self.wake.wait(None if self.due is None else max(0, self.due - time.monotonic()))
                self.due, opened = None, dict(self.open)
            try:
                self.publish(opened)
                self.trouble = None
            except Exception as trouble:  # whatever it was, the next change is a new try
                self.session.close()
                if str(trouble) != self.trouble:
                    self.trouble = str(trouble)
                    said = {"type": 1, "message": f"larch: scripts: {trouble!r}"}
                    self.folder.server.send(method="window/showMessage", params=said)

    # Reports -------------------------------------------------------------------------------------

    def traits(self):
        """The folder's traits as they stand in the editor and, else, on disk."""
        with self.reading:
            on_disk = self.disk.traits()
        return {**on_disk, **{name: document["text"] for name, document in dict(self.folder.open).items()}}

    def files(self, opened):
        """What a session is given: the open scripts, and the traits that theirs reach."""
        traits, given = self.traits(), {}
        for name, document in opened.items():
            near = {one: traits[one] for one in reached(traits, trait_file(name)) if len(traits[one]) <= MOST_BYTES}
            if len(document["text"]) <= MOST_BYTES and len(given.keys() | near.keys()) < MOST_FILES:
                given.update(near, **{name: document["text"]})
        return given

    def publish(self, opened):
        """Sends what is to be shown of each open script, where it isn't what is shown."""
        with self.asking:
            report = findings(self.session.lines(self.files(opened))) if opened else {}
        self.found = {name: (document["text"], report.get(stem(name))) for name, document in opened.items()}
        for name in sorted(opened.keys() | self.published.keys()):
            document = opened.get(name)
            shown = self.diagnostics(name, document["text"]) if document else []
            before = self.published.pop(name, {"diagnostics": []})["diagnostics"]
            message = {"uri": self.uri(name), "diagnostics": shown}
            if document:
                self.published[name] = message
            if shown != before:
                self.folder.server.send(method="textDocument/publishDiagnostics", params=message)

    def uri(self, name):
        return self.open.get(name, {"uri": (self.folder.path / name).as_uri()})["uri"]

    def diagnostics(self, name, text):
        """What is shown of a script."""
        found, parts = self.found[name][1], code_parts()
        if found is None:
            what = f"no trait {stem(name)} beside the script: it isn't looked at"
            return [shown_at(text, 1, ERROR, "script", what)]
        if found.is_refused:
            what = f"the trait {stem(name)} is refused: its script isn't looked at"
            return [shown_at(text, 1, ERROR, "script", what)]
        script, refused, shown, bare = Script(text), {}, [], []
        for label, verdict in found.verdicts.items():
            block = script.block(label)
            if verdict.kind == "refused":
                refused.setdefault((verdict.line or 1, verdict.code), []).append(label)
            elif verdict.kind == "suspended" and block:
                shown.append(shown_at(text, block.first, INFORMATION, "suspended", f"{label}: {open_goals(verdict)}"))
            elif verdict.kind == "suspended":
                bare.append(label)
        refused.update({(line, code): [] for line, code in found.asides})
        errors = [shown_at(text, line, ERROR, code, "\n".join([*told_of(labels), sentence(code, parts)]))
                  for (line, code), labels in sorted(refused.items())]
        if bare:
            errors.append(shown_at(text, 1, HINT, "no-block", f"not proved, and without a block: {', '.join(bare)}"))
        return errors + shown

    # Goals ---------------------------------------------------------------------------------------

    def verdict(self, name, text, label):
        """What is said of a duty with another text of its script."""
        return self.verdicts(name, [text], label)[0]

    def verdicts(self, name, texts, label):
        with self.asking:
            files = self.files({**self.open, name: {"text": texts[0]}})
            reports = list(self.session.all_lines([{**files, name: text} for text in texts]))
        return [findings(lines).get(stem(name)).verdicts.get(label) for lines in reports]

    def goal(self, name, line):
        """What is left of a duty where its block ends behind a line, from 1: the label, the statement, the line of the
        last command, and the verdict; and the verdict before that line, where it is refused. Nothing where no block
        stands there."""
        text = self.open[name]["text"]
        script = Script(text)
        block = script.first_at(line)
        if block is None or trait_file(name) not in self.traits():
            return None
        verdict, before = self.verdict(name, cut(script, block, line), block.label), None
        if verdict is None:
            return None
        if verdict.kind == "refused" and verdict.line > block.first:
            before = self.verdict(name, cut(script, block, verdict.line - 1), block.label)
        return {"label": block.label, "statement": self.duties(name).get(block.label, ""), "line": line,
                "verdict": verdict, "before": before}

    def panel(self, name, line):
        """The lines that say what is left behind a line, or nothing."""
        found = self.goal(name, line)
        if found is None:
            return None
        verdict, before = found["verdict"], found["before"]
        lines = [f"{found['label']}  {found['statement']}", f"behind line {line}: {said_of(verdict)}"]
        lines += [f"  {verdict.goal}"] * (verdict.kind == "suspended")
        if before is not None:
            lines += [f"before line {verdict.line}: {said_of(before)}"]
            lines += [f"  {before.goal}"] * (before.kind == "suspended")
        return lines

    # What is listed ------------------------------------------------------------------------------

    def listed(self, name):
        """The lines that `larch obligations` writes of a script's trait."""
        files, trait = self.traits(), trait_file(name)
        near = {one: files[one] for one in reached(files, trait)}
        if self.listings.get(name, (None,))[0] != near:
            self.listings[name] = near, lines_of(listing(self.program, near, stem(name)), stem(name)) or []
        return self.listings[name][1]

    def duties(self, name):
        return dict(found.groups() for found in map(DUTY.fullmatch, self.listed(name)) if found)

    def facts(self, name, label):
        """The facts that a block can name by their numbers alone: statements, and the duties before it."""
        found = dict(one.groups() for one in map(STATEMENT.fullmatch, self.listed(name)) if one)
        for number, (other, statement) in enumerate(self.duties(name).items(), 1):
            if other == label:
                break
            found[f"L{number}"] = statement
        return {fact: statement for fact, statement in found.items() if not CLAUSE.fullmatch(statement)}

    def probed(self, name, block, line):
        """The hypotheses and added facts that are there behind a line: those that `normalize` finds."""
        script = Script(self.open[name]["text"])
        if line - block.first > MOST_PROBED:
            return []
        asked = [f"{letter}{number}" for letter in "HD" for number in range(1, MOST_FACTS + 1)]
        texts = [cut(script, block, line, f"  normalize {fact}") for fact in asked]
        verdicts = self.verdicts(name, texts, block.label)
        return [fact for fact, said in zip(asked, verdicts) if said and said.code not in ("FACT", "DONE", "MARK")]

    # Hover, completion, actions ------------------------------------------------------------------

    def hover(self, name, line, before):
        """What is said at a place of a line, as Markdown: what is wrong in the line and how it is mended, the fact that
        stands there, and what is left behind the line."""
        said = []
        text = self.open[name]["text"]
        for shown in self.published.get(name, {"diagnostics": []})["diagnostics"]:
            if shown["range"]["start"]["line"] == line - 1 and shown["severity"] == ERROR:
                said.append("\n\n".join([shown["message"], *mending(shown["code"])]))
        fact = self.fact_at(name, line, before)
        lines = [fact] if fact else self.panel(name, line) if text.strip() else None
        said += ["```\n" + "\n".join(lines) + "\n```"] if lines else []
        return {"contents": {"kind": "markdown", "value": "\n\n".join(said)}} if said else None

    def fact_at(self, name, line, before):
        """The statement that a fact's name at a place stands for, with that name, or nothing."""
        script = Script(self.open[name]["text"])
        block, whole = script.block_at(line), script.lines[line - 1]
        for word in re.finditer(r"\b([AL]\d+)(?:\.\d+)?\b", whole):
            if block and word.start() <= len(before) <= word.end():
                statement = self.facts(name, block.label).get(word[1])
                return f"{word[0]}  {statement}" if statement else None
        return None

    def completion(self, name, line, before, position, kinds):
        """What may be written at a position, each with the change that writes it."""
        found = self.candidates(name, line, before)
        front = next((size for size in range(len(before.lstrip()), -1, -1)
                      if any(word.startswith(before[len(before) - size:]) for word, _, _ in found)), 0)
        start = {"line": position["line"], "character": position["character"] - front}
        where = {"start": start, "end": position}
        return [{"label": word, "kind": kinds[kind], "textEdit": {"range": where, "newText": word},
                 **({"detail": detail} if detail else {})} for word, kind, detail in found]

    def candidates(self, name, line, before):
        """What may be written behind a line's beginning: words, each with its kind and what is said of it."""
        script = Script(self.open[name]["text"])
        block, begun = script.block_at(line), before.lstrip()
        if re.fullmatch(r"duty\s+\S*", begun):
            return [(label, "constant", statement) for label, statement in self.duties(name).items()
                    if script.block(label) is None]
        if re.fullmatch(r"[\w-]*", begun):
            return [(command, "keyword", "") for command in COMMANDS]
        if re.fullmatch(r"resume\s+by\s+\S*", begun):
            return [(method, "keyword", "") for method in METHODS]
        if re.match(r"register\s+status\s+\S*$", begun):
            return [(status, "keyword", "") for status in STATUSES]
        if block and FACT_PLACE.match(before):
            known = self.facts(name, block.label)
            return [*((fact, "constant", "hypothesis" if fact[0] == "H" else "added")
                      for fact in self.probed(name, block, line - 1)),
                    *((fact, "constant", statement) for fact, statement in known.items())]
        return self.names(name, line, begun)

    def names(self, name, line, begun):
        """The names that terms have here: those of the goal before the line, and operators."""
        found = self.goal(name, line - 1)
        goal = found["verdict"].goal if found else ""
        listed = [one[3:] for one in self.listed(name) if one.startswith("op ")]
        operators = {word for one in listed for word in re.findall(r"[\w']+", one.split(": ")[0]) if word.strip("_")}
        here = [token.text for token in Text(goal.encode()).tokens if token.is_name and token.text not in operators]
        names = [(one, "variable", "in the goal") for one in dict.fromkeys(here) if one not in ("true", "false")]
        if re.match(r"resume\s+by\s+induction\s+on\b", begun):
            return names
        return names + [(word, "function", one) for one in listed for word in typed(one) if word not in RESERVED]

    def fixes(self, name, first, last):
        """The quick fixes at some lines, from 1."""
        text, found = self.found.get(name, (None, None))
        if found is None or self.open[name]["text"] != text:
            return []
        script, fixes = Script(text), []
        for label, verdict in found.verdicts.items():
            if verdict.kind == "refused" and first <= verdict.line <= last:
                fixes += self.mendings(name, script, label, verdict)
        bare = [label for label, verdict in found.verdicts.items()
                if verdict.kind == "suspended" and script.block(label) is None]
        duties = self.duties(name) if bare else {}
        for label in bare[:MOST_SKELETONS]:
            fixes.append(self.action(name, f"Add a block for {label}", [skeleton(script, duties, [label])], False))
        if len(bare) > 1:
            fixes.append(self.action(name, f"Add {len(bare)} blocks, for all that isn't proved",
                                     [skeleton(script, duties, [label]) for label in bare], False))
        return fixes

    def mendings(self, name, script, label, verdict):
        """The changes at a refused line that the program was asked about, and behind which it goes on."""
        block, line = script.block(label), verdict.line
        if block is None or not block.first < line < block.last:
            return []
        ways = changes_at(script, block, line, verdict.code)
        verdicts = self.verdicts(name, [edited(script, change) for _, change in ways], label) if ways else []
        fitting = [way for way, after in zip(ways, verdicts) if goes_on(after, line, verdict.code)]
        return [self.action(name, title, [change], number == 0) for number, (title, change) in enumerate(fitting)]

    def action(self, name, title, changes, preferred):
        edits = [{"range": {"start": {"line": first - 1, "character": 0}, "end": {"line": last - 1, "character": 0}},
                  "newText": new} for first, last, new in changes]
        return {"title": title, "kind": "quickfix", "isPreferred": preferred,
                "edit": {"changes": {self.uri(name): edits}}}


def stem(name):
    return name.removesuffix(".lp")


def trait_file(name):
    return f"{stem(name)}.lsl"


def told_of(labels):
    return [", ".join(labels[:3]) + (f" and {len(labels) - 3} more" if len(labels) > 3 else "")] if labels else []


def open_goals(verdict):
    """The goals of a suspended duty, in words."""
    count = "1 goal is open" if verdict.goals == 1 else f"{verdict.goals} goals are open; the first"
    return f"{count}: {verdict.goal}"


def said_of(verdict):
    """A verdict in words, without its goal."""
    if verdict is None or verdict.kind == "proved":
        return "proved"
    if verdict.kind == "refused":
        return f"line {verdict.line} is refused, {verdict.code}"
    return "1 goal is open" if verdict.goals == 1 else f"{verdict.goals} goals are open; the first"


def shown_at(text, line, severity, code, message):
    """A diagnostic at a line, from 1, without the blanks around it."""
    lines = text.split(b"\n")
    line = min(max(line, 1), len(lines))
    start, content = sum(len(one) + 1 for one in lines[:line - 1]), lines[line - 1]
    front = len(content) - len(content.lstrip())
    where = range_of(text, start + front, start + max(front, len(content.rstrip())))
    return {"range": where, "severity": severity, "code": code, "source": "larch", "message": message}


def cut(script, block, line, more=None):
    """A script's text in which a block ends behind a line."""
    kept = script.lines[:line] + ([more] if more else [])
    return "\n".join(kept + script.lines[max(line, block.last - 1):]).encode()


def edited(script, change):
    """A script's text with the lines from one to the one before another replaced."""
    first, last, new = change
    written = [new.rstrip("\n")] if new else []
    return "\n".join([*script.lines[:first - 1], *written, *script.lines[last - 1:]]).encode()


def changes_at(script, block, line, code):
    """The changes that may mend a refused line, each with its title."""
    indent = re.match(r"\s*", script.lines[line - 1])[0]
    if code == "MARK":
        found = [(f"Write `{mark}` before this line", (line, line, f"{indent}{mark}\n")) for mark in ("<>", "[]")]
        return found + [("Take this mark out", (line, line + 1, ""))] * is_mark(script.lines[line - 1])
    if code == "OPEN":
        return [("Take `qed` out", (line, line + 1, ""))]
    if code != "DONE":
        return []
    end = next((number for number in range(line, block.last)
                if is_mark(script.lines[number - 1]) or words(script.lines[number - 1]) == ["qed"]), block.last)
    while end > line + 1 and not script.lines[end - 2].strip():
        end -= 1
    return [(f"Take {'this line' if end == line + 1 else f'these {end - line} lines'} out", (line, end, ""))]


def goes_on(after, line, code):
    """Whether the program goes on at a line that was refused with a code, by what it says of a change there."""
    return after is not None and (after.kind != "refused" or after.line > line or after.code != code)


def skeleton(script, duties, labels):
    """The change that adds a block for a duty, before the blocks of later ones."""
    order = list(duties)
    later = [block for block in script.blocks
             if block.label in duties and order.index(block.label) > order.index(labels[0])]
    blocks = "".join(f"% {duties[label]}\nduty {label}\n\n" for label in labels)
    if later:
        line = later[0].first
        while line > script.preamble_end and script.lines[line - 2].lstrip().startswith("%"):
            line -= 1
        return line, line, blocks
    end = len(script.lines)
    front = "" if script.lines[-1] == "" else "\n"
    if not script.lines[-1]:
        return end, end, ("\n" if end > 1 and script.lines[end - 2].strip() else "") + blocks
    return end + 1, end + 1, front + "\n" + blocks


def typed(operator):
    """The words or symbols of a listed operator's name that one types."""
    name = operator.rsplit(": ", 1)[0].replace("__.", "")
    return [piece for piece in re.split(r"[\s,]+", name) if piece and piece.strip("_[]{}.") == piece]


def blocks_of(text):
    """The blocks of a script as an editor lists them."""
    script, found = Script(text), []
    for block in script.blocks:
        where = shown_at(text, block.first, ERROR, "", "")["range"]
        found.append({"name": block.label, "detail": "duty", "kind": 12, "range": where, "selectionRange": where})
    return found


def mending(code, guide=TOP / "docs/PROOFS.md"):
    """What the guide to proofs says of a code before its first example; nothing where it says nothing there."""
    part = code_parts(guide).get(code, "") if guide.is_file() else ""
    text = before_example(part)
    return [text] if text else []
