"""What the language server looks for once a report is shown: the causes of refusals, and hints. And how diagnostics and
quick fixes are made of them."""
import threading

from companions.causes import Explainer
from companions.explain import code_parts, sentence
from companions.hints import hints, looked_at
from companions.program import Refusal, beside
from larch_names import range_of, range_of_token

PROVED = {"right": ": the program takes the file then", "further": ": this place is right then", "": ""}
HINT, WARNING, ERROR = 4, 2, 1


class Behind(threading.Thread):
    """A folder's thread that explains the last report, and leaves off where a new one comes. Hints of an open trait
    stay known, with the files that they are of."""

    def __init__(self, folder, program, wants_hints):
        super().__init__(daemon=True)
        self.folder, self.explainer, self.wants_hints = folder, Explainer(program), wants_hints
        self.wake, self.due, self.known = threading.Condition(), None, {}
        self.start()

    def take(self, report):
        with self.wake:
            self.due = report
            self.wake.notify()

    def run(self):
        while True:
            with self.wake:
                while self.due is None:
                    self.wake.wait()
                report, self.due = self.due, None
            self.known = {name: kept for name, kept in self.known.items() if name in report.opened}
            files = {**report.files, **beside(self.folder.path)} if self.wants_hints else report.files
            for name in report.by_need():
                if self.due is not None:
                    break
                try:
                    self.tell(report, name, files)
                except Exception:  # whatever it was, the code is shown, and the next report is a new try
                    self.explainer.close()

    def tell(self, report, name, files):
        """Hands what is found of a trait to the folder."""
        if report.found[name]:
            refusal = Refusal(name, *report.found[name])
            report.causes[name] = self.explainer.explain(report.files, refusal, report.found)
        elif self.wants_hints and name in report.opened:
            report.hints[name] = self.hints_of(name, files)
        if report.causes.get(name) or report.hints.get(name):
            self.folder.show(report, [name])

    def hints_of(self, name, files):
        """The hints at a trait; they are looked for where one of the files that they are of has changed."""
        near, (before, found) = looked_at(files, name), self.known.get(name, (None, []))
        if near != before:
            found = hints(files, name)
            self.known[name] = near, found
        return found


class Report:
    """A report on some files, and what was found behind it. What was found of a text that hasn't changed is kept."""

    def __init__(self, files, opened, found, before):
        self.files, self.opened, self.found, self.causes, self.hints = files, opened, found, {}, {}
        for name in found:
            if before and before.files.get(name) == files[name] and before.found.get(name) == found[name]:
                self.causes[name] = before.causes.get(name, [])
                self.hints[name] = before.hints.get(name, [])

    def by_need(self):
        """The traits in the order in which one waits for what is behind them: the one that was changed last, then those
        that are refused, then the others; of these the open ones first, as they were changed."""
        recent = {name: age for age, name in enumerate(reversed(self.opened))}
        age = {name: recent.get(name, len(recent)) for name in self.found}
        return sorted(self.found, key=lambda name: (age[name] > 0, not self.found[name], age[name], name))

    def diagnostics(self, name):
        """What is shown of a trait."""
        text = self.files[name]
        if self.found[name] and not self.causes.get(name):
            line, column, code = self.found[name]
            return [diagnostic(range_of_token(text, line, column), ERROR, code, sentence(code, code_parts()))]
        shown = [diagnostic(range_of_token(text, cause.line, cause.column), WARNING if cause.further else ERROR,
                            cause.code, of_cause(cause)) for cause in self.causes.get(name, ())]
        return shown + [diagnostic(range_of(text, hint.start, hint.end), HINT, hint.name, hint.says)
                        for hint in self.hints.get(name, ())]

    def title(self, name, shown):
        """What stands over the part of a code: the cause's lines, where it is known."""
        place = shown["range"]["start"]
        for cause in self.causes.get(name, ()):
            if range_of_token(self.files[name], cause.line, cause.column)["start"] == place:
                return of_cause(cause, whole=False)
        return ""

    def fixes(self, name, uri, first, last):
        """The quick fixes of a trait at some lines, from 0."""
        text, found = self.files[name], []
        for cause in self.causes.get(name, ()):
            change = cause.change
            if change and change.edits and cause.where == name and touches(text, cause, first, last):
                edits = [(edit.start, edit.end, edit.new.decode(errors="replace")) for edit in change.edits]
                found.append(action(text, uri, change.says, edits, change.proved == "right"))
        for hint in self.hints.get(name, ()):
            if first <= hint.line - 1 <= last:
                end = "" if not text or text.endswith(b"\n") else "\n"
                off = (len(text), len(text), f"{end}%% larch: no hint {hint.name}\n")
                found.append(action(text, uri, f"no hint {hint.name} in this file", [off], False))
        return found


def touches(text, cause, first, last):
    """Whether a cause's place, or what is to be mended, is at some lines."""
    span = range_of(text, cause.start, cause.end)
    return first <= cause.line - 1 <= last or (span["start"]["line"] <= last and span["end"]["line"] >= first)


def diagnostic(where, severity, code, message):
    return {"range": where, "severity": severity, "code": code, "source": "larch", "message": message}


def of_cause(cause, whole=True):
    """A cause's lines: its title first, then what mends it, then what its code means."""
    lines = [cause.title + (" (further, once the first is mended)" if cause.further else "")]
    if cause.change:
        lines.append(f"To mend it: {cause.change.says}{PROVED[cause.change.proved]}.")
    lines += cause.more
    return "\n".join(lines + ([f"{cause.code}: {cause.text}"] if whole and not cause.further else []))


def action(text, uri, title, edits, preferred):
    changes = [{"range": range_of(text, start, end), "newText": new} for start, end, new in edits]
    return {"title": title, "kind": "quickfix", "isPreferred": preferred, "edit": {"changes": {uri: changes}}}
