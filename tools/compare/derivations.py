"""Derivations in what a program writes: the package `larchref` writes none, and says alone where one is owed. What
stands there shows its duty, or it doesn't: `Checker` asks the program itself in other calls, and the reference."""
import pathlib
import re
import tempfile
import typing

OWED = b"CERTIFICATE-EXPECTED\n"
FRAME = re.compile(rb"derivation (0|[1-9][0-9]*)\n")
ASKED = "Asked.cert"
# Calls of which both have to answer the same to a derivation, or to one that was changed.
COMMANDS = ("verify", "trim", "migrate")


class Duty(typing.NamedTuple):
    """A duty of which a derivation is owed, in a frame by a session, and the files that have it."""
    trait: str
    label: str
    files: dict
    framed: bool


def remembered(main, owed, known):
    """Has the reference list each duty of which a session owes a derivation, and keep what blocks come to."""
    evaluate = main.evaluate

    class Session(main.Session):
        """A session that remembers what it owes."""

        def __init__(self, *given):
            super().__init__(*given)
            self.memo = known

        def derive(self, trait, label):
            found = super().derive(trait, label)
            if found:
                owed.append(Duty(trait, label, dict(self.files), True))
            return found

    main.Session = Session
    main.evaluate = lambda files, limit, ac=True: evaluate(files, limit, ac, known)


def cut(output, wanted, framed):
    """What stands where derivations are owed, where all else is what is wanted; else nothing."""
    *fronts, end = wanted.split(OWED)
    if fronts and not framed:
        return [output]
    found = []
    for front in fronts:
        head = FRAME.match(output, len(front)) if output.startswith(front) else None
        if not head:
            return None
        last = head.end() + int(head[1])
        found.append(output[head.end():last])
        output = output[last:]
    return found if output == end else None


def changed(pick, text):
    """A text in which one byte is another, left out or put in."""
    place, byte = pick.randrange(len(text) + 1), pick.choice([b"0", b"1", b"2", b"#", b"@", b",", b";", b"=", b" ",
                                                              b"\n", b"-", b".", b"x", bytes([pick.randrange(256)])])
    return text[:place] + pick.choice([b"", byte]) + text[place + pick.choice([0, 1, 1]):]


class Checker:
    """Asks a program and the reference of derivations. `answer` has what the program answers to words in a folder."""

    def __init__(self, pick, reference, answer):
        self.pick, self.reference, self.answer = pick, reference, answer

    def differences(self, one, other, owed):
        """Where an answer isn't the reference's: nothing, or a reason; then the calls about its derivations, each with
        both answers and the files, that don't come to what they have to."""
        found = cut(one[0], other[0], not owed or owed[0].framed)
        if one[1] != other[1] or found is None or len(found) != len(owed):
            return True, []
        wrong = []
        for text, duty in zip(found, owed):
            wrong += self.shown(text, duty)
        return False, wrong

    def shown(self, text, duty):
        """The calls of `verify` that don't accept a derivation, and those of all commands on which both differ."""
        files = {name: content.encode("latin-1") for name, content in duty.files.items() if name.endswith(".lsl")}
        tries = [("verify", text), (self.pick.choice(COMMANDS[1:]), text)]
        tries += [(self.pick.choice(("verify", *COMMANDS)), changed(self.pick, text)) for _ in range(2)]
        with tempfile.TemporaryDirectory() as place:
            for name, content in files.items():
                pathlib.Path(place, name).write_bytes(content)
            for command, asked in tries:
                pathlib.Path(place, ASKED).write_bytes(asked)
                words = ["migrate", ASKED] if command == "migrate" else [command, duty.trait, duty.label, ASKED, *files]
                one, other = self.answer(words, place), self.reference.answer(words, b"", place)
                if one != other or asked is text and command == "verify" and one != (b"accepted\n", 0) \
                        or asked is text and command == "migrate" and one != (text, 0):
                    yield words, b"", one, other, {**files, ASKED: asked}
