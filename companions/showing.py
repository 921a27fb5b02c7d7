"""How causes and hints are shown in a terminal."""
import contextlib
import os
import shutil
import sys
import threading
import unicodedata

from .cases import edited
from .tokens import text_of

BOLD, RED, GREEN, YELLOW, PLAIN = "\x1b[1m", "\x1b[31m", "\x1b[32m", "\x1b[33m", "\x1b[0m"
PROVED = {"right": ", and the program takes the file:", "further": ", and this place is right:", "": ":"}


def painted(text, colour):
    """The text in a colour where the output is a terminal that wants colours."""
    return colour + text + PLAIN if sys.stdout.isatty() and "NO_COLOR" not in os.environ else text


@contextlib.contextmanager
def waiting(text, seconds=1):
    """Says what takes longer than a second, on standard error where that is a terminal, and takes it away again."""
    shown = []

    def show():
        shown.append(text)
        print(f"larch: {text} ..", end="", file=sys.stderr, flush=True)

    timer = threading.Timer(seconds, show)
    if sys.stderr.isatty():
        timer.start()
    try:
        yield
    finally:
        timer.cancel()
        if timer.ident:
            timer.join()
        if shown:
            print("\r\x1b[K", end="", file=sys.stderr, flush=True)


def visible(data):
    """Bytes as they can be shown: nothing that moves the cursor but tabs."""
    return "".join(letter if letter.isprintable() or letter == "\t" else "\ufffd" for letter in
                   data.decode(errors="replace"))


def excerpt(text, line, column):
    """The line and, below it, a caret under the column; of a long line the part around it."""
    shown = (text.split(b"\n")[line - 1:line] or [b""])[0].rstrip(b"\r")
    room = max(40, shutil.get_terminal_size().columns) - 8
    cut = max(0, column - 1 - room * 3 // 4) if len(shown) > room else 0
    before = visible(shown[cut:column - 1])
    pad = "".join("\t" if letter == "\t" else "  " if unicodedata.east_asian_width(letter) in "WF" else
                  "" if unicodedata.combining(letter) else " " for letter in before)
    return "    " + before + visible(shown[column - 1:cut + room]), "    " + pad + painted("^", GREEN)


def of_cause(cause, files, name=None, told=None):
    """The lines that show a cause: its title, the place with a caret, how to mend it, and what its code means unless
    that is among the codes that were told. `name` is the file's where it isn't that of the cause."""
    code = f"{cause.code}, further, once the first is mended" if cause.further else cause.code
    place = f"{name or cause.file}:{cause.line}:{cause.column}:"
    yield f"{painted(place, BOLD)} {visible(cause.title.encode())} {painted(f'[{code}]', RED)}"
    yield from excerpt(files[cause.file], cause.line, cause.column)
    if cause.change:
        line = mended(files[cause.where], cause.change.edits) if cause.change.edits else None
        end = PROVED[cause.change.proved] if line is not None else PROVED[cause.change.proved].rstrip(":") + "."
        yield f"  To mend it: {visible(cause.change.says.encode())}{end}"
        if line is not None:
            yield "    " + line
    elif cause.end > cause.start and cause.where == cause.file and not cause.further:
        yield from elsewhere(cause, files)
    for more in cause.more:
        yield "  " + visible(more.encode())
    if told is not None and cause.code not in told and cause.text:
        told.add(cause.code)
        yield f"  {cause.code}: {cause.text}"
    yield ""


def elsewhere(cause, files):
    """The place that is to be mended, where it is in another line than the refused one."""
    line, column = text_of(files[cause.file]).place(cause.start)
    if line != cause.line:
        yield f"  It begins at {line}:{column}:"
        yield from excerpt(files[cause.file], line, column)


def mended(data, edits):
    """The line as it is with the edits, where they are all in one line and keep it one."""
    first, last = min(edit.start for edit in edits), max(edit.end for edit in edits)
    if b"\n" in data[first:last] or any(b"\n" in edit.new for edit in edits):
        return None
    line = text_of(data).place(first)[0]
    shown = visible(edited(data, edits).split(b"\n")[line - 1].rstrip(b"\r"))
    room = max(40, shutil.get_terminal_size().columns) - 8
    return shown if len(shown) <= 2 * room else None


def of_hint(hint, name=None):
    """The line that shows a hint."""
    place = f"{name or hint.file}:{hint.line}:{hint.column}:"
    return f"{painted(place, BOLD)} hint: {visible(hint.says.encode())} {painted(f'[{hint.name}]', YELLOW)}"
