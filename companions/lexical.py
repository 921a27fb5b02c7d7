"""The causes of LEX: bytes that begin no token."""
import codecs
import unicodedata

from .cases import Edit, Found

# What one writes in other places, and what it is here.
LETTERS = {
    "\u2200": "\\forall", "\u00ac": "~", "\u2227": "/\\", "\u2228": "\\/", "\u21d2": "=>", "\u2192": "->",
    "\u21d4": "<=>", "\u2194": "<=>", "\u2260": "~=", "\u2261": "==", "\u2264": "<=", "\u2265": ">=", "\u2208": "\\in",
    "\u00d7": ",", "\u2013": "-", "\u2014": "-", "\u2212": "-", "\u00a0": " ", "\u202f": " ", "\u2003": " ",
    "\u2009": " ", "\u3000": " ", "\u200b": "", "\ufeff": "", "\uff1a": ":", "\uff08": "(", "\uff09": ")",
    "\uff0c": ",", "\uff1b": ";", "\x0c": " ", "\x0b": " "}
NAMES = {"\u00a0": "a no-break space", "\u202f": "a no-break space", "\x0c": "a form feed", "\x0b": "a vertical tab",
         "\u200b": "a space without width", "\ufeff": "a byte order mark"}


def cause(case):
    data, offset = case.data, case.offset
    if data.startswith((codecs.BOM_UTF16_LE, codecs.BOM_UTF16_BE)):
        return Found("the file is written in UTF-16; save it as UTF-8", span=(0, 2))
    if data.startswith(codecs.BOM_UTF8) and offset == 0:
        change = case.probes.change("take its three bytes out", [Edit(0, 3, b"")])
        return Found("a byte order mark stands before the text", span=(0, 3), change=change)
    return underline(case) or letter(case)


def underline(case):
    """`_` is part of `__` or stands inside a word."""
    data, offset = case.data, case.offset
    if data[offset:offset + 1] != b"_":
        return None
    start, end = offset, offset + 1
    glued = b"!#$&*+-/<>=?@^|~_"
    while start > 0 and data[start - 1] in glued:
        start -= 1
    while end < len(data) and data[end] in glued:
        end += 1
    shown = data[start:end].decode(errors="replace")
    marked = " ".join(shown.replace("__", "_").replace("_", " __ ").split())
    edits = [Edit(start, end, marked.encode())]
    change = case.probes.change(f"write `{marked}`", edits)
    if change and shown != "_":
        return Found(f"places of arguments are written `__`: `{marked}` for `{shown}`", span=(start, end),
                     change=change)
    while start > 0 and (data[start - 1:start].isalnum() or data[start - 1] in b"_'"):
        start -= 1
    while end < len(data) and (data[end:end + 1].isalnum() or data[end] in b"_'"):
        end += 1
    shown = data[start:end].decode(errors="replace")
    plain = "_".join(part for part in shown.split("_") if part)
    if plain and plain != shown:
        change = case.probes.change(f"write `{plain}`", [Edit(start, end, plain.encode())])
        return Found(f"a word can't begin or end with `_`: `{shown}`", span=(start, end), change=change)
    return Found("`_` stands alone; a place of an argument is written `__`", span=(offset, offset + 1), change=change)


def letter(case):
    """A letter that no token has, and what is written for it."""
    data, offset = case.data, case.offset
    sign = data[offset:offset + 4].decode(errors="replace")[:1]
    if not sign:
        return None
    span = (offset, offset + len(sign.encode()) if sign != "\ufffd" else offset + 1)
    if sign in LETTERS:
        instead = LETTERS[sign]
        shown = NAMES.get(sign, f"`{sign}`")
        words = "a blank" if instead == " " else f"`{instead}`" if instead else "nothing"
        new = f" {instead} " if instead.strip() else instead
        change = case.probes.change(f"write {words} for it", [Edit(*span, new.encode())])
        return Found(f"{shown} is no token; {words} is written for it", span=span, change=change)
    if sign in "\"\u201c" and case.part in ("includes", "assumes"):
        close = data.find(sign.replace("\u201c", "\u201d").encode(), span[1])
        ends = [Edit(*span, b"")] + ([Edit(close, close + span[1] - span[0], b"")] if close > 0 else [])
        return Found("a trait is named without quotes", span=span, change=case.probes.change("take them out", ends))
    if sign in "\"'`\u201c\u201d\u2018\u2019":
        return Found(f"`{sign}` begins no token: there are no texts in quotes", span=span)
    if sign == "\\":
        return Found("`\\` begins a name like `\\in`: letters follow it, no blank and no digit", span=span)
    if sign == "\ufffd":
        return Found(f"the byte {data[offset]:#04x} isn't UTF-8; only comments may have it", span=span)
    name = unicodedata.name(sign, f"U+{ord(sign):04X}").lower()
    if sign.isalpha():
        return Found(f"`{sign}` ({name}) can't stand in a name, only in comments", span=span)
    shown = f"`{sign}` ({name})" if sign.isprintable() else f"the byte {ord(sign):#04x}"
    return Found(f"{shown} begins no token; only comments may have it", span=span)
