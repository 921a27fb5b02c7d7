"""Texts that are made from right ones by changes of bytes, of tokens and of lines, and random bytes."""
import re

TOKEN = re.compile(rb"[A-Za-z0-9_']+|\s+|[-+*/<>=~^\\!@#$&?:|]+|.", re.S)
# Numbers around which something may break, and other pieces that texts may hold anywhere.
NUMBERS = [b"0", b"1", b"2", b"00", b"16", b"17", b"200", b"201", b"255", b"256", b"1000", b"65536", b"100000",
           b"1048577", b"4294967295", b"4294967296", b"18446744073709551615", b"18446744073709551616",
           b"99999999999999999999999", b"-1", b"1.5"]
PIECES = [b"(", b")", b"[", b"]", b"{", b"}", b";", b",", b":", b"->", b"==", b"=", b"~=", b"/\\", b"\\/", b"=>",
          b"<=>", b"~", b"__", b"%", b"\\forall", b"if", b"then", b"else", b"\n", b" ", b"\t", b"\r", b"\0", b"\x0b",
          b"\x7f", b"\xff", b"\xc3\xa9", b"@", b"#", b".", b"true", b"false", b"Bool", b"trait", b"includes",
          b"assumes", b"introduces", b"asserts", b"implies", b"converts", b"exempting", b"generated", b"partitioned",
          b"by", b"for", b"tuple of", b"union of", b"enumeration of", b"duty imply.1", b"resume by induction on x",
          b"resume by =>", b"resume by cases", b"resume by /\\", b"resume by contradiction", b"resume by partition",
          b"qed", b"<>", b"[]", b"prove", b"instantiate x by y in A1", b"critical-pairs A1 with A2", b"normalize A1",
          b"declare variable x: N", b"set rewriting-limit 5", b"set box-checking on", b"register height f > g",
          b"axiom statement=1", b"done"]


def changed_bytes(chosen, text):
    """A few bytes are others, gone, or new."""
    text = bytearray(text)
    for _ in range(chosen.randint(1, 4)):
        at, what = chosen.randrange(len(text) + 1), chosen.randrange(3)
        if what == 0 or at == len(text):
            text.insert(at, chosen.randrange(256))
        elif what == 1:
            text[at] = chosen.randrange(256)
        else:
            del text[at:at + chosen.randint(1, 8)]
    return bytes(text)


def changed_tokens(chosen, text):
    """A few tokens are other ones of the text, numbers or pieces; or are gone, or stand twice."""
    tokens = TOKEN.findall(text) or [b""]
    for _ in range(chosen.randint(1, 3)):
        at, what = chosen.randrange(len(tokens)), chosen.randrange(6)
        new = chosen.choice((tokens, PIECES, NUMBERS))
        if what < 2:
            tokens[at] = chosen.choice(new)
        elif what == 2:
            tokens.insert(at, chosen.choice(new))
        elif what == 3:
            del tokens[at:at + chosen.randint(1, 3)]
            tokens = tokens or [b""]
        elif what == 4:
            tokens[at] = tokens[at] * chosen.choice((2, 2, 3, 100, 250))
        else:
            other = chosen.randrange(len(tokens))
            tokens[at], tokens[other] = tokens[other], tokens[at]
    return b"".join(tokens)


def changed_lines(chosen, text):
    """A few lines are gone, stand twice or elsewhere."""
    lines = text.splitlines(keepends=True) or [b""]
    for _ in range(chosen.randint(1, 3)):
        at, other, what = chosen.randrange(len(lines)), chosen.randrange(len(lines)), chosen.randrange(4)
        if what == 0 and len(lines) > 1:
            del lines[at]
        elif what == 1:
            lines.insert(other, lines[at])
        elif what == 2:
            lines[at], lines[other] = lines[other], lines[at]
        else:
            lines[at:at + 1] = [lines[at]] * chosen.choice((2, 3, 50))
    return b"".join(lines)


def joined_texts(chosen, text, others):
    """The front of one text and the rest of another, or a part of another inside."""
    other = chosen.choice(others)
    at, there = chosen.randrange(len(text) + 1), chosen.randrange(len(other) + 1)
    if chosen.randrange(2):
        return text[:at] + other[there:]
    return text[:at] + other[there:there + chosen.randint(1, 80)] + text[at:]


def random_bytes(chosen):
    """Bytes of all kinds, or of those alone that texts have."""
    length = chosen.choice((0, 1, 7, 60, 300, 300, 5000))
    if chosen.randrange(2):
        return chosen.randbytes(length)
    return b"".join(chosen.choice(chosen.choice((PIECES, NUMBERS))) + chosen.choice((b" ", b"", b"\n"))
                    for _ in range(length // 8))


def mutated(chosen, text, others):
    """A text that is made from a right one; seldom random bytes."""
    what = chosen.randrange(20)
    if what == 0:
        return random_bytes(chosen)
    for _ in range(chosen.choice((1, 1, 1, 2, 5))):
        what = chosen.randrange(10)
        if what < 2:
            text = changed_bytes(chosen, text)
        elif what < 6:
            text = changed_tokens(chosen, text)
        elif what < 8:
            text = changed_lines(chosen, text)
        else:
            text = joined_texts(chosen, text, others)
    return text[:1 << 20]
