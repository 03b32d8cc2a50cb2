"""Random typed values, and canonical texts that are spoiled in one byte or in one character's spelling.

A value is None, a bool, an int, a str, a list of values, or a tuple of pairs of them, which is a map."""
import re

EDGES = [0, 1, -1, 7, 10, -10, 2**31, -2**31, 2**63 - 1, -2**63, 2**63 - 2, 1 - 2**63]
WORDS = ["", "null", "true", "false", "7", "-0", "a", "a b", " ", "  ", " a", "a ", "---", "...", "- a", "? b", ": c", "a: b", "#", "&a", "*a", "!!str", "!",
         "[", "]", "{", "}", ",", "'", '"', '""', "\\", "\\n", "\\x41", "%TAG", "a,\n  b", "\n", "\r\n", "\n\n", "a\tb", "key", "x" * 200]
# Characters with a short escape, and those at the edges of the printable ranges.
MARKS = ["\0", "\a", "\b", "\t", "\n", "\v", "\f", "\r", "\x1b", '"', "\\", "\x85", "\xa0", "\u2028", "\u2029", "/", " ", "\x01", "\x1f", "~", "\x7f", "\x80",
         "\x9f", "\xa1", "\xad", "\xe9", "\u2027", "\u202a", "\ud7ff", "\ue000", "\ufdd0", "\ufefe", "\ufeff", "\uff00", "\ufffd", "\ufffe", "\uffff",
         "\U00010000", "\U0001f600", "\U0001ffff", "\U0010fffd", "\U0010ffff"]
ESCAPE = re.compile(r"\\(?:x..|u....|U.{8}|.)")
ESCAPES = [("\\x%02X", 0xff), ("\\u%04X", 0xffff), ("\\U%08X", 0x10ffff)]
TELLING = b' \n\r\t"\\,[]{}?:!-+.#/0179aAbefFlmnNLP_rstuUvx\x00\x7f\x80\xa0\xbf\xc2\xe2\xed\xef\xf0\xf4\xff'


def character(r):
    kind = r.random()
    if kind < 0.4:
        return chr(r.randrange(0x20, 0x7f))
    if kind < 0.8:
        return r.choice(MARKS)
    code = r.randrange(0x110000 - 0x800) if kind < 0.9 else r.randrange(0x300)
    return chr(code if code < 0xd800 else code + 0x800)


def text(r):
    if r.random() < 0.4:
        return r.choice(WORDS)
    return "".join(character(r) for _ in range(r.choice([1, 1, 2, 5, 12])))


def integer(r):
    kind = r.random()
    if kind < 0.3:
        return r.choice(EDGES)
    return r.randrange(-20, 20) if kind < 0.6 else r.randrange(-2**63, 2**63) >> r.randrange(64)


def leaf(r):
    kind = r.random()
    if kind < 0.5:
        return text(r)
    if kind < 0.7:
        return integer(r)
    return r.choice([None, True, False, [], ()])


def around(r, inner, others):
    """A list or a map that holds a value, somewhere among these others."""
    if r.random() < 0.5:
        return [*others, inner] if r.random() < 0.5 else [inner, *others]
    pairs = [(leaf(r), other) for other in others]
    pairs.insert(r.randrange(len(pairs) + 1), (inner, leaf(r)) if r.random() < 0.3 else (leaf(r), inner))
    return tuple(pairs)


def with_repeated_key(r, pairs):
    """The pairs of a map and one more, whose key is that of one of them."""
    at = r.randrange(len(pairs) + 1)
    return (*pairs[:at], (r.choice(pairs)[0], leaf(r)), *pairs[at:])


def random_value(r, levels):
    """A value that nests at least so many levels deep, and at most one deeper."""
    if levels == 0:
        return leaf(r)
    others = [random_value(r, r.randrange(min(levels, 3))) for _ in range(r.choice([0, 0, 0, 1, 1, 2]))]
    value = around(r, random_value(r, levels - 1), others)
    return with_repeated_key(r, value) if isinstance(value, tuple) and r.random() < 0.1 else value


def deep_value(r, levels):
    """A value that nests just so many levels deep. (Made from the inside, since it may be deeper than Python recurs.)"""
    value = r.choice([[], (), [None], (("a", 7),)])
    for _ in range(levels - 1):
        value = around(r, value, [])
    return value


def spoiled(r, data):
    """The bytes with one byte changed, left out, doubled or put in."""
    at = r.randrange(len(data))
    # (half of the time none of those that indent the lines)
    while r.random() < 0.5 and data[at] == 0x20:
        at = r.randrange(len(data))
    other = bytes([r.choice(TELLING) if r.random() < 0.7 else r.randrange(256)])
    way = r.random()
    if way < 0.2:
        return data[:at] + data[at + 1:]
    if way < 0.4:
        return data[:at] + data[at:at + 1] + data[at:]
    if way < 0.6:
        at = r.randrange(len(data) + 1) if r.random() < 0.9 else len(data)
        return data[:at] + other + data[at:]
    if other == data[at:at + 1]:
        other = bytes([data[at] ^ 1 << r.randrange(8)])
    return data[:at] + other + data[at + 1:]


def respelled(r, written, meaning):
    """A text in which one character, which is a letter or is written as an escape, is spelled by digits. `meaning` tells the character of a spelling."""
    escapes = list(ESCAPE.finditer(written))
    found = r.choice(escapes if escapes and r.random() < 0.8 else list(re.finditer("[a-z]", written)))
    code = ord(meaning(found.group()))
    form = r.choice([form for form, most in ESCAPES if code <= most])
    return written[:found.start()] + form % code + written[found.end():]
