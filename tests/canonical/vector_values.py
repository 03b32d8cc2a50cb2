"""The values of docs/canonical-vectors.json: a name and a value for each.

A value is None, a bool, an int, a str, a list of values, or a tuple of pairs of them, which is a map. `Nested` is so many lists around one."""
import dataclasses


@dataclasses.dataclass
class Nested:
    """So many lists, each the one item of that around it; the innermost holds these items, one integer or nothing."""
    levels: int
    items: list


SCALARS = [
    ("null", None),
    ("true", True),
    ("false", False),
    ("zero", 0),
    ("a digit", 7),
    ("a negative digit", -7),
    ("the least integer of 32 bits", -2**31),
    ("an integer that a double rounds", 2**53 + 1),
    ("an integer of 19 digits", 10**18),
    ("the greatest integer of 64 bits", 2**63 - 1),
    ("the least integer of 64 bits", -2**63),
]

TEXTS = [
    ("the empty text", ""),
    ("a letter", "a"),
    ("a space alone", " "),
    ("spaces at both ends, and within", "  a  b  "),
    ("a text that is a null elsewhere", "null"),
    ("a text that is a truth value elsewhere", "no"),
    ("a text that is an integer elsewhere", "-7"),
    ("a text that is a float elsewhere", "1.50"),
    ("a text that is a date elsewhere", "2001-12-14"),
    ("a document marker", "---"),
    ("indicators", "- ? : , [ ] { } # & * ! | > ' % @ `"),
    ("a quote and a backslash", '"\\'),
    ("a backslash before letters", "\\n\\x41\\u0041"),
    ("a solidus, which is itself", "a/b"),
    ("a tab, a line feed and a carriage return", "\t\n\r"),
    ("line breaks at the end", "a\r\n\n"),
    ("the other controls that have a letter", "\0\a\b\v\f\x1b"),
    ("controls that have no letter, in upper-case digits", "\x01\x0e\x1a\x1c\x1f"),
    ("a tilde, and a delete", "~\x7f"),
    ("controls beyond ASCII", "\x80\x84\x86\x9f"),
    ("U+0085, which breaks lines", "a\x85b"),
    ("U+00A0, which is itself, and its neighbours", "\xa0\xa1\xad"),
    ("letters beyond ASCII", "\xe9\u0416\u65e5\u672c"),
    ("a letter and an accent, which aren't joined", "e\u0301"),
    ("U+2028 and U+2029, which break lines, and their neighbours", "\u2027\u2028\u2029\u202a"),
    ("the last before the surrogates, and the first after them", "\ud7ff\ue000"),
    ("U+FEFF and its neighbours", "\ufefe\ufeff\uff00"),
    ("U+FFFD, which is itself, U+FFFE and U+FFFF", "\ufffd\ufffe\uffff"),
    ("beyond the BMP", "\U00010000\U0001f600\U0010fffd"),
    ("noncharacters beyond the BMP", "\U0001ffff\U0010ffff"),
    ("a long text, which isn't folded", "a word " * 17 + "and another"),
]

COLLECTIONS = [
    ("the empty list", []),
    ("the empty map", ()),
    ("a list of one item", [None]),
    ("a list of each type", [None, True, -1, "a", [], ()]),
    ("lists in lists", [[1], [2, [3]], []]),
    ("an empty list and an empty map in a list", [[], ()]),
    ("a map of one pair", (("a", 1),)),
    ("a map in an order", (("a", 1), ("b", 2))),
    ("the same pairs in another order", (("b", 2), ("a", 1))),
    ("a map in a list in a map", (("a", [(("b", ()),)]),)),
    ("a list in a map in a list", [(("a", [1, 2]), ("b", []))]),
    ("a record", (("name", "no"), ("port", 80), ("tags", ["a", "b"]), ("open", True), ("", None))),
]

KEYS = [
    ("a key of null", ((None, 1),)),
    ("keys of truth values", ((True, 1), (False, 2))),
    ("keys of integers", ((1, 1), (-1, 2))),
    ("the empty text as a key", (("", ""),)),
    ("a key with an escape", (("a\nb", 1),)),
    ("a list as a key", (([1, "a"], 1),)),
    ("a map as a key", (((("a", 1),), 1),)),
    ("an empty list and an empty map as keys", (([], 1), ((), 2))),
    ("a map as a key, whose key is a list", (((([1], 2),), 3),)),
    ("keys of the same words and other types", ((1, 1), ("1", 2), (True, 3), ("true", 4), (None, 5), ("null", 6))),
    ("keys that look the same, joined and not joined", (("\xe9", 1), ("e\u0301", 2))),
    ("keys that are maps of the same pairs in other orders", (((("a", 1), ("b", 2)), 1), ((("b", 2), ("a", 1)), 2))),
    ("a key again in a map within", (("a", (("a", 1),)), ("b", (("a", 2),)))),
]

REPEATED_KEYS = [
    ("a key twice, with equal values", (("a", 1), ("a", 1))),
    ("a key twice, with other values and a key between", (("a", 1), ("b", 2), ("a", 3))),
    ("a key three times", ((7, 1), (7, 2), (7, 3))),
    ("null twice as a key", ((None, 1), (None, 2))),
    ("a list twice as a key", (([1, [2]], 1), ([1, [2]], 2))),
    ("a map twice as a key", (((("a", 1),), 1), ((("a", 1),), 2))),
    ("a key twice in a map in a list", [0, (("a", 1), ("a", 2))]),
    ("a key twice in a map that is a key", (((("a", 1), ("a", 2)), 3),)),
    ("a key twice after a map that has it, too", (("a", (("a", 1),)), ("a", 2))),
    ("a key twice, beyond ASCII", (("\xe9\n", 1), ("\xe9\n", 2))),
]

DEEP = [
    ("1,000 lists", Nested(1000, [])),
    ("1,000 lists, and an integer", Nested(1000, [7])),
]

VALUES = [*SCALARS, *TEXTS, *COLLECTIONS, *KEYS, *REPEATED_KEYS, *DEEP]
