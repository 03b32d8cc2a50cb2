"""The refused bytes of docs/canonical-vectors.json.

A row is a name, the bytes, and the line and the column, worked out by hand by the words of `crates/yaml_read/specs/Grammar.antt`. The bytes are a text,
or parts: texts, bytes and `Counts`. A row may go on with the error, which is NotCanonical if there is none, and with the error, the line and the column if
keys may repeat, if these are others. In the groups but the first two the bytes are what follows `---` and a line's end."""
from notation import Counts

NULL = '!!null "null"\n'

MARKERS = [
    ("no bytes", "", 1, 1),
    ("no document marker", NULL, 1, 1),
    ("a marker that is cut", "--", 1, 1),
    ("a marker without a line's end", "---", 1, 1),
    ("a marker, and nothing after it", "---\n", 2, 1),
    ("a node on the marker's line", "--- " + NULL, 1, 1),
    ("a byte order mark", "\ufeff---\n" + NULL, 1, 1),
    ("a directive", "%YAML 1.1\n---\n" + NULL, 1, 1),
    ("a comment before the marker", "# a\n---\n" + NULL, 1, 1),
    ("CR LF", "---\r\n!!null \"null\"\r\n", 1, 1),
]

# The last of these has two faults, and the error is that of the byte.
NO_UTF8 = [
    ("a byte that is never in UTF-8", ['---\n!!str "a', b"\xff", '"\n'], 2, 9),
    ("a long spelling of NUL in UTF-8", ['---\n!!str "', b"\xc0\x80", '"\n'], 2, 8),
    ("a surrogate in UTF-8", ['---\n!!str "\xe9', b"\xed\xa0\x80", '"\n'], 2, 9),
    ("a character that is cut in UTF-8", ['---\n!!str "\U0001f600', b"\xf0\x9f\x98", '"\n'], 2, 9),
    ("UTF-16", [("\ufeff---\n" + NULL).encode("utf-16-le")], 1, 1),
    ("a byte that isn't UTF-8 after another fault", ["abc", b"\xff"], 1, 4),
]

ENDS = [
    ("no line's end at the end", '!!null "null"', 2, 14),
    ("a CR before the line's end", '!!null "null"\r\n', 2, 14),
    ("a blank at the end of a line", '!!null "null" \n', 2, 14),
    ("a comment at the end of a line", '!!null "null" # a\n', 2, 14),
    ("an empty line at the end", NULL + "\n", 3, 1),
    ("an end marker", NULL + "...\n", 3, 1),
    ("a second document", NULL + "---\n" + NULL, 3, 1),
]

TAGS = [
    ("no tag", '"a"\n', 2, 1),
    ("a tag alone", "!!str\n", 2, 1),
    ("a tag, and nothing after it", "!!str ", 2, 7),
    ("two blanks after a tag", '!!int  "1"\n', 2, 7),
    ("a tab after a tag", '!!int\t"1"\n', 2, 1),
    ("a blank before a tag", ' !!int "1"\n', 2, 1),
    ("a tag in full", '!<tag:yaml.org,2002:int> "1"\n', 2, 1),
    ("a tag of an own handle", '!int "1"\n', 2, 1),
    ("a tag of another type", '!!float "1.5"\n', 2, 1),
    ("an anchor", '&a !!int "1"\n', 2, 1),
    ("an alias", "*a\n", 2, 1),
]

SCALARS = [
    ("a plain scalar", "!!int 1\n", 2, 7),
    ("a scalar in single quotes", "!!str 'a'\n", 2, 7),
    ("a literal scalar", "!!str |\n  a\n", 2, 7),
    ("a null of another spelling", '!!null "~"\n', 2, 8),
    ("a truth value with a capital", '!!bool "True"\n', 2, 8),
    ("a truth value of another spelling", '!!bool "yes"\n', 2, 8),
    ("an integer without digits", '!!int ""\n', 2, 7),
    ("an integer that begins with 0", '!!int "07"\n', 2, 7),
    ("an integer with a plus", '!!int "+7"\n', 2, 7),
    ("zero with a minus", '!!int "-0"\n', 2, 7),
    ("an integer in hexadecimal digits", '!!int "0x7"\n', 2, 7),
    ("an integer with a group of digits", '!!int "1_000"\n', 2, 7),
    ("an integer with a blank", '!!int "7 "\n', 2, 7),
    ("an integer with a fraction", '!!int "7.0"\n', 2, 7),
    ("an integer above those of 64 bits", '!!int "9223372036854775808"\n', 2, 7),
    ("an integer below those of 64 bits", '!!int "-9223372036854775809"\n', 2, 7),
]

TEXTS = [
    ("a text that isn't closed", '!!str "ab', 2, 10),
    ("a text that the line's end cuts", '!!str "ab\n', 2, 10),
    ("a text that is folded", '!!str "a\n  b"\n', 2, 9),
    ("a tab that isn't escaped", '!!str "a\tb"\n', 2, 9),
    ("a delete that isn't escaped", '!!str "\x7f"\n', 2, 8),
    ("U+0085 that isn't escaped", '!!str "\xe9\x85"\n', 2, 9),
    ("U+2028 that isn't escaped", '!!str "\U0001f600\u2028"\n', 2, 9),
    ("U+FEFF that isn't escaped", '!!str "\ufeff"\n', 2, 8),
    ("U+FFFF that isn't escaped", '!!str "\uffff"\n', 2, 8),
    ("two digits in lower case", '!!str "\\x1f"\n', 2, 8),
    ("four digits in lower case", '!!str "\\ufeff"\n', 2, 8),
    ("more digits than an escape needs", '!!str "\\u001F"\n', 2, 8),
    ("digits in place of a letter", '!!str "\\x0A"\n', 2, 8),
    ("four digits in place of a letter", '!!str "\\u2028"\n', 2, 8),
    ("an escape of a letter", '!!str "\\x41"\n', 2, 8),
    ("an escape beyond the BMP", '!!str "\\U0001F600"\n', 2, 8),
    ("a surrogate pair", '!!str "\\uD83D\\uDE00"\n', 2, 8),
    ("an escape beyond the characters", '!!str "\\U00110000"\n', 2, 8),
    ("an escape of U+00A0", '!!str "\\_"\n', 2, 8),
    ("an escape of a solidus", '!!str "a\\/b"\n', 2, 9),
    ("an escape of a space", '!!str "a\\ b"\n', 2, 9),
    ("an escape that is none", '!!str "\\q"\n', 2, 8),
    ("an escape without its letter", '!!str "a\\', 2, 9),
    ("an escape that is cut in its digits", '!!str "a\\x1', 2, 9),
]

LISTS = [
    ("a block list", '!!seq\n- !!int "1"\n', 2, 1),
    ("a blank in an empty list", "!!seq [ ]\n", 2, 8),
    ("an empty list on two lines", "!!seq [\n]\n", 3, 1),
    ("a list on one line", '!!seq [!!int "1"]\n', 2, 8),
    ("a list that isn't closed", "!!seq [", 2, 8),
    ("an item that is indented by one blank", '!!seq [\n !!int "1",\n]\n', 3, 1),
    ("an item that is indented by a tab", '!!seq [\n\t!!int "1",\n]\n', 3, 1),
    ("an item that is indented by four blanks", '!!seq [\n    !!int "1",\n]\n', 3, 3),
    ("no comma after the last item", '!!seq [\n  !!int "1"\n]\n', 3, 12),
    ("two items on one line", '!!seq [\n  !!int "1", !!int "2",\n]\n', 3, 13),
    ("an empty line between items", '!!seq [\n  !!int "1",\n\n  !!int "2",\n]\n', 4, 1),
    ("a comment between items", '!!seq [\n  !!int "1",\n  # a\n  !!int "2",\n]\n', 4, 3),
    ("a closing bracket that is indented", '!!seq [\n  !!int "1",\n  ]\n', 4, 3),
    ("a closing bracket of a map", '!!seq [\n  !!int "1",\n}\n', 4, 1),
    ("an inner bracket that isn't indented", '!!seq [\n  !!seq [\n    !!int "1",\n],\n]\n', 5, 1),
    ("an inner bracket that is indented as its items", '!!seq [\n  !!seq [\n    !!int "1",\n    ],\n]\n', 5, 5),
]

MAPS = [
    ("a map of JSON", '!!map {"a": 1}\n', 2, 8),
    ("a key without its sign", '!!map {\n  !!str "a": !!int "1",\n}\n', 3, 3),
    ("two blanks before a key", '!!map {\n  ?  !!str "a"\n  : !!int "1",\n}\n', 3, 5),
    ("a value on its key's line", '!!map {\n  ? !!str "a" : !!int "1",\n}\n', 3, 14),
    ("a value that isn't indented", '!!map {\n  ? !!str "a"\n: !!int "1",\n}\n', 4, 1),
    ("a value that is indented as deep as its key's text", '!!map {\n  ? !!str "a"\n    : !!int "1",\n}\n', 4, 1),
    ("a key without a value", '!!map {\n  ? !!str "a",\n}\n', 3, 14),
    ("two keys in turn", '!!map {\n  ? !!str "a"\n  ? !!str "b"\n  : !!int "1",\n}\n', 4, 1),
    ("no comma after the last pair", '!!map {\n  ? !!str "a"\n  : !!int "1"\n}\n', 4, 14),
    ("an item in a map", '!!map {\n  ? !!str "a"\n  : !!int "1",\n  !!int "2",\n}\n', 5, 1),
]

# The second `"a"` begins at line 5 and column 5 of these.
TWICE = '!!map {\n  ? !!str "a"\n  : !!int "1",\n  ? !!str "a"'
REPEATS = [
    ("a key twice, before another fault", TWICE + '\n  : !!int "01",\n}\n', 5, 5, "DuplicateKey", ("NotCanonical", 6, 11)),
    ("a key twice, and the bytes end with its sign", TWICE + "\n  : ", 5, 5, "DuplicateKey", ("NotCanonical", 6, 5)),
    ("a key twice, without its sign", TWICE + ",\n}\n", 5, 14),
    ("a key twice, after another fault", TWICE.replace('"1"', '"01"') + '\n  : !!int "2",\n}\n', 4, 11),
    ("a key twice, and a byte that isn't UTF-8", [TWICE + '\n  : !!str "', b"\xff", '",\n}\n'], 6, 12),
]

# 1,000 lists are around the place of the first, on the lines 2 to 1001.
INSIDE = ["!!seq [", Counts(1, 1000, "\n", "!!seq [")]
DEEP = [
    ("1,001 lists", [*INSIDE, "]", Counts(999, 0, ",\n", "]"), "\n"], 1002, 2001, "TooDeep"),
    ("1,001 lists, which end at the innermost bracket", INSIDE, 1002, 2001, "TooDeep"),
    ("1,001 lists, which end before the innermost bracket", ["!!seq [", Counts(1, 999, "\n", "!!seq ["), Counts(1000, 1000, "\n", "!!seq ")], 1002, 2007),
    ("1,001 maps, each a key", ["!!map {", Counts(1, 1000, "\n", "? !!map {")], 1002, 2003, "TooDeep"),
    ("1,000 lists, and a fault in the innermost", ["!!seq [", Counts(1, 999, "\n", "!!seq ["), Counts(1000, 1000, "\n", "!!int 7")], 1002, 2007),
]

AFTER_MARKER = [*ENDS, *TAGS, *SCALARS, *TEXTS, *LISTS, *MAPS, *REPEATS, *DEEP]


def parts_after_marker(given):
    """The parts of a row's bytes, after a document marker."""
    first, *more = [given] if isinstance(given, str) else given
    return ["---\n" + first, *more]


def refusals():
    """Each row: its name, parts, line, column, error, and what is told if keys may repeat."""
    whole = [(name, [given] if isinstance(given, str) else given, *told) for name, given, *told in [*MARKERS, *NO_UTF8]]
    for name, parts, line, column, *more in [*whole, *((name, parts_after_marker(given), *told) for name, given, *told in AFTER_MARKER)]:
        error = more[0] if more else "NotCanonical"
        yield name, parts, (error, line, column), more[1] if len(more) > 1 else (error, line, column)
