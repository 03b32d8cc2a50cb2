"""The notation of docs/canonical-vectors.json: values and bytes as JSON, and back."""
import json

from vector_values import Nested

# The greatest length of a list on one line; what is between members, and between the entries of a longer list; the members of a refusal.
MOST_SHOWN = 130
LINE, SEPARATOR = ",\n     ", ",\n      "
PLACE = ("error", "line", "column")
FORMAT = [
    "Values with their canonical bytes, and bytes that are refused: test vectors for programs that write or read canonical bytes.",
    "A value is an object with one of the members null, bool, int (decimal digits in a string), text, list (of values), map (of pairs).",
    "With `times`, the list is the one item of another list, and so on, so many times.",
    "Bytes are parts, joined. A part is a string, in UTF-8, or an object. `hex` is bytes in hexadecimal digits. `counts` is a first and a last",
    "number: for each number from the first to the last, up or down, come `before`, twice as many spaces as the number, and `after`.",
    "`sha256` is that of the bytes. `json`, if it is there, is a text of JSON whose value this is.",
    "`repeats` is there if a map has a key twice: the bytes are canonical if keys may repeat; if they must differ, the bytes are refused with",
    "DuplicateKey at this line and column. A name that comes twice in `json` is refused or not likewise.",
    "The bytes of `refused` are refused with this error at this line and column; if keys may repeat, with those of `may_repeat`, if it is there.",
    "NotCanonical is at the first bytes that aren't UTF-8, or else at the first word that is impossible there; TooDeep at the first list or map",
    "within 1,000 others; DuplicateKey at the first key that its map has already, and that `: ` follows.",
    "Lines and columns are counted from 1, columns in characters. A line ends with a line feed.",
]


# ---- values

def described(value):
    """A value in the notation."""
    if isinstance(value, Nested):
        return {"list": [described(item) for item in value.items], "times": value.levels - 1}
    if isinstance(value, list):
        return {"list": [described(item) for item in value]}
    if isinstance(value, tuple):
        return {"map": [[described(key), described(held)] for key, held in value]}
    if isinstance(value, str):
        return {"text": value}
    if value is None or isinstance(value, bool):
        return {"null" if value is None else "bool": value}
    return {"int": str(value)}


def value_of(found):
    """The value that the notation describes."""
    times = found.get("times", 0)
    (kind, held), = ((kind, held) for kind, held in found.items() if kind != "times")
    if kind == "list":
        value = [value_of(item) for item in held]
        for _ in range(times):
            value = [value]
        return value
    if kind == "map":
        return tuple((value_of(key), value_of(inner)) for key, inner in held)
    return int(held) if kind == "int" else held


def json_text(value):
    """A text of JSON whose value this is, or None if a key is no text."""
    if isinstance(value, list):
        items = [json_text(item) for item in value]
        return None if None in items else f"[{', '.join(items)}]"
    if isinstance(value, tuple):
        pairs = [(json_text(key), json_text(held)) for key, held in value]
        if not all(isinstance(key, str) for key, _ in value) or any(held is None for _, held in pairs):
            return None
        return f"{{{', '.join(f'{key}: {held}' for key, held in pairs)}}}"
    return json.dumps(value, ensure_ascii=False)


# ---- bytes

class Counts:
    """A part: for each number from the first to the last, up or down, a text, twice as many spaces, and another text."""

    def __init__(self, first, last, before, after):
        self.first, self.last, self.before, self.after = first, last, before, after

    def bytes(self):
        numbers = range(self.first, self.last + 1) if self.first <= self.last else range(self.first, self.last - 1, -1)
        return "".join(self.before + 2 * number * " " + self.after for number in numbers).encode()

    def described(self):
        return {"counts": [self.first, self.last], "before": self.before, "after": self.after}


def bytes_of_parts(parts):
    """The bytes of parts that are strings, bytes and `Counts`."""
    return b"".join(part.encode() if isinstance(part, str) else part if isinstance(part, bytes) else part.bytes() for part in parts)


def described_parts(parts):
    """Parts in the notation."""
    return [part if isinstance(part, str) else {"hex": part.hex()} if isinstance(part, bytes) else part.described() for part in parts]


def parts_of(found):
    """The parts that the notation describes."""
    return [part if isinstance(part, str) else bytes.fromhex(part["hex"]) if "hex" in part
            else Counts(*part["counts"], part["before"], part["after"]) for part in found]


def parts_of_nested(value):
    """Parts of the bytes of nested lists, which hold one integer or nothing."""
    last = value.levels - 1
    opening = ["---\n!!seq [", Counts(1, last, "\n", "!!seq [")]
    if not value.items:
        return [*opening, "]", Counts(last - 1, 0, ",\n", "]"), "\n"]
    item, = value.items
    return [*opening, Counts(last + 1, last + 1, "\n", f'!!int "{item}"'), Counts(last, 0, ",\n", "]"), "\n"]


def parts_of_text(written):
    """Parts of a text: one for each line if it is long."""
    return [written] if len(json.dumps(written)) <= MOST_SHOWN else written.splitlines(True)


# ---- the text of the file

def shown_list(listed):
    """The text of a list, with each entry on a line of its own if it is long."""
    text = json.dumps(listed)
    return text if len(text) <= MOST_SHOWN else f"[{SEPARATOR.join(map(json.dumps, listed))}]"


def shown_value(value):
    """The text of a value."""
    return f'{{"map": {shown_list(value["map"])}}}' if "map" in value else json.dumps(value)


def shown_vector(vector):
    """The text of a vector, with each member on a line of its own, but an error and its place on one."""
    own = {"bytes": shown_list, "value": shown_value}
    place = {key: held for key, held in vector.items() if key in PLACE}
    lines = [f'"{key}": {own.get(key, json.dumps)(held)}' for key, held in vector.items() if key not in PLACE]
    if place:
        lines.insert(2, json.dumps(place)[1:-1])
    return f"    {{{LINE.join(lines)}}}"


def shown_file(groups):
    """The text of the file, of groups of vectors by their names."""
    groups = {"format": (f"    {json.dumps(line)}" for line in FORMAT), **{name: map(shown_vector, vectors) for name, vectors in groups.items()}}
    return "{\n" + ",\n".join('  "{}": [\n{}\n  ]'.format(name, ",\n".join(listed)) for name, listed in groups.items()) + "\n}\n"
