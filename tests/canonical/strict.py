"""The strict form of canonical bytes, by the model of tests/model: they are the text that its writer writes of the value that its reader finds in them.

A value is None, a bool, an int, a str, a list of values, or a tuple of pairs of them, which is a map."""
import functools
import pathlib
import re
import sys

MODEL = pathlib.Path(__file__).resolve().parents[1] / "model"
TAG = "tag:yaml.org,2002:"
WORDS = {None: "null", True: "true", False: "false"}
SCALARS = {f"{TAG}null": {"null": None}, f"{TAG}bool": {"true": True, "false": False}}
INTEGER = re.compile(r"[-+]?[0-9]{1,20}")
MOST_NESTED = 1000
REPEATS = "a name is given twice"


class NoValue(Exception):
    """What was read is no typed value."""


def value_of(node):
    """The typed value of a node that the model read, and how many levels deep it nests."""
    if node[0] == "alias" or node[1] is not None:
        raise NoValue
    kind, _, tag, held = node[:4]
    if kind == "seq" and tag == f"{TAG}seq":
        items = [value_of(item) for item in held]
        return [value for value, _ in items], 1 + max((levels for _, levels in items), default=0)
    if kind == "map" and tag == f"{TAG}map":
        pairs = [(value_of(key), value_of(value)) for key, value in held]
        return tuple((key[0], value[0]) for key, value in pairs), 1 + max((inner[1] for pair in pairs for inner in pair), default=0)
    if kind == "scalar" and tag == f"{TAG}str":
        return held, 0
    if kind == "scalar" and tag == f"{TAG}int" and INTEGER.fullmatch(held) and -2**63 <= int(held) < 2**63:
        return int(held), 0
    if kind == "scalar" and held in SCALARS.get(tag, {}):
        return SCALARS[tag][held], 0
    raise NoValue


def has_unique_keys(value):
    """Whether no map has a key twice, in a value and in all that it holds. (By what Python prints of keys, to which True is 1.)"""
    if isinstance(value, list):
        return all(map(has_unique_keys, value))
    if not isinstance(value, tuple):
        return True
    keys = [repr(key) for key, _ in value]
    return len(keys) == len(set(keys)) and all(has_unique_keys(inner) for pair in value for inner in pair)


class Model:
    """The model's writer and reader, and its strict form."""

    def __init__(self):
        sys.setrecursionlimit(20 * MOST_NESTED)  # (its writer recurs for each level)
        sys.path.insert(0, str(MODEL))
        import events
        import layout
        import readers

        self.events, self.layout, self.readers = events, layout, readers
        # (those of `canonical_settings` of `yaml_value`)
        settings = events.Settings(encoding="utf8", canonical=True, unicode=True, indent=2, width=-1, line_break="ln")
        self.settings = layout.effective(settings, "any")

    def meaning(self, spelled):
        """The character that is spelled so between quotes."""
        return self.readers.read_double(f'"{spelled}"')

    def events_of(self, value, to):
        """Adds the events of a value, each node's with its tag."""
        e = self.events
        if isinstance(value, list):
            to.append(e.SeqStart(tag=f"{TAG}seq"))
            for item in value:
                self.events_of(item, to)
            to.append(e.SeqEnd())
        elif isinstance(value, tuple):
            to.append(e.MapStart(tag=f"{TAG}map"))
            for pair in value:
                for inner in pair:
                    self.events_of(inner, to)
            to.append(e.MapEnd())
        elif isinstance(value, str):
            to.append(e.Scalar(tag=f"{TAG}str", value=value))
        elif isinstance(value, int) and not isinstance(value, bool):
            to.append(e.Scalar(tag=f"{TAG}int", value=str(value)))
        else:
            to.append(e.Scalar(tag=f"{TAG}null" if value is None else f"{TAG}bool", value=WORDS[value]))

    # (what reads as the value that it was just written of isn't written again)
    @functools.lru_cache(maxsize=4)
    def output(self, listed):
        return self.layout.encode("utf8", "".join(self.layout.layout_of(self.settings, listed).pieces))

    def written(self, value):
        """The canonical text of a value."""
        listed = [self.events.StreamStart(), self.events.DocStart()]
        self.events_of(value, listed)
        return self.output((*listed, self.events.DocEnd(), self.events.StreamEnd()))

    def wanted(self, data):
        """What the strict form says of bytes, if keys must differ and if they may repeat."""
        try:
            data.decode()
            documents = self.readers.canonical_read(data)
            if documents is None or len(documents) != 1 or documents[0][:2] != (None, ()):
                raise NoValue
            value, levels = value_of(documents[0][2])
        except (UnicodeDecodeError, NoValue):
            return "not canonical", "not canonical"
        if self.written(value) != data:
            return "not canonical", "not canonical"
        found = "done" if levels <= MOST_NESTED else "nested too deep"
        return found if has_unique_keys(value) else REPEATS, found


def agrees(wanted, told):
    """Whether words of a status are those of the strict form. (A text that breaks off, or nests too deep, is refused before that at a list or a map
    that lies too deep, or at a key that its map has.)"""
    return wanted == told or (wanted, told) in [("not canonical", "nested too deep"), ("not canonical", REPEATS), (REPEATS, "nested too deep")]
