"""The place at which bytes stop to be a value's canonical bytes: that of the first word that is impossible there, or of the first list or map
that lies too deep, by the words of `crates/yaml_read/specs/Grammar.antt`. None of the words that may come at one place begins another, so there
is one such place, and the contract of `read_canonical` (`IsPlaced`) allows no other.

If keys must differ, bytes also stop at the first key that its map has already: where it begins, once the `: ` after it has come. The keys of one
map are as deep as one another, so two of them are equal if their texts are.

The model tells how a character is written: `writes` is its module `layout`, and `reads` its module `readers`."""
import re

MOST_NESTED = 1000
TAGS = ["!!null ", "!!bool ", "!!int ", "!!str ", "!!seq ", "!!map "]
BRACKETS = {"!!seq ": "[]", "!!map ": "{}"}
INTEGER = re.compile(r'"(0|-?[1-9][0-9]{0,18})"')
ESCAPE = re.compile(r"\\(?:x[0-9A-F]{2}|u[0-9A-F]{4}|U[0-9A-F]{8}|[!-~])")
SPACES = re.compile(" *")


class Stops(Exception):
    """None of the words that may come here does."""


class TooDeep(Exception):
    """A list or a map lies too deep."""


class Repeats(Exception):
    """A map has a key twice."""


class Open:
    """A list or a map that is open: what comes next in it, an item, a key or a value, and where that begins; and the texts of its keys."""

    def __init__(self, due, at):
        self.due, self.begin, self.keys = due, at, set()


class Words:
    def __init__(self, text, writes, reads, differ):
        self.text, self.at, self.writes, self.reads, self.differ = text, 0, writes, reads, differ

    def take(self, *words):
        """Passes the one of these words that comes here, and returns it."""
        for word in words:
            if self.text.startswith(word, self.at):
                self.at += len(word)
                return word
        raise Stops

    def indentation(self, depth):
        """Passes two spaces for each level, a word for each."""
        levels = (SPACES.match(self.text, self.at).end() - self.at) // 2
        self.at += 2 * min(levels, depth)
        if levels < depth:
            raise Stops

    def line(self, depth):
        self.take("\n")
        self.indentation(depth)

    def character(self):
        c = self.text[self.at:self.at + 1]
        if c == "\\":
            found = ESCAPE.match(self.text, self.at)
            c = found and self.reads.read_double(f'"{found.group()}"')
            if not c or not self.writes.escaped(c, True) or self.writes.escape(c) != found.group():
                raise Stops
            self.at = found.end()
        elif c == "" or self.writes.escaped(c, True):
            raise Stops
        else:
            self.at += 1

    def scalar(self, tag):
        if tag == "!!null ":
            self.take('"null"')
        elif tag == "!!bool ":
            self.take('"true"', '"false"')
        elif tag == "!!int ":
            found = INTEGER.match(self.text, self.at)
            if found is None or not -2**63 <= int(found.group(1)) < 2**63:
                raise Stops
            self.at = found.end()
        else:
            self.take('"')
            while self.text[self.at:self.at + 1] != '"':
                self.character()
            self.at += 1

    def node(self, open_ones):
        """Passes a whole node, or the beginning of a list or a map up to the first node in it, which it opens."""
        begin = self.at
        tag = self.take(*TAGS)
        if tag not in BRACKETS:
            return self.scalar(tag)
        opening, closing = BRACKETS[tag]
        self.take(opening)
        if len(open_ones) >= MOST_NESTED:
            self.at = begin
            raise TooDeep
        if self.take(closing, "\n") == "\n":
            self.indentation(len(open_ones) + 1)
            if opening == "{":
                self.take("? ")
            open_ones.append(Open("key" if opening == "{" else "item", self.at))
            return True

    def add_key(self, inner, key):
        """Adds a key to an open map, if it is new there or keys may repeat."""
        if self.differ and key in inner.keys:
            self.at = inner.begin
            raise Repeats
        inner.keys.add(key)

    def behind_node(self, open_ones):
        """Passes what leads to the next node, and returns whether there is one."""
        while open_ones:
            inner, depth = open_ones[-1], len(open_ones) - 1
            if inner.due == "key":
                end = self.at
                self.line(depth)
                self.take("  : ")
                self.add_key(inner, self.text[inner.begin:end])
                inner.due = "value"
                return True
            self.take(",")
            self.line(depth)
            lead, closing = ("  ", "]") if inner.due == "item" else ("  ? ", "}")
            if self.take(lead, closing) == lead:
                inner.due, inner.begin = "item" if inner.due == "item" else "key", self.at
                return True
            open_ones.pop()
        return False

    def document(self):
        self.take("---\n")
        open_ones = []
        while self.node(open_ones) or self.behind_node(open_ones):
            pass
        self.take("\n")
        if self.at < len(self.text):
            raise Stops


def place_in(text):
    """The line and the column after a text."""
    return text.count("\n") + 1, len(text) - text.rfind("\n")


def place(data, writes, reads, differ):
    """The line, the column, and what an answer says of them, if keys must differ or may repeat; zeros where the bytes are canonical."""
    try:
        words = Words(data.decode(), writes, reads, differ)
    except UnicodeDecodeError as error:
        return *place_in(data[:error.start].decode()), "not canonical"
    try:
        words.document()
    except Stops:
        return *place_in(words.text[:words.at]), "not canonical"
    except TooDeep:
        return *place_in(words.text[:words.at]), "nested too deep"
    except Repeats:
        return *place_in(words.text[:words.at]), "a name is given twice"
    return 0, 0, "done"
