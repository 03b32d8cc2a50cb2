"""The reading side of the model: the texts of scalars, tags, canonical streams and scripts (Python 3.8, no packages).

It is written from the rules of docs/READING.md and docs/SCRIPTS.md, plain and slow on purpose. `None` means "no reading".

    normalize, read_plain, read_single, read_double, read_block       line breaks, and the text of a scalar in each style
    percent_decode, directives_in_force, decode_tag                   tags
    canonical_read, content_of, content_equal                         canonical streams, and the content of events
    parse_script, to_script                                           scripts
"""
from events import (StreamStart, StreamEnd, DocStart, DocEnd, Alias, Scalar,
                    SeqStart, SeqEnd, MapStart, MapEnd, Settings)

# ---------------------------------------------------------------- characters

LF, CR, NEL, LS, PS = "\n", "\r", "\u0085", "\u2028", "\u2029"
BLANKS = " \t"
NAME_ALPHABET = frozenset("0123456789ABCDEFGHIJKLMNOPQRSTUVWXYZabcdefghijklmnopqrstuvwxyz_-")
BLOCK_FIRST = "#,[]{}&*!|>'\"%@`"          # "the second line of block indicators" (01, 6.5)
FLOW_NEVER = ",?:[]{}"
HEX_UPPER = "0123456789ABCDEF"
HEX_ANY = "0123456789ABCDEFabcdef"


def breaks_of(breaks12):
    """The breaks that a text has after `normalize`."""
    return LF if breaks12 else LF + LS + PS


# ---------------------------------------------------------------- line breaks

def normalize(text, breaks12=False):
    """CR LF, CR, LF and U+0085 each read as LF.  U+2028 and U+2029 read as themselves, so the
    function is the same with breaks12; what changes is what the readers below take for a break."""
    out = []
    i = 0
    while i < len(text):
        if text[i] == CR and i + 1 < len(text) and text[i + 1] == LF:
            out.append(LF)
            i += 2
        elif text[i] in (CR, LF, NEL):
            out.append(LF)
            i += 1
        else:
            out.append(text[i])
            i += 1
    return "".join(out)


def _need_normalized(text):
    """The readers take texts after `normalize`: a raw CR or U+0085 is a mistake of the caller."""
    if CR in text or NEL in text:
        raise ValueError("the text isn't normalized")


# ---------------------------------------------------------------- folding

def _fold(units):
    """units: list of (kind, text), kind 'blank', 'break' or 'char'. Folds them.

    A longest stretch of blanks and breaks that holds a break is a run of breaks with the literal
    blanks before it, between its breaks and after it.  A stretch without a break is kept."""
    out = []
    i = 0
    while i < len(units):
        if units[i][0] == "char":
            out.append(units[i][1])
            i += 1
            continue
        j = i
        while j < len(units) and units[j][0] != "char":
            j += 1
        stretch = units[i:j]
        run = [t for (kind, t) in stretch if kind == "break"]
        if not run:
            out.extend(t for (_, t) in stretch)
        elif run[0] != LF:
            out.extend(run)                     # first break U+2028 or U+2029: the whole run
        elif len(run) == 1:
            out.append(" ")                     # LF alone
        else:
            out.extend(run[1:])                 # the breaks that follow the LF
        i = j
    return "".join(out)


def _unit(c, breaks):
    if c in BLANKS:
        return ("blank", c)
    if c in breaks:
        return ("break", c)
    return ("char", c)


# ---------------------------------------------------------------- plain and single-quoted texts

def read_plain(text, flow, breaks12=False):
    _need_normalized(text)
    breaks = breaks_of(breaks12)
    if text == "":
        return None if flow else ""             # the empty text has no reading in flow

    def ends(i):                                # "before a blank, break or the end", seen from i
        return i + 1 == len(text) or text[i + 1] in BLANKS or text[i + 1] in breaks

    if text.startswith("---") or text.startswith("..."):
        return None
    if text[0] in BLOCK_FIRST:
        return None
    if text[0] in "-?:" and ends(0):
        return None
    for i, c in enumerate(text):
        if c == ":" and ends(i):
            return None
        if c == "#" and i > 0 and (text[i - 1] in BLANKS or text[i - 1] in breaks):
            return None
        if flow and c in FLOW_NEVER:
            return None
    return _fold([_unit(c, breaks) for c in text])      # blanks at the edges aren't refused


def read_single(text, breaks12=False):
    _need_normalized(text)
    breaks = breaks_of(breaks12)
    if len(text) < 2 or text[0] != "'" or text[-1] != "'":
        return None
    inside = text[1:-1]
    units = []
    i = 0
    while i < len(inside):
        if inside[i] == "'":
            if i + 1 < len(inside) and inside[i + 1] == "'":
                units.append(("char", "'"))
                i += 2
                continue
            return None                         # a lone quote inside
        units.append(_unit(inside[i], breaks))
        i += 1
    return _fold(units)


# ---------------------------------------------------------------- double-quoted texts

SHORT_ESCAPES = {
    "0": "\u0000", "a": "\u0007", "b": "\u0008", "t": "\u0009", "n": "\u000a", "v": "\u000b",
    "f": "\u000c", "r": "\u000d", "e": "\u001b", '"': '"', "\\": "\\", "N": "\u0085",
    "_": "\u00a0", "L": "\u2028", "P": "\u2029",
    " ": " ",                                   # a backslash before a space
}
LONG_ESCAPES = {"x": 2, "u": 4, "U": 8}


def _read_escape(text, i):
    """text[i] is a backslash.  (character, next index), or None.  A backslash before a break is
    no escape here, and gives None."""
    if i + 1 >= len(text):
        return None
    c = text[i + 1]
    if c in SHORT_ESCAPES:
        return SHORT_ESCAPES[c], i + 2
    if c in LONG_ESCAPES:
        n = LONG_ESCAPES[c]
        digits = text[i + 2:i + 2 + n]
        if len(digits) != n or any(d not in HEX_UPPER for d in digits):
            return None                         # upper-case digits alone
        v = int(digits, 16)
        if v > 0x10FFFF or 0xD800 <= v <= 0xDFFF:
            return None                         # no character, no reading
        return chr(v), i + 2 + n                # also if a shorter escape exists
    return None


def read_double(text, breaks12=False):
    _need_normalized(text)
    breaks = breaks_of(breaks12)
    if text[:1] != '"':
        return None
    units = []
    i = 1
    while True:
        if i >= len(text):
            return None                         # no closing quote
        if text[i] == '"':
            if i != len(text) - 1:
                return None                     # a raw quote inside
            return _fold(units)
        if text[i] == "\\":
            got = _read_escape(text, i)
            if got is None:
                return None
            units.append(("char", got[0]))
            i = got[1]
        else:
            units.append(_unit(text[i], breaks))
            i += 1


# ---------------------------------------------------------------- block scalars

def read_block(text, column, breaks12=False):
    """column: of the enclosing block's entries, None at the root.  The text begins at the sign
    and ends where the body ends (with or without a last break)."""
    _need_normalized(text)
    breaks = breaks_of(breaks12)

    # header
    if text[:1] not in ("|", ">"):
        return None
    folded = text[0] == ">"
    i = 1
    digit = None
    if i < len(text) and text[i] in "123456789":
        digit = int(text[i])
        i += 1
    sign = ""
    if i < len(text) and text[i] in "-+":
        sign = text[i]
        i += 1
    if i >= len(text) or text[i] not in breaks:
        return None                             # any break ends the header
    rest = text[i + 1:]

    # lines: contents[k] is followed by ends[k]; the last one by nothing
    contents, ends, current = [], [], []
    for c in rest:
        if c in breaks:
            contents.append("".join(current))
            ends.append(c)
            current = []
        else:
            current.append(c)
    contents.append("".join(current))

    full = [k for k, line in enumerate(contents) if line != ""]   # a line of blanks is nonempty
    if not full:
        return "".join(ends) if sign == "+" else ""

    # indentation
    if digit is not None:
        indentation = digit if column is None else column + digit
    else:
        first = contents[full[0]]
        indentation = len(first) - len(first.lstrip(" "))
    stripped = {}
    for k in full:
        if not contents[k].startswith(" " * indentation):
            return None
        stripped[k] = contents[k][indentation:]

    # the breaks before the first nonempty line are kept
    out = ["".join(ends[:full[0]])]

    # the lines, folded in a folded scalar
    for n, k in enumerate(full):
        out.append(stripped[k])
        if n + 1 == len(full):
            break
        following = full[n + 1]
        run = ends[k:following]
        even = stripped[k][:1] not in (" ", "\t") and stripped[following][:1] not in (" ", "\t")
        if folded and even and run[0] == LF:
            out.append(" " if len(run) == 1 else "".join(run[1:]))
        else:
            out.append("".join(run))

    # the breaks at the end
    tail = ends[full[-1]:]
    if sign == "+":
        out.append("".join(tail))
    elif sign == "":
        out.append("".join(tail[:1]))
    return "".join(out)


# ---------------------------------------------------------------- tags

def percent_decode(text):
    """`%` and two hexadecimal digits are one byte of UTF-8; other characters mean themselves.
    None if a percent form is broken or the bytes aren't UTF-8."""
    data = bytearray()
    i = 0
    while i < len(text):
        if text[i] == "%":
            digits = text[i + 1:i + 3]
            if len(digits) != 2 or any(d not in HEX_ANY for d in digits):
                return None                     # digits of either case
            data.append(int(digits, 16))
            i += 3
        else:
            try:
                data += text[i].encode("utf-8")
            except UnicodeEncodeError:
                return None
            i += 1
    try:
        return bytes(data).decode("utf-8")
    except UnicodeDecodeError:
        return None


DEFAULT_DIRECTIVES = (("!", "!"), ("!!", "tag:yaml.org,2002:"))


def directives_in_force(own):
    """The document's, in order, then the defaults whose handle it doesn't give."""
    own = list(own)
    given = [handle for handle, _ in own]
    return own + [d for d in DEFAULT_DIRECTIVES if d[0] not in given]


def decode_tag(text, own=()):
    """text is the tag as written, from its `!` to before the space; own are the document's
    directives (handle, decoded prefix).  ('bare', None), ('tag', t) or None."""
    if text[:1] != "!":
        return None
    if text == "!":
        return ("bare", None)
    if text.startswith("!<"):
        content = percent_decode(text[2:-1]) if text.endswith(">") else None
        return None if content is None else ("tag", content)
    last = text.rindex("!")
    handle, suffix = text[:last + 1], text[last + 1:]
    for h, prefix in directives_in_force(own):
        if h == handle:                         # the first one, if a handle is given twice
            decoded = percent_decode(suffix)
            return None if decoded is None else ("tag", prefix + decoded)
    return None                                 # an unknown handle


# ---------------------------------------------------------------- the canonical reader

class _No(Exception):
    """No reading."""


def decode_stream(data):
    """Bytes to characters: UTF-16 by its mark, else UTF-8.  None where it isn't that encoding."""
    try:
        if data[:2] == b"\xfe\xff":
            return data[2:].decode("utf-16-be")
        if data[:2] == b"\xff\xfe":
            return data[2:].decode("utf-16-le")
        return data.decode("utf-8")             # EF BB BF is an ordinary U+FEFF
    except UnicodeDecodeError:
        return None


def is_handle(text):
    """`!`, or `!`, any number of characters of the anchor alphabet, `!`."""
    if text == "!":
        return True
    return (len(text) >= 2 and text[0] == "!" and text[-1] == "!"
            and all(c in NAME_ALPHABET for c in text[1:-1]))


class _Canonical:
    def __init__(self, text, breaks12):
        self.text = text
        self.pos = 0
        self.breaks12 = breaks12
        self.breaks = breaks_of(breaks12)

    # -- tokens

    def peek(self, n=1):
        return self.text[self.pos:self.pos + n]

    def free(self):
        """Blanks and breaks, free between tokens."""
        while self.pos < len(self.text) and (self.text[self.pos] in BLANKS
                                             or self.text[self.pos] in self.breaks):
            self.pos += 1

    def take(self, word):
        if not self.text.startswith(word, self.pos):
            raise _No
        self.pos += len(word)

    def name(self):
        start = self.pos
        while self.pos < len(self.text) and self.text[self.pos] in NAME_ALPHABET:
            self.pos += 1
        if self.pos == start:
            raise _No
        return self.text[start:self.pos]

    def quoted(self):
        """A quoted scalar ends at the first `"` outside an escape."""
        start = self.pos
        i = start + 1
        while True:
            if i >= len(self.text):
                raise _No
            if self.text[i] == '"':
                break
            i += 2 if self.text[i] == "\\" else 1
        self.pos = i + 1
        value = read_double(self.text[start:self.pos], self.breaks12)
        if value is None:
            raise _No
        return value

    # -- directive lines: at least one blank between the words, any blanks after them, then a break

    def blanks(self):
        start = self.pos
        while self.pos < len(self.text) and self.text[self.pos] in BLANKS:
            self.pos += 1
        return self.pos > start

    def word(self):
        start = self.pos
        while (self.pos < len(self.text) and self.text[self.pos] not in BLANKS
               and self.text[self.pos] not in self.breaks):
            self.pos += 1
        if self.pos == start:
            raise _No
        return self.text[start:self.pos]

    def directive(self):
        """('version', (1, m)) or ('tag', (handle, prefix))."""
        kind = self.word()
        if not self.blanks():
            raise _No
        if kind == "%YAML":
            w = self.word()
            if w not in ("1.1", "1.2"):
                raise _No
            got = ("version", (1, int(w[2])))
        elif kind == "%TAG":
            handle = self.word()
            if not is_handle(handle) or not self.blanks():
                raise _No
            prefix = percent_decode(self.word())
            if prefix is None:
                raise _No
            got = ("tag", (handle, prefix))
        else:
            raise _No
        self.blanks()
        if self.pos >= len(self.text) or self.text[self.pos] not in self.breaks:
            raise _No
        return got

    # -- nodes

    def properties(self, own):
        """(anchor or None, ('bare', None) or ('tag', t) or None). The anchor comes before the tag."""
        anchor = tag = None
        if self.peek() == "&":
            self.pos += 1
            anchor = self.name()
            self.free()
        if self.peek() == "!":
            end = self.text.find(" ", self.pos)
            if end < 0:
                raise _No                       # a space alone ends a tag
            tag = decode_tag(self.text[self.pos:end], own)
            if tag is None:
                raise _No
            self.pos = end
            self.free()
        return anchor, tag

    def node(self, own):
        """Recursion on what is left, written with a list of open collections, since the depth
        may be 1,000,000.  A frame is [kind, anchor, tag, entries, key]; key is None where a
        mapping's key comes next."""
        stack = []
        while True:
            # a node is wanted here
            self.free()
            anchor, tag = self.properties(own)
            c = self.peek()
            if c == "*":
                if anchor is not None or tag is not None:
                    raise _No
                self.pos += 1
                done = ("alias", self.name())
            elif c == '"':
                value = self.quoted()
                if tag is None:
                    done = ("scalar", anchor, None, value, True)
                elif tag[0] == "bare":
                    done = ("scalar", anchor, None, value, False)
                else:
                    done = ("scalar", anchor, tag[1], value, None)
            elif c == "[" or c == "{":
                if tag is not None and tag[0] == "bare":
                    raise _No                   # no bare tag on a collection
                self.pos += 1
                stack.append(["seq" if c == "[" else "map", anchor,
                              None if tag is None else tag[1], [], None])
                done = None
            else:
                raise _No
            # what was read is put in its place; where a collection is open, it goes on
            while True:
                if done is not None:
                    if not stack:
                        return done
                    top = stack[-1]
                    self.free()
                    if top[0] == "seq":
                        top[3].append(done)
                        self.take(",")          # a comma after each entry
                    elif top[4] is None:
                        top[4] = done
                        self.take(":")
                        break                   # the value is wanted
                    else:
                        top[3].append((top[4], done))
                        top[4] = None
                        self.take(",")
                # between the entries of the innermost collection
                top = stack[-1]
                self.free()
                if top[0] == "seq" and self.peek() == "]" or top[0] == "map" and self.peek() == "}":
                    self.pos += 1
                    stack.pop()
                    done = (top[0], top[1], top[2], top[3])
                    continue
                if top[0] == "map":
                    self.take("?")
                break

    # -- documents: directive lines, `---`, a node, at most one `...`

    def stream(self):
        documents = []
        self.free()
        while self.pos < len(self.text):
            version, own = None, []
            while self.peek() == "%":
                kind, got = self.directive()
                if kind == "version":
                    if version is not None:
                        raise _No
                    version = got
                else:
                    own.append(got)             # a handle given twice isn't refused
                self.free()
            self.take("---")
            root = self.node(own)
            documents.append((version, tuple(own), root))
            self.free()
            if self.peek(3) == "...":
                self.pos += 3
                self.free()
        return documents


def canonical_read(data, breaks12=False):
    text = decode_stream(bytes(data))
    if text is None:
        return None
    try:
        return _Canonical(normalize(text, breaks12), breaks12).stream()
    except _No:
        return None


# ---------------------------------------------------------------- content

def content_of(events, canonical=True):
    """The content of an accepted list. Tags that aren't written (in canonical mode each is) are ignored.
    A list that isn't accepted by the grammar raises ValueError."""
    def scalar_tag(e):
        if e.tag is None or not (canonical or not (e.plain_implicit or e.quoted_implicit)):
            return None
        return e.tag

    def collection_tag(e):
        if e.tag is None or not (canonical or not e.implicit):
            return None
        return e.tag

    events = list(events)
    if not events or not isinstance(events[0], StreamStart) or not isinstance(events[-1], StreamEnd):
        raise ValueError("not an accepted list: stream events")
    documents = []
    i = 1
    while i < len(events) - 1:
        start = events[i]
        if not isinstance(start, DocStart):
            raise ValueError(f"not an accepted list: event {i}")
        i += 1
        stack, root = [], None                  # frames: [kind, anchor, tag, children]
        while root is None:
            e = events[i]
            i += 1
            if isinstance(e, Alias):
                done = ("alias", e.anchor)
            elif isinstance(e, Scalar):
                tag = scalar_tag(e)
                done = ("scalar", e.anchor, tag, e.value,
                        e.quoted_implicit if tag is None else None)
            elif isinstance(e, SeqStart):
                stack.append(["seq", e.anchor, collection_tag(e), []])
                continue
            elif isinstance(e, MapStart):
                stack.append(["map", e.anchor, collection_tag(e), []])
                continue
            elif isinstance(e, SeqEnd) and stack and stack[-1][0] == "seq":
                done = tuple(stack.pop())
            elif isinstance(e, MapEnd) and stack and stack[-1][0] == "map" \
                    and len(stack[-1][3]) % 2 == 0:
                kind, anchor, tag, kids = stack.pop()
                done = (kind, anchor, tag, list(zip(kids[0::2], kids[1::2])))
            else:
                raise ValueError(f"not an accepted list: event {i - 1}")
            if stack:
                stack[-1][3].append(done)
            else:
                root = done
        if not isinstance(events[i], DocEnd):
            raise ValueError(f"not an accepted list: event {i}")
        i += 1
        version = None if start.version is None else tuple(start.version)
        documents.append((version, tuple((h, p) for h, p in start.tags), root))
    return documents


def content_equal(a, b):
    """a == b without recursion, for contents that are nested deeply."""
    work = [(a, b)]
    while work:
        x, y = work.pop()
        if isinstance(x, (list, tuple)) and isinstance(y, (list, tuple)):
            if type(x) is not type(y) or len(x) != len(y):
                return False
            work.extend(zip(x, y))
        elif type(x) is not type(y) or x != y:
            return False
    return True


# ---------------------------------------------------------------- scripts

class _Bad(Exception):
    """A bad line."""


ENCODINGS = ("any", "utf8", "utf16le", "utf16be")
SCALAR_STYLES = ("any", "plain", "single", "double", "literal", "folded")
COLLECTION_STYLES = ("any", "block", "flow")
BREAK_KINDS = ("any", "cr", "ln", "crln")
SEQUENCES = ("indented", "undented")
LITERAL_BLANKS = ("literal", "quoted")
I32_MIN, I32_MAX = -2147483648, 2147483647
U32_MAX = 4294967295


def _fields(line):
    """A line's fields: ('word', s) or ('text', value).  Exactly one space between fields, none at
    either end.  A field that begins with `"` is a text."""
    fields = []
    i = 0
    while True:
        if line[i:i + 1] == '"':
            value, i = _script_text(line, i)
            fields.append(("text", value))
        else:
            j = line.find(" ", i)
            if j < 0:
                j = len(line)
            word = line[i:j]
            if word == "" or "\r" in word or '"' in word:
                raise _Bad
            fields.append(("word", word))
            i = j
        if i == len(line):
            return fields
        if line[i] != " ":
            raise _Bad
        i += 1


def _script_text(line, i):
    """line[i] is a `"`.  (value, index after the closing one)."""
    out = []
    i += 1
    while True:
        c = line[i:i + 1]
        if c == "":
            raise _Bad                          # no closing quote
        if c == '"':
            return "".join(out), i + 1
        if c != "\\":
            out.append(c)                       # also CR, tab, NUL: they mean themselves
            i += 1
            continue
        e = line[i + 1:i + 2]
        if e == "\\" or e == '"':
            out.append(e)
            i += 2
        elif e == "n":
            out.append("\n")
            i += 2
        elif e == "u":
            if line[i + 2:i + 3] != "{":
                raise _Bad
            j = line.find("}", i)
            if j < 0:
                raise _Bad
            digits = line[i + 3:j]
            if not 1 <= len(digits) <= 6 or any(d not in HEX_ANY for d in digits):
                raise _Bad                      # digits of either case
            v = int(digits, 16)
            if v > 0x10FFFF or 0xD800 <= v <= 0xDFFF:
                raise _Bad
            out.append(chr(v))
            i = j + 1
        else:
            raise _Bad


def _decimal(word, low, high, sign=False):
    negative = sign and word.startswith("-")
    digits = word[1:] if negative else word
    if digits == "" or any(d not in "0123456789" for d in digits):
        raise _Bad
    digits = digits.lstrip("0") or "0"
    if len(digits) > 12:
        raise _Bad
    v = -int(digits) if negative else int(digits)
    if not low <= v <= high:
        raise _Bad
    return v


def _word(field, among=None):
    if field[0] != "word" or (among is not None and field[1] not in among):
        raise _Bad
    return field[1]


def _flag(field):
    return _word(field, ("0", "1")) == "1"


def _on(field):
    return _word(field, ("on", "off")) == "on"


def _text(field):
    if field[0] != "text":
        raise _Bad
    return field[1]


def _maybe_text(field):
    """T: a text, or `-` for none."""
    if field == ("word", "-"):
        return None
    return _text(field)


def _setting(fields):
    """(name of the field of Settings, value), or None where the line isn't a setting."""
    name = fields[0][1] if fields[0][0] == "word" else None
    table = {
        "limit": ("limit", lambda f: _decimal(_word(f), 0, U32_MAX)),
        "encoding": ("encoding", lambda f: _word(f, ENCODINGS)),
        "canonical": ("canonical", _on),
        "unicode": ("unicode", _on),
        "indent": ("indent", lambda f: _decimal(_word(f), I32_MIN, I32_MAX, sign=True)),
        "width": ("width", lambda f: _decimal(_word(f), I32_MIN, I32_MAX, sign=True)),
        "break": ("line_break", lambda f: _word(f, BREAK_KINDS)),
        "breaks12": ("breaks12", _on),
        "portable": ("portable", _on),
        "sequences": ("indented_sequences", lambda f: _word(f, SEQUENCES) == "indented"),
        "blanks": ("literal_blanks", lambda f: _word(f, LITERAL_BLANKS) == "literal"),
    }
    if name not in table:
        return None
    if len(fields) != 2:
        raise _Bad
    attribute, read = table[name]
    return attribute, read(fields[1])


def _event(fields):
    name, args = _word(fields[0]), fields[1:]

    def count(n):
        if len(args) != n:
            raise _Bad

    if name == "+STR":
        count(1)
        return StreamStart(_word(args[0], ENCODINGS))
    if name == "-STR":
        count(0)
        return StreamEnd()
    if name == "+DOC":
        if len(args) < 2 or len(args) % 2 != 0:
            raise _Bad
        implicit = _flag(args[0])
        v = _word(args[1])
        if v == "-":
            version = None
        else:
            parts = v.split(".")
            if len(parts) != 2:
                raise _Bad
            version = (_decimal(parts[0], 0, I32_MAX), _decimal(parts[1], 0, I32_MAX))
        texts = [_text(f) for f in args[2:]]
        return DocStart(version, tuple(zip(texts[0::2], texts[1::2])), implicit)
    if name == "-DOC":
        count(1)
        return DocEnd(_flag(args[0]))
    if name == "=ALI":
        count(1)
        return Alias(_text(args[0]))
    if name == "=VAL":
        count(6)
        return Scalar(style=_word(args[0], SCALAR_STYLES), plain_implicit=_flag(args[1]),
                      quoted_implicit=_flag(args[2]), anchor=_maybe_text(args[3]),
                      tag=_maybe_text(args[4]), value=_text(args[5]))
    if name in ("+SEQ", "+MAP"):
        count(4)
        kind = SeqStart if name == "+SEQ" else MapStart
        return kind(style=_word(args[0], COLLECTION_STYLES), implicit=_flag(args[1]),
                    anchor=_maybe_text(args[2]), tag=_maybe_text(args[3]))
    if name in ("-SEQ", "-MAP"):
        count(0)
        return SeqEnd() if name == "-SEQ" else MapEnd()
    raise _Bad


def parse_script(data):
    """('bad', n) with the first bad line's number, or (Settings, [(line number, event), ...]).
    EF BB BF at the start is an ordinary U+FEFF, which begins no line of a script."""
    lines = bytes(data).split(b"\n")
    if lines[-1] == b"":
        lines.pop()                             # the last line was ended by its LF
    settings, given, events = Settings(), set(), []
    for number, raw in enumerate(lines, 1):
        try:
            try:
                line = raw.decode("utf-8")
            except UnicodeDecodeError:
                raise _Bad
            if line == "":
                continue
            if line[0] == "#":
                if "\r" in line:                # a comment holds no quoted text
                    raise _Bad
                continue
            fields = _fields(line)
            setting = _setting(fields)
            if setting is None:
                events.append((number, _event(fields)))
                continue
            attribute, value = setting
            if events or attribute in given:
                raise _Bad
            given.add(attribute)
            setattr(settings, attribute, value)
        except _Bad:
            return ("bad", number)
    return (settings, events)


def _quote(text):
    """A text of a script.  What is hard to see is written as \\u{H}; the rest means itself."""
    out = ['"']
    for c in text:
        v = ord(c)
        if 0xD800 <= v <= 0xDFFF:
            raise ValueError("a script can't hold a surrogate")
        if c == "\\" or c == '"':
            out.append("\\" + c)
        elif c == "\n":
            out.append("\\n")
        elif v < 0x20 or 0x7F <= v <= 0xA0 or v in (0x2028, 0x2029, 0xFEFF):
            out.append("\\u{%X}" % v)
        else:
            out.append(c)
    return "".join(out) + '"'


def _maybe_quote(text):
    return "-" if text is None else _quote(text)


def to_script(settings, events):
    """The inverse: settings that differ from the unset ones, then one line for each event.
    events: a list of events, or of (line number, event) as parse_script gives them."""
    def bit(flag):
        return "1" if flag else "0"

    unset = Settings()
    lines = []
    for name, attribute in (("limit", "limit"), ("encoding", "encoding"),
                            ("canonical", "canonical"), ("unicode", "unicode"),
                            ("indent", "indent"), ("width", "width"), ("break", "line_break"),
                            ("breaks12", "breaks12"), ("portable", "portable"),
                            ("sequences", "indented_sequences"), ("blanks", "literal_blanks")):
        value = getattr(settings, attribute)
        if value == getattr(unset, attribute):
            continue
        if isinstance(value, bool):
            value = SEQUENCES[not value] if name == "sequences" else LITERAL_BLANKS[not value] if name == "blanks" else "on" if value else "off"
        lines.append(f"{name} {value}")
    for e in events:
        if type(e) is tuple:
            e = e[1]
        if isinstance(e, StreamStart):
            lines.append(f"+STR {e.encoding}")
        elif isinstance(e, StreamEnd):
            lines.append("-STR")
        elif isinstance(e, DocStart):
            v = "-" if e.version is None else f"{e.version[0]}.{e.version[1]}"
            pairs = "".join(f" {_quote(h)} {_quote(p)}" for h, p in e.tags)
            lines.append(f"+DOC {bit(e.implicit)} {v}{pairs}")
        elif isinstance(e, DocEnd):
            lines.append(f"-DOC {bit(e.implicit)}")
        elif isinstance(e, Alias):
            lines.append(f"=ALI {_quote(e.anchor)}")
        elif isinstance(e, Scalar):
            lines.append(f"=VAL {e.style} {bit(e.plain_implicit)} {bit(e.quoted_implicit)} "
                         f"{_maybe_quote(e.anchor)} {_maybe_quote(e.tag)} {_quote(e.value)}")
        elif isinstance(e, (SeqStart, MapStart)):
            word = "+SEQ" if isinstance(e, SeqStart) else "+MAP"
            lines.append(f"{word} {e.style} {bit(e.implicit)} "
                         f"{_maybe_quote(e.anchor)} {_maybe_quote(e.tag)}")
        elif isinstance(e, SeqEnd):
            lines.append("-SEQ")
        elif isinstance(e, MapEnd):
            lines.append("-MAP")
        else:
            raise ValueError(f"not an event: {e!r}")
    data = "".join(line + "\n" for line in lines).encode("utf-8")
    back = parse_script(data)                   # out-of-range settings or versions show here
    if back[0] == "bad":
        raise ValueError(f"line {back[1]} can't be written: {lines[back[1] - 1]!r}")
    return data
