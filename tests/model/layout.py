"""The writing side: settings, grammar, refusals, readiness, analysis, style table, layout, encoding, dumper.

A plain model: a layout is a recursion over the tree of the events, one piece of text for each event.
"""
import re
from dataclasses import dataclass, replace
from typing import List, Optional, Tuple
from characters import *
from comments import head_of, line_of, write_head, write_line_comment
from events import *

I32MAX = 2**31 - 1
TAG_KEPT = ALPHA | set(";/?:@&=+$,.~*'()[]")
DEPTH = 1_000_000

PROBLEM = {
    1: "expected STREAM-START", 2: "expected DOCUMENT-START or STREAM-END", 3: "expected DOCUMENT-END",
    4: "expected SCALAR, SEQUENCE-START, MAPPING-START, or ALIAS", 5: "expected nothing after STREAM-END",
    6: "incompatible %YAML directive", 7: "tag handle must not be empty", 8: "tag handle must start with '!'",
    9: "tag handle must end with '!'", 10: "tag handle must contain alphanumerical characters only",
    11: "tag prefix must not be empty", 12: "duplicate %TAG directive", 13: "anchor value must not be empty",
    14: "anchor value must contain alphanumerical characters only", 15: "alias value must not be empty",
    16: "alias value must contain alphanumerical characters only", 17: "tag value must not be empty",
    18: "neither tag nor implicit flags are specified", 19: "nesting too deep", 20: "write error", 21: "",
}

# ---------------------------------------------------------------- settings

@dataclass
class Effective:
    encoding: str
    canonical: bool
    unicode: bool
    indent: int
    width: Optional[int]        # None: no limit
    line_break: str
    breaks12: bool
    limit: int
    portable: bool = False
    indented_sequences: bool = False
    literal_blanks: bool = False

def effective(s: Settings, stream_encoding: str) -> Effective:
    indent = s.indent if s.indent is not None and 2 <= s.indent <= 9 else 2
    width = 0 if s.width is None else s.width
    if width < 0 or width == I32MAX: w = None
    elif width <= 2 * indent: w = 80
    else: w = width
    enc = s.encoding if s.encoding != "any" else (stream_encoding if stream_encoding != "any" else "utf8")
    br = {"any": "\n", "ln": "\n", "cr": "\r", "crln": "\r\n"}[s.line_break]
    breaks12 = s.breaks12 or s.portable    # readers of 1.2 know no U+2028 and U+2029 as breaks
    return Effective(enc, s.canonical, s.unicode, indent, w, br, breaks12, s.limit, s.portable, s.indented_sequences, s.literal_blanks)

# ---------------------------------------------------------------- encoding

def encode(encoding: str, text: str) -> bytes:
    if encoding == "utf8":
        return text.encode("utf-8")
    return ("\ufeff" + text).encode("utf-16-le" if encoding == "utf16le" else "utf-16-be")

# ---------------------------------------------------------------- grammar, refusals, readiness

def starts(e): return isinstance(e, (StreamStart, DocStart, SeqStart, MapStart))
def ends(e): return isinstance(e, (StreamEnd, DocEnd, SeqEnd, MapEnd))

def ready_count(L) -> int:
    """written(L): the number of ready events."""
    n = 0
    while n < len(L):
        e = L[n]
        need = 1 if isinstance(e, DocStart) else 2 if isinstance(e, SeqStart) else 3 if isinstance(e, MapStart) else None
        if need is not None and len(L) - n <= need:
            depth, balanced = 0, False
            for x in L[n:]:
                depth += 1 if starts(x) else -1 if ends(x) else 0
                if depth == 0:
                    balanced = True
                    break
            if not balanced:
                return n
        n += 1
    return n

class Place:
    """The place of the next event: the state of the event grammar."""
    def __init__(self):
        self.stack = []            # 'seq', 'key', 'value'
        self.where = "stream"      # stream, documents, root, after-root, end, inside

def refusal_content(s: Effective, where: "Grammar", e) -> Optional[int]:
    # 1. anchor or alias
    if isinstance(e, Alias):
        if e.anchor == "": return 15
        if not set(e.anchor) <= ALPHA: return 16
    if isinstance(e, (Scalar, SeqStart, MapStart)) and e.anchor is not None:
        if e.anchor == "": return 13
        if not set(e.anchor) <= ALPHA: return 14
    # 2. tag
    if tag_analysed(s, e) and e.tag == "": return 17
    # 3. place
    r = where.misplaced(e)
    if r: return r
    # 4. content
    if isinstance(e, Scalar):
        if not tag_analysed(s, e) and not e.plain_implicit and not e.quoted_implicit: return 18
    if isinstance(e, DocStart):
        if e.version is not None and not (e.version[0] == 1 and e.version[1] in (1, 2)): return 6
        seen = set()
        for h, p in e.tags:
            if h == "": return 7
            if h[0] != "!": return 8
            if h[-1] != "!": return 9
            if not set(h[1:-1]) <= ALPHA: return 10
            if p == "": return 11
            if h in seen: return 12
            seen.add(h)
    # 5. depth
    if isinstance(e, (SeqStart, MapStart)) and len(where.stack) >= DEPTH: return 19
    return None

def tag_analysed(s, e) -> bool:
    if isinstance(e, Scalar):
        return e.tag is not None and (s.canonical or (not e.plain_implicit and not e.quoted_implicit))
    if isinstance(e, (SeqStart, MapStart)):
        return e.tag is not None and (s.canonical or not e.implicit)
    return False

class Grammar:
    """The event grammar, one event at a time."""
    def __init__(self):
        self.where = "stream"
        self.stack = []
    def misplaced(self, e) -> Optional[int]:
        w = self.where
        if w == "stream": return None if isinstance(e, StreamStart) else 1
        if w == "documents": return None if isinstance(e, (DocStart, StreamEnd)) else 2
        if w == "after-root": return None if isinstance(e, DocEnd) else 3
        if w == "end": return 5
        node = isinstance(e, (Alias, Scalar, SeqStart, MapStart))
        if w == "root": return None if node else 4
        top = self.stack[-1]
        if top == "seq": return None if node or isinstance(e, SeqEnd) else 4
        if top == "key": return None if node or isinstance(e, MapEnd) else 4
        return None if node else 4
    def _node_done(self):
        if not self.stack: self.where = "after-root"
        elif self.stack[-1] == "key": self.stack[-1] = "value"
        elif self.stack[-1] == "value": self.stack[-1] = "key"
    def take(self, e):
        if isinstance(e, StreamStart): self.where = "documents"
        elif isinstance(e, DocStart): self.where = "root"
        elif isinstance(e, DocEnd): self.where = "documents"
        elif isinstance(e, StreamEnd): self.where = "end"
        elif isinstance(e, SeqStart): self.where = "inside"; self.stack.append("seq")
        elif isinstance(e, MapStart): self.where = "inside"; self.stack.append("key")
        elif isinstance(e, (SeqEnd, MapEnd)): self.stack.pop(); self._node_done()
        else: self._node_done()

# ---------------------------------------------------------------- tags

def directives_in_force(doc: DocStart):
    d = list(doc.tags)
    for h, p in (("!", "!"), ("!!", "tag:yaml.org,2002:")):
        if all(h != x for x, _ in d): d.append((h, p))
    return d

def spelling(tag: str, directives):
    """(handle, suffix) or (None, tag)."""
    for h, p in directives:
        if len(p.encode()) < len(tag.encode()) and tag.startswith(p):
            return h, tag[len(p):]
    return None, tag

def percent(text: str, kept=TAG_KEPT) -> str:
    out = []
    for b in text.encode("utf-8"):
        c = chr(b)
        out.append(c if b < 128 and c in kept else "%%%02X" % b)
    return "".join(out)

# portable: what readers of YAML 1.1 and 1.2 share

SUFFIX_KEPT = TAG_KEPT - set(",[]")

def written_suffix(s: "Effective", suffix: str) -> str:
    """After a handle readers end a tag at `,` `[` `]`: with portable they are escaped there."""
    return percent(suffix, SUFFIX_KEPT if s.portable else TAG_KEPT)

def written_prefix(s: "Effective", prefix: str) -> str:
    """Readers know a local prefix by its first `!`, and some don't decode it: with portable it is raw."""
    return "!" + percent(prefix[1:]) if s.portable and prefix.startswith("!") else percent(prefix)

def start_explicit(s: "Effective", first: bool, start: DocStart) -> bool:
    """`---` precedes the document; with portable each, since a first root of which nothing is written is lost without."""
    return not start.implicit or not first or s.canonical or s.portable or start.version is not None or len(start.tags) > 0

# ---------------------------------------------------------------- analysis

def blankz(value, i):   # a blank, a break, NUL or the end
    return i >= len(value) or value[i] in " \t\0" or is_break(value[i])

@dataclass
class Analysis:
    multiline: bool
    flow_plain: bool
    block_plain: bool
    single: bool
    block: bool

def analyze(v: str, unicode: bool, breaks12: bool) -> Analysis:
    if v == "": return Analysis(False, False, True, True, False)
    special = any(not is_printable(c) or (not unicode and ord(c) > 0x7F) or (breaks12 and c in "\u2028\u2029") for c in v)
    multiline = any(is_break(c) for c in v)
    block_ind = v.startswith("---") or v.startswith("...")
    flow_ind = block_ind
    if v[0] in "#,[]{}&*!|>'\"%@`": block_ind = flow_ind = True
    if v[0] in "?:-" and blankz(v, 1): block_ind = flow_ind = True
    if v[0] in "?:": flow_ind = True
    for i in range(1, len(v)):
        c = v[i]
        if c == ":" and blankz(v, i + 1): block_ind = flow_ind = True
        if c == "#" and (v[i-1] in " \t\0" or is_break(v[i-1])): block_ind = flow_ind = True
        if c in ",?:[]{}": flow_ind = True
    edge = v[0] == " " or is_break(v[0]) or v[-1] == " " or is_break(v[-1])
    space_after_break = any(is_break(v[i-1]) and v[i] == " " for i in range(1, len(v)))
    space_before_break = any(v[i-1] == " " and is_break(v[i]) for i in range(1, len(v)))
    plain_no = edge or multiline or special
    return Analysis(
        multiline,
        not (plain_no or flow_ind),
        not (plain_no or block_ind),
        not (space_after_break or space_before_break or special),
        not (v[-1] == " " or space_before_break or special))

def literal_allows(v: str, a, unicode: bool, breaks12: bool, blanks: bool) -> bool:
    """What the literal style takes: as folded; where blanks are literal also tabs, and spaces before a break and at the end, where no
    line is of blanks alone."""
    if a.block or not blanks or v == "": return a.block
    special = any(not (is_printable(c) or c == "\t") or (not unicode and ord(c) > 0x7F) or (breaks12 and c in "\u2028\u2029") for c in v)
    return not special and all(line == "" or line.strip(" \t") != "" for line, _ in lines_of(v))

def select_style(style, a: Analysis, empty, tag_written, plain_implicit, quoted_implicit, flow, simple_key, canonical):
    if not tag_written and not plain_implicit and not quoted_implicit: raise ValueError(18)
    if style == "any": style = "plain"
    if canonical: style = "double"
    if simple_key and a.multiline: style = "double"
    if style == "plain":
        if not (a.flow_plain if flow else a.block_plain) or (empty and (flow or simple_key)) or (not tag_written and not plain_implicit):
            style = "single"
    if style == "single" and not a.single: style = "double"
    if style in ("literal", "folded") and (not a.block or flow or simple_key): style = "double"
    return style, (not tag_written and not quoted_implicit and style != "plain")

# ---------------------------------------------------------------- cursor

@dataclass(frozen=True)
class Cursor:
    column: int = 0
    whitespace: bool = True
    indention: bool = True

class Text:
    """A piece under construction: text and cursor."""
    def __init__(self, cursor: Cursor, eff: Effective):
        self.out, self.c, self.eff = [], cursor, eff
    def put(self, text):
        self.out.append(text); self.c = replace(self.c, column=self.c.column + len(text))
    def brk(self, ch=None):
        self.out.append(self.eff.line_break if ch is None or ch == "\n" else ch)
        self.c = replace(self.c, column=0)
    def newline(self, n):
        n = max(n, 0)
        c = self.c
        if not c.indention or c.column > n or (c.column == n and not c.whitespace): self.brk()
        if self.c.column < n: self.put(" " * (n - self.c.column))
        self.c = replace(self.c, whitespace=True, indention=True)
    def indicator(self, s, need, white, ind):
        if need and not self.c.whitespace: self.put(" ")
        self.put(s)
        self.c = replace(self.c, whitespace=white, indention=self.c.indention and ind)
    def name(self, s):
        self.put(s); self.c = replace(self.c, whitespace=False, indention=False)
    def handle(self, s):
        if not self.c.whitespace: self.put(" ")
        self.name(s)
    def content(self, written, need):
        if need and not self.c.whitespace: self.put(" ")
        self.name(written)
    def flags(self, **kw): self.c = replace(self.c, **kw)
    def wide(self): return self.eff.width is not None and self.c.column > self.eff.width
    def text(self): return "".join(self.out)

# ---------------------------------------------------------------- scalar bodies

def runs(v, classes):
    """v cut into maximal runs by class."""
    out = []
    for ch in v:
        k = classes(ch)
        if out and out[-1][0] == k: out[-1][1].append(ch)
        else: out.append((k, [ch]))
    return [(k, "".join(x)) for k, x in out]

def kind(ch): return "space" if ch == " " else "break" if is_break(ch) else "other"

def break_run(t: Text, run, double_first):
    if double_first: t.brk("\n")
    for ch in run: t.brk(ch)
    t.flags(indention=True)

def write_plain(t: Text, v, allow_breaks, flow, indent):
    if not t.c.whitespace and (v != "" or flow): t.put(" ")
    for k, run in runs(v, kind):
        if k == "space":
            if len(run) == 1 and allow_breaks and t.wide(): t.newline(indent)
            else: t.put(run)
        elif k == "break":
            raise AssertionError("a plain scalar has no break")
        else:
            t.put(run); t.flags(indention=False)
    t.flags(whitespace=False, indention=False)

def write_single(t: Text, v, allow_breaks, indent):
    t.indicator("'", True, False, False)
    rs = runs(v, kind)
    for i, (k, run) in enumerate(rs):
        if k == "space":
            if len(run) == 1 and 0 < i < len(rs) - 1 and allow_breaks and t.wide(): t.newline(indent)
            else: t.put(run)
        elif k == "break":
            break_run(t, run, run[0] == "\n"); t.newline(indent)
        else:
            t.put(run.replace("'", "''")); t.flags(indention=False)
    t.indicator("'", False, False, False)
    t.flags(whitespace=False, indention=False)

ESC = {"\0": "0", "\a": "a", "\b": "b", "\t": "t", "\n": "n", "\v": "v", "\f": "f", "\r": "r", "\x1b": "e",
       '"': '"', "\\": "\\", "\x85": "N", "\xa0": "_", "\u2028": "L", "\u2029": "P"}

def escape(ch):
    if ch in ESC: return "\\" + ESC[ch]
    o = ord(ch)
    return "\\x%02X" % o if o <= 0xFF else "\\u%04X" % o if o <= 0xFFFF else "\\U%08X" % o

def escaped(ch, unicode):
    return not is_printable(ch) or (not unicode and ord(ch) > 0x7F) or is_break(ch) or ch in '"\\'

def write_double(t: Text, v, allow_breaks, indent):
    t.indicator('"', True, False, False)
    for i, ch in enumerate(v):
        if escaped(ch, t.eff.unicode): t.put(escape(ch))
        elif ch == " " and (i == 0 or v[i-1] != " ") and 0 < i < len(v) - 1 and allow_breaks and t.wide():
            t.newline(indent)
            if v[i+1] == " ": t.put("\\")
        else: t.put(ch)
    t.indicator('"', False, False, False)
    t.flags(whitespace=False, indention=False)

def has_digit(v):
    """Whether a block header names its indentation: the first line doesn't show it."""
    return v[0] in " \t" or is_break(v[0])

def block_header(t: Text, sign, v, B, line=None):
    t.indicator(sign, True, False, False)
    if has_digit(v): t.indicator(str(B), False, False, False)
    mark = 0
    if not is_break(v[-1]): t.indicator("-", False, False, False)
    elif len(v) >= 2 and not is_break(v[-2]): pass
    else:
        t.indicator("+", False, False, False); mark = 2
    write_line_comment(t, line)
    t.brk(); t.flags(whitespace=True, indention=True)
    return mark

def lines_of(v):
    """[(line, run of breaks after it)]; the first line may be empty, others not; the last run may be empty."""
    rs = runs(v, lambda ch: is_break(ch))
    out, i = [], 0
    if rs and rs[0][0]: out.append(("", rs[0][1])); i = 1
    while i < len(rs):
        line = rs[i][1]
        brks = rs[i+1][1] if i + 1 < len(rs) else ""
        out.append((line, brks)); i += 2
    return out

def write_literal(t: Text, v, indent, B, line=None):
    mark = block_header(t, "|", v, B, line)
    for line, brks in lines_of(v):
        if line:
            t.newline(indent); t.put(line); t.flags(indention=False)
        for ch in brks: t.brk(ch); t.flags(indention=True)
    return mark

def write_folded(t: Text, v, indent, B, line=None):
    mark = block_header(t, ">", v, B, line)
    ls = lines_of(v)
    for i, (line, brks) in enumerate(ls):
        if line:
            t.newline(indent)
            for j, ch in enumerate(line):
                last_of_run = ch == " " and not (j + 1 < len(line) and line[j+1] == " ")
                if last_of_run and line[0] != " " and t.wide(): t.newline(indent)
                else:
                    t.put(ch); t.flags(indention=False)
        if brks:
            nxt = ls[i+1][0] if i + 1 < len(ls) else ""
            if brks[0] == "\n" and line and line[0] != " " and nxt and nxt[0] != " ": t.brk("\n")
            for ch in brks: t.brk(ch)
            t.flags(indention=True)
    return mark

# ---------------------------------------------------------------- trees

class Tree: pass
@dataclass
class Leaf(Tree): event: object
@dataclass
class Coll(Tree):
    event: object          # SeqStart or MapStart
    items: list            # trees, or (key, value) pairs
    end: object

def parse(L):
    """The documents of an accepted list: [(DocStart, tree, DocEnd)]."""
    pos = 1
    docs = []
    def node(i):
        e = L[i]
        if isinstance(e, (Alias, Scalar)): return Leaf(e), i + 1
        items, i0 = [], i + 1
        if isinstance(e, SeqStart):
            while not isinstance(L[i0], SeqEnd):
                t, i0 = node(i0); items.append(t)
        else:
            while not isinstance(L[i0], MapEnd):
                k, i0 = node(i0); v, i0 = node(i0); items.append((k, v))
        return Coll(e, items, L[i0]), i0 + 1
    assert isinstance(L[0], StreamStart)
    while isinstance(L[pos], DocStart):
        d = L[pos]; t, p = node(pos + 1); assert isinstance(L[p], DocEnd)
        docs.append((d, t, L[p])); pos = p + 1
    assert isinstance(L[pos], StreamEnd) and pos + 1 == len(L)
    return docs

def completion(L):
    """An accepted list that begins with L and doesn't at once close a collection started last."""
    g = Grammar(); out = []
    for e in L: g.take(e); out.append(e)
    def add(e): g.take(e); out.append(e)
    empty = Scalar()
    if g.where == "stream": add(StreamStart())
    if g.where == "root": add(empty)
    if L and isinstance(L[-1], SeqStart): add(empty)
    if L and isinstance(L[-1], MapStart): add(empty); add(empty)
    while g.stack:
        if g.stack[-1] == "value": add(empty)
        add(SeqEnd() if g.stack[-1] == "seq" else MapEnd())
    if g.where == "after-root": add(DocEnd(True))
    if g.where == "documents": add(StreamEnd())
    return out

# ---------------------------------------------------------------- layout

class Layout:
    """The pieces of an accepted list; comments are those beside its events, from the first one on."""
    def __init__(self, eff: Effective, comments=()):
        self.s = eff; self.pieces: List[str] = []; self.c = Cursor(); self.mark = 0
        self.bodies = []       # (style, body text, value, flow, block column I or -1)
        self.closed = []       # for each document, whether the event after its end writes `...`
        self.directives = []
        self.comments, self.waiting = comments, ()
    def piece(self):
        return Text(self.c, self.s)
    def done(self, t: Text):
        self.pieces.append(t.text()); self.c = t.c

    # comments: those beside the event whose piece is next; in canonical mode none
    def own(self):
        n = len(self.pieces)
        return self.comments[n] if n < len(self.comments) and not self.s.canonical else NO_COMMENTS
    def head(self, t: Text, column):
        """Writes the head that waits and then the event's own, before what begins at a column."""
        write_head(t, self.waiting + self.own().head, column, self.mark == 2); self.waiting = ()
    def keep_head(self):
        """The event's head waits: nothing that the event writes begins a line, so the next event has it."""
        self.waiting = self.waiting + self.own().head
    def drop_head(self): self.waiting = ()
    def line(self, place):
        """The event's line comment, unless its text is a key or in flow."""
        return None if place[0] in ("block-key", "flow-item", "flow-key", "flow-value") else self.own().line

    def stream(self, docs):
        self.mark = 0
        self.keep_head(); self.pieces.append("")     # STREAM-START
        for n, (start, tree, end) in enumerate(docs):
            t = self.piece()
            has = start.version is not None or len(start.tags) > 0
            if n > 0: self.closed.append(has and self.mark != 0)
            if has and self.mark != 0:
                t.indicator("...", True, False, False); t.newline(0); self.mark = 0
            self.head(t, 0)
            self.mark = 0
            if start.version is not None:
                t.indicator("%YAML", True, False, False)
                t.indicator("1.%d" % start.version[1], True, False, False); t.newline(0)
            for h, p in start.tags:
                t.indicator("%TAG", True, False, False); t.handle(h); t.content(written_prefix(self.s, p), True); t.newline(0)
            if start_explicit(self.s, n == 0, start):
                t.newline(0); t.indicator("---", True, False, False)
                if self.s.canonical: t.newline(0)
            self.directives = directives_in_force(start)
            self.done(t)
            self.node(tree, ("root",), -1, False, False)
            t = self.piece()
            self.head(t, 0)
            t.newline(0)
            if not end.implicit:
                t.indicator("...", True, False, False); self.mark = 0; t.newline(0)
            elif self.mark == 0: self.mark = 1
            self.done(t)
        t = self.piece(); self.closed.append(self.mark == 2)
        if self.mark == 2:
            t.indicator("...", True, False, False); t.newline(0); self.mark = 0
        self.head(t, 0)
        self.done(t)

    def simple_key(self, tree):
        if self.s.canonical: return False
        e = tree.event
        n = 0
        if isinstance(e, Alias):
            return len(e.anchor.encode()) <= 128
        if isinstance(tree, Coll):
            if tree.items: return False
        elif any(is_break(c) for c in e.value): return False
        else: n += len(e.value.encode())
        if e.anchor is not None: n += len(e.anchor.encode())
        if tag_analysed(self.s, e):
            h, x = spelling(e.tag, self.directives)
            n += len((h or "").encode()) + len(x.encode())
        return n <= 128

    def place(self, t: Text, place, I, tree):
        k = place[0]
        if k == "root": return False
        brk = lambda: t.newline(I) if (self.s.canonical or t.wide()) else None
        if k == "flow-item":
            t.indicator("[", True, True, False) if place[1] else t.indicator(",", False, False, False)
            brk(); return False
        if k == "flow-key":
            t.indicator("{", True, True, False) if place[1] else t.indicator(",", False, False, False)
            brk()
            simple = self.simple_key(tree)
            if not simple: t.indicator("?", True, False, False)
            return simple
        if k == "flow-value":
            if place[1]: t.indicator(":", False, False, False)
            else:
                brk(); t.indicator(":", True, False, False)
            return False
        if k == "block-item":
            self.head(t, I); t.newline(I); t.indicator("-", True, False, True); return False
        if k == "block-key":
            self.head(t, I); t.newline(I)
            simple = self.simple_key(tree)
            if not simple: t.indicator("?", True, False, True)
            return simple
        if k == "block-value":
            if place[1]: t.indicator(":", False, False, False)
            else:
                t.newline(I); t.indicator(":", True, False, True)
            return False

    def properties(self, t: Text, e, bare):
        if e.anchor is not None:
            t.indicator("&", True, False, False); t.name(e.anchor)
        if tag_analysed(self.s, e):
            h, x = spelling(e.tag, self.directives)
            if h is None:
                t.indicator("!<", True, False, False); t.content(percent(x), False); t.indicator(">", False, False, False)
            else:
                t.handle(h); t.content(written_suffix(self.s, x), False)
        elif bare: t.handle("!")

    def node(self, tree, place, I, flow, in_mapping):
        """I: the indentation in force; returns whether the node was a simple key."""
        e = tree.event
        t = self.piece()
        simple = self.place(t, place, I, tree)
        if isinstance(tree, Leaf):
            if isinstance(e, Scalar): self.scalar(t, e, I, (flow, simple), self.line(place))
            else:
                t.indicator("*", True, False, False); t.name(e.anchor)
                if simple: t.put(" ")
                write_line_comment(t, self.line(place))
            self.drop_head(); self.done(t); return simple
        self.properties(t, e, False)
        if flow or self.s.canonical or e.style == "flow" or not tree.items: self.flow_collection(t, tree, place, I)
        else: self.block_collection(t, tree, place, I, in_mapping)
        return simple

    def flow_collection(self, t: Text, tree, place, I):
        s, seq = self.s, isinstance(tree.event, SeqStart)
        self.drop_head(); self.done(t)
        I2 = s.indent if I < 0 else I + s.indent
        for i, item in enumerate(tree.items):
            if seq: self.node(item, ("flow-item", i == 0), I2, True, False)
            else:
                sk = self.node(item[0], ("flow-key", i == 0), I2, True, True)
                self.node(item[1], ("flow-value", sk), I2, True, True)
        t = self.piece()
        if not tree.items: t.indicator("[" if seq else "{", True, True, False)
        elif s.canonical:
            t.indicator(",", False, False, False); t.newline(I)
        t.indicator("]" if seq else "}", False, False, False)
        write_line_comment(t, self.line(place))
        self.done(t)

    def block_collection(self, t: Text, tree, place, I, in_mapping):
        seq = isinstance(tree.event, SeqStart)
        if I < 0: I2 = 0
        elif seq and in_mapping and not t.c.indention and not self.s.indented_sequences: I2 = I
        else: I2 = I + self.s.indent
        if place[0] in ("root", "block-value"): self.keep_head()
        line = self.own().line
        if t.c.column > 0: write_line_comment(t, line)
        elif line is not None: self.waiting = self.waiting + (line_of(line),)     # nothing is on the line yet
        self.done(t)
        for item in tree.items:
            if seq: self.node(item, ("block-item",), I2, False, False)
            else:
                sk = self.node(item[0], ("block-key",), I2, False, True)
                self.node(item[1], ("block-value", sk), I2, False, True)
        t = self.piece()
        if I < 0 or I2 == I: self.keep_head()        # what follows begins at the same column
        else: self.head(t, I2)
        self.done(t)

    def scalar(self, t: Text, e: Scalar, I, where, line):
        s, (flow, simple) = self.s, where
        a = analyze(e.value, s.unicode, s.breaks12)
        style, bare = select_style(e.style, a, e.value == "", tag_analysed(s, e), e.plain_implicit, e.quoted_implicit,
                                   flow, simple, s.canonical)
        v = e.value
        if style == "double" and not s.canonical and e.style == "literal" and not (flow or simple) \
                and literal_allows(v, a, s.unicode, s.breaks12, s.literal_blanks): style = "literal"
        # readers of 1.2 disagree on a digit at the root
        if s.portable and I < 0 and style in ("literal", "folded") and has_digit(v): style = "double"
        self.properties(t, e, bare)
        ind = s.indent if I < 0 else I + s.indent
        allow = not simple
        k = len(t.out); start_ws = t.c.whitespace
        if style == "plain": write_plain(t, e.value, allow, flow, ind)
        elif style == "single": write_single(t, e.value, allow, ind)
        elif style == "double": write_double(t, e.value, allow, ind)
        elif style == "literal": self.mark = write_literal(t, e.value, ind, s.indent, line)
        else: self.mark = write_folded(t, e.value, ind, s.indent, line)
        if style not in ("literal", "folded"): write_line_comment(t, line)
        body = "".join(t.out[k:])
        if body.startswith(" ") and not start_ws: body = body[1:]
        self.bodies.append((style, body, e.value, flow, I))

def layout_of(eff: Effective, L, comments=()) -> Layout:
    lay = Layout(eff, comments); lay.stream(parse(L)); return lay

def pieces(eff, L, k, comments=()):
    return layout_of(eff, completion(L[:k]), comments[:k]).pieces[:k]

# ---------------------------------------------------------------- the emitter

class Emitter:
    def __init__(self, s: Settings):
        self.settings, self.L, self.err, self.known = s, [], None, s.encoding != "any"
        self.written, self.grammar, self.eff, self.text, self.output = 0, Grammar(), None, "", b""
        self.enc = s.encoding
        self.held = 0
        self.comments, self.given = [], NO_COMMENTS    # those beside the events so far, and those for the next one
    def _eff(self):
        if self.eff is None:
            first = self.L[0] if self.L else None
            self.eff = effective(self.settings, first.encoding if isinstance(first, StreamStart) else "any")
        return self.eff
    def head_comment(self, text):
        """Comments, a line each, before what the next event writes."""
        if not self.err: self.given = replace(self.given, head=self.given.head + head_of(text))
    def blank_line(self):
        if not self.err: self.given = replace(self.given, head=self.given.head + (None,))
    def line_comment(self, text):
        """A comment at the end of the next event's line, in place of one that was given before."""
        if not self.err: self.given = replace(self.given, line=text)
    def emit(self, e):
        if self.err: return self.err
        self.L.append(e); self.comments.append(self.given); self.given = NO_COMMENTS
        r = ready_count(self.L)
        flush = False
        while self.written < r:
            x = self.L[self.written]
            bad = refusal_content(self._eff(), self.grammar, x)
            if bad: self._text(); return self._fail(bad)
            self.grammar.take(x); self.written += 1
            if isinstance(x, StreamStart): self.known = True
            if isinstance(x, (DocEnd, StreamEnd)):
                self._text()
                f = self._flush()
                if f: return self._fail(f)
        self.held = len(self.L) - self.written
        self._text()
        return None
    def _fail(self, n): self.err, self.held = n, 0; return n
    def _text(self):
        if self.written: self.text = "".join(pieces(self._eff(), self.L, self.written, self.comments))
    def _flush(self):
        if not self.known or self.written == 0: return None
        b = encode(self._eff().encoding, self.text)
        self.output = b[:self._eff().limit]
        return 20 if len(b) > self._eff().limit else None
    def flush(self):
        if self.err: return self.err
        f = self._flush()
        return self._fail(f) if f else None

def run_events(s: Settings, L, final_flush=True):
    """(output, answers of each call, final flush answer)."""
    em = Emitter(s); answers = [em.emit(e) for e in L]
    f = em.flush() if final_flush and em.known else None
    return em.output, answers, f, em

# ---------------------------------------------------------------- dumper

def document_events(nodes, start: DocStart, end: DocEnd):
    """nodes: list of ('scalar', tag, value, style) | ('seq', tag, [numbers], style) | ('map', tag, [(k, v)], style)."""
    if not nodes: return []
    order, met, second = [], {}, []
    stack = [1]
    meetings = []
    entered = set()
    while stack:
        n = stack.pop(); meetings.append(n)
        if n in entered: continue
        entered.add(n)
        nd = nodes[n-1]
        kids = nd[2] if nd[0] == "seq" else [x for p in nd[2] for x in p] if nd[0] == "map" else []
        stack.extend(reversed(kids))
    count, names = {}, {}
    for n in meetings:
        count[n] = count.get(n, 0) + 1
        if count[n] == 2: names[n] = "id%03d" % (len(names) + 1)
    out, seen = [start], set()
    work = [("n", 1)]
    while work:
        w, n = work.pop()
        if w == "e": out.append(n); continue
        if n in seen: out.append(Alias(names[n])); continue
        seen.add(n)
        nd = nodes[n-1]; a = names.get(n)
        if nd[0] == "scalar":
            f = nd[1] == "tag:yaml.org,2002:str"; out.append(Scalar(a, nd[1], nd[2], f, f, nd[3]))
        elif nd[0] == "seq":
            out.append(SeqStart(a, nd[1], nd[1] == "tag:yaml.org,2002:seq", nd[3]))
            work.append(("e", SeqEnd())); work.extend(("n", k) for k in reversed(nd[2]))
        else:
            out.append(MapStart(a, nd[1], nd[1] == "tag:yaml.org,2002:map", nd[3]))
            work.append(("e", MapEnd())); work.extend(("n", k) for k in reversed([x for p in nd[2] for x in p]))
    out.append(end)
    return out
