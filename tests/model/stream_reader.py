"""The reader of whole streams: bytes -> the documents in them, or None. It reads a part of YAML 1.1 in which every text
means to all readers what it means here (block and flow collections, five scalar styles, comments outside flow, tabs only in literal text),
and knows nothing of what writes it.

A place is an index i of the text t. A rule looks only at t[i:] and the column of i, so a place is a pair (text left,
column). What shrinks from call to call is (characters left, rank) in dictionary order, with the ranks
    document 6 > node 5 > block 4 > key 3 > entry, content 2 > flow 1
A rule calls one of no lower rank only past a character that it took itself (`-`, `?`, `:`, `[`, `{`, `,`); the loops of
documents, block and flow go on only past what the turn before read, at least one character. Scans go through t[i:] once.

n is the column of the block around, -1 at the root. Nodes read:
    ("alias", name)   ("scalar", anchor, tag, form, value)   ("seq", anchor, tag, [node])   ("map", anchor, tag, [(node, node)])
form of a scalar without a tag: "plain", "quoted" (all styles but plain), "bare" (`!` before quotes or a block sign); with a tag None.

Comments. A comment that begins its line is at the column of what follows it: an entry, a block's end, a document or its end, or the
stream's end. A line comment follows what it belongs to after two spaces. Each node that isn't inside flow has an `At` as its last part.
"""
from collections import namedtuple
import readers as R
from scalar_bodies import PRINTABLE, NAME, URI, read_plain, read_single, read_double, read_block
class No(Exception): pass
def need(so):
    if not so: raise No()
FLOW, FREE = ",?:[]{}", (None, None, False)                 # FREE: no anchor, no tag, no bare `!`
# The comments at a node: the one at the end of its line or None; for a block those before each entry, else None, and those at its end.
At = namedtuple("At", "line heads end", defaults=(None, None, ()))
def text_of(comment):
    """The text of a comment that begins with its `#`: a space, or another `#`, follows the `#` unless nothing does."""
    need(comment == "#" or comment[1] in " #" and comment[-1] != " ")
    return comment[2:] if comment[1:2] == " " else comment[1:]
def node_alone(x):
    """A node without its comments."""
    if x[0] in ("alias", "scalar") or x[-1].heads is None: return x[:-1]
    return x[:3] + ([node_alone(y) if x[0] == "seq" else (node_alone(y[0]), node_alone(y[1])) for y in x[3]],)
def documents_alone(read):
    """What `read_with_comments` gives without the comments."""
    return None if read is None else [(version, tags, node_alone(root)) for version, tags, root, _, _ in read[0]]

class Reader:
    def __init__(s, text, breaks="\n\u2028\u2029"):
        s.t, s.breaks, s.column, c = text, breaks, [], 0
        for ch in text + "\n": s.column.append(c); c = 0 if ch in breaks else c + 1
        s.head, s.line = [], None                           # see comments_from
    # -- at a place
    def at(s, i): return s.t[i:i+1]
    def eol(s, i): return i >= len(s.t) or s.t[i] in s.breaks
    def sep(s, i): return s.eol(i) or s.t[i] == " "
    def sign(s, i, c): return s.at(i) == c and s.sep(i + 1)
    def mark(s, i, m): return s.column[i] == 0 and s.t[i:i+3] == m and s.sep(i + 3)
    def stop(s, i): return i >= len(s.t) or s.mark(i, "---") or s.mark(i, "...")
    # -- scans: the first place from i on that ...
    def end(s, i):                                          # ends the line
        while not s.eol(i): i += 1
        return i
    def spaces(s, i):                                       # isn't a space
        while s.at(i) == " ": i += 1
        return i
    def gap(s, i):                                          # is neither a space nor a break
        while i < len(s.t) and s.sep(i): i += 1
        return i
    def run(s, i, alphabet):                                # isn't of the alphabet; past at least one that is
        j = i
        while s.at(j) != "" and s.t[j] in alphabet: j += 1
        need(j > i); return j
    # -- comments: s.head has those that begin a line, as (column, text), until what they precede is read; s.line is a line comment
    def comments_from(s, i, fresh):                         # past spaces, breaks and comments; fresh: i begins a line
        s.line = None
        while True:
            j = s.spaces(i)
            if j < len(s.t) and s.eol(j): i, fresh = j + 1, True
            elif s.at(j) == "#" and (fresh or j == i + 2):
                i = s.end(j); text = text_of(s.t[j:i])
                if fresh: s.head.append((s.column[j], text))
                else: s.line = text
                fresh = False
            else: return j
    def take_head(s, c):                                    # all that wait, for what begins at column c
        need(all(column == c for column, _ in s.head)); out, s.head = tuple(text for _, text in s.head), []
        return out
    def take_end(s, c):                                     # at the end of a block: the first ones that are at its column
        k = 0
        while k < len(s.head) and s.head[k][0] == c: k += 1
        out, s.head = tuple(text for _, text in s.head[:k]), s.head[k:]
        return out
    def over(s, i):                                         # the line has no more text from i on, the end of what was read of it
        j = s.spaces(i); return s.eol(j) or j > i and s.t[j] == "#"
    # -- documents: (version, tags, root, the comments before it, those at its end)
    def documents(s):                                       # and the comments at the stream's end
        i, out = s.comments_from(0, True), []
        while i < len(s.t): d, i = s.document(i, out == []); out.append(d)
        return out, s.take_head(0)
    def document(s, i, first):
        need(s.column[i] == 0); before, start = s.take_head(0), i
        version, tags, i = s.directives(i)
        if s.mark(i, "---"): root, i = s.marked_root(i + 3)
        else:
            need(first and i == start and not s.sep(i)); root, i = s.node(i, -1, True, False)
            if root[-1].heads is not None: root[-1].heads[0] = before + root[-1].heads[0]; before = ()       # both begin at one place
        need(s.stop(i)); end = ()
        if s.mark(i, "..."):
            need(s.eol(i + 3)); end = s.take_head(0)
            i = s.comments_from(i + 3, False); need(s.column[i] == 0 or i >= len(s.t))
        return (version, tuple(tags), root, before, end), i
    def directives(s, i):
        version, tags = None, []
        while s.at(i) == "%":
            j = s.end(i); need(j < len(s.t)); w = s.t[i:j].split(" "); i = j + 1
            if w[0] == "%YAML": need(version is None and not tags and w[1:] in (["1.1"], ["1.2"])); version = (1, int(w[1][2]))
            else:
                need(w[0] == "%TAG" and len(w) == 3 and R.is_handle(w[1]) and all(w[1] != h for h, _ in tags))
                need(w[2] != "" and set(w[2][w[2][0] == "!":]) <= URI); prefix = R.percent_decode(w[2]); need(prefix is not None)
                tags.append((w[1], prefix))
        s.tags = tags                                       # in a proof: an argument of the rules below
        return version, tags, i
    def marked_root(s, i):                                  # what follows `---`
        k = s.comments_from(i, False)
        if s.over(i) and not s.stop(k): need(s.column[k] == 0); return s.node(k, -1, True, False, s.line)
        s.head = []; return s.node(i, -1, False, False)     # text on the line of `---`, or nothing: node reads the comments again
    # -- block: what follows `---`, `-`, `?` or `:`. here: a block may begin on this line; level: a sequence may be at n; line: the
    #    comment on the line of `---` above. node and block end where the next text begins, past spaces, breaks and comments; content,
    #    properties and flow end right after what they read
    def node(s, i, n, here, level, line=None):
        p, rest = FREE, i
        if not s.over(i):
            i = s.spaces(i)
            if s.sign(i, "-") or s.sign(i, "?"): need(here); return s.block(i, p, n, line)
            p, j = s.properties(i); rest = j
            while s.at(rest - 1) == " ": rest -= 1
            if not s.over(rest):
                x, k = s.content(j, n, False, p)
                if s.end(i) >= k and s.sign(k + (x[0] == "alias" and s.at(k) == " "), ":"): need(here); return s.block(i, FREE, n, line)
                need(s.head == [] and line is None)         # a comment precedes no text
                own = s.header(j)[1] if s.at(j) in ("|", ">") else None
                k = s.comments_from(k, s.column[k] == 0)
                return x + (At(s.line if own is None else own),), k
            need(s.head == [] and line is None)
        k = s.comments_from(rest, False)
        if not s.stop(k) and (s.column[k] > n or level and s.column[k] == n and s.sign(k, "-")): return s.block(k, p, n, s.line)
        return s.scalar(p, "plain", "") + (At(s.line),), k
    def block(s, i, p, n, line):                            # the entries from i on, each at the column of i
        need(not p[2]); c, out, heads, dash = s.column[i], [], [], s.sign(i, "-")
        while not s.stop(i) and s.column[i] == c and s.sign(i, "-") == dash:
            heads.append(s.take_head(c))
            if dash: x, i = s.node(i + 1, c, True, False)
            else: k, i, simple = s.key(i, c); v, i = s.node(i + 1, c, not simple, True); x = (k, v)
            out.append(x)
        end = s.take_end(c) if c > max(n, 0) else ()        # else what follows begins at the same column, and has the comments
        return ("seq" if dash else "map", p[0], p[1], out, At(line, heads, end)), i
    def key(s, i, c):                                       # a key and the place of its `:`
        if s.sign(i, "?"): x, i = s.node(i + 1, c, True, True); need(s.column[i] == c and s.sign(i, ":") and s.head == []); return x, i, False
        p, j = s.properties(i); x, e = s.content(j, c, False, p)
        return x + (At(),), s.colon(i, e, x), True
    def colon(s, i, e, x):                                  # after a simple key: on its line, at once (an alias: after a space)
        if x[0] == "alias": need(s.at(e) == " "); e += 1
        need(s.end(i) >= e and e - i <= 1024 and s.sign(e, ":")); return e
    # -- flow
    def flow(s, i, n, p):
        seq, out = s.t[i] == "[", []; i = s.inner(i + 1, n)
        while s.at(i) != ("]" if seq else "}"):
            if seq: x, i = s.entry(i, n)
            else:
                if s.sign(i, "?"): k, j = s.entry(s.spaces(i + 1), n); i = s.inner(j, n); need(i > j and s.sign(i, ":"))
                else: k, j = s.entry(i, n); i = s.colon(i, j, k)
                v, i = s.entry(s.spaces(i + 1), n); x = (k, v)
            out.append(x)
            if s.at(i) == ",": i = s.inner(i + 1, n)
            else: need(s.at(i) == ("]" if seq else "}"))
        return ("seq" if seq else "map", p[0], p[1], out), i + 1
    def entry(s, i, n): p, j = s.properties(i); return s.content(j, n, True, p)
    def inner(s, i, n): k = s.gap(i); need(k < len(s.t) and (k == s.spaces(i) or s.column[k] > n)); return k
    # -- one node's own text
    def properties(s, i):
        anchor = tag = None; bare = False
        if s.at(i) == "&": j = s.run(i + 1, NAME); need(s.sep(j)); anchor, i = s.t[i+1:j], s.spaces(j)
        if s.at(i) == "!":
            j = i
            while not s.sep(j): j += 1
            w = s.t[i:j]; verbatim = w[1:2] == "<"; body = w[2:-1] if verbatim else w[w.rindex("!") + 1:]
            need(set(body) <= (URI if verbatim else URI - set(",[]")) and (body != "" and (not verbatim or w[-1] == ">") or w == "!"))
            read = R.decode_tag(w, s.tags); need(read is not None); bare, tag, i = read[0] == "bare", read[1], s.spaces(j)
        return (anchor, tag, bare), i
    def content(s, i, n, flow, p):
        c = s.at(i)
        if c == "*": need(p == FREE); j = s.run(i + 1, NAME); need(s.sep(j) or flow and s.t[j] in ",]}"); return ("alias", s.t[i+1:j]), j
        if c == "[" or c == "{": need(not p[2]); return s.flow(i, n, p)
        if c == "'" or c == '"': j = s.quotes(i, n); v = read_single(s.t[i:j], s.breaks) if c == "'" else read_double(s.t[i:j], s.breaks)
        elif (c == "|" or c == ">") and not flow:
            j = s.lines(i, n); v = read_block(s.header(i)[0] + s.t[s.end(i):j], None if n < 0 else n, s.breaks)
        else: j = s.words(i, n, flow); need(j > i); v = read_plain(s.t[i:j], flow, s.breaks)
        need(v is not None); return s.scalar(p, "quoted" if c != "" and c in "'\"|>" else "plain", v), j
    def scalar(s, p, form, v):
        need(not p[2] or form == "quoted")
        return "scalar", p[0], p[1], None if p[1] is not None else "bare" if p[2] else form, v
    def deep(s, j, n): need(s.column[j] > max(n, 0)); return j      # a line of a scalar after its first
    def quotes(s, i, n):                                    # past the closing quote
        j, q = i + 1, s.t[i]
        while s.at(j) != q or q == "'" and s.at(j + 1) == q:
            need(j < len(s.t))
            j = s.deep(s.gap(j), n) if s.eol(j) else j + 2 if s.t[j] in "\\'" and s.t[j] == {"'": "'", '"': "\\"}[q] else j + 1
        return j + 1
    def words(s, i, n, flow):                               # to the last character of plain text
        j = i
        while not s.eol(j) and not s.sign(j, ":") and not (flow and s.t[j] in FLOW) and not (j > i and s.t[j-1:j+1] == " #"): j += 1
        k = s.gap(j)
        if s.eol(j) and k < len(s.t) and s.column[k] > max(n, 0) and s.t[k] != "#" and not (flow and s.t[k] in FLOW): return s.words(k, n, flow)
        while j > i and s.t[j-1] == " ": j -= 1
        return j
    def header(s, i):                                       # of a block scalar: its first line without a comment, and the comment
        line = s.t[i:s.end(i)]; k = line.find("  #")
        return (line, None) if k < 0 else (line[:k], text_of(line[k + 2:]))
    def lines(s, i, n):                                     # to the first line that is neither empty nor deep enough
        h = s.end(i); first = s.gap(h); digits = [int(c) for c in s.header(i)[0] if c in "123456789"]
        m = max(n, 0) + digits[0] if digits else s.column[first]; j = min(h + 1, len(s.t))
        while j < len(s.t) and (s.eol(s.spaces(j)) or m > max(n, 0) and s.t[j:j+m] == " " * m): j = min(s.end(j) + 1, len(s.t))
        return j

def read_with_comments(data, breaks="\n\u2028\u2029"):
    """The documents and the comments at the stream's end, or None."""
    text = R.decode_stream(bytes(data))
    if text is None or any(c not in "\r\n\t" and not PRINTABLE(c) for c in text): return None
    try: return Reader(R.normalize(text), breaks).documents()
    except No: return None

def read(data, breaks="\n\u2028\u2029"):
    """The documents, each (version, tags, root), or None."""
    return documents_alone(read_with_comments(data, breaks))
