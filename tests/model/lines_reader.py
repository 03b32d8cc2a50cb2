"""The reader by lines and columns, for the whole language: what a collection has read of a line becomes spaces, and each
entry, with the lines inside its column, is again a text of its own. No rule is handed what follows it. A comment that begins
its line, at the column of a collection's entries, is an entry of its own."""
import readers as R
from stream_reader import At, FREE, No, PRINTABLE, Reader, documents_alone, need, text_of
from scalar_bodies import read_plain, read_single, read_double, read_block
class Lines:
    def __init__(s, breaks): s.breaks, s.tags = breaks, []
    def at(s, t): r = Reader(t, s.breaks); r.tags = s.tags; return r
    # -- lines: (text, the break after it)
    def cut(s, text):
        out, t = [], ""
        for c in text:
            if c in s.breaks: out.append((t, c)); t = ""
            else: t += c
        return out + [(t, "")] * (t != "")
    def joined(s, ls): return "".join(t + b for t, b in ls)
    @staticmethod
    def blank(t): return t.strip(" ") == ""
    @staticmethod
    def indent(t): return len(t) - len(t.lstrip(" "))
    @staticmethod
    def sign(t, c): return t[:1] == c and (len(t) == 1 or t[1] == " ")
    def after(s, ls, n):
        """The lines with spaces in place of the first n characters; a comment that follows these has two spaces before it."""
        (t, b) = ls[0]; rest = t[n:]
        need(not s.is_comment(rest) or rest[:3] == "  #")
        return [(" " * n + rest, b)] + ls[1:]
    # -- comments
    @staticmethod
    def is_comment(t): return t.lstrip(" ")[:1] == "#"
    def is_passed(s, t): return s.blank(t) or s.is_comment(t)
    def comments(s, ls, column):
        """The comments in lines that hold no other text, each at a column."""
        found = [t for t, _ in ls if not s.blank(t)]
        need(all(s.is_comment(t) and s.indent(t) == column for t in found))
        return tuple(text_of(t.lstrip(" ")) for t in found)
    def line_comment(s, t): return text_of(t.lstrip(" ")) if s.is_comment(t) else None
    def commented(s, text, reads):
        """What a text reads as, and the comment at its end: the text without spaces and breaks at its end, or what precedes the first `  #`
        of its last line before which it reads."""
        flat = text.rstrip(" " + s.breaks); v, end = reads(flat), len(flat)
        if v is not None: return v, None
        while text[end:end + 1] == " ": end += 1
        i = max([0] + [flat.rindex(b) + 1 for b in s.breaks if b in flat])
        while True:
            i = flat.find("  #", i); need(i >= 0); v = reads(flat[:i])
            if v is not None: return v, text_of(text[i + 2:end])
            i += 1
    # -- the entries at a column: each with the comments before it and its lines, and the comments after the last
    def entries(s, seq, column, ls):
        out, head = [], []
        for t, b in ls:
            d = s.indent(t)
            if s.blank(t) or d > column:                    # a line of the entry above; after a comment only a blank one
                need(out and (head == [] or s.blank(t))); (out[-1][1] if head == [] else head).append((t, b))
            elif d == column and s.is_comment(t): head.append((t, b))
            elif d == column and not seq and s.sign(t[d:], "-"): need(out); out[-1][1].extend(head + [(t, b)]); head = []
            else: need(d == column); out.append((s.comments(head, column), [(t, b)])); head = []
        return out, s.comments(head, column)
    # -- a simple key at the start of a text, and the place of its colon
    def key(s, t):
        r = s.at(t)
        try:
            p, j = r.properties(0)
            if r.at(j) in ("|", ">", ""): return None
            x, e = r.content(j, -1, False, p); return x, r.colon(0, e, x)
        except No: return None
    def begins_block(s, t): return s.sign(t, "-") or s.sign(t, "?") or s.key(t) is not None
    # -- nodes
    def node(s, ls, n, here, p=FREE):
        i = 0
        while i < len(ls) and s.is_passed(ls[i][0]): i += 1
        line = s.line_comment(ls[0][0]) if i > 0 else None  # the first line is what an indicator or properties leave of theirs
        if i == len(ls): need(not any(s.is_comment(t) for t, _ in ls[1:])); return s.at("").scalar(p, "plain", "") + (At(line),)
        e = s.indent(ls[i][0]); t = ls[i][0][e:]
        if s.begins_block(t): need((here or i > 0) and not p[2]); return s.block(ls[i:], e, p, s.comments(ls[1:i], e), line)
        need(i == 0)
        if p == FREE and t[0] in "&!": p, j = s.at(t).properties(0); return s.node(s.after(ls, e + len(t[:j].rstrip(" "))), n, False, p)
        least = n if t[0] in "[{*" else max(n, 0)           # a `-` at the column of a mapping is no line of a scalar
        need(all(s.blank(x) or s.indent(x) > least for x, _ in ls[1:]))
        return s.text(s.joined([(t, ls[0][1])] + ls[1:]), n, p)
    def text(s, text, n, p):
        c, r = text[0], s.at(text)
        if c in "[{*":
            x, j = r.content(0, -1, False, p); _, line = s.commented(text[j:], lambda rest: rest if rest == "" else None)
            return x + (At(line),)
        if c in "|>": h, line = r.header(0); v = read_block(h + text[r.end(0):], None if n < 0 else n, s.breaks); need(v is not None)
        else:
            read = {"'": read_single, '"': read_double}.get(c, lambda t, breaks: read_plain(t, False, breaks))
            v, line = s.commented(text, lambda t: read(t, s.breaks))
        return r.scalar(p, "quoted" if c in "'\"|>" else "plain", v) + (At(line),)
    def block(s, ls, e, p, head, line):
        seq = s.sign(ls[0][0][e:], "-"); found, end = s.entries(seq, e, ls)
        items, heads = ([s.item(x, e) for _, x in found], [h for h, _ in found]) if seq else s.pairs(found, e)
        return ("seq" if seq else "map", p[0], p[1], items, At(line, [head + heads[0]] + heads[1:], end))
    def item(s, ls, e): need(s.sign(ls[0][0][e:], "-")); return s.node(s.after(ls, e + 1), e, True)
    def pairs(s, found, e):
        out, heads, k = [], [], None
        for head, ls in found:
            t = ls[0][0][e:]
            if s.sign(t, ":"): need(k is not None and head == ()); out.append((k, s.node(s.after(ls, e + 1), e, True))); k = None; continue
            need(k is None); heads.append(head)
            if s.sign(t, "?"): k = s.node(s.after(ls, e + 1), e, True)
            else: y = s.key(t); need(y); out.append((y[0] + (At(),), s.node(s.after(ls, e + y[1] + 1), e, False)))
        need(k is None); return out, heads
    # -- documents: (version, tags, root, the comments before it, those at its end)
    def mark(s, t, m): return t[:3] == m and (len(t) == 3 or t[3] == " ")
    def margin(s, ls, i):
        """The comments at column 0 from the line i on, past blank lines, and the first line that is neither."""
        j = i
        while j < len(ls) and (s.blank(ls[j][0]) or ls[j][0][:1] == "#"): j += 1
        return s.comments(ls[i:j], 0), j
    def documents(s, text):
        ls, out = s.cut(text), []
        before, i = s.margin(ls, 0)
        while i < len(ls):
            version, tags, j = s.directives(ls, i); silent = i == j; need(j < len(ls)); i = j + 1
            while i < len(ls) and not s.mark(ls[i][0], "---") and not s.mark(ls[i][0], "..."): i += 1
            body, end = s.body_of(ls[j:i]); after = ()
            if s.mark(body[0][0], "---"): root = s.marked_root(s.after(body, 3))
            else:
                need(out == [] and silent and body[0][0][:1] not in ("", " ")); root = s.node(body, -1, True)
                if root[-1].heads is not None: root[-1].heads[0] = before + root[-1].heads[0]; before = ()      # both begin at one place
            if i < len(ls) and s.mark(ls[i][0], "..."):
                need(ls[i][0] == "..."); after, i = s.margin(ls, i + 1); need(i == len(ls) or s.indent(ls[i][0]) == 0)
            else: end, after = (), end
            out.append((version, tuple(tags), root, before, end)); before = after
        return out, before
    def directives(s, ls, i):
        version, tags = None, []
        while i < len(ls) and ls[i][0][:1] == "%":
            need(ls[i][1] != ""); w = ls[i][0].split(" "); i += 1
            if w[0] == "%YAML": need(version is None and not tags and w[1:] in (["1.1"], ["1.2"])); version = (1, int(w[1][2]))
            else:
                from scalar_bodies import URI
                need(w[0] == "%TAG" and len(w) == 3 and R.is_handle(w[1]) and all(w[1] != h for h, _ in tags))
                need(w[2] != "" and set(w[2][w[2][0] == "!":]) <= URI); prefix = R.percent_decode(w[2]); need(prefix is not None); tags.append((w[1], prefix))
        s.tags = tags; return version, tags, i
    def body_of(s, ls):
        """A document's lines without the comments at column 0 after its last other line, and these comments. Blank lines may be a scalar's."""
        k = len(ls)
        while k > 1 and (s.blank(ls[k-1][0]) or ls[k-1][0][:1] == "#"): k -= 1
        while k < len(ls) and s.blank(ls[k][0]): k += 1
        return ls[:k], s.comments(ls[k:], 0)
    def marked_root(s, body):
        """The root of a document with `---`: on its line, or at column 0 below. Comments precede a block without properties alone."""
        head, k = s.margin(body, 1)
        if not s.is_passed(body[0][0]) or k == len(body): return s.node(body, -1, False)
        need(s.indent(body[k][0]) == 0); root, line = s.node(body[k:], -1, True), s.line_comment(body[0][0])
        if head == () and line is None: return root
        need(s.begins_block(body[k][0])); at = root[-1]
        return root[:-1] + (at._replace(line=line, heads=[head + at.heads[0]] + at.heads[1:]),)
def read_with_comments(data, breaks="\n\u2028\u2029"):
    """The documents and the comments at the stream's end, or None."""
    text = R.decode_stream(bytes(data))
    if text is None or any(c not in "\r\n\t" and not PRINTABLE(c) for c in text): return None
    try: return Lines(breaks).documents(R.normalize(text))
    except No: return None

def read(data, breaks="\n\u2028\u2029"):
    """The documents, each (version, tags, root), or None."""
    return documents_alone(read_with_comments(data, breaks))
