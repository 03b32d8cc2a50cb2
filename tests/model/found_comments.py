"""Where the comments beside the events of an accepted list are found again.

    a stream   ([(before, end, root)], those at the stream's end)         before and end: the comments before a document and at its end
    a node     ("leaf", line) or ("block", heads, end, line, children)    heads: those before each entry; end: those after the last

`expected` says it by the rules of writing. `found` says the same of what a strict reader read.
"""
from comments import comment_text, line_of
from layout import Coll, Layout, Leaf, NO_COMMENTS, SeqStart, directives_in_force, layout_of, parse, start_explicit, tag_analysed

def shown(head): return tuple(comment_text(text) for text in head if text is not None)
def shown_line(own): return None if own.line is None else line_of(own.line)

class Finder:
    """Walks the trees of a list in the order of its events. waiting: comments of events whose text begins no line, which the next
    entry, end or document has."""
    def __init__(self, eff, comments):
        self.s, self.comments, self.number, self.waiting, self.directives = eff, comments, 0, (), []
    def own(self):
        """The comments beside the next event."""
        self.number += 1
        return NO_COMMENTS if self.s.canonical or self.number > len(self.comments) else self.comments[self.number - 1]
    def head(self, own):
        out, self.waiting = self.waiting + shown(own.head), ()
        return out
    def is_block(self, tree): return isinstance(tree, Coll) and tree.items != [] and not self.s.canonical and tree.event.style != "flow"
    def is_bare(self, tree):
        """A block of which no anchor and no tag is written, so that its first entry may begin on the line."""
        return self.is_block(tree) and tree.event.anchor is None and not tag_analysed(self.s, tree.event)
    def is_simple(self, tree):
        layout = Layout(self.s); layout.directives = self.directives
        return layout.simple_key(tree)

    def node(self, tree, place, compact):
        """The comments before a node, and those found in it. place: root, item, key, value or flow. compact: its first entry may begin
        on the line."""
        own = self.own(); head = self.head(own) if place in ("item", "key") else None
        if place != "flow" and self.is_block(tree):
            if head is None: self.waiting = self.waiting + shown(own.head)
            return head, self.block(tree, place, compact, shown_line(own))
        if isinstance(tree, Coll):
            for item in tree.items:
                for child in item if isinstance(item, tuple) else (item,): self.node(child, "flow", False)
            own = self.own()                                   # the comments beside the end of the collection
        self.waiting = ()
        return head, ("leaf", None if place in ("flow", "key") else shown_line(own))

    def block(self, tree, place, compact, line):
        seq, heads, children = isinstance(tree.event, SeqStart), [], []
        if place == "root" and compact and line is not None: self.waiting, line = self.waiting + (line,), None
        for item in tree.items:
            if seq: head, child = self.node(item, "item", self.is_bare(item))
            else:
                simple = self.is_simple(item[0])
                head, key = self.node(item[0], "key", not simple and self.is_bare(item[0]))
                child = key, self.node(item[1], "value", not simple and self.is_bare(item[1]))[1]
            heads.append(head); children.append(child)
        own, end = self.own(), ()
        undented = seq and place in ("key", "value") and not compact and not self.s.indented_sequences
        if place == "root" or undented: self.waiting = self.waiting + shown(own.head)      # what follows begins at the same column
        else: end = self.head(own)
        return "block", heads, end, line, children

def expected(eff, L, comments):
    """eff: effective settings, L: an accepted list, comments: those beside its events."""
    finder, out = Finder(eff, comments), []
    finder.waiting = shown(finder.own().head)
    for (start, tree, end), closed in zip(parse(L), layout_of(eff, L).closed):
        finder.directives = directives_in_force(start)
        before, after = finder.head(finder.own()), ()
        silent = not start_explicit(eff, out == [], start)
        if silent and finder.is_block(tree): before, finder.waiting = (), before           # the document and its first entry begin at one place
        _, root = finder.node(tree, "root", silent and finder.is_bare(tree))
        own = finder.own()
        if end.implicit and not closed: finder.waiting = finder.waiting + shown(own.head)  # no `...` ends the document
        else: after = finder.head(own)
        out.append((before, after, root))
    return out, finder.head(finder.own())

# ---------------------------------------------------------------- the same of what was read

def found_in(node):
    at = node[-1]
    if at.heads is None: return "leaf", at.line
    return "block", at.heads, at.end, at.line, [(found_in(x[0]), found_in(x[1])) if node[0] == "map" else found_in(x) for x in node[3]]

def found(read):
    """read: what `read_with_comments` gave."""
    return [(before, end, found_in(root)) for _, _, root, before, end in read[0]], read[1]

def count(x):
    """The number of comments in what `expected` or `found` gives."""
    if isinstance(x, str): return x not in ("leaf", "block") or 0
    return sum(map(count, x)) if isinstance(x, (tuple, list)) else 0
