"""Events with comments and the text that they are written as, worked out by hand: (what is shown, settings, (events, comments), text)."""
from events import *

BLANK = None                                          # a blank line, in a head
def H(*head, line=None): return Comments(tuple(head), line)
def V(value, style="any", anchor=None): return Scalar(anchor, None, value, True, True, style)
M, ME, Q, QE = MapStart(), MapEnd(), SeqStart(), SeqEnd()
FLOW = SeqStart(style="flow")

def stream(*all_events):
    """Events, some of them in a pair with the comments beside them."""
    return [x[1] if isinstance(x, tuple) else x for x in all_events], [x[0] if isinstance(x, tuple) else NO_COMMENTS for x in all_events]

def document(*nodes): return stream(StreamStart(), DocStart(), *nodes, DocEnd(), StreamEnd())

ROWS = [
    ("before a key", {},
     document(M, (H("the port"), V("port")), V("80"), (H("the host", "(by name)"), V("host")), V("a.b"), ME),
     "# the port\nport: 80\n# the host\n# (by name)\nhost: a.b\n"),
    ("a blank line before a key and between comments", {},
     document(M, V("a"), V("1"), (H(BLANK, "about b", BLANK, "more"), V("b")), V("2"), ME),
     "a: 1\n\n# about b\n\n# more\nb: 2\n"),
    ("before items of an undented sequence, whose end is at the mapping's column", {},
     document(M, V("a"), Q, (H("one"), V("x")), (H("two"), V("y")), (H("end"), QE), (H("next"), V("b")), V("1"), ME),
     "a:\n# one\n- x\n# two\n- y\n# end\n# next\nb: 1\n"),
    ("before items of an indented sequence", dict(indented_sequences=True),
     document(M, V("a"), Q, (H("one"), V("x")), (H("two"), V("y")), (H("end"), QE), (H("next"), V("b")), V("1"), ME),
     "a:\n  # one\n  - x\n  # two\n  - y\n  # end\n# next\nb: 1\n"),
    ("the first entry after an indicator: its comments break the line, and no blank line is first", {},
     document(Q, (H("item"), M), (H(BLANK, "key", "key 2"), V("a")), V("1"), (H(BLANK, "b"), V("b")), V("2"), ME, QE),
     "# item\n-\n  # key\n  # key 2\n  a: 1\n\n  # b\n  b: 2\n"),
    ("four columns for a level", dict(indent=4), document(Q, M, (H("key"), V("a")), V("1"), ME, QE), "-\n    # key\n    a: 1\n"),
    ("a block as a value: its head is its first entry's, its line comment follows the key", {},
     document(M, V("a"), (H("before the map", line="on a"), M), (H("before b"), V("b")), V("1"), ME, ME),
     "a:  # on a\n  # before the map\n  # before b\n  b: 1\n"),
    ("line comments of values: plain, quoted, an alias, in flow (beside its end), empty", {},
     document(M, V("a", anchor="x"), (H(line="plain"), V("v")), V("b"), (H(line="quoted"), V("it's", "single")), V("c"), (H(line="alias"), Alias("x")),
              V("d"), FLOW, V("1"), (H(line="flow"), QE), V("e"), Q, (H(line="empty list"), QE), V("f"), (H(line="nothing"), V("")), ME),
     "&x a: v  # plain\nb: 'it''s'  # quoted\nc: *x  # alias\nd: [1]  # flow\ne: []  # empty list\nf:  # nothing\n"),
    ("the line comment of a block scalar follows its header", {},
     document(M, V("a"), (H(line="text"), V("x\ny\n", "literal")), (H("next"), V("b")), (H(line="folded"), V("z", "folded")), ME),
     "a: |  # text\n  x\n  y\n# next\nb: >-  # folded\n  z\n"),
    ("no blank line directly after a scalar that keeps its breaks; one after a comment", {},
     document(M, V("a"), V("x\n\n", "literal"), (H(BLANK, "next", BLANK), V("b")), V("1"), ME),
     "a: |+\n  x\n\n# next\n\nb: 1\n...\n"),
    ("at the end of a nested collection", {},
     document(M, V("a"), M, V("b"), V("1"), (H("c: 2"), ME), (H(BLANK), V("d")), V("3"), ME),
     "a:\n  b: 1\n  # c: 2\n\nd: 3\n"),
    ("before a document, at its end and at the stream's end", {},
     stream(StreamStart(), (H("head", BLANK), DocStart(implicit=False)), M, V("a"), V("1"), ME, (H("foot"), DocEnd(False)), (H("last"), StreamEnd())),
     "# head\n\n---\na: 1\n# foot\n...\n# last\n"),
    ("before directives", {},
     stream(StreamStart(), (H("head"), DocStart((1, 1), (), True)), V("a"), DocEnd(), StreamEnd()),
     "# head\n%YAML 1.1\n--- a\n"),
    ("before a document without `---`", {}, stream(StreamStart(), (H("head"), DocStart()), V("a"), DocEnd(), StreamEnd()), "# head\na\n"),
    ("left out: before a value that is no block, and in flow", {},
     document(M, V("a"), (H("lost"), V("1")), V("b"), FLOW, (H("lost", line="lost"), V("x")), QE, ME),
     "a: 1\nb: [x]\n"),
    ("left out: in canonical mode", dict(canonical=True),
     stream(StreamStart(), (H("lost"), DocStart()), Q, (H("lost", line="lost"), V("x")), QE, DocEnd(), StreamEnd()),
     "---\n[\n  \"x\",\n]\n"),
    ("a key that isn't simple: before its `?`, and before the first entry after `?` and after `:`", {},
     document(M, (H("key"), Q), (H("k1"), V("x")), QE, M, (H("v1"), V("y")), V("1"), ME, ME),
     "# key\n?\n  # k1\n  - x\n:\n  # v1\n  y: 1\n"),
    ("a space for what a line can't hold, none at the end, `#` for an empty text, no space before `#`", dict(unicode=False),
     document(M, (H("tab\tbell\x07 nel\x85 ls\u2028.", "", "\u00e9 #1  ", "###", "# x", " y"), V("a")), V("1"), ME),
     "# tab bell  nel  ls .\n#\n# \u00e9 #1\n####\n## x\n#  y\na: 1\n"),
    ("the line break of the settings; comments aren't folded", dict(line_break="crln", width=10),
     document(M, (H("a comment longer than ten"), V("a")), (H(line="and this"), V("some words more")), ME),
     "# a comment longer than ten\r\na: some words\r\n  more  # and this\r\n"),
    ("after an anchor", {},
     document(M, V("a"), (H(line="on a"), MapStart(anchor="x")), (H("b"), V("b")), V("1"), ME, V("c"), (H(line="c"), SeqStart(anchor="y")), V("1"), QE, ME),
     "a: &x  # on a\n  # b\n  b: 1\nc: &y  # c\n- 1\n"),
    ("sequences in a sequence", {},
     document(Q, (H("outer"), Q), (H("inner"), V("a")), (H("inner 2"), V("b")), (H("inner end"), QE), (H("outer 2"), V("c")), QE),
     "# outer\n-\n  # inner\n  - a\n  # inner 2\n  - b\n  # inner end\n# outer 2\n- c\n"),
    ("a root after `---`", {},
     stream(StreamStart(), DocStart(implicit=False), (H("for the first key", line="root"), M), V("a"), V("1"), ME, DocEnd(), StreamEnd()),
     "---  # root\n# for the first key\na: 1\n"),
    ("after the `-` of a block", {},
     document(Q, (H("item", line="on its line"), M), V("a"), V("1"), V("b"), V("2"), ME, QE),
     "# item\n-  # on its line\n  a: 1\n  b: 2\n"),
    ("after the key of an undented sequence, and after the `?` of an indented one", {},
     document(M, V("a"), (H(line="list"), Q), V("x"), QE, (H(line="key"), Q), V("y"), QE, V("z"), ME),
     "a:  # list\n- x\n?  # key\n  - y\n: z\n"),
]

# The root's line comment where nothing is written of the root yet, the comments beside the stream's start, and those before a document
# whose `...` its directives ask for.
ROWS += [
    ("a root that begins without `---`: its line comment is its first entry's", {},
     stream((H("front"), StreamStart()), (H("document"), DocStart()), (H("root", line="on the root"), Q), (H("item"), V("a")), QE, DocEnd(), StreamEnd()),
     "# front\n# document\n# root\n# on the root\n# item\n- a\n"),
    ("blank lines alone", {}, document((H(BLANK), Q), V("a"), (H(BLANK, BLANK), V("b")), QE), "\n- a\n\n- b\n"),
    ("between documents, with `...` before directives", {},
     stream(StreamStart(), DocStart(), V("a\n\n", "literal"), (H("end"), DocEnd()), (H("next"), DocStart((1, 1))), V("b"), DocEnd(), (H("last"), StreamEnd())),
     "|+\n  a\n\n# end\n...\n# next\n%YAML 1.1\n--- b\n# last\n"),
    ("a line comment of several lines is one", {}, document(Q, (H(line="a\r\nb\nc"), V("x")), QE), "- x  # a b c\n"),
]

# Where the strict readers find comments: a text, and what `found_comments.found` gives of it, worked out by hand.
PLACES = [
    ("# a\n\n# b\n", ([], ("a", "b"))),
    ("# a\n--- x  # b\n# c\n...\n# d\n", ([(("a",), ("c",), ("leaf", "b"))], ("d",))),
    ("--- x\n# a\n--- y\n", ([((), (), ("leaf", None)), (("a",), (), ("leaf", None))], ())),
    ("# a\n- x\n# b\n", ([((), (), ("block", [("a",)], (), None, [("leaf", None)]))], ("b",))),
    ("---  # a\n# b\nk: v  # c\n\n# d\nl:  # e\n  # f\n  - x\n  # g\n",
     ([((), (), ("block", [("b",), ("d",)], (), "a", [
         (("leaf", None), ("leaf", "c")), (("leaf", None), ("block", [("f",)], ("g",), "e", [("leaf", None)]))]))], ())),
    ("k:\n# a\n- x\n# b\nl: |  # c\n  # text\n# d\n",
     ([((), (), ("block", [(), ("b",)], (), None, [
         (("leaf", None), ("block", [("a",)], (), None, [("leaf", None)])), (("leaf", None), ("leaf", "c"))]))], ("d",))),
    ("##\n#  a\nx\n", ([(("#", " a"), (), ("leaf", None))], ())),
]

# Texts of comments that the strict readers refuse, since readers differ about them or since they aren't written so.
REFUSED = [
    "k: 1\n # a\nl: 2\n", "- x # a\n", "- x   # a\n", "- ''  # \n", "#a\n", "# a \n", "a\n  # b\n  c\n", "'a\n  # b\n", "[x,  # a\n  y]\n",
    "[x  # a\n  ]\n", "--- # a\nk: 1\n", "k:\n  # a\n- x\n", "? x\n# a\n: y\n", "k:  # a\n  v\n", "-\n  # a\n  v\n", "---\n# a\nv\n",
    "---  # a\nv\n", "---\n# a\n&x\nk: 1\n", "| # a\n  x\n", "%YAML 1.1\n# a\n--- x\n",
    "%YAML 1.1  # a\n--- x\n", "x\n...  # a\n", "k: |\n  x\n # a\nl: 1\n", " # a\nx\n", "- - x\n  # a\n # b\n", "&x # a\nk: 1\n", "x\n--- y\n  # a\n",
]
