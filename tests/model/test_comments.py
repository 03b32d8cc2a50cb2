#!/usr/bin/env python3
"""Comments: rows that were worked out by hand, and random comments at every event of random lists. test_comments.py [LISTS [CALLED]]

Of each random list: without comments its text is that of the events alone; with them both strict readers read the same documents, and find
each comment at the place that `found_comments.expected` gives. Of the first CALLED lists: after each call the emitter's text is
the first pieces, at most three events wait, and a piece is its comments and the piece that its event has without them.
"""
import collections, random, re, sys
import comment_rows, content, found_comments, lines_reader, random_comments, random_lists, stream_reader
from comments import comment_text, head_of
from layout import *

LISTS, CALLED = 2500, 300                             # as the test command runs it; LEAST is for these
LEAST = {"lists read back": 2400, "comments given": 14000, "comments found": 7000, "calls": 2600, "pieces after a head": 300,
         "canonical": 250, "flow": 400, "utf16": 1000, "crln": 400, "cr": 400, "portable": 1000, "breaks12": 1000, "undented": 1000}
READERS = (stream_reader, lines_reader)
BREAKS_OF_1_1, BREAKS_OF_1_2 = "\n\u2028\u2029", "\n"
tally, failures = collections.Counter(), 0
def check(name, got, want):
    global failures
    tally["checks"] += 1
    if got != want: failures += 1; print("FAIL", name, "\n  got ", repr(got)[:600], "\n  want", repr(want)[:600])

# ---- rows

def check_rows():
    for name, given, (L, comments), text in comment_rows.ROWS:
        eff = effective(Settings(**given), "any")
        check("row: " + name, "".join(layout_of(eff, L, comments).pieces), text)
        check_read("row: " + name, eff, L, comments, text.encode())
    for text, want in comment_rows.PLACES:
        for reader in READERS: check("places in %r" % text, found_comments.found(reader.read_with_comments(text.encode())), want)
    for text in comment_rows.REFUSED:
        for reader in READERS: check("%s of %r" % (reader.__name__, text), reader.read_with_comments(text.encode()), None)

def check_texts():
    """The calls before an event, and the texts that they take."""
    check("lines of a text", head_of("a\r\nb\n\nc\r"), ("a", "b", "", "c"))
    check("characters", comment_text("\t\x00a\ufeff\u2029\x7f\U0001F600 \r"), "  a   \U0001F600")
    emitter = Emitter(Settings())
    for event in (StreamStart(), DocStart(), SeqStart()): emitter.emit(event)
    emitter.head_comment("one\ntwo"); emitter.blank_line(); emitter.blank_line(); emitter.head_comment("")
    emitter.line_comment("x"); emitter.line_comment("y\nz")
    emitter.emit(Scalar(value="a"))
    check("the comments wait with their event", (emitter.text, emitter.held), ("", 2))
    emitter.emit(Scalar(value="b"))
    check("calls", emitter.text, "# one\n# two\n\n#\n- a  # y z\n- b")
    check("an error", emitter.emit(DocEnd()), 4)
    emitter.head_comment("lost"); emitter.blank_line(); emitter.line_comment("lost")
    check("no comments after it", (emitter.emit(SeqEnd()), emitter.text, emitter.given), (4, "# one\n# two\n\n#\n- a  # y z\n- b", NO_COMMENTS))

# ---- random lists

def check_read(name, eff, L, comments, data):
    """Both strict readers read the events' documents, and find the comments; in portable mode by the line breaks of YAML 1.1 and of 1.2."""
    want = found_comments.expected(eff, L, comments)
    for breaks in (BREAKS_OF_1_1, BREAKS_OF_1_2) if eff.portable else (BREAKS_OF_1_2,) if eff.breaks12 else (BREAKS_OF_1_1,):
        for reader in READERS:
            read = reader.read_with_comments(data, breaks)
            check("%s: %s" % (name, reader.__name__), content.agrees(eff, L, stream_reader.documents_alone(read)), True)
            check("%s: comments by %s" % (name, reader.__name__), read and found_comments.found(read), want)
    return found_comments.count(want)

def random_case(seed):
    r = random.Random(seed)
    s = random_lists.settings(r, seed)
    s.breaks12, s.portable, s.literal_blanks = r.random() < 0.2, r.random() < 0.5, r.random() < 0.3
    if s.canonical and r.random() < 0.5: s.canonical = False
    L = random_lists.events(r)
    return s, L, random_comments.comments(r, L)

def note_kinds(s, eff, L):
    for name, holds in (("canonical", s.canonical), ("flow", any(isinstance(e, (SeqStart, MapStart)) and e.style == "flow" for e in L)),
                        ("utf16", eff.encoding != "utf8"), ("crln", s.line_break == "crln"), ("cr", s.line_break == "cr"), ("portable", s.portable),
                        ("breaks12", eff.breaks12), ("undented", not s.indented_sequences)):
        tally[name] += holds

def check_list(seed):
    s, L, comments = random_case(seed)
    eff = effective(s, L[0].encoding)
    name = "list %d" % seed
    alone = layout_of(eff, L).pieces
    check(name + " without comments", layout_of(eff, L, [NO_COMMENTS] * len(L)).pieces, alone)
    pieces = layout_of(eff, L, comments).pieces
    if eff.canonical: check(name + " in canonical mode", pieces, alone)
    if seed < CALLED: check_calls(name, s, L, comments, pieces, alone)
    if not eff.portable and (content.is_lost_document(eff, L) or content.has_flow_sign_after_handle(eff, L)): tally["passed over"] += 1; return
    note_kinds(s, eff, L); tally["lists read back"] += 1
    tally["comments given"] += sum(len([x for x in own.head if x is not None]) + (own.line is not None) for own in comments)
    tally["comments found"] += check_read(name, eff, L, comments, encode(eff.encoding, "".join(pieces)))

def check_calls(name, s, L, comments, pieces, alone):
    emitter = Emitter(s)
    for event, own in zip(L, comments):
        emitter.given = own
        check(name + ", answer", emitter.emit(event), None); tally["calls"] += 1
        check(name + ", the first pieces", emitter.text, "".join(pieces[:emitter.written]))
        check(name + ", at most three events wait", emitter.held <= 3, True)
    check(name + ", all pieces", emitter.written, len(L))
    for event, own, piece, plain in zip(L, comments, pieces, alone):
        if piece == plain or own.line is not None: continue
        tally["pieces after a head"] += 1
        marker = re.match(r"[\r\n]*\.\.\.[\r\n]+", plain) if isinstance(event, (DocStart, StreamEnd)) else None      # it ends the document before
        front = marker.group() if marker else ""
        check(name + ", the piece after a head", (piece[:len(front)], piece.endswith(plain[len(front):].lstrip("\r\n").lstrip(" "))), (front, True))

if __name__ == "__main__":
    sys.setrecursionlimit(200000)
    lists, CALLED = (int(x) for x in (sys.argv[1:] + [LISTS, CALLED][len(sys.argv) - 1:]))
    check_rows(); check_texts()
    for seed in range(lists): check_list(seed)
    if len(sys.argv) == 1:
        for name, least in LEAST.items(): check("at least %d: %s" % (least, name), tally[name] >= least, True)
    print("test_comments.py:", ", ".join("%d %s" % (tally[name], name) for name in ["checks"] + list(LEAST)), "and", failures, "failures")
    sys.exit(failures != 0)
