#!/usr/bin/env python3
"""Texts with comments that are spoiled: lines and comments are moved, added or dropped. If a strict reader reads such a text, the other
reads the same documents and comments, and PyYAML and libyaml's parser, if they are installed, the same documents.
test_spoiled_comments.py [TEXTS]"""
import collections, random, sys
import lines_reader, random_comments, random_lists, stream_reader
from comments import comment_text
from layout import *
try: import yaml
except ImportError: yaml = None; print("skipped: tests/model/test_spoiled_comments.py: PyYAML isn't installed, so only the strict readers are compared")

TEXTS, FIRST = 6000, 500000                           # as the test command runs it; LEAST is for these
LEAST = {"texts": 6000, "read": 1600, "read with comments": 1400}
tally, failures = collections.Counter(), 0
def fail(*what):
    global failures
    failures += 1; print("FAIL", *what)

def text_of(r, seed):
    """A text with comments, whose lines end with LF."""
    s = random_lists.settings(r, seed); s.portable, s.literal_blanks = r.random() < 0.5, r.random() < 0.3
    s.canonical, s.encoding, s.line_break = False, "utf8", "ln"
    L = random_lists.events(r, docs=r.choice([1, 1, 2]))
    return "".join(layout_of(effective(s, "any"), L, random_comments.comments(r, L)).pieces)

def spoil_line(r, lines):
    k, i = r.random(), r.randrange(len(lines))
    comments = [j for j, line in enumerate(lines) if line.lstrip(" ").startswith("#")]
    if k < 0.35 and comments: i = r.choice(comments); lines[i] = " " * r.choice([0, 0, 1, 2, 3, 4, 6]) + lines[i].lstrip(" ")
    elif k < 0.6: lines.insert(i, " " * r.choice([0, 0, 1, 2, 2, 3, 4, 6]) + "# " + comment_text(random_comments.line(r)).strip())
    elif k < 0.75: lines[i] += r.choice(["  # x", " # x", "#x", "  #"])
    elif k < 0.85 and len(lines) > 1: lines.pop(i)
    elif k < 0.95: lines.insert(i, "")
    else: j = r.randrange(len(lines)); lines[i], lines[j] = lines[j], lines[i]

def flat(node, out):
    """A node that a strict reader read, as events."""
    if node[0] == "alias": out.append(("alias", node[1]))
    elif node[0] == "scalar": out.append(("scalar", node[1], node[4]))
    else:
        out.append((node[0], node[1]))
        for entry in node[3]:
            for child in entry if node[0] == "map" else (entry,): flat(child, out)
        out.append(("end",))
    return out

def by_pyyaml(text, **loader):
    """What PyYAML reads, in the same form."""
    names = dict(DocumentStartEvent=lambda e: ("document",), AliasEvent=lambda e: ("alias", e.anchor), ScalarEvent=lambda e: ("scalar", e.anchor, e.value),
                 SequenceStartEvent=lambda e: ("seq", e.anchor), MappingStartEvent=lambda e: ("map", e.anchor),
                 SequenceEndEvent=lambda e: ("end",), MappingEndEvent=lambda e: ("end",))
    try: return [names[type(e).__name__](e) for e in yaml.parse(text, **loader) if type(e).__name__ in names]
    except yaml.YAMLError as error: return str(error)

def check_text(seed):
    r = random.Random(seed)
    lines = text_of(r, seed).split("\n")
    for _ in range(r.choice([1, 1, 2, 3])): spoil_line(r, lines)
    text = "\n".join(lines); tally["texts"] += 1
    read, other = stream_reader.read_with_comments(text.encode()), lines_reader.read_with_comments(text.encode())
    if read != other: fail("the strict readers differ", seed, repr(text), "\n ", read, "\n ", other); return
    if read is None: return
    tally["read"] += 1; tally["read with comments"] += "#" in text
    documents = stream_reader.documents_alone(read)
    want = [event for document in documents for event in [("document",)] + flat(document[2], [])]
    for name, loader in (("PyYAML", {}), ("libyaml", dict(Loader=getattr(yaml, "CLoader", None)))) if yaml else ():
        if name == "libyaml" and loader["Loader"] is None: continue
        got = by_pyyaml(text, **loader); tally["read by " + name] += 1
        if got != want: fail(name, "reads otherwise", seed, repr(text), "\n ", got, "\n ", want)

if __name__ == "__main__":
    sys.setrecursionlimit(200000)
    texts = int((sys.argv + [TEXTS])[1])
    for seed in range(FIRST, FIRST + texts): check_text(seed)
    if len(sys.argv) == 1:
        for name, least in LEAST.items():
            if tally[name] < least: fail("fewer than", least, name)
    print("test_spoiled_comments.py:", ", ".join("%d %s" % (count, name) for name, count in tally.items()), "and", failures, "failures")
    sys.exit(failures != 0)
