#!/usr/bin/env python3
"""Random cases as JSON lines, for trying definitions at scale: cases.py [FIRST [COUNT]]

Each line: settings given, effective settings, events, and
  accepted lists: pieces (one text an event), for each prefix length k the number written and, for the last, the completion;
                  output (hex), bodies (style, text after the lead, value, in flow, indentation in force or -1),
                  content, where canonical is on (null for 'no such thing');
  refused lists:  the place and number of the first refusal.
"""
import dataclasses, json, random, sys
import random_lists, readers
from compare import broken_events
from layout import *

def plain(e): return dict(kind=type(e).__name__, **dataclasses.asdict(e))

def case(seed):
    r = random.Random(seed); s = random_lists.settings(r, seed); s.breaks12 = r.random() < 0.2
    L = random_lists.events(r) if r.random() < 0.7 else broken_events(r)
    first = L[0].encoding if L and isinstance(L[0], StreamStart) else "any"
    eff = effective(s, first)
    out = dict(seed=seed, settings=dataclasses.asdict(s), effective=dataclasses.asdict(eff), events=[plain(e) for e in L],
               written=[ready_count(L[:k]) for k in range(len(L) + 1)])
    g = Grammar()
    for k, e in enumerate(L):
        bad = refusal_content(eff, g, e)
        if bad: out["refused"] = dict(at=k, number=bad, text=pieces(eff, L, k)); return out
        g.take(e)
    out["accepted"] = g.where == "end"
    whole = completion(L); lay = layout_of(eff, whole)
    out["completion"] = [plain(e) for e in whole]; out["pieces"] = lay.pieces; out["bodies"] = lay.bodies
    if g.where == "end":
        data = encode(eff.encoding, "".join(lay.pieces)); out["output"] = data[:eff.limit].hex()
        if s.canonical: out["content"] = readers.content_of(L, True)
    return out

if __name__ == "__main__":
    sys.setrecursionlimit(100000)
    first, count = (int(x) for x in (sys.argv[1:] + ["0", "100"][len(sys.argv) - 1:]))
    for seed in range(first, first + count): print(json.dumps(case(seed)))
