#!/usr/bin/env python3
"""Compares a built `yamlemit` with the model on random scripts: status, output bytes and the printed line.

    compare.py PROGRAM [FIRST [COUNT]]        seeds FIRST to FIRST+COUNT-1 (default 0, 500)
    compare.py --readback PROGRAM [FIRST [COUNT]]
        what PROGRAM wrote in canonical mode is read by the canonical reader and compared with the content
    compare.py --portable PROGRAM [FIRST [COUNT]]
        the same scripts, half of them with the line `portable on`
    compare.py --blanks PROGRAM [FIRST [COUNT]]
        as --portable, two thirds of them with the line `blanks literal` (for a program that knows it)
    compare.py --streams PROGRAM [FIRST [COUNT]]
        what PROGRAM wrote for accepted lists, in every mode and half of them portable, is read by the reader of whole streams

A difference is printed with its seed and kept as out-SEED.script beside the caller.
"""
import random, subprocess, sys
import content, random_lists, readers, stream_reader, program_model
from layout import *

def broken_events(r):
    """A list that some event makes refused, or that stops early."""
    L = random_lists.events(r, bad=r.random() < 0.5)
    for _ in range(r.choice([0, 1, 1, 2])):
        k = r.random(); i = r.randrange(len(L) + 1)
        if k < 0.3 and L: L.pop(min(i, len(L) - 1))
        elif k < 0.6: L.insert(i, r.choice([StreamStart(), StreamEnd(), DocStart(), DocEnd(), Alias("a"), Scalar(value="v"), SeqStart(), SeqEnd(), MapStart(), MapEnd()]))
        elif k < 0.7: L.insert(i, Alias(r.choice(["", "a b", "é", "a-b_9"])))
        elif k < 0.8: L.insert(i, Scalar(r.choice(["", "a b", None]), r.choice(["", "!t", None]), "v", r.random() < 0.5, r.random() < 0.5))
        elif k < 0.9: L.insert(i, DocStart(r.choice([None, (1, 3), (2, 1), (1, 1)]), tuple(r.choice([("", "x"), ("!a", "x"), ("a!", "x"), ("!a.b!", "x"), ("!e!", ""), ("!e!", "x"), ("!", "y")]) for _ in range(r.randint(0, 2)))))
        else: L = L[:i]
    return L

def spoiled(r, s: bytes) -> bytes:
    k = r.random()
    if k < 0.5 or not s: return s
    i = r.randrange(len(s))
    if k < 0.6: return s[:i]
    if k < 0.7: return s[:i] + r.choice([b" ", b'"', b"\\", b"\r", b"\n", b"\xff", b"-", b"1", b"#", b"\xc2"]) + s[i:]
    if k < 0.8: return s[:i] + s[i+1:]
    lines = s.split(b"\n"); j = r.randrange(len(lines))
    lines.insert(j, r.choice([b"", b"# c", b"width 5", b"+SEQ any 1 - -", b" -STR", b"-STR ", b"indent 2147483648", b"limit 4294967296", b"limit 007", b"breaks12 on", b"sequences indented", b"sequences on", b"=VAL any 1 1 - - \"\\u{D800}\"", b"width -0", b"indent 00004"]))
    return b"\n".join(lines)

def script_of(seed, portable=False, blanks=False):
    r = random.Random(seed); s = random_lists.settings(r, seed); s.breaks12 = r.random() < 0.15; s.portable = portable and seed % 2 == 0
    s.literal_blanks = blanks and seed % 3 != 0
    L = random_lists.events(r) if r.random() < 0.6 else broken_events(r)
    if r.random() < 0.3: s.limit = r.choice([0, 1, 2, 3, 5, 10, 20, 50, 100])
    text = random_lists.script(s, L)
    return spoiled(r, text) if r.random() < 0.4 else text

def main(argv):
    blanks = argv[:1] == ["--blanks"]
    if blanks: argv = ["--portable"] + argv[1:]
    readback = argv[:1] == ["--readback"]; streams = argv[:1] == ["--streams"]; portable = streams or argv[:1] == ["--portable"]
    if readback or portable: argv = argv[1:]
    program, first, count = argv[0], int(argv[1]) if len(argv) > 1 else 0, int(argv[2]) if len(argv) > 2 else 500
    differ = seen = 0
    for seed in range(first, first + count):
        script = script_of(seed, portable, blanks)
        p = subprocess.run([program], input=script, capture_output=True)
        if readback:
            parsed = readers.parse_script(script)
            if parsed[0] == "bad" or not parsed[0].canonical or p.returncode != 0: continue
            L = [e for _, e in parsed[1]]
            if not L or not isinstance(L[0], StreamStart) or not isinstance(L[-1], StreamEnd): continue
            try: readers.content_of(L, True)
            except ValueError: continue
            seen += 1
            if readers.canonical_read(p.stdout) != readers.content_of(L, True): differ += 1; print("seed %d does not read back" % seed)
            continue
        if streams:
            parsed = readers.parse_script(script)
            if parsed[0] == "bad" or p.returncode != 0: continue
            L = [e for _, e in parsed[1]]
            if not L or not isinstance(L[0], StreamStart) or not isinstance(L[-1], StreamEnd) or len(p.stdout) == parsed[0].limit: continue
            eff = effective(parsed[0], L[0].encoding)
            try: layout_of(eff, L)
            except Exception: continue
            if not eff.portable and (content.is_lost_document(eff, L) or content.has_flow_sign_after_handle(eff, L)): continue
            seen += 1
            if not content.agrees(eff, L, stream_reader.read(p.stdout)): differ += 1; print("seed %d does not read back" % seed)
            continue
        seen += 1
        status, out, line, length = program_model.run(script)
        said = p.stderr.decode("utf-8", "replace").rstrip("\n")
        same_line = said == line or (length > 16000 and said.endswith("write error") and line.endswith("write error"))
        if (p.returncode, p.stdout) != (status, out) or not same_line:
            differ += 1
            open("out-%d.script" % seed, "wb").write(script)
            print("seed %d differs\n  program %s %r %s\n  model   %s %r %s" % (seed, p.returncode, p.stdout[:300], said, status, out[:300], line))
            if differ >= 20: break
    print("%d scripts, %d differ" % (seen, differ))
    return 1 if differ else 0

if __name__ == "__main__":
    sys.setrecursionlimit(100000); sys.exit(main(sys.argv[1:]))
