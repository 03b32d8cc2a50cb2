#!/usr/bin/env python3
"""By test: every accepted list, in every mode, reads back with its whole content. test_streams.py [LISTS-EACH [VALUES]]

With `portable` on without a condition; without it for all lists but two kinds (content.py). A third of the lists indents the
sequences in mappings; the lines reader reads what the stream reader reads. First the rows of `portable`.
"""
import itertools, random, sys
import content, found_comments, random_lists, lines_reader, readers, stream_reader, program_model
from layout import *

sys.setrecursionlimit(200000)
failures = checks = 0
def check(name, got, want):
    global failures, checks
    checks += 1
    if got != want: failures += 1; print("FAIL", name, "\n  got ", repr(got)[:300], "\n  want", repr(want)[:300])

# ---- rows
def frame(*nodes): return [StreamStart(), DocStart(), *nodes, DocEnd(), StreamEnd()]
def out(L, **k):
    o, answers, f, em = run_events(Settings(portable=True, **k), L); assert not any(answers), answers; return o
def S(value, tag=None, anchor=None, plain=True, quoted=True, style="any"): return Scalar(anchor, tag, value, plain, quoted, style)
def T(tag, value="x"): return S(value, tag, None, False, False)
def D(prefix, tag): return [StreamStart(), DocStart(None, (("!e!", prefix),)), T(tag), DocEnd(), StreamEnd()]
check("a root of nothing", out(frame(S(""))), b"---\n")
check("a root of nothing, explicit end", out([StreamStart(), DocStart(), S(""), DocEnd(False), StreamEnd()]), b"---\n...\n")
check("two roots of nothing", out([StreamStart(), DocStart(), S(""), DocEnd(), DocStart(), S(""), DocEnd(), StreamEnd()]), b"---\n---\n")
check("UTF-16, CR LF", out(frame(S("")), encoding="utf16be", line_break="crln").hex(), "feff002d002d002d000d000a")
check("roots", [out(frame(*x)) for x in ([S("a")], [SeqStart(), SeqEnd()], [SeqStart(), S("a"), SeqEnd()], [MapStart(), S("a"), S(""), MapEnd()])], [b"--- a\n", b"--- []\n", b"---\n- a\n", b"---\na:\n"])
check("canonical as before", out(frame(S("a")), canonical=True), b'---\n"a"\n')
check("tag after a handle", out(frame(T("!a,b[c]"))), b"--- !a%2Cb%5Bc%5D x\n")
check("verbatim tag", out(frame(T("tag:yaml.org,2002:"))), b"--- !<tag:yaml.org,2002:> x\n")
check("tags in flow", out(frame(SeqStart(style="flow"), T("tag:yaml.org,2002:,"), T("a,b"), SeqEnd())), b"--- [!!%2C x, !<a,b> x]\n")
check("a key's length is that before escapes", out(frame(MapStart(style="block"), T("!" + "," * 127, ""), S("v"), MapEnd())), b"---\n!" + b"%2C" * 127 + b" '': v\n")
check("the first ! of a prefix", out(D("!x", "!xy")), b"%TAG !e! !x\n--- !e!y x\n")
check("a later ! of a prefix", out(D("!!a!", "!!a!b")), b"%TAG !e! !%21a%21\n--- !e!b x\n")
check("a prefix without !", out(D("a!,[", "a!,[,")), b"%TAG !e! a%21,[\n--- !e!%2C x\n")
check("off", [run_events(Settings(), x)[0] for x in (frame(S("")), frame(T("!a,b")), D("!x", "!xy"))], [b"\n", b"!a,b x\n", b"%TAG !e! %21x\n--- !e!y x\n"])
LS, PS = "\u2028", "\u2029"
def unicode(v, style="any", **k): return out(frame(S(v, style=style)), unicode=True, **k)
check("breaks of 1.2: plain", [unicode("a" + LS + "b"), unicode(PS)], [b'--- "a\\Lb"\n', b'--- "\\P"\n'])
check("breaks of 1.2: other styles", [unicode("a" + LS + "\nb", x) for x in ("single", "double", "literal", "folded")], [b'--- "a\\L\\nb"\n'] * 4)
check("breaks of 1.2: with breaks12 the same", unicode("\xe9" + LS, breaks12=True), '--- "\xe9\\L"\n'.encode())
check("breaks of 1.2: a key is no simple one", out(frame(MapStart(style="block"), S("a" + LS + "b"), S("v"), MapEnd()), unicode=True), b'---\n? "a\\Lb"\n: v\n')
check("breaks of 1.2: canonical", unicode(LS, canonical=True), b'---\n"\\L"\n')
check("breaks of 1.2: off", run_events(Settings(unicode=True), frame(S("a" + LS + "b")))[0], ("'a" + LS + "  b'\n").encode())
check("in scripts", program_model.run(b"portable on\n+STR any\n+DOC 1 -\n=VAL any 1 1 - - \"\"\n-DOC 1\n-STR\n"), (0, b"---\n", "", 4))
check("a line too many", program_model.run(b"portable on\nportable on\n")[0], 2)
seq = b"+STR any\n+DOC 1 -\n+MAP block 1 - -\n=VAL any 1 1 - - \"a\"\n+SEQ block 1 - -\n=VAL any 1 1 - - \"b\"\n-SEQ\n-MAP\n-DOC 1\n-STR\n"
check("sequences in scripts", [program_model.run(x + seq)[:3] for x in (b"", b"sequences undented\n", b"sequences indented\n")], [(0, b"a:\n- b\n", "")] * 2 + [(0, b"a:\n  - b\n", "")])
check("sequences, bad lines", [program_model.run(x + seq)[0::2] for x in (b"sequences on\n", b"sequences\n", b"sequences indented undented\n", b"sequences \"indented\"\n")], [(2, "yamlemit: line 1: cannot be read")] * 4)
check("sequences, at most once and before the events", [program_model.run(x)[0::2] for x in (b"sequences indented\nsequences undented\n", b"+STR any\nsequences indented\n")], [(2, "yamlemit: line 2: cannot be read")] * 2)
check("sequences, to a script and back", [readers.parse_script(readers.to_script(Settings(indented_sequences=x), []))[0].indented_sequences for x in (False, True)], [False, True])
check("sequences, two notations", [readers.to_script(Settings(indented_sequences=True), []), random_lists.script(Settings(indented_sequences=True), [StreamStart()])], [b"sequences indented\n", b"sequences indented\n+STR any\n"])
# texts that aren't read, or as something else
for text in (b"- a\n  - b\n-c\n", b"a: b: c\n", b"[a b]]\n", b"[a, b\n", b"{a: b, c}\n", b"&a*b\n", b"!t!u x\n", b"!a,b x\n", b"\"a\n", b"'a\n", b"\"a\tb\"\n", b"- |\na\n", b"a\n--- b\n...c\n", b"%YAML 1.1\na\n", b"a\n%YAML 1.1\n--- b\n", b"*a: b\n", b"- !\n", b" a\n", b"\n - a\n"):
    check("no reading of %r" % text, stream_reader.read(text), None)
check("blank lines before a document", [stream_reader.read(b"\n" + x + b"- a\n") for x in (b"", b"\n", b"  \n")], [stream_reader.read(b"- a\n")] * 3)
check("breaks alone are no document", [stream_reader.read(x) for x in (b"", b"\n", b"\n\n")], [[], [], []])
check("one document", stream_reader.read(b"k:\n- a\n- ? b\n  : \"c\"\n"), [(None, (), ("map", None, None, [(("scalar", None, None, "plain", "k"), ("seq", None, None, [("scalar", None, None, "plain", "a"), ("map", None, None, [(("scalar", None, None, "plain", "b"), ("scalar", None, None, "quoted", "c"))])]))]))])

# ---- lists
def reads(name, s, L):
    eff = effective(s, L[0].encoding); data = encode(eff.encoding, "".join(layout_of(eff, L).pieces))
    if eff.portable or not (content.is_lost_document(eff, L) or content.has_flow_sign_after_handle(eff, L)):
        read = stream_reader.read_with_comments(data); check(name, content.agrees(eff, L, stream_reader.documents_alone(read)), True)
        check("lines: " + name, lines_reader.read_with_comments(data) == read, True)
        check("no comments: " + name, read is None or found_comments.count(found_comments.found(read)), 0)

def accepted(s, L):
    eff = effective(s, L[0].encoding); g = Grammar()
    for e in L:
        if refusal_content(eff, g, e): return False
        g.take(e)
    return True

def check_random_lists(count):
    for seed in range(count):
        r = random.Random(seed); s = random_lists.settings(r, seed); s.breaks12 = r.random() < 0.15; s.portable = seed % 2 == 0
        L = random_lists.events(r)
        if accepted(s, L): reads("random list %d" % seed, s, L)

ALPHABETS = [("a \n:#-'?", 3), ("a \n\u2028\t\"\\\u2029", 3), ("-. a\n%", 4), (",[]{}a:? ", 3), ("&*!|>%@`a \n", 3), ("a \n", 6)]
def in_all_places(v, style):
    x = Scalar(value=v, style=style)
    M = lambda *n, style="block": [MapStart(style=style), *n, MapEnd()]
    Q = lambda *n, style="block": [SeqStart(style=style), *n, SeqEnd()]
    return [StreamStart(), DocStart(), x, DocEnd(), DocStart(), *Q(x, *M(x, x), *M(*Q(x, style="flow"), x, *M(x, x, style="flow"), x), *Q(x), *M(*Q(x), x, *M(x, x), *Q(x, x))), DocEnd(), DocStart((1, 1)), x, DocEnd(False), StreamEnd()]
def short_values(limit):
    seen, k = set(), 0
    for alphabet, longest in ALPHABETS:
        for m in range(longest + 1):
            for t in itertools.product(alphabet, repeat=m):
                v = "".join(t)
                if v in seen or k >= limit: continue
                seen.add(v); k += 1
                for style in ("any", "single", "double", "literal", "folded"):
                    reads("value %r %s" % (v, style), Settings(unicode=True, portable=k % 2 == 0, width=[None, -1, 5][k % 3], indent=[None, 3, 9][k % 3], indented_sequences=k % 4 > 1), in_all_places(v, style))

if __name__ == "__main__":
    check_random_lists(int((sys.argv + ["4000"])[1])); short_values(int((sys.argv + ["4000", "2000"])[2]))
    print("test_streams.py:", checks, "checks,", failures, "failures")
    sys.exit(failures != 0)
