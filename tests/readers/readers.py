#!/usr/bin/env python3
"""Streams that the program wrote in portable mode, read by other readers of YAML: readers.py PROGRAM COUNT [--libyaml EVENTS]

The scripts are those of the stored sample, one for each of the texts below that have tabs or spaces at the ends of their
lines, and COUNT random ones of the model's, two thirds of them with `blanks literal`; each with `portable on`. What
a script gives is compared with what a reader finds in the bytes: documents, directives, anchors, aliases, tags, values,
and for a scalar without a written tag whether it is resolved as a plain or as a quoted one, which its flags must allow.
Only the differences that docs/DIFFERENCES.md lists are let through, and counted.
"""
import argparse, json, pathlib, random, re, subprocess, sys

SAMPLE = pathlib.Path(__file__).resolve().parent.parent / "scripts" / "sample.jsonl"
SETTINGS = {"limit", "encoding", "canonical", "unicode", "indent", "width", "break", "breaks12", "portable", "sequences", "blanks"}
# Texts that are literal only where blanks are, and two with a line of blanks alone, which never are.
BLANK_TEXTS = ["a\tb", "\ta\nb\n", "a\t\nb", "a\n\tb\n\n", "a \nb", "a  ", "a\nb \n", " a\t\n\n b \t\n", "a\n \nb", "\t\na"]

# ---- scripts

def fields(line):
    """The fields of a line: a word, or a text as a list of one."""
    out = []
    for word, quoted in re.findall(r'([^" ][^ ]*)|"((?:[^"\\]|\\.)*)"', line, re.S):
        if word: out.append(word)
        else: out.append([re.sub(r"\\(u\{([0-9A-Fa-f]+)\}|.)", lambda m: chr(int(m[2], 16)) if m[2] else "\n" if m[1] == "n" else m[1], quoted, flags=re.S)])
    return out

def text(field): return field[0] if isinstance(field, list) else None

def meant(script):
    """The events of a script as a reader should find them; a tag counts where it is written."""
    canonical = b"\ncanonical on\n" in b"\n" + script
    out = []
    for line in script.decode().split("\n"):
        if not line or line.startswith("#"): continue
        kind, *rest = fields(line)
        if kind == "+DOC":
            version = None if rest[1] == "-" else tuple(int(n) for n in rest[1].split("."))
            texts = [text(f) for f in rest[2:]]
            out.append(("document", version, tuple(zip(texts[0::2], texts[1::2]))))
        elif kind == "-DOC": out.append(("document-end",))
        elif kind == "=ALI": out.append(("alias", text(rest[0])))
        elif kind == "=VAL":
            plain, quoted, tag = rest[1] == "1", rest[2] == "1", text(rest[4])
            written = tag if canonical or not (plain or quoted) else None
            allowed = {"plain"} if plain else set()
            out.append(("scalar", text(rest[3]), written, allowed | ({"quoted"} if quoted else set()), text(rest[5])))
        elif kind in ("+SEQ", "+MAP"):
            written = text(rest[3]) if canonical or rest[1] == "0" else None
            out.append(("sequence" if kind == "+SEQ" else "mapping", text(rest[2]), written))
        elif kind == "-SEQ": out.append(("sequence-end",))
        elif kind == "-MAP": out.append(("mapping-end",))
        else: assert kind in SETTINGS or kind in ("+STR", "-STR"), line
    return out

def blank_script(value):
    """A text for which literal is asked, as a root, in a sequence, and below a key that is the same text."""
    quoted = '"%s"' % value.replace("\n", "\\n")
    scalar = "=VAL literal 1 1 - - " + quoted
    documents = [[scalar], ["+SEQ block 1 - -", scalar, scalar, "-SEQ"], ["+MAP block 1 - -", scalar, scalar, "=VAL any 1 1 - - \"k\"", scalar, "-MAP"]]
    events = [line for root in documents for line in ["+DOC 1 -", *root, "-DOC 1"]]
    return "\n".join(["portable on", "blanks literal", "+STR utf8", *events, "-STR"]).encode()

def scripts(count):
    for line in SAMPLE.open():
        lines = json.loads(line)["script"].encode("latin-1").split(b"\n")
        yield b"\n".join([b"portable on"] + [x for x in lines if not x.startswith((b"portable ", b"limit "))])
    yield from map(blank_script, BLANK_TEXTS)
    sys.dont_write_bytecode = True  # (so that nothing is left beside the sources)
    sys.path.insert(0, str(SAMPLE.parents[1] / "model"))
    import random_lists
    for seed in range(count):
        r = random.Random(seed)
        settings = random_lists.settings(r, seed)
        settings.breaks12, settings.portable, settings.literal_blanks = r.random() < 0.15, True, seed % 3 != 0
        yield random_lists.script(settings, random_lists.events(r))

def written(program, count):
    """Scripts that the program accepts to the stream's end, each with its bytes."""
    for script in scripts(count):
        ran = subprocess.run([program], input=script, capture_output=True, timeout=60)
        lines = [x for x in script.split(b"\n") if x and not x.startswith(b"#")]
        if ran.returncode == 0 and lines[-1] == b"-STR": yield script, ran.stdout

# ---- readers

def by_libyaml(events, streams):
    """What libyaml's parser reads of each stream, or its words on a fault."""
    given = b"".join(b"%d\n" % len(data) + data for data in streams)
    ran = subprocess.run([events], input=given, capture_output=True, check=True)
    def of(word): return None if word == "-" else bytes.fromhex(word[1:]).decode()
    found = []
    for line in ran.stdout.decode().splitlines():
        kind, *rest = line.split(" ")
        if kind == ".": yield found; found = []
        elif kind == "!": yield line; found = []
        elif kind == "document":
            texts = [of(word) for word in rest[1:]]
            found.append((kind, None if rest[0] == "-" else tuple(int(n) for n in rest[0].split(".")), tuple(zip(texts[0::2], texts[1::2]))))
        elif kind == "scalar": found.append((kind, of(rest[0]), no_bare(of(rest[1])), rest[2], of(rest[3])))
        else: found.append((kind, *(of(word) for word in rest)))

def by_pyyaml(yaml, streams):
    """What PyYAML's own parser reads of each stream, or its words on a fault."""
    for data in streams:
        try: yield [x for x in (of_pyyaml(yaml, e) for e in yaml.parse(data, Loader=yaml.Loader)) if x]
        except yaml.YAMLError as fault: yield "! " + str(fault)

def no_bare(tag):
    """A scalar's tag; the bare one says only that the scalar is resolved as a plain one."""
    return None if tag == "!" else tag

def of_pyyaml(yaml, e):
    if isinstance(e, yaml.DocumentStartEvent): return ("document", e.version, tuple((e.tags or {}).items()))
    if isinstance(e, yaml.DocumentEndEvent): return ("document-end",)
    if isinstance(e, yaml.AliasEvent): return ("alias", e.anchor)
    if isinstance(e, yaml.ScalarEvent): return ("scalar", e.anchor, no_bare(e.tag), "plain" if e.implicit[0] else "quoted", e.value)
    if isinstance(e, yaml.SequenceStartEvent): return ("sequence", e.anchor, e.tag)
    if isinstance(e, yaml.SequenceEndEvent): return ("sequence-end",)
    if isinstance(e, yaml.MappingStartEvent): return ("mapping", e.anchor, e.tag)
    if isinstance(e, yaml.MappingEndEvent): return ("mapping-end",)
    return None

# ---- comparing

def reads_as(tag, scalar, cuts):
    """What a reader makes of a written tag, and whether that is a listed difference."""
    read = tag.split("\0")[0] if cuts and tag else tag
    if scalar and read == "!": read = None
    return read, read != tag

def event_agrees(given, found, cuts):
    """Whether a reader found what was given; None where only a listed difference stands between them."""
    if given[0] != found[0] or given[0] not in ("scalar", "sequence", "mapping"): return given == found
    scalar = given[0] == "scalar"
    read, listed = reads_as(given[2], scalar, cuts)
    fine = given[1] == found[1] and found[2] == read
    if scalar: fine = fine and given[4] == found[4] and (given[2] is not None or found[3] in given[3])
    return None if fine and listed else fine

def compare(name, cases, readings, cuts):
    """How many streams a reader reads as given; prints the others."""
    as_given = listed = 0
    wrong = []
    for (script, data), found in zip(cases, readings, strict=True):
        given = meant(script)
        fine = [] if isinstance(found, str) or len(found) != len(given) else [event_agrees(g, f, cuts) for g, f in zip(given, found)]
        if not fine and given or False in fine: wrong.append((script, data, found))
        elif None in fine: listed += 1
        else: as_given += 1
    for script, data, found in wrong[:5]: print("%s reads otherwise\n  script %r\n  bytes  %r\n  read   %r" % (name, script, data, found))
    print("%s: %d streams as given, %d with a listed difference, %d otherwise" % (name, as_given, listed, len(wrong)))
    return len(wrong)

def main():
    p = argparse.ArgumentParser()
    p.add_argument("program"), p.add_argument("count", type=int), p.add_argument("--libyaml")
    o = p.parse_args()
    cases = list(written(o.program, o.count))
    streams = [data for _, data in cases]
    wrong = 0 if cases else 1
    if o.libyaml: wrong += compare("libyaml", cases, by_libyaml(o.libyaml, streams), True)
    try: import yaml
    except ImportError: print("PyYAML isn't installed: it reads nothing")
    else: wrong += compare("PyYAML", cases, by_pyyaml(yaml, streams), False)
    return 1 if wrong else 0

if __name__ == "__main__":
    sys.setrecursionlimit(100000)
    sys.exit(main())
