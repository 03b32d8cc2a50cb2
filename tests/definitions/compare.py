#!/usr/bin/env python3
"""Compares the definitions of yaml_base with the model of tests/model: compare.py [--stored] [--first N] [--count N] [--kind KIND] [--wrong]

Each case becomes lemmas that hold by computation alone, in a crate above yaml_base that is made outside the repository, and
the checker computes them: it accepts a lemma exactly if the definition gives what the model gave. With --stored the cases
are those of sample.jsonl, else random ones. With --wrong one expected value in ten is changed first, and the run passes only
if the checker refuses each of the changed lemmas and no other.

The library yaml_base is the one that the test command left, or an earlier `rt lib`; else `rt lib` proves it first.
"""
import argparse, json, pathlib, random, re, shutil, subprocess, sys, tempfile, time

HERE = pathlib.Path(__file__).resolve().parent
ROOT = HERE.parent.parent
CASES_A_FILE = 15

# ---- values as terms

def text(value):
    """A text by its characters, as a literal."""
    out = []
    for c in value:
        n = ord(c)
        out.append({'"': '\\"', "\\": "\\\\"}.get(c) or (c if 0x20 <= n < 0x7F else "\\u{%X}" % n))
    return 'codes "%s"' % "".join(out) if out else "[]"

def octets(value):
    return text(bytes.fromhex(value).decode("latin-1"))

def several(items):
    return "(" + "".join(item + " ∷ " for item in items) + "[])"

def optional(value, term):
    return "None" if value is None else "(Some (%s))" % term(value)

def flag(value):
    return "true" if value else "false"

def integer(n):
    return "(pos %d)" % n if n >= 0 else "(negsuc %d)" % (-n - 1)

def record(**fields):
    return "(record { " + " ".join("%s = %s;" % field for field in fields.items()) + " })"

ENCODINGS = {"utf8": "utf8", "utf16le": "utf16_little", "utf16be": "utf16_big"}
BREAKS = {"cr": "carriage_return_break", "ln": "line_feed_break", "crln": "both_break",
          "\r": "carriage_return_break", "\n": "line_feed_break", "\r\n": "both_break"}
SCALAR = {"any": "any_style", "plain": "plain", "single": "single_quoted", "double": "double_quoted", "literal": "literal", "folded": "folded"}
COLLECTION = {"any": "any_layout", "block": "block", "flow": "flow"}
# The errors of refused events; the model numbers them from 1 on.
ERRORS = ["ExpectedStreamStart", "ExpectedDocumentStart", "ExpectedDocumentEnd", "ExpectedNode", "ExpectedNothing", "IncompatibleVersion", "TagHandleEmpty",
          "TagHandleStart", "TagHandleEnd", "TagHandleAlphabet", "TagPrefixEmpty", "DuplicateDirective", "AnchorEmpty", "AnchorAlphabet", "AliasEmpty",
          "AliasAlphabet", "TagEmpty", "NoTagNorImplicit", "TooDeep"]

def named(value, names):
    return "None" if value == "any" else "(Some %s)" % names[value]

def settings(s):
    return record(encoding=named(s["encoding"], ENCODINGS), canonical=flag(s["canonical"]), unicode=flag(s["unicode"]), double_quotes=flag(s.get("double_quotes")),
                  indent=optional(s["indent"], integer), width=optional(s["width"], integer),
                  line_break=named(s["line_break"], BREAKS), breaks12=flag(s["breaks12"]), portable=flag(s["portable"]),
                  indented_sequences=flag(s.get("indented_sequences")), literal_blanks=flag(s.get("literal_blanks")), limit=str(s["limit"]))

def effective(s, breaks12):
    """The settings in force. The model's line breaks say what is special; the definitions keep those of the option beside it."""
    return record(encoding=ENCODINGS[s["encoding"]], canonical=flag(s["canonical"]), unicode=flag(s["unicode"]), double_quotes=flag(s.get("double_quotes")),
                  indent=str(s["indent"]), width=optional(s["width"], str), line_break=BREAKS[s["line_break"]],
                  breaks12=flag(breaks12), portable=flag(s["portable"]), indented_sequences=flag(s.get("indented_sequences")), literal_blanks=flag(s.get("literal_blanks")), limit=str(s["limit"]))

def version(v):
    return record(major=integer(v[0]), minor=integer(v[1]))

def directive(d):
    return record(handle=text(d[0]), prefix=text(d[1]))

def event(e):
    kind = e["kind"]
    if kind == "StreamStart": return "stream_start " + named(e["encoding"], ENCODINGS)
    if kind == "DocStart":
        return "document_start " + record(version=optional(e["version"], version), directives=several(map(directive, e["tags"])), implicit=flag(e["implicit"]))
    if kind == "DocEnd": return "document_end " + flag(e["implicit"])
    if kind == "Alias": return "alias (%s)" % text(e["anchor"])
    if kind == "Scalar":
        return "scalar " + record(anchor=optional(e["anchor"], text), tag=optional(e["tag"], text), value=text(e["value"]),
                                  plain_implicit=flag(e["plain_implicit"]), quoted_implicit=flag(e["quoted_implicit"]), style=SCALAR[e["style"]])
    if kind in ("SeqStart", "MapStart"):
        return ("sequence_start " if kind == "SeqStart" else "mapping_start ") + record(
            anchor=optional(e["anchor"], text), tag=optional(e["tag"], text), implicit=flag(e["implicit"]), style=COLLECTION[e["style"]])
    return {"StreamEnd": "stream_end", "SeqEnd": "sequence_end", "MapEnd": "mapping_end"}[kind]

def content(node):
    kind = node[0]
    if kind == "alias": return "(alias_content (%s))" % text(node[1])
    if kind == "scalar":
        tag = "(untagged %s)" % flag(node[4]) if node[2] is None else "(tagged (%s))" % text(node[2])
        return "(scalar_content %s %s (%s))" % (optional(node[1], text), tag, text(node[3]))
    held = "no_contents" if kind == "seq" else "no_content_pairs"
    for entry in node[3]:
        held = "(contents_and %s %s)" % (held, content(entry)) if kind == "seq" else "(content_pairs_and %s %s %s)" % (held, content(entry[0]), content(entry[1]))
    return "(%s %s %s %s)" % ("sequence_content" if kind == "seq" else "mapping_content", optional(node[1], text), optional(node[2], text), held)

def contents(documents):
    return optional(documents, lambda ds: several(
        record(version=optional(v, version), directives=several(map(directive, tags)), root=content(root)) for v, tags, root in ds))

STOOD = {"plain": "stood_plain", "quoted": "stood_quoted", "bare": "stood_bare"}

def tree(node):
    kind = node[0]
    if kind == "alias": return "(alias_tree (%s))" % text(node[1])
    if kind == "scalar":
        tag = "(without_tag %s)" % STOOD[node[3]] if node[2] is None else "(with_tag (%s))" % text(node[2])
        return "(scalar_tree %s %s (%s))" % (optional(node[1], text), tag, text(node[4]))
    held = "no_trees" if kind == "seq" else "no_tree_pairs"
    for entry in node[3]:
        held = "(trees_and %s %s)" % (held, tree(entry)) if kind == "seq" else "(tree_pairs_and %s %s %s)" % (held, tree(entry[0]), tree(entry[1]))
    return "(%s %s %s %s)" % ("sequence_tree" if kind == "seq" else "mapping_tree", optional(node[1], text), optional(node[2], text), held)

def trees(documents):
    return optional(documents, lambda ds: several(
        record(version=optional(v, version), directives=several(map(directive, tags)), root=tree(root)) for v, tags, root in ds))

def graph_node(node):
    kind, tag, held, style = node
    if kind == "scalar": held = "scalar_held (%s) %s" % (text(held), SCALAR[style])
    elif kind == "seq": held = "sequence_held %s %s" % (several(map(str, held)), COLLECTION[style])
    else: held = "mapping_held %s %s" % (several(record(key=k, value=v) for k, v in held), COLLECTION[style])
    return record(tag=text(tag), held=held)

def body(b):
    style, body_text, value, in_flow, column = b
    return record(style=SCALAR[style], in_flow=flag(in_flow), column="None" if column < 0 else "(Some %d)" % column, value=text(value), text=text(body_text))

# ---- cases as lemmas: a name, what is computed, what is expected

def lemmas_of_list(case, n):
    given, events, s = "given_%d" % n, "events_%d" % n, "settings_for given_%d events_%d" % (n, n)
    yield "settings", s, effective(case["effective"], case["settings"]["breaks12"])
    yield "special", "escapes_separators (%s)" % s, flag(case["effective"]["breaks12"])
    yield "written", "written_after_each " + events, several(map(str, case["written"]))
    canonical = flag(case["settings"]["canonical"])
    if "refused" in case:
        at = case["refused"]["at"]
        yield "refusals", "refusals_after %s [] (take %d %s)" % (canonical, at + 1, events), several(["None"] * at + ["Some " + ERRORS[case["refused"]["number"] - 1]])
        yield "pieces", "texts (%s) (pieces (%s) %s %d)" % (s, s, events, at), several(map(text, case["refused"]["text"]))
        return
    yield "refusals", "refusals_after %s [] %s" % (canonical, events), several(["None"] * len(case["events"]))
    yield "completion", "completion " + events, several(map(event, case["completion"]))
    yield "pieces", "texts (%s) (list_layout (%s) (completion %s))" % (s, s, events), several(map(text, case["pieces"]))
    for front in case["fronts"]:
        yield "front_%d" % front["k"], "texts (%s) (pieces (%s) %s %d)" % (s, s, events, front["k"]), several(map(text, front["pieces"]))
    laid = "bodies (%s) (list_layout (%s) (completion %s))" % (s, s, events)
    yield "bodies", laid, several(map(body, case["bodies"]))
    yield "read_back", "read_back (%s) (%s)" % (s, laid), several("Some (%s)" % text(b[2]) for b in case["bodies"])
    yield "tidy", "tidy_bodies (%s) (list_layout (%s) (completion %s))" % (s, s, events), several(map(flag, case["tidy"]))
    if "output" in case:
        yield "agrees", "agrees %s %s (stream_trees %s (output_of %s %s))" % (canonical, events, flag(case["settings"]["breaks12"]), given, events), flag(case["agrees"])
        if "agrees_otherwise" in case:
            other = flag(not case["settings"]["breaks12"])
            yield "agrees_otherwise", "agrees %s %s (stream_trees %s (output_of %s %s))" % (canonical, events, other, given, events), flag(case["agrees_otherwise"])
        yield "output", "output_of %s %s" % (given, events), octets(case["output"])
    if "content" in case:
        yield "content", "content_of " + events, contents(case["content"])
        yield "canonical", "canonical_content %s (output_of %s %s)" % (flag(case["settings"]["breaks12"]), given, events), contents(case["content"])

def lemmas_of_text(case, n):
    column = "None" if case["column"] is None else "(Some %d)" % case["column"]
    style = "literal" if case["reader"] == "block" else SCALAR[case["reader"]]
    yield "reading", "read_by %s %s %s %s (%s)" % (flag(case["breaks12"]), style, flag(case["flow"]), column, text(case["text"])), optional(case["value"], text)

def lemmas_of_bytes(case, n):
    yield "content", "canonical_content %s (%s)" % (flag(case["breaks12"]), octets(case["bytes"])), contents(case["content"])

def lemmas_of_stream(case, n):
    yield "trees", "stream_trees %s (%s)" % (flag(case["breaks12"]), octets(case["bytes"])), trees(case["trees"])

def lemmas_of_script(case, n):
    if "bad" in case: said = "bad_line %d" % case["bad"]
    else: said = "understood %s %s" % (settings(case["settings"]), several(record(line=e["line"], event=event(e["event"])) for e in case["events"]))
    yield "script", "script_of (%s)" % octets(case["bytes"]), said

def lemmas_of_document(case, n):
    graph = record(start=record(version="None", directives="[]", implicit=flag(case["start"])), nodes=several(map(graph_node, case["nodes"])), end_implicit=flag(case["end"]))
    yield "events", "document_event_list %s" % graph, several(map(event, case["events"]))

def meant(found):
    kind, value = found[0], found[-1]
    if kind == "bool": return "meant_boolean " + flag(value)
    if kind == "decimal": return "meant_decimal " + record(digits=integer(found[1]), exponent=integer(value))
    if kind in ("int", "float") and value is None: return "meant_by_nobody"
    if kind == "int": return "meant_integer " + integer(value)
    if kind == "float": return "meant_nan" if value == "nan" else "meant_infinity " + flag(value == "-inf")
    return "meant_" + kind

def lemmas_of_resolved(case, n):
    for schema in ("by_11", "by_core"):
        yield schema, "resolved_%s (%s)" % (schema, text(case["text"])), meant(case[schema])

LEMMAS = dict(list=lemmas_of_list, text=lemmas_of_text, bytes=lemmas_of_bytes, stream=lemmas_of_stream, script=lemmas_of_script, document=lemmas_of_document, resolved=lemmas_of_resolved)

# ---- files

IMPORTS = """use Rattle.std.specs.Prelude.{◌≡◌, ℕ, ℤ, pos, negsuc, Bool, true, false, Option, None, Some, List, [], ◌∷◌, take, codes, refl}
use Rattle.std.specs.Char.{encode_utf8}
use Rattle.std.specs.Str.{chars, is_utf8}
use Rattle.std.specs.Fmt.{digits}
use Rattle.yaml_base.specs.Characters.{Text}
use Rattle.yaml_base.specs.Settings.{Settings, Effective, escapes_separators, utf8, utf16_little, utf16_big, carriage_return_break, line_feed_break, both_break}
use Rattle.yaml_base.specs.Event.{Event, any_style, plain, single_quoted, double_quoted, literal, folded, any_layout, block, flow, stream_start, stream_end, document_start, document_end, alias, scalar, sequence_start, sequence_end, mapping_start, mapping_end}
use Rattle.yaml_base.specs.Layout.{Body}
use Rattle.yaml_base.specs.Pieces.{completion, list_layout, pieces}
use Rattle.yaml_base.specs.Output.{settings_for, output_of}
use Rattle.yaml_base.specs.reading.Content.{DocumentContent, tagged, untagged, alias_content, scalar_content, sequence_content, mapping_content, no_contents, contents_and, no_content_pairs, content_pairs_and, content_of}
use Rattle.yaml_base.specs.reading.CanonicalReader.{canonical_content}
use Rattle.yaml_base.specs.streams.StreamContent.{DocumentTree, stood_plain, stood_quoted, stood_bare, with_tag, without_tag, alias_tree, scalar_tree, sequence_tree, mapping_tree, no_trees, trees_and, no_tree_pairs, tree_pairs_and, agrees}
use Rattle.yaml_base.specs.streams.StreamReader.{stream_trees}
use Rattle.yaml_base.specs.graphs.Meetings.{GraphNode, Graph, decimal_digits, scalar_held, sequence_held, mapping_held, document_event_list}
use Rattle.yaml_base.specs.scripts.Script.{Script, bad_line, understood, script_of}
use Rattle.yaml_base.specs.values.Resolved.{meant_null, meant_boolean, meant_integer, meant_decimal, meant_infinity, meant_nan, meant_timestamp, meant_merge, meant_value, meant_text, meant_by_nobody}
use Rattle.yaml_base.specs.values.SchemaOf11.{resolved_by_11}
use Rattle.yaml_base.specs.values.SchemaCore.{resolved_by_core}
use Rattle.yaml_base.specs.declared.errors.yaml_error_t.TheVariants.{%s}
use Rattle.compared.proofs.ComparedCommon.{written_after_each, refusals_after, texts, bodies, tidy_bodies, read_by, read_back}
""" % ", ".join(ERRORS)

def lemma(name, computed, expected):
    return "%s : %s ≡ %s\nunfolding chars is_utf8 encode_utf8 digits decimal_digits\n%s = refl\n" % (name, computed, expected, name)

def file_of(cases, spoil):
    """The text of one file, the names of its lemmas and of those that were spoiled."""
    out, names, spoiled = ["-- Computed cases.\n" + IMPORTS], [], []
    for case in cases:
        n = case["seed"]
        if case["what"] == "list":
            out.append("abbrev given_%d : Settings\ngiven_%d = %s\n" % (n, n, settings(case["settings"])))
            out.append("abbrev events_%d : List Event\nevents_%d = %s\n" % (n, n, several(map(event, case["events"]))))
        for what, computed, expected in LEMMAS[case["what"]](case, n):
            name = "case_%d_%s" % (n, what)
            if spoil:
                wrong = spoil(expected)
                if wrong != expected: spoiled.append(name)
                expected = wrong
            names.append(name)
            out.append(lemma(name, computed, expected))
    return "\n".join(out), names, spoiled

def spoiler(r):
    """Changes one number, flag or text of an expected value."""
    def spoil(expected):
        places = [(m.start(), m.end(), m.group()) for m in re.finditer(r'\b(true|false)\b|codes "[a-z]|Some \d|\(pos \d|AnchorEmpty|TagEmpty', expected)]
        if not places or r.random() < 0.9: return expected
        start, end, found = r.choice(places)
        other = {"true": "false", "false": "true", "AnchorEmpty": "TagEmpty", "TagEmpty": "AnchorEmpty"}.get(found) or (found[:-1] + ("7" if found[-1] == "6" else "6") if found[-1].isdigit() else found[:-1] + ("Z" if found[-1] != "Z" else "Y"))
        return expected[:start] + other + expected[end:]
    return spoil

def stored():
    with open(HERE / "sample.jsonl") as f: return [json.loads(line) for line in f]

def modelled(first, count, kind):
    made = subprocess.run([sys.executable, HERE / "make_cases.py", str(first), str(count)] + ([kind] if kind else []), capture_output=True, text=True, check=True)
    return [json.loads(line) for line in made.stdout.splitlines()]

def cases_of(o):
    if o.stored: return stored()[:o.count + o.count // 3]
    return modelled(o.first, o.count, o.kind) + (modelled(o.first, o.count // 3, "resolved") if o.kind is None else [])

# ---- the checker

def library():
    """The folder with the library of yaml_base, which is proved and built first if need be. (A library that `rt` itself built has a
    stamp beside it, and `rt lib` knows whether it is current; the test command leaves one without.)"""
    crate = ROOT / "crates" / "yaml_base"
    built = crate / "out" / "rlib" / "yaml_base.rlib"
    newest = max(file.stat().st_mtime for part in ("src", "specs", "proofs") for file in (crate / part).rglob("*"))
    if (built.parent / "stamp").exists() or not built.exists() or built.stat().st_mtime < newest:
        ran = subprocess.run(["rt", "lib"], cwd=crate, stdin=subprocess.DEVNULL, capture_output=True, text=True)
        if ran.returncode: sys.exit("yaml_base is not proved:\n" + ran.stdout + ran.stderr)
    return built.parent

def checked(crate):
    """Checks a crate above yaml_base, and returns what the checker says."""
    kit = pathlib.Path(shutil.which("rt") or sys.exit("the toolchain is missing: its command rt is not on the path")).resolve().parents[1]
    base = library()
    words = [kit / "bin/rattle", "check", "--crate-name", "compared", "src/lib.rt", "--extern", f"std={kit}/rlibs/std.rlib", "-L", f"dependency={kit}/rlibs",
             "--extern", f"yaml_base={base}/yaml_base.rlib", "-L", f"dependency={base}", "--antt-project", kit / "rattle/logic/antt-project.json",
             "--logic-built", kit / "logic_built", "--jobs", "2"]
    ran = subprocess.run(words, cwd=crate, stdin=subprocess.DEVNULL, capture_output=True, text=True)
    return ran.stdout + ran.stderr

def write_crate(crate, cases, wrong):
    """Writes the crate with the cases as lemmas; returns the names of its lemmas, and of those that were spoiled."""
    (crate / "src").mkdir(parents=True)
    (crate / "proofs").mkdir()
    (crate / "src/lib.rt").write_text("//! Computed cases.\n#![tactic(auto)]\n\npub fn nothing() {}\n")
    shutil.copy(HERE / "Common.antt.txt", crate / "proofs" / "ComparedCommon.antt")
    declared, names, spoiled = ["pub mod ComparedCommon"], set(), set()
    for k in range(0, len(cases), CASES_A_FILE):
        written, here, changed = file_of(cases[k:k + CASES_A_FILE], spoiler(random.Random(k)) if wrong else None)
        (crate / "proofs" / ("Compared%d.antt" % (k // CASES_A_FILE))).write_text(written)
        declared.append("pub mod Compared%d" % (k // CASES_A_FILE))
        names.update(here)
        spoiled.update(changed)
    (crate / "proofs" / "Lib.antt").write_text("\n".join(declared) + "\n")
    return names, spoiled

def main():
    p = argparse.ArgumentParser()
    p.add_argument("--stored", action="store_true"), p.add_argument("--wrong", action="store_true"), p.add_argument("--keep", action="store_true")
    p.add_argument("--first", type=int, default=0), p.add_argument("--count", type=int, default=300)
    p.add_argument("--kind", choices=list(LEMMAS))
    o = p.parse_args()
    cases = cases_of(o)
    scratch = pathlib.Path(tempfile.mkdtemp(prefix="definitions-"))
    names, spoiled = write_crate(scratch / "compared", cases, o.wrong)
    began = time.time()
    log = checked(scratch / "compared")
    (scratch / "log").write_text(log)
    refused = set(re.findall(r"error: `(case_\w+)`", log))
    proved = any(line.startswith("logic=proved") for line in log.splitlines())
    fine = bool(names) and refused == spoiled and proved == (not spoiled)
    print("%d cases (%s), %d lemmas, %d changed, %d refused, %.0f s: %s" % (
        len(cases), "stored" if o.stored else "random", len(names), len(spoiled), len(refused), time.time() - began, "as wanted" if fine else "NOT as wanted"))
    for name in sorted(refused ^ spoiled): print("  differs: " + name)
    if fine and not o.keep: shutil.rmtree(scratch)
    else: print("  kept: %s" % scratch)
    return 0 if fine else 1

if __name__ == "__main__":
    sys.exit(main())
