#!/usr/bin/env python3
"""Random cases with what the model of tests/model makes of them, as JSON lines: make_cases.py [FIRST [COUNT [KIND]]]

The model was written from the rules alone and shares nothing with the definitions. A case is one of these kinds, by its seed:

  list      settings and events: effective settings, how many events are ready after each front, the first refusal or
            the completion, the pieces (also of two fronts), the scalars' bodies, which of them are tidy, the output, the
            content, and whether the whole stream reads back with it
  text      a text for one of the readers, and its reading or null
  bytes     canonical bytes, most of them spoiled, and their content or null
  stream    bytes in any mode, half of them spoiled, some after a heading, and the documents in them or null
  script    a script, many of them spoiled, and what it says
  document  nodes, and the events of their document

And of this kind where it is asked for, whatever the seed:

  resolved  a plain scalar, half of them near misses, and what it means in YAML 1.1 and by the core schema of 1.2
"""
import dataclasses, decimal, json, pathlib, random, re, sys

KINDS = ["list"] * 5 + ["text"] * 2 + ["bytes", "script", "document"] + ["stream"] * 4


def half_portable(drawn):
    """Settings as they are drawn, about every second in portable mode."""
    def settings(r, *seed):
        s = drawn(r, *seed)
        s.portable = random.Random(repr(s)).random() < 0.5
        return s
    return settings


def of_list(seed):
    case = cases.case(seed)
    events = replay(case["events"])
    if "refused" not in case:
        r = random.Random(seed + 1)
        eff = layout.effective(readers.Settings(**case["settings"]), first_encoding(events))
        ks = sorted({r.randrange(len(events) + 1), r.randrange(len(events) + 1)})
        case["fronts"] = [dict(k=k, pieces=layout.pieces(eff, events, k)) for k in ks]
        whole = layout.layout_of(eff, layout.completion(events)).bodies
        breaks12 = case["settings"]["breaks12"]
        case["tidy"] = [is_tidy(breaks12, *body) for body in whole]
        if "output" in case:
            output = bytes.fromhex(case["output"])
            case["agrees"] = content.agrees(eff, events, stream_read(output, breaks12))
            if eff.portable: case["agrees_otherwise"] = content.agrees(eff, events, stream_read(output, not breaks12))
    return case


def breaks_of(breaks12):
    return "\n" if breaks12 else "\n\u2028\u2029"


def is_tidy(breaks12, style, text, value, in_flow, column):
    """The strict reader of a style reads a body as its value, where it stands."""
    breaks = breaks_of(breaks12)
    text = readers.normalize(text)
    lines = re.split("[" + breaks + "]", text)[1:]
    if any(line != "" and not line.startswith(" " * (max(column, 0) + 1)) for line in lines): return False
    if style == "plain": return scalar_bodies.read_plain(text, in_flow, breaks) == value
    if style == "single": return scalar_bodies.read_single(text, breaks) == value
    if style == "double": return scalar_bodies.read_double(text, breaks) == value
    return scalar_bodies.read_block(text, None if column < 0 else column, breaks) == value


def strict_reader():
    """The model's reader, which reads any flow collection as a simple key, confined to `[]` and `{}`."""
    class Strict(stream_reader.Reader):
        def colon(self, i, end, key):
            stream_reader.need(key[0] not in ("seq", "map") or (key[3] == [] and self.t[end - 2:end] in ("[]", "{}")))
            return super().colon(i, end, key)
    return Strict


def without_heading(data, breaks12):
    """The bytes of a stream, in UTF-8 without the lines at its front that begin with `#`, if it has some: the model refuses some of these."""
    text = readers.decode_stream(data)
    if text is None or text[:1] != "#" or not all(c in "\r\n\t" or stream_reader.PRINTABLE(c) for c in text): return data
    text = readers.normalize(text)
    while text.startswith("#"): text = (re.split("[" + breaks_of(breaks12) + "]", text, maxsplit=1) + [""])[1]
    return text.encode()


def holds_otherwise(text, breaks12):
    """Whether a text that the model refuses may have a comment that the definition reads, since the model reads only those that it writes: with a
    space after `#`, at the column of what follows. Or whether a line of spaces alone comes before the first document, which the model passes
    over."""
    blanks = breaks_of(breaks12)
    return re.search("(?:^|[ " + blanks + "])#", text) is not None or re.match("[" + blanks + "]* +[" + blanks + "]", text) is not None


def has_line_comment(node):
    """Whether a comment is at the end of a line of a node, as `found_comments.found` gives it."""
    own, children = (node[1], []) if node[0] == "leaf" else (node[3], node[4])
    if own is not None: return True
    return any(has_line_comment(each) for child in children for each in (child if isinstance(child[0], tuple) else [child]))


def stream_read(data, breaks12):
    """The documents in some bytes, or None; 'differs' if the model's two readers don't agree, or if the definition goes by other rules: it reads
    no comments at the end of a line of text, and comments on lines of their own that the model refuses."""
    data = without_heading(data, breaks12)
    one, other = (reader.read_with_comments(data, breaks_of(breaks12)) for reader in (stream_reader, lines_reader))
    if one != other: return "differs"
    text = readers.decode_stream(data)
    if text is not None and holds_otherwise(readers.normalize(text), breaks12) and one is None: return "differs"
    if one is None: return None
    documents = stream_reader.documents_alone(one)
    if documents != [] and holds_otherwise(readers.normalize(text).split("#")[0], breaks12): return "differs"
    return "differs" if any(has_line_comment(root) for _, _, root in found_comments.found(one)[0]) else documents


def first_encoding(events):
    return events[0].encoding if events and isinstance(events[0], layout.StreamStart) else "any"


def replay(events):
    out = []
    for e in events:
        e = dict(e)
        kind = getattr(layout, e.pop("kind"))
        if "tags" in e:
            e["tags"] = tuple(tuple(t) for t in e["tags"])
            e["version"] = None if e["version"] is None else tuple(e["version"])
        out.append(kind(**e))
    return out


def some(r, alphabet, most):
    return "".join(r.choice(alphabet) for _ in range(r.randint(0, most)))


SPACED = ["a", "b", " ", " ", "\n", "\n", "\t", "\u2028", "é"]


def of_text(seed):
    r = random.Random(seed)
    reader = r.choice(["plain", "single", "double", "block"])
    breaks12, flow, column = r.random() < 0.3, r.random() < 0.5, None
    if reader == "plain":
        text = some(r, SPACED + list(":#-?,[]{}'\"%.&"), 8)
        value = readers.read_plain(text, flow, breaks12)
    elif reader == "single":
        inside = some(r, SPACED + ["''", "''", "\"", "'"] if r.random() < 0.3 else SPACED + ["''"], 8)
        text = "'" + inside + r.choice(["'"] * 9 + [""])
        value = readers.read_single(text, breaks12)
    elif reader == "double":
        units = SPACED + ["\\n", "\\\"", "\\\\", "\\ ", "\\x41", "\\u2028", "\\U0001F600", "\\0", "\\_", "\\L", "'"]
        if r.random() < 0.3: units = units + ["\\q", "\\x4", "\\uD800", "\\xe9", "\"", "\\\n", "\\U00110000", "\\"]
        text = '"' + some(r, units, 8) + r.choice(['"'] * 9 + [""])
        value = readers.read_double(text, breaks12)
    else:
        column = r.choice([None, 0, 1, 2])
        header = r.choice("|>") + r.choice(["", "", "1", "2", "3"]) + r.choice(["", "-", "+"])
        lines = [r.choice(["", "", " " * r.randint(0, 4) + some(r, ["a", "b", " ", "\t", "é"], 4)]) for _ in range(r.randint(0, 5))]
        text = header + r.choice(["\n"] * 9 + [""]) + "".join(line + r.choice(["\n", "\n", "\n", "\u2028"]) for line in lines)
        if r.random() < 0.3: text = text.rstrip("\n")
        value = readers.read_block(text, column, breaks12)
    return dict(reader=reader, breaks12=breaks12, flow=flow, column=column, text=text, value=value)


WRITTEN = ["---", "...", '"a"', '"b c"', "[", "]", "{", "}", "?", ":", ",", "*a", "&a", "!t", "! ", "!!str ", "%YAML 1.1\n", "%TAG !e! x\n", "!e!y ", " ", "\n", "#", "'"]


def of_bytes(seed):
    r = random.Random(seed)
    s, events = random_lists.settings(r), random_lists.events(r)
    s.canonical = True
    eff = layout.effective(s, first_encoding(events))
    data = layout.encode(eff.encoding, "".join(layout.layout_of(eff, events).pieces))
    if r.random() < 0.2: data = "".join(r.choice(WRITTEN) for _ in range(r.randint(1, 8))).encode()
    for _ in range(r.choice([0, 1, 1, 2])):
        i = r.randrange(len(data) + 1)
        k = r.random()
        if k < 0.3: data = data[:i] + data[i + 1:]
        elif k < 0.7: data = data[:i] + r.choice(WRITTEN).encode() + data[i:]
        elif k < 0.9: data = data[:i]
        else: data = data[:i] + bytes([r.randrange(256)]) + data[i:]
    breaks12 = r.random() < 0.3
    return dict(bytes=data.hex(), breaks12=breaks12, content=readers.canonical_read(data, breaks12))


SIGNS = ["- ", "-", "? ", ": ", ":", ",", "[", "]", "{", "}", "&a ", "*a", "!t ", "! ", "!!str ", "--- ", "---\n", "...\n", "\n", "\n  ", "  ", " ", "#", " # ",
         "\t", "'", '"', "|\n", ">-\n", "%YAML 1.1\n", "%TAG !e! x\n", "\\", "a", "k: ", "[]: "]


# Headings, and comments that are none.
FRONTS = ["# a\n", "#\n", "#a: b # c\r\n#\t\u2028", "# \u2029# a\r", "# a\n%YAML 1.1\n", "#", " # a\n", "\n# a\n", "# a\n\n", "# \u0007\n"]


def of_stream(seed):
    r = random.Random(seed)
    s, events = random_lists.settings(r, seed), random_lists.events(r)
    s.breaks12, s.portable = r.random() < 0.2, r.random() < 0.5
    if r.random() < 0.8: s.canonical = False
    eff = layout.effective(s, first_encoding(events))
    text = "".join(layout.layout_of(eff, events).pieces)
    if r.random() < 0.5:
        for _ in range(r.choice([1, 1, 1, 2, 3])):
            i, k = r.randrange(len(text) + 1), r.random()
            if k < 0.3: text = text[:i] + text[i + 1:]
            elif k < 0.75: text = text[:i] + r.choice(SIGNS) + text[i:]
            elif k < 0.85: text = text[:i]
            else:
                lines = text.split("\n"); j = r.randrange(len(lines))
                lines[j] = r.choice([lines[j][1:], " " + lines[j], lines[j] + "\n" + lines[j], lines[j].strip(), ""])
                text = "\n".join(lines)
    if random.Random(text).random() < 0.2: text = r.choice(FRONTS) + text
    data = layout.encode(eff.encoding, text)
    return dict(bytes=data.hex(), breaks12=s.breaks12, trees=stream_read(data, s.breaks12))


def of_script(seed):
    data = compare.script_of(seed, True)
    if seed % 3 > 0: data = compare.spoiled(random.Random(seed), data)
    said = readers.parse_script(data)
    if said[0] == "bad": return dict(bytes=data.hex(), bad=said[1])
    return dict(bytes=data.hex(), settings=dataclasses.asdict(said[0]), events=[dict(line=n, event=cases.plain(e)) for n, e in said[1]])


TAGS = ["tag:yaml.org,2002:str", "tag:yaml.org,2002:seq", "tag:yaml.org,2002:map", "!t"]


def of_document(seed):
    r = random.Random(seed)
    count = r.choice([0, 1, 1, 2, 3, 4, 6, 8])
    nodes = []
    for _ in range(count):
        k, tag, style = r.random(), r.choice(TAGS), r.choice(["any", "block", "flow"])
        some_numbers = [r.randint(1, count) for _ in range(2 * r.choice([0, 1, 1, 2, 3]))]
        if k < 0.3: nodes.append(["scalar", tag, random_lists.text(r, ["a", "b", " ", "\n", "é"], 4), r.choice(["any", "plain", "folded"])])
        elif k < 0.7: nodes.append(["seq", tag, some_numbers, style])
        else: nodes.append(["map", tag, list(zip(some_numbers[0::2], some_numbers[1::2])), style])
    start, end = layout.DocStart(None, (), r.random() < 0.5), layout.DocEnd(r.random() < 0.5)
    return dict(nodes=nodes, start=start.implicit, end=end.implicit, events=[cases.plain(e) for e in layout.document_events(nodes, start, end)])


def drawn_digits(r, digits, least, most):
    return "".join(r.choice(digits) for _ in range(r.randint(least, most)))


def drawn_scalar(r):
    """A scalar that some schema reads as more than a text, most of the time."""
    def d(least=1, most=4, digits="0123456789"): return drawn_digits(r, digits, least, most)
    def grouped(): return d(1, 1) + d(0, 5, "0123456789_")
    sign, exponent = r.choice(["", "", "+", "-"]), r.choice(["", "", r.choice("eE") + r.choice(["", "+", "-"]) + d(1, 2)])
    sixties = grouped() + "".join(":" + r.choice([d(1, 1), d(1, 1, "012345") + d(1, 1)]) for _ in range(r.randint(1, 3)))
    date = d(4, 4) + "-" + d(1, 2) + "-" + d(1, 2)
    zone = r.choice(["", "", " ", "\t"]) + r.choice(["Z", r.choice("+-") + d(1, 2) + r.choice(["", ":" + d(2, 2)])])
    time = d(1, 2) + ":" + d(2, 2) + ":" + d(2, 2) + r.choice(["", "." + d(0, 3)]) + r.choice(["", zone])
    return r.choice([
        lambda: r.choice(sorted(schema.WORDS)), lambda: sign + "." + r.choice(["inf", "Inf", "INF", "nan", "NaN", "NAN"]),
        lambda: sign + d(1, 9), lambda: sign + grouped(), lambda: sign + "0" + d(1, 5, "01234567_"),
        lambda: sign + "0b" + d(0, 6, "01_"), lambda: sign + "0o" + d(0, 5, "01234567"), lambda: sign + "0x" + d(0, 5, "0123456789abcdefABCDEF_"),
        lambda: sign + sixties, lambda: sign + sixties + "." + d(0, 3, "0123456789_"),
        lambda: sign + d(0, 3) + "." + d(0, 3) + exponent, lambda: sign + grouped() + "." + d(0, 3, "0123456789_") + exponent, lambda: sign + d() + exponent,
        lambda: sign + d(0, 2) + "." + d(0, 4, "0123.") + exponent, lambda: d(4, 4) + "-" + d(2, 2) + "-" + d(2, 2),
        lambda: date + r.choice("Tt ") + r.choice(["", "", " ", "\t"]) + time, lambda: some(r, "0123456789abefnotuysxTZ.:-+_~=<eE ", 7)])()


def meant(text, found):
    """What the model says of a text; a decimal by the digits that the text has, and its exponent."""
    kind, value = found[0], found[-1]
    if kind != "float" or value in (None, "inf", "-inf", "nan"): return list(found)
    mantissa, _, power = (text, "", "") if ":" in text else text.lower().partition("e")
    exponent = int(power or 0) - len(mantissa.replace("_", "").partition(".")[2])
    with decimal.localcontext() as exact:
        exact.prec = 200
        return ["decimal", int(value.scaleb(-exponent)), exponent]


def of_resolved(seed):
    r = random.Random(seed)
    text = drawn_scalar(r)
    if r.random() < 0.5:
        i = r.randrange(len(text) + 1)
        text = r.choice([text[:i] + text[i + 1:], text[:i] + r.choice("0123456789.:-+_eExobTZ ~=<n\té") + text[i:], text[:i] + text[i:i + 1].swapcase() + text[i + 1:], text + text])
    return dict(text=text, by_11=meant(text, schema.resolve_1_1(text)), by_core=meant(text, schema.resolve_1_2(text)))


def case_of(seed, kind=None):
    kind = "resolved" if kind == "resolved" else KINDS[seed % len(KINDS)]
    made = dict(list=of_list, text=of_text, bytes=of_bytes, stream=of_stream, script=of_script, document=of_document, resolved=of_resolved)
    return dict(made[kind](seed), what=kind, seed=seed)


def is_small(case):
    """The sample keeps cases of few events, so that a check of one file stays short."""
    return len(json.dumps(case)) < 6000


if __name__ == "__main__":
    sys.dont_write_bytecode = True  # (so that nothing is left beside the sources)
    sys.path.insert(0, str(pathlib.Path(__file__).resolve().parents[1] / "model"))
    sys.setrecursionlimit(100000)
    import cases, compare, content, found_comments, layout, lines_reader, random_lists, readers, scalar_bodies, schema, stream_reader
    stream_reader.Reader = lines_reader.Reader = strict_reader()
    random_lists.settings = half_portable(random_lists.settings)
    first, count = (int(x) for x in (sys.argv[1:3] + ["0", "300"][len(sys.argv[1:3]):]))
    kind = sys.argv[3] if len(sys.argv) > 3 else None
    seed = first
    while count > 0:
        if kind not in (None, "resolved", KINDS[seed % len(KINDS)]): seed += 1; continue
        case = case_of(seed, kind)
        if is_small(case) and "differs" not in (case.get("trees"), case.get("agrees")): print(json.dumps(case)); count -= 1
        seed += 1
