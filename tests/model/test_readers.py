"""Examples for readers.py, worked by hand from docs/READING.md and docs/SCRIPTS.md. Run: python3 test_readers.py"""
import unittest
from events import *
from readers import *

E9, SMILE = "\u00e9", "\U0001F600"


def S(value, quoted=True, anchor=None):         # content of an untagged scalar
    return ("scalar", anchor, None, value, quoted)


def T(value, tag, anchor=None):                 # content of a tagged scalar
    return ("scalar", anchor, tag, value, None)


def doc(node, version=None, tags=()):
    return (version, tags, node)


YT = "tag:yaml.org,2002:"


class Normalize(unittest.TestCase):
    def test(self):
        for b12 in (False, True):
            self.assertEqual(normalize("a\r\nb\rc\nd\u0085e\u2028f\u2029g", b12),
                             "a\nb\nc\nd\ne\u2028f\u2029g")
            self.assertEqual(normalize("\r\r\n\n\r", b12), "\n\n\n\n")
            self.assertEqual(normalize("\r\u0085\n", b12), "\n\n\n")     # CR, NEL, LF: three
            self.assertEqual(normalize("", b12), "")

    def test_precondition(self):
        for f in (lambda t: read_plain(t, False), read_single, read_double,
                  lambda t: read_block(t, None)):
            for t in ("a\rb", "a\u0085b"):
                self.assertRaises(ValueError, f, t)


class Plain(unittest.TestCase):
    GOOD = [  # (name, text, flow, value)
        ("", "", False, ""), ("", "v", False, "v"), ("", "x" * 129, False, "x" * 129),
        ("", E9 * 65, False, E9 * 65), ("", "a", False, "a"), ("", SMILE, False, SMILE),
        ("", "x", True, "x"), ("", "foo", False, "foo"), ("", "b", False, "b"),
        ("", "b", True, "b"), ("", "aaaaaa\n  b", False, "aaaaaa b"), ("", "5", False, "5"),
        ("", "v", True, "v"), ("", "", False, ""), ("", "aaaa", True, "aaaa"),
        ("", E9 * 4 + " b\n  c", False, E9 * 4 + " b c"), ("", "x" * 40000, False, "x" * 40000),
        ("", "x" * 129, True, "x" * 129),
        ("minus in", "a-b", False, "a-b"), ("minus", "-b", False, "-b"), ("minus flow", "-b", True, "-b"),
        ("dash dash", "--", False, "--"), ("?b", "?b", False, "?b"), (":b", ":b", False, ":b"),
        ("colon in", "a:b", False, "a:b"), ("hash in", "a#b", False, "a#b"),
        ("indicators later", "a,[]{}&*!|>'\"%@`", False, "a,[]{}&*!|>'\"%@`"),
        ("flow others", "a&*!|>'\"%@`#", True, "a&*!|>'\"%@`#"),
        ("fold LF LF", "a\n\nb", False, "a\nb"), ("fold blanks", "a \t\n \n\t b", False, "a\nb"),
        ("fold LS", "a\u2028  b", False, "a\u2028b"),
        ("fold LS LF", "a \u2028 \n b", False, "a\u2028\nb"),
        ("fold LF LS", "a\n\u2028 b", False, "a\u2028b"),
        ("marks later", "a --- ...", False, "a --- ..."),
        ("NUL isn't a blank", "a:\0", False, "a:\0"), ("NUL then #", "a\0#", False, "a\0#"),
        ("outer blanks", " a ", False, " a "), ("outer break", "\na", False, " a"),
    ]
    BAD = ["---", "---x", "...", "...x", "- x", "-", "-\nx", "-\tx", "?", "? x", ":", ": x", "a:",
           "a: b", "a:\nb", "a:\u2028b", "a #", "a\n#", "a\t#b", "a\u2029#", " #"]
    BAD += [c + "x" for c in "#,[]{}&*!|>'\"%@`"]

    def test_good(self):
        for name, text, flow, value in self.GOOD:
            self.assertEqual(read_plain(text, flow), value, name)

    def test_bad(self):
        for text in self.BAD:
            self.assertIsNone(read_plain(text, False), text)
            self.assertIsNone(read_plain(text, True), text)
        for c in ",?:[]{}":
            self.assertIsNone(read_plain("a" + c + "b", True), c)
        self.assertIsNone(read_plain("?b", True))
        self.assertIsNone(read_plain(":b", True))
        self.assertIsNone(read_plain("", True))

    def test_breaks12(self):
        self.assertEqual(read_plain("a:\u2028b", False, True), "a:\u2028b")
        self.assertEqual(read_plain("a\u2028#b", False, True), "a\u2028#b")
        self.assertEqual(read_plain("a\u2028  b", False, True), "a\u2028  b")
        self.assertEqual(read_plain("-\u2028", False, True), "-\u2028")
        self.assertEqual(read_plain("a \n\u2029 b", False, True), "a \u2029 b")


class Single(unittest.TestCase):
    GOOD = [
        ("", "'a:'", "a:"), ("", "'a\n\n  b'", "a\nb"), ("", "'- x'", "- x"),
        ("", "'a\u2028  b'", "a\u2028b"), ("", "'a\n\n\u2028  b'", "a\n\u2028b"),
        ("", "'a\u2028\n  b'", "a\u2028\nb"), ("", "''", ""), ("", "''", ""),
        ("", "' '", " "), ("", "'\n\n  '", "\n"), ("", "''''", "'"), ("", "'a\u2028  b'", "a\u2028b"),
        ("fold", "'aaaaaa\n  b'", "aaaaaa b"), ("first LF", "'\n\n  a'", "\na"),
        ("last LF", "'a\n\n  '", "a\n"), ("outer blanks", "'  a  '", "  a  "),
        ("blanks at a break", "'  \n\t a \n \u2028 b '", " a\u2028b "),
        ("quotes at folds", "'a''\n  ''b'", "a' 'b"), ("two quotes", "''''''", "''"),
        ("lone LF", "'\n'", " "), ("backslash", r"'\n\'", r"\n" + "\\"),
        ("LS alone", "'\u2028  '", "\u2028"), ("marks", "'a\n--- b'", "a --- b"),
    ]

    def test_good(self):
        for name, text, value in self.GOOD:
            self.assertEqual(read_single(text), value, name)

    def test_bad(self):
        for text in ("", "'", "'''", "a", "'a", "a'", "'a'b'", "'a' ", " 'a'", '"a"', "'a'''b'"):
            self.assertIsNone(read_single(text), text)

    def test_breaks12(self):
        self.assertEqual(read_single("'a\u2028  b'", True), "a\u2028  b")
        self.assertEqual(read_single("'a\n\u2028  b'", True), "a \u2028  b")


class Double(unittest.TestCase):
    GOOD = [
        ("", '"aaaaaa\n  \\ b"', "aaaaaa  b"), ("", '"\\xE9"', E9), ("", '"\\U0001F600"', SMILE),
        ("", '"\\0\\a\\"\\\\\\N\\x7F"', '\0\a"\\\u0085\x7f'), ("", '"a"', "a"),
        ("", '"\\n "', "\n "), ("", '" \\n"', " \n"), ("", '" "', " "),
        ("", '"a\\Lb"', "a\u2028b"), ("", '""', ""),
        ("all short", '"\\0\\a\\b\\t\\n\\v\\f\\r\\e\\"\\\\\\N\\_\\L\\P\\ "',
         "\0\a\b\t\n\x0b\x0c\r\x1b\"\\\u0085\u00a0\u2028\u2029 "),
        ("fold", '"a\n  b"', "a b"), ("fold 3", '"a\n  \\  b"', "a   b"),
        ("fold end", '"a\n  \\ "', "a  "), ("escaped break at a fold", '"\\n\n  b"', "\n b"),
        ("escapes aren't dropped", '"a\\t\n\\tb"', "a\t \tb"),
        ("blank before an escaped space", '"a \\ \n b"', "a   b"),
        ("blanks dropped", '"a \t\n \t b"', "a b"), ("LF LF", '"a\n\n  b"', "a\nb"),
        ("LS", '"a\u2028  b"', "a\u2028b"), ("outer blanks", '"  a  "', "  a  "),
        ("outer break", '"\n a"', " a"), ("u", '"\\u20AC"', "\u20ac"), ("U", '"\\U0010FFFF"', "\U0010ffff"),
        ("longer than needed", '"\\x0A\\u0041"', "\nA"),
        ("single quote", "\"'\"", "'"), ("comment sign", '"a #b"', "a #b"),
    ]
    BAD = ["", '"', 'a"', '"a', '"a"b"', '"""', '"a" ', "'a'", '"\\"', '"\\', '"\\q"', '"\\/"',
           '"\\x4"', '"\\xG0"', '"\\u12"', '"\\U0001F60"', '"\\U00110000"', '"\\uD800"',
           '"\\uDFFF"', '"\\xe9"',
           '"a\\\nb"', '"a\\\u2028b"', '"a\\\tb"', '"\\x 1"', '"\\u+041"']

    def test_good(self):
        for name, text, value in self.GOOD:
            self.assertEqual(read_double(text), value, name)

    def test_bad(self):
        for text in self.BAD:
            self.assertIsNone(read_double(text), text)

    def test_breaks12(self):
        self.assertEqual(read_double('"a\u2028  b"', True), "a\u2028  b")
        self.assertIsNone(read_double('"a\\\u2028b"', True))


class Block(unittest.TestCase):
    GOOD = [  # (name, text, column, value)
        ("", "|+\n  a\n\n", None, "a\n\n"), ("", "|2+\n\n", None, "\n"),
        ("", ">\n  a\n\n  b\n\n   c\n", None, "a\nb\n\n c\n"),
        ("", ">2-\n   aaaaaa b", None, " aaaaaa b"),
        ("with the line's end", ">2-\n   aaaaaa b\n", None, " aaaaaa b"),
        ("", "|2-\n   a", 0, " a"), ("with the line's end", "|2-\n   a\n", 0, " a"),
        ("", ">-\n  a\n\n\u2028  b", None, "a\n\u2028b"),
        ("", ">-\n  a\u2028\n  b", None, "a\u2028\nb"),
        ("", "|+\n  a\n\n", None, "a\n\n"), ("", normalize("|\r\n  a\r\n"), None, "a\n"),
        ("", ">2+\n\n\n", None, "\n\n"), ("", ">2-\n\n   a", None, "\n a"),
        ("", ">-\n  aaaaaa \n  b", None, "aaaaaa  b"),
        # header
        ("column and digit", "|2-\n       a", 4, " a"), ("column, no digit", "|-\n      a", 4, "a"),
        ("digit 9", "|9-\n" + " " * 10 + "a", None, " a"), ("no digit, less than the column", "|-\na", 4, "a"),
        ("LS ends the header", "|-\u2028  a", None, "a"),
        ("header alone", "|\n", None, ""), ("header alone, -", "|-\n", None, ""),
        # first lines
        ("LF first", "|2-\n\n  a", None, "\na"), ("LF first, folded", ">2-\n\n  a", None, "\na"),
        ("LF LF first, folded", ">2-\n\n\n  a", None, "\n\na"),
        ("LF LS first, folded", ">2-\n\n\u2028  a", None, "\n\u2028a"),
        ("detected after breaks", "|-\n\n   a", None, "\na"),
        # literal
        ("inner blanks", "|-\n  a\n   b \n  \tc", None, "a\n b \n\tc"),
        ("LS", "|-\n  a\u2028  b", None, "a\u2028b"),
        # folded
        ("fold", ">-\n  a\n  b", None, "a b"), ("2", ">-\n  a\n\n  b", None, "a\nb"),
        ("3", ">-\n  a\n\n\n  b", None, "a\n\nb"), ("LS alone", ">-\n  a\u2028  b", None, "a\u2028b"),
        ("LF PS LF", ">-\n  a\n\u2029\n  b", None, "a\u2029\nb"),
        ("before a blank", ">-\n  a\n   b", None, "a\n b"), ("after a blank", ">2-\n   a\n  b", None, " a\nb"),
        ("before a tab", ">-\n  a\n  \tb", None, "a\n\tb"), ("after a tab", ">-\n  \ta\n  b", None, "\ta\nb"),
        ("trailing blanks kept", ">-\n  a \n  b", None, "a  b"),
        # chomping
        ("clip", "|\n  a\n", None, "a\n"), ("clip of two", "|\n  a\n\n", None, "a\n"),
        ("strip", "|-\n  a\n\n", None, "a"), ("keep", "|+\n  a\n\n\n", None, "a\n\n\n"),
        ("clip, no break", "|\n  a", None, "a"), ("clip LS", "|\n  a\u2028", None, "a\u2028"),
        ("clip LS LF", "|\n  a\u2028\n", None, "a\u2028"), ("keep LS LF", "|+\n  a\u2028\n", None, "a\u2028\n"),
        ("keep LF LS", ">+\n  a\n\u2028", None, "a\n\u2028"), ("only LS", "|2+\n\u2028", None, "\u2028"),
        ("no line, no sign", "|2\n\n\n", None, ""), ("no line, -", "|2-\n\n", None, ""),
        # a line of spaces is a nonempty line
        ("spaces in the middle", "|-\n  a\n  \n  b", None, "a\n\nb"),
        ("spaces in the middle, folded", ">-\n  a\n  \n  b", None, "a  b"),
        ("spaces at the end", "|\n  a\n  \n\n", None, "a\n\n"),
    ]
    BAD = [("", None), ("a", None), ("|", None), ("|-", None), ("|2", None), ("|0\n  a", None),
           ("|-2\n  a", None), ("|+-\n  a", None), ("|22\n  a", None), ("| \n  a", None), ("| #c\n  a", None),
           ("|a\n  a", None), (" |\n  a", None), ("|-\n  a\n b", None), ("|2-\n a", None), ("|2-\n   a", 2),
           ("|-\n   \n  a", None), ("|-\n  a\n ", None), ("|-\n  a\n\tb", None), ("|2-\n\ta", None)]

    def test_good(self):
        for name, text, column, value in self.GOOD:
            self.assertEqual(read_block(text, column), value, name)

    def test_bad(self):
        for text, column in self.BAD:
            self.assertIsNone(read_block(text, column), (text, column))

    def test_breaks12(self):
        self.assertEqual(read_block("|-\n  a\u2028  b", None, True), "a\u2028  b")
        self.assertIsNone(read_block("|-\u2028  a", None, True))


class Tags(unittest.TestCase):
    def test_percent(self):
        for text, value in (("", ""), ("a", "a"), ("%21", "!"), ("%C3%A9", E9), ("%c3%a9", E9),
                            ("%25", "%"), ("%2521", "%21"), ("%00", "\0"), ("%F0%9F%98%80", SMILE), (E9, E9),
                            ("%", None), ("%4", None), ("%4G", None), ("%FF", None), ("%C3", None), ("%C3x", None),
                            ("%C0%80", None), ("%ED%A0%80", None), ("%+1", None), ("% 1", None),
                            ("%F4%90%80%80", None)):
            self.assertEqual(percent_decode(text), value, text)

    def test_tags(self):
        t = lambda s: ("tag", s)
        for text, own, value in (
                ("!<%21>", (), t("!")), ("!a%21b", (), t("!a!b")), ("!<" + YT + ">", (), t(YT)),
                ("!e!t", (("!e!", "tag:e.com,2000:"),), t("tag:e.com,2000:t")),
                ("!!int", (), t(YT + "int")), ("!foo", (), t("!foo")),
                ("!e!y", (("!e!", "!x"),), t("!xy")),
                ("!!t", (("!!", "tag:e.com,2000:"),), t("tag:e.com,2000:t")),
                ("!<" + YT + "str>", (("!!", "tag:e.com,2000:"),), t(YT + "str")),
                ("!a%00", (), t("!a\0")), ("!%C3%A9", (), t("!" + E9)),
                ("!", (), ("bare", None)), ("!", (("!", "x"),), ("bare", None)),
                ("!a", (("!", "x"),), t("xa")), ("!!", (), t(YT)), ("!<>", (), t("")),
                ("!<a", (), None), ("!<a>b", (), None), ("!<a>b>", (), t("a>b")), ("!<!a>", (), t("!a")),
                ("!e!t", (), None), ("!e!a!t", (("!e!", "x"),), None), ("a", (), None), ("", (), None),
                ("!%FF", (), None), ("!<%>", (), None), ("!a,[]", (), t("!a,[]"))):
            self.assertEqual(decode_tag(text, own), value, text)

    def test_in_force(self):
        self.assertEqual(directives_in_force((("!!", "a"), ("!e!", "b"))),
                         [("!!", "a"), ("!e!", "b"), ("!", "!")])


class Canonical(unittest.TestCase):
    def good(self, data, content):
        if isinstance(data, str):
            data = data.encode()
        self.assertEqual(canonical_read(data), content, data)
        self.assertEqual(canonical_read(data, True), content, data)

    def test_rows(self):
        g = self.good
        g('---\n"a"\n', [doc(S("a"))])
        g('---\n"a"\n---\n"b"\n', [doc(S("a")), doc(S("b"))])
        g('---\n"a"\n...\n', [doc(S("a"))])
        g('---\n"\\n "\n', [doc(S("\n "))])
        g('---\n{\n  ? "k"\n  : "v",\n}\n', [doc(("map", None, None, [(S("k"), S("v"))]))])
        g('---\n[]\n', [doc(("seq", None, None, []))])
        g('---\n[\n  {},\n]\n', [doc(("seq", None, None, [("map", None, None, [])]))])
        g('---\n[\n    "a",\n]\n', [doc(("seq", None, None, [S("a")]))])
        g(bytes.fromhex("FEFF002D002D002D000A002200610022000A"), [doc(S("a"))])
        g(bytes.fromhex("FFFE2D002D002D000A0022003DD800DE22000A00"), [doc(S(SMILE))])
        g('---\r"a"\r', [doc(S("a"))])
        g('---\n!<%21> "x"\n', [doc(T("x", "!"))])
        g('---\n!a%21b "x"\n', [doc(T("x", "!a!b"))])
        g('---\n!<tag:yaml.org,2002:> "x"\n', [doc(T("x", YT))])
        g('%TAG !e! %21x\n---\n!e!y "x"\n', [doc(T("x", "!xy"), None, (("!e!", "!x"),))])
        d = (("!!", "tag:e.com,2000:"),)
        g('%TAG !! tag:e.com,2000:\n---\n!!t "x"\n', [doc(T("x", "tag:e.com,2000:t"), None, d)])
        g('%TAG !! tag:e.com,2000:\n---\n!<tag:yaml.org,2002:str> "x"\n', [doc(T("x", YT + "str"), None, d)])
        g('---\n!a%00 "x"\n', [doc(T("x", "!a\0"))])
        g('---\n!%C3%A9 "x"\n', [doc(T("x", "!" + E9))])
        g('---\n"a"\n...\n%YAML 1.1\n---\n"b"\n', [doc(S("a")), doc(S("b"), (1, 1))])
        g('---\n!!map {\n  ? &a !!str "k"\n  : *a,\n}\n',
          [doc(("map", None, YT + "map", [(T("k", YT + "str", "a"), ("alias", "a"))]))])
        g('---\n! "a"\n', [doc(S("a", False))])
        g('---\n!!seq [\n  !!int "5",\n  !!str "a",\n]\n',
          [doc(("seq", None, YT + "seq", [T("5", YT + "int"), T("a", YT + "str")]))])
        g("", []), g(b"\xfe\xff", []), g(b"\xff\xfe", [])
        g('---\n!!null "null"\n', [doc(T("null", YT + "null"))])
        g('---\n!!str ""\n', [doc(T("", YT + "str"))])
        g('---\n!!map {\n  ? !!str "k"\n  : !!bool "false",\n}\n',
          [doc(("map", None, YT + "map", [(T("k", YT + "str"), T("false", YT + "bool"))]))])
        g('---\n!!seq []\n', [doc(("seq", None, YT + "seq", []))])
        g('---\n!!map {}\n', [doc(("map", None, YT + "map", []))])
        g('---\n&id001 !!map {\n  ? !!str "k"\n  : *id001,\n}\n',
          [doc(("map", "id001", YT + "map", [(T("k", YT + "str"), ("alias", "id001"))]))])

    def test_other(self):
        g = self.good
        g('---\n"aaaaaa\n  \\ b"\n', [doc(S("aaaaaa  b"))])                             # folded in canonical mode
        g('---\n*---\n---\n&--- "x"\n', [doc(("alias", "---")), doc(S("x", True, "---"))])
        g('%YAML 1.2\n%TAG ! x\n---\n!y [ ]\n', [doc(("seq", None, "xy", []), (1, 2), (("!", "x"),))])
        g('---\n!a,[]  "x"', [doc(T("x", "!a,[]"))])
        self.assertEqual(canonical_read(' \t\n---"a"---\u2028[*a,[],]...'.encode()),
                         [doc(S("a")), doc(("seq", None, None, [("alias", "a"), ("seq", None, None, [])]))])
        self.assertIsNone(canonical_read('---\u2028"a"'.encode(), True))
        g('---\n"\\""\n---\n"\\\\"\n', [doc(S('"')), doc(S("\\"))])
        # a tag's handle is looked up in its own document alone
        self.assertIsNone(canonical_read(b'%TAG !e! x\n---\n"a"\n---\n!e!b "c"\n'))

    def test_bad(self):
        for data in ('"a"', "---", "---\n", "--- a", "---\n'a'", '---\n"a" "b"', '---\n["a"]', '---\n["a",',
                     '---\n{"a": "b",}', '---\n{? "a",}', '---\n{? "a" : "b"}', '---\n["a",,]', '---\n[,]',
                     '---\n&a *b', '---\n! *b', '---\n&a', '---\n& "x"', '---\n* ', '---\n&a &b "x"',
                     '---\n!!str', '---\n!!str"x"', '---\n!!str\n"x"', '---\n! [ ]', '---\n! {}',
                     '---\n!e!t "x"', '---\n!%FF "x"', '---\n"a" # c', '# c\n---\n"a"',
                     '%YAML 1.3\n---\n"a"', '%YAML 2.1\n---\n"a"', '%YAML\n---\n"a"', '%FOO x\n---\n"a"',
                     '%YAML 1.1\n%YAML 1.1\n---\n"a"', '%YAML 1.1 ---\n"a"', '%TAG !e x\n---\n"a"',
                     '%TAG !e!\n---\n"a"', '%TAG e x\n---\n"a"', '%TAG !e! %FF\n---\n"a"', '%YAML 1.1\n',
                     '...\n', '---\n"a"\n...\n...\n', '---\n"\\q"', '---\n"a', '---\n"a\\"', '\ufeff---\n"a"',
                     '---\n]', '---\n["a"}', '---\n{]', '---\n&a !!str &b "x"', '---\n!!str &a "x"'):
            self.assertIsNone(canonical_read(data.encode()), data)
        for data in (b"\xff", b"\xfe\xff\x00", b"\xff\xfe\x00\xd8", b'---\n"\xc3"', b"\xef\xbb\xbf"):
            self.assertIsNone(canonical_read(data), data)

    def test_deep(self):
        n = 100000
        data = b"---\n" + b"[" * n + b"]" + b",]" * (n - 1) + b"\n"
        ev = [StreamStart(), DocStart()] + [SeqStart()] * n + [SeqEnd()] * n + [DocEnd(), StreamEnd()]
        a, b = canonical_read(data), content_of(ev)
        self.assertTrue(content_equal(a, b))
        while a:                                 # taken apart without recursion
            a = a[0][2][3] if len(a[0]) == 3 else a[0][3]


class Content(unittest.TestCase):
    def frame(self, *nodes, **kw):
        return [StreamStart("utf8"), DocStart(**kw), *nodes, DocEnd(False), StreamEnd()]

    def test(self):
        f = self.frame
        self.assertEqual(content_of([StreamStart(), StreamEnd()]), [])
        self.assertEqual(content_of(f(Scalar(value="a"))), [doc(S("a"))])
        self.assertEqual(content_of(f(Scalar(value="a", quoted_implicit=False))), [doc(S("a", False))])
        # in canonical mode a given tag is always analysed and written
        e = Scalar(value="a", tag="!t", style="literal", anchor="x")
        self.assertEqual(content_of(f(e)), [doc(T("a", "!t", "x"))])
        self.assertEqual(content_of(f(e), False), [doc(S("a", True, "x"))])
        self.assertEqual(content_of(f(Scalar(value="a", tag="!t", plain_implicit=False, quoted_implicit=False)), False),
                         [doc(T("a", "!t"))])
        self.assertEqual(content_of(f(SeqStart(tag="!s"), SeqEnd())), [doc(("seq", None, "!s", []))])
        self.assertEqual(content_of(f(SeqStart(tag="!s"), SeqEnd()), False), [doc(("seq", None, None, []))])
        self.assertEqual(content_of(f(MapStart(anchor="a"), Scalar(value="k"), Alias("a"), MapEnd(),
                                      version=(1, 2), tags=(("!e!", "p"),), implicit=False)),
                         [doc(("map", "a", None, [(S("k"), ("alias", "a"))]), (1, 2), (("!e!", "p"),))])

    def test_not_accepted(self):
        f = self.frame
        for ev in ([], [StreamStart()], f(), f(Scalar(), Scalar()), f(SeqStart()), f(SeqEnd()),
                   f(MapStart(), Scalar(), MapEnd()), f(SeqStart(), MapEnd()),
                   [StreamStart(), Scalar(), StreamEnd()]):
            self.assertRaises(ValueError, content_of, ev)


class Scripts(unittest.TestCase):
    def bad(self, data, n):
        if isinstance(data, str):
            data = data.encode()
        self.assertEqual(parse_script(data), ("bad", n), data)

    def good(self, data, settings, events):
        if isinstance(data, str):
            data = data.encode()
        self.assertEqual(parse_script(data), (settings, events), data)

    def test_rows(self):
        self.good('+DOC 1 -\n=VAL any 1 1 - - "a"', Settings(), [(1, DocStart()), (2, Scalar(value="a"))])
        self.bad("+FOO", 1)
        self.good("", Settings(), [])
        for line in ("+STR utf9", '=VAL any 1 1 - - "a', '=VAL any 1 1 - - "\\u{D800}"', '+DOC 1 - "!e!"',
                     "-STR ", "indent 2147483648", "limit 4294967296"):
            self.bad(line, 1), self.bad(line + "\n", 1)
        self.bad("# c\n\nwidth 5\nwidth 5\n", 4)
        self.bad("+STR any\ncanonical on\n", 2)
        self.good("limit 007", Settings(limit=7), [])

    def test_all_lines(self):
        data = ('limit 4294967295\n# c "x\nencoding utf16be\n\ncanonical on\nunicode off\nindent -007\n'
                'width 2147483647\nbreak crln\nbreaks12 on\n+STR utf16le\n'
                '+DOC 0 1.02 "!e!" "a b" "" "\\u{1f600}"\n+MAP flow 0 - "t"\n=ALI ""\n'
                '=VAL folded 0 1 "-" - "\\\\\\"\\n \t\r# x"\n-MAP\n-DOC 0\n+DOC 1 2147483647.0\n+SEQ block 1 "a" -\n'
                '-SEQ\n-DOC 1\n#\n-STR')
        self.good(data,
                  Settings("utf16be", True, False, -7, 2147483647, "crln", True, 4294967295),
                  [(11, StreamStart("utf16le")), (12, DocStart((1, 2), (("!e!", "a b"), ("", SMILE)), False)),
                   (13, MapStart(None, "t", False, "flow")), (14, Alias("")),
                   (15, Scalar("-", None, '\\"\n \t\r# x', False, True, "folded")), (16, MapEnd()),
                   (17, DocEnd(False)), (18, DocStart((2147483647, 0), (), True)),
                   (19, SeqStart("a", None, True, "block")), (20, SeqEnd()), (21, DocEnd(True)), (23, StreamEnd())])

    def test_numbers(self):
        for word, v in (("-0", 0), ("-00", 0), ("-2147483648", -2147483648), ("2147483647", 2147483647),
                        ("0" * 5000 + "5", 5), ("-" + "0" * 5000 + "5", -5)):
            self.good("indent " + word, Settings(indent=v), [])
            self.good("width " + word, Settings(width=v), [])
        for word in ("", "-", "+1", "--1", "-2147483649", "1_0", "1.0", "0x1", "\u0661", '"1"', "9" * 5000, "1 "):
            self.bad("indent " + word, 1)
        for word in ("-0", "-1", "4294967296", "on"):
            self.bad("limit " + word, 1)
        for v in ("1", "1.", ".1", "1.1.1", "-1.1", "1.-0", "2147483648.1", "1.2147483648", "1,1", '"1.1"', "--"):
            self.bad("+DOC 1 " + v, 1)

    def test_lines(self):
        for line in (" ", "\t", "\r", " -STR", "-STR\r", "# c\r", '# "\r"', "-STR  ", "-STR x", "+STR", "+STR any any",
                     "+STR  any", "+STR\tany", '+STR "any"', "+STR ANY", "+DOC 1", "+DOC 2 -", "+DOC 01 -",
                     '+DOC 1 - "a" -', '+DOC 1 - - "a"', "-DOC", "-DOC -", "=ALI", "=ALI -", "=ALI a", '=ALI "a" "b"',
                     '=ALI "a"x', '=ALI x"a"', '=ALI"a"', '=VAL any 1 1 - -', "=VAL any 1 1 - - -", '=VAL flow 1 1 - - ""',
                     '=VAL any 1 1 a - ""', "+SEQ any 1 -", "+SEQ plain 1 - -", "+SEQ any - - -", "-SEQ any", "-MAP 1",
                     "canonical 1", "canonical", "canonical on off", "unicode ON", "break lf", "break crlf",
                     "encoding", "encoding utf-8", "breaks12 1", '"', '""', '"+STR" any', "\ufeff-STR", "\u2028",
                     '=ALI "\\"', '=ALI "\\x"', '=ALI "\\u{}"', '=ALI "\\u{0000041}"', '=ALI "\\u{110000}"',
                     '=ALI "\\u{DFFF}"', '=ALI "\\u41"', '=ALI "\\u{41"', '=ALI "\\u{ 41}"', '=ALI "\\u{+41}"', '=ALI "\\u{-0}"', '=ALI "\\r"', '=ALI "\\N"'):
            self.bad(line, 1)
            self.bad("# c\n\n" + line + "\n-STR\n", 3)
        for raw in (b"\xff", b"# \xc3", b'=ALI "\xed\xa0\x80"', b'=ALI "\xc0\x80"'):
            self.bad(raw, 1), self.bad(b"-STR\n" + raw + b"\n", 2)
        self.good('=ALI "\\u{000041}\\u{a}\\u{10FFFF}\0\u2028\ufeff-"', Settings(), [(1, Alias("A\n\U0010ffff\0\u2028\ufeff-"))])
        self.good("\n\n", Settings(), [])
        self.good("\n#\n\n-STR\n\n", Settings(), [(4, StreamEnd())])

    def test_settings_once(self):
        for name, v in (("limit", "1000000000"), ("encoding", "any"), ("canonical", "off"), ("unicode", "off"),
                        ("indent", "2"), ("width", "80"), ("break", "any"), ("breaks12", "off")):
            self.bad(f"{name} {v}\n{name} {v}\n", 2)
            self.bad(f"-STR\n{name} {v}\n", 2)

    def test_inverse(self):
        s = Settings("utf16le", True, True, -5, 0, "cr", True, 0)
        ev = [StreamStart("utf8"), DocStart((1, 1), (("!", "\n\"\\"), ("", " "))), MapStart("", "x\r"), Alias("a\u2028"),
              Scalar(None, "", "\0" + SMILE + "\u0085 -", False, False, "double"), MapEnd(), SeqStart(), SeqEnd(),
              DocEnd(), StreamEnd()]
        back = parse_script(to_script(s, ev))
        self.assertEqual(back[0], s)
        self.assertEqual([e for _, e in back[1]], ev)
        self.assertEqual(parse_script(to_script(*back))[1][0][1], ev[0])
        self.assertEqual(to_script(Settings(), []), b"")
        self.assertRaises(ValueError, to_script, Settings(limit=-1), [])
        self.assertRaises(ValueError, to_script, Settings(), [DocStart((1, -1))])
        self.assertRaises(ValueError, to_script, Settings(), [Alias("\ud800")])


if __name__ == "__main__":
    unittest.main()
