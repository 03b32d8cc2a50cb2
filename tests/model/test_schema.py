#!/usr/bin/env python3
"""schema.py against rows, and against PyYAML's resolver and 1.1 constructors where PyYAML is installed."""
import itertools, random, re, sys
from decimal import Decimal
from schema import *
failures = checks = 0
def check(name, got, want):
    global failures, checks
    checks += 1
    if got != want: failures += 1; print("FAIL", name, got, want)
for text, old, new in [("true", ("bool", True), ("bool", True)), ("yes", ("bool", True), ("text",)), ("NO", ("bool", False), ("text",)), ("Off", ("bool", False), ("text",)), ("y", ("bool", True), ("text",)), ("tRue", ("text",), ("text",)),
    ("~", ("null",), ("null",)), ("", ("null",), ("null",)), ("nULL", ("text",), ("text",)), ("0", ("int", 0), ("int", 0)), ("010", ("int", 8), ("int", 10)), ("0o10", ("text",), ("int", 8)), ("0x1F", ("int", 31), ("int", 31)), ("0b11", ("int", 3), ("text",)),
    ("1_000", ("int", 1000), ("text",)), ("1:30", ("int", 90), ("text",)), ("-12", ("int", -12), ("int", -12)), ("1e5", ("text",), ("float", Decimal("1e5"))), ("1.0e+5", ("float", Decimal("1e5")), ("float", Decimal("1e5"))), ("1.5", ("float", Decimal("1.5")), ("float", Decimal("1.5"))),
    (".5", ("float", Decimal("0.5")), ("float", Decimal("0.5"))), (".inf", ("float", "inf"), ("float", "inf")), ("-.INF", ("float", "-inf"), ("float", "-inf")), (".nan", ("float", "nan"), ("float", "nan")), ("2001-12-14", ("timestamp",), ("text",)), ("<<", ("merge",), ("text",)), ("=", ("value",), ("text",)),
    ("a", ("text",), ("text",)), ("nullx", ("text",), ("text",)), ("1.2.3", ("float", None), ("text",)), ("08", ("text",), ("int", 8))]:
    check("1.1 %r" % text, resolve_1_1(text), old); check("1.2 %r" % text, resolve_1_2(text), new)
for s, want in [("0", "0"), ("-0", "-0.0"), ("12", "12"), ("1e5", "1.0e+5"), ("1E-5", "1.0e-5"), ("1.5", "1.5"), ("-1.25e10", "-1.25e+10"), ("1e400", "1.0e+400")]: check("number " + s, yaml_number(s), want)
PLAIN = ["100Mi", "5s", "./run.sh", "3rd", ".github", "8080/tcp", "2001-12-14T10:00UTC", "10.0.0.0/8", "fe80::1", "3f2a9bc", "12ab34cd", "50%", "1/2", "339ohji", ".*", "64-bit variant", "9d557bf972ef", "57H4", "a", "-a", "--text", "-x", "text", "to", "e", "be", "x86_64", "t4", "b64",
    "nullx", "true1", "no way", "Nothing", "one", "\xe9", "\xe9 no", "a:b", "-a:1", "=x", "<<a", "~a", "0abc", "0/1", "00ff", "infinite", ".inform", "1h30m", "v1.2", "+x", ".gitignore", "5\xe9"]
QUOTED = ["", "~", "null", "nULL", "tRue", "yEs", "oN", "N", "<<", "=", ".inf", "-.INF", "+.iNf", ".nan", "-.NaN", "+.nan", "inf", "-Inf", "NaN", "Infinity", "+infinity", "No\xebl", "on\u2013off", "~\xe9", ".inf\xe9", "<<\xe9",
    "0", "-0", "007", "0x1F", "0X1f", "0o7", "0b1", "0B2", "+0xfg", "-_0x1", "0_x1F", "0bar", "0_8", "1_000", "_1", "+_1", "-_", "_", "1,000", "1.5", "1.", ".5", ".", "..", "-.", "+.5e-1", "1e5", "e5", "E-6", "+e0", "e2e", "1.2.3", "127.0.0.1", "1:30", "-:1", ":a", "::1", ":", "-", "+", "--", "1 2", "1 - 3", "8b40", "1.x", "1_0x5", "1x", "7o", "ext4", "1e", "12-14",
    "2001-12-14", "2001-12-14T21:59:43.10-05:00", "2001-12-14 21:59:43Z", "2001-1-1\t1:00:00", "00:11:22:33:44:55", "9223372036854775808"]
for text in PLAIN: check("may be plain %r" % text, (is_surely_text(text), resolve_1_1(text), resolve_1_2(text)), (True, ("text",), ("text",)))
for text in QUOTED: check("is quoted %r" % text, is_surely_text(text), False)
alphabet = "0123456789abefnotuysxTZ.:-+_~=<eE "
for n in range(200000):
    r = random.Random(n); t = "".join(r.choice(alphabet) for _ in range(r.randint(0, 7))) if n % 3 else r.choice(sorted(WORDS)) + r.choice(["", "", "x", "1", " a", ".", ":"])
    if is_surely_text(t): check("surely %r" % t, (resolve_1_1(t), resolve_1_2(t)), (("text",), ("text",)))
    u = t + r.choice("eEtTzZxXoObB_.:+-,0 ") + r.choice("0123456789.") + r.choice(["", "%", "a"])     # the characters of numbers, more often
    if is_surely_text(u): check("surely %r" % u, (resolve_1_1(u), resolve_1_2(u)), (("text",), ("text",)))
    s = str(r.randint(-10**r.randint(0, 30), 10**r.randint(0, 30))) + r.choice(["", ".%d" % r.randint(0, 9999), ".50"]) + r.choice(["", "e5", "E+7", "e-12", "e0"])
    y = yaml_number(s); a, b = resolve_1_1(y), resolve_1_2(y)
    check("number %s" % s, (a, a[1] == Decimal(s), a[0] in ("int", "float")), (b, True, True))
try:
    import yaml
except ImportError:
    yaml = None
    print("skipped: tests/model/test_schema.py: PyYAML isn't installed, so its resolver isn't asked")
if yaml:
    loader = yaml.SafeLoader("")
    for n in range(60000):
        r = random.Random(n); t = "".join(r.choice(alphabet) for _ in range(r.randint(1, 6))).strip()
        if is_surely_text(t): check("PyYAML %r" % t, loader.resolve(yaml.ScalarNode, t, (True, False)), "tag:yaml.org,2002:str")
print("test_schema.py:", checks, "checks,", failures, "failures"); sys.exit(failures != 0)
