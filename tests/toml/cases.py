"""Texts of TOML: the files of `files` here, the cases of Python's own tests, TOML files of this machine, random documents, and spoiled ones."""
import pathlib
import random
import subprocess
import sysconfig

PLACES = ["/usr/lib", "/usr/share", "/opt", "/root/.pyenv/versions", "/root/.rustup", "/root/.cargo", "/home"]
OWN = pathlib.Path(__file__).resolve().with_name("files")
# The folder of Python's tests of tomllib, cases of toml-test among them.
CASES = "test/test_tomllib/data"
WORDS = ["", "a", "no", "1.0", "2001-12-14", "07:32:00", "~", "null", "x: y", "# a", "'", '"', "\\", "a\nb", "a\n", " a", "a ", "\t", "\u00e9", "\U0001F600", "\u2028",
         "- a", "[", "{", "=", ".", "1_000", "0x1F", "inf", "nan", "true", "a" * 130]
BARE = "abcXYZ019_-"
SCALARS = ["0", "-0", "+99", "1_000", "0xdead_BEEF", "0o755", "0b1101", "9223372036854775807", "-9223372036854775808", "1.0", "+1.5", "-0.0", "5e+22", "1e06", "-2E-2",
           "6.626e-34", "224_617.445_991_228", "3.14159", "1e5", "inf", "+inf", "-inf", "nan", "+nan", "-nan", "true", "false", "1979-05-27", "0001-01-01", "9999-12-31",
           "07:32:00", "00:32:00.999999", "1979-05-27T07:32:00", "1979-05-27 07:32:00.5", "1979-05-27T07:32:00Z", "1979-05-27t00:32:00.123456-07:00",
           "1979-05-27T00:32:00+23:59", "2000-02-29T23:59:59z"]
# Letters that spoil a text.
SPOILS = list("ab019_-+.:=[]{},'\"#\\ \t\n\r\x00\x7f\u00e9\u2028TZe") + ["[[", "]]", '"""', "'''", "\r\n", "= 1", "\\u00e9", "\\U00110000", "\\q", "true", "inf", "0x", "99999999999999999999"]


def libraries():
    """The folders of the standard library of this Python and, where it is another, of the one that `python3` names."""
    named = subprocess.run(["python3", "-c", "import sysconfig; print(sysconfig.get_path('stdlib'))"], capture_output=True, text=True)
    return dict.fromkeys([sysconfig.get_path("stdlib"), *named.stdout.splitlines()])


def own_files():
    """The names and the bytes of the files of this repository."""
    for path in sorted(OWN.glob("*.toml")):
        yield path.name, path.read_bytes()


def python_cases():
    """The names and the bytes of the cases of Python's own tests, from the first library in which they are installed."""
    for library in libraries():
        folder = pathlib.Path(library) / CASES
        found = sorted(folder.rglob("*.toml"))
        if found:
            yield from ((str(path.relative_to(folder)), path.read_bytes()) for path in found)
            return


def toml_files(count, seed, most=200_000):
    """The names and the bytes of up to `count` TOML files of less than `most` bytes, the same for each seed."""
    found = []
    for place in PLACES:
        for suffix in ("*.toml", "Cargo.lock", "poetry.lock", "Pipfile"):
            found += [p for p in pathlib.Path(place).rglob(suffix) if p.is_file() and p.stat().st_size < most and "test_tomllib" not in str(p)]
    found = sorted(set(found))
    for path in random.Random(seed).sample(found, min(count, len(found))):
        try:
            yield str(path), path.read_bytes()
        except OSError:
            pass


# ---- random documents

def basic(r, text):
    """A text between double quotes, on one line or on several."""
    out = []
    several = r.random() < 0.3
    for c in text:
        if c == "\n" and several:
            out.append("\n")
        elif c in '"\\' or c < " " and c != "\t" or r.random() < 0.05:
            out.append({'"': '\\"', "\\": "\\\\", "\n": "\\n", "\t": "\\t"}.get(c) or (f"\\u{ord(c):04x}" if ord(c) < 0x10000 else f"\\U{ord(c):08x}"))
        else:
            out.append(c)
    return '"""\n' + "".join(out) + '"""' if several else '"' + "".join(out) + '"'


def string(r, text):
    if all(c >= " " and c != "'" for c in text) and r.random() < 0.3:
        return f"'{text}'"
    if "'" not in text and r.random() < 0.2:
        return f"'''\n{text}'''"
    return basic(r, text)


def part(r):
    if r.random() < 0.7:
        return "".join(r.choice(BARE) for _ in range(r.randrange(1, 3)))
    word = r.choice(WORDS).replace("\n", "")
    return f"'{word}'" if "'" not in word and "\t" not in word and r.random() < 0.5 else '"' + word.replace("\\", "\\\\").replace('"', '\\"') + '"'


def key(r):
    return r.choice([".", " . "]).join(part(r) for _ in range(r.choice([1, 1, 1, 2, 3])))


def value(r, depth):
    kind = r.random()
    if depth == 0 or kind < 0.7:
        return r.choice(SCALARS) if r.random() < 0.6 else string(r, r.choice(WORDS))
    if kind < 0.87:
        between = r.choice([", ", ",\n  ", " , # note\n"])
        items = between.join(value(r, depth - 1) for _ in range(r.randrange(4)))
        return "[" + items + (r.choice(["", ","]) if items else "") + "]"
    return "{" + ", ".join(f"{key(r)} = {value(r, depth - 1)}" for _ in range(r.randrange(3))).replace("\n", " ") + "}"


def random_document(r):
    lines = []
    for _ in range(r.randrange(1, 12)):
        kind = r.random()
        if kind < 0.15:
            lines.append(f"[{key(r)}]")
        elif kind < 0.25:
            lines.append(f"[[{key(r)}]]")
        elif kind < 0.3:
            lines.append(r.choice(["", "# note", "  # \u00e9"]))
        else:
            lines.append(f"{key(r)} = {value(r, 3)}" + r.choice(["", "", " # note"]))
    return r.choice(["\n", "\n", "\r\n"]).join(lines) + r.choice(["", "\n"])


# ---- spoiled texts

def spoiled(r, text):
    """A text with one to three changes: characters or lines that are dropped, doubled, moved or put in."""
    for _ in range(r.choice([1, 1, 1, 2, 3])):
        at = r.randrange(len(text) + 1)
        way = r.random()
        if way < 0.35:
            text = text[:at] + r.choice(SPOILS) + text[at:]
        elif way < 0.6:
            text = text[:at] + text[at + r.choice([1, 1, 2, 5]):]
        elif way < 0.75:
            text = text[:at] + r.choice(SPOILS) + text[at + 1:]
        elif way < 0.9:
            lines = text.split("\n")
            line = r.randrange(len(lines))
            lines.insert(r.randrange(len(lines) + 1), lines[line])
            text = "\n".join(lines)
        else:
            text = text[:at]
    return text
