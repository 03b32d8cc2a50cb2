"""Reads the sources of the crates: the items of a file in Rattle, what a crate exports, and its wrong edits."""
import pathlib
import re

ROOT = pathlib.Path(__file__).resolve().parents[2]
# A comment, a string, a character. (A lifetime has no closing quote.)
NO_CODE = re.compile(
    r"//[^\n]*|/\*.*?\*/"
    r"|b?r(#*)\".*?\"\1"
    r"|b?\"(?:\\.|[^\"\\])*\""
    r"|b?'(?:\\u\{[0-9A-Fa-f_]+\}|\\x[0-9A-Fa-f]{2}|\\.|[^\\'\n])'",
    re.S,
)
ITEM = re.compile(
    r"(?P<visibility>pub(?:\([^)]*\))? )?(?:unsafe )?(?:extern \"\s*\" )?"
    r"(?P<kind>(?:fn|struct|enum|trait|impl|mod|use|const|static|type|ghost)\b|\w+!)"
)
CLAUSE = re.compile(r"\b(requires|ensures)(?: (\w+))?\s*$")
GHOST_MEMBER = re.compile(r"\bghost \w+:\s*$")
PAIRS = {"{": "}", "(": ")", "[": "]"}


def mask(text):
    """Returns the text with blanks in place of comments, and of the characters of strings."""
    def blank(match):
        part = match[0]
        if part.startswith("/"):
            return re.sub(r"[^\n]", " ", part)
        first = part.index(part[-1])
        return " " * first + part[-1] + re.sub(r"[^\n]", " ", part[first + 1 : -1]) + part[-1]

    return NO_CODE.sub(blank, text)


def closing(masked, at):
    """Returns the place of the bracket that closes the one at a place."""
    depth = 0
    for match in re.compile(r"[{}()\[\]]").finditer(masked, at):
        depth += 1 if match[0] in PAIRS else -1
        if depth == 0:
            return match.start()
    raise ValueError(f"a bracket is not closed: {masked[at : at + 60]}")


def past_generics(text, at):
    """Returns the place after the generics that begin at a place, or this place if none do."""
    if text[at : at + 1] != "<":
        return at
    depth = 0
    for match in re.compile(r"->|[<>]").finditer(text, at):
        depth += {"<": 1, ">": -1}.get(match[0], 0)
        if depth == 0:
            return match.end()
    raise ValueError(f"generics are not closed: {text[at : at + 60]}")


def dedent(text, columns):
    """Returns the text without so many blanks at the start of each line but the first, which has none."""
    return re.sub(rf"\n {{0,{columns}}}", "\n", text)


class File:
    """A file in Rattle, with its text, and this text without comments and strings."""

    def __init__(self, path):
        self.path, self.text = path, path.read_text()
        self.masked = mask(self.text)


class Item:
    """An item of a file: a function, a type, an implementation, or any other."""

    def __init__(self, file, before, start, match):
        self.file, self.kind, self.start = file.path, match["kind"], start
        self.is_public = match["visibility"] == "pub "
        self.clauses, self.body, self.children = [], None, []
        self.find_end(file, match.end())
        self.name = self.find_name(file.masked)
        gap = file.text[before:start]
        self.doc = "\n".join(re.findall(r"^ *///(?: (.*)|$)", gap, re.M))
        self.attributes = re.findall(r"^ *(#\[.*?\])$", gap, re.M | re.S)
        if self.body and self.kind in ("impl", "trait", "mod"):
            self.children = items_of(file, *self.body)

    def find_end(self, file, at):
        """Finds where the head, the body and the item end, and the clauses of a function's contract."""
        text, masked, head_end = file.text, file.masked, None
        while True:
            found = re.compile(r"[;{(\[]").search(masked, at)
            place = found.start()
            if found[0] == ";":
                self.head_end, self.end = head_end or place, place + 1
                break
            end = closing(masked, place)
            clause = CLAUSE.search(masked, self.start, place) if found[0] == "{" and self.kind == "fn" else None
            if clause:
                head_end = head_end or clause.start()
                self.clauses.append((clause[1], clause[2] or "", text[place + 1 : end].strip()))
            elif found[0] == "{" and self.kind == "fn" and GHOST_MEMBER.search(masked, self.start, place):
                head_end = head_end or GHOST_MEMBER.search(masked, self.start, place).start()
            elif found[0] == "{" and self.kind not in ("use", "const", "static", "type", "ghost"):
                self.head_end, self.body, self.end = head_end or place, (place + 1, end), end + 1
                break
            at = end + 1
        column = self.start - text.rfind("\n", 0, self.start) - 1
        self.text = dedent(text[self.start : self.end], column)
        self.head = dedent(text[self.start : self.head_end].rstrip(), column)
        last = self.body[0] - 1 if self.body else self.end
        self.contract = re.sub(r";$", "", dedent(text[self.start : last].rstrip(), column))

    def find_name(self, masked):
        if self.kind == "impl":
            start = masked.index("impl", self.start) + 4
            target = masked[past_generics(masked, start) : self.head_end]
            of_trait, separator, of_type = target.rpartition(" for ")
            self.trait = re.sub(r"\s+", " ", of_trait).strip() if separator else None
            return re.search(r"\w+", re.sub(r"^.*::", "", re.sub(r"<.*", "", of_type, flags=re.S).strip()))[0]
        found = re.match(rf"[^\n]*?\b{self.kind} (\w+)", masked[self.start : self.end])
        return found[1] if found else ""


def items_of(file, start, end):
    """Returns the items between two places of a file."""
    found, before = [], start
    while True:
        match = re.compile(r"\S").search(file.masked, before, end)
        if not match:
            return found
        at = match.start()
        while file.masked[at] == "#":
            at = re.compile(r"\S").search(file.masked, closing(file.masked, file.masked.index("[", at)) + 1).start()
        item = ITEM.match(file.masked, at)
        if not item:
            raise ValueError(f"{file.path}: not an item: {file.text[at : at + 60]!r}")
        found.append(Item(file, before, at, item))
        before = found[-1].end


def read_items(path):
    """Returns the items of a file in Rattle."""
    file = File(path)
    return items_of(file, 0, len(file.text))


def crates():
    """Returns the crates of this repository, in the order of crates.txt."""
    return re.findall(r"^(\w+)(?: staticlib)?:", (ROOT / "crates.txt").read_text(), re.M)


def ported():
    """Returns the crates of the toolchain that crates of this repository use."""
    uses = re.findall(r"^\w+(?: staticlib)?:(.*)$", (ROOT / "crates.txt").read_text(), re.M)
    return {name for line in uses for name in line.split()} - set(crates())


def folder(crate):
    return ROOT / "crates" / crate


def used_names(text):
    """Returns what a `use` names: the path of each name, its parts joined by `::`."""
    path, brace, inner = text.partition("{")
    if not brace:
        return [re.sub(r"\s+", "", text)]
    parts, depth, part = [], 0, ""
    for character in re.sub(r"\}\s*$", "", inner):
        depth += {"{": 1, "}": -1}.get(character, 0)
        if character == "," and depth == 0:
            parts.append(part)
            part = ""
        else:
            part += character
    return [re.sub(r"\s+", "", path) + name for part in [*parts, part] if part.strip() for name in used_names(part.strip())]


def paths_of(item):
    """Returns the paths that a `use` item names."""
    return used_names(item.text.split("use ", 1)[1].rstrip("; \n"))


def imported_definitions(path):
    """Returns the definitions of this repository that a file imports, by the word that names each there, with the file of each."""
    found = {}
    for place, names, alias in re.findall(r"\bghost use Rattle\.([\w.]+?)(?:\.\{([^}]*)\}| as (\w+));", path.read_text()):
        file = ROOT / "crates" / (place.replace(".", "/") + ".antt")
        if not file.exists():
            continue
        if alias:
            found.update((f"{alias}.{name}", file) for name in re.findall(r"^ *(?:(?:abbrev|unfoldable|pub|record|data) )*(\w+) ", file.read_text(), re.M))
        for name in re.split(r",\s*", names) if names else ():
            found[name.split(" as ")[-1].strip()] = file
    return found


class Crate:
    """A crate with its items, and what it exports."""

    def __init__(self, name):
        self.name, self.folder = name, folder(name)
        self.root = next(file for file in (self.folder / "src/lib.rt", self.folder / "src/main.rt") if file.exists())
        self.is_program = self.root.name == "main.rt"
        head = re.match(r"(?://!.*\n)*", self.root.read_text())[0]
        self.doc = " ".join(line[3:].strip() for line in head.splitlines())
        files = sorted((self.folder / "src").rglob("*.rt"))
        self.items = {file: read_items(file) for file in files if "tests" not in file.relative_to(self.folder).with_suffix("").parts}
        self.exported, self.handed_on = [], []
        modules = {item.name for item in self.items[self.root] if item.kind == "mod"}
        for item in self.items[self.root]:
            if not item.is_public:
                continue
            if item.kind == "mod":
                self.export_module(item.name)
            elif item.kind == "use":
                for path in paths_of(item):
                    (self.exported if path.split("::")[0] in modules else self.handed_on).append(path)
            else:
                self.exported.append(item.name)

    def export_module(self, name):
        """Adds what a public module exports."""
        for item in self.items[self.folder / f"src/{name}.rt"]:
            if item.is_public and item.kind == "use":
                self.handed_on += paths_of(item)
            elif item.is_public:
                self.exported.append(f"{name}::{item.name}")

    def every(self):
        """Returns each item of the crate but those within others."""
        return [item for items in self.items.values() for item in items]

    def public(self):
        """Returns the exported items, in the order of the export. (A variant is exported with its enum.)"""
        names = [path.split("::")[-1] for path in self.exported]
        there = {item.name: item for item in self.every() if item.is_public and item.kind not in ("use", "mod", "ghost")}
        variants = {path.split("::")[-1] for path in self.exported if len(path.split("::")) > 2 and path.split("::")[-2] in there}
        missing = [name for name in names if name not in there and name not in variants]
        if missing:
            raise ValueError(f"{self.name}: exported, but not found: {', '.join(missing)}")
        found = [there[name] for name in dict.fromkeys(names) if name in there]
        return found + [item for item in self.every() if item not in found and is_c_export(item)]


def is_c_export(item):
    """Returns whether an item is a function that is called from C by its name."""
    return item.kind == "fn" and any("no_mangle" in attribute for attribute in item.attributes)


def is_law(item):
    """Returns whether an item is a function whose contract alone matters: it takes and returns nothing."""
    return item.kind == "fn" and re.search(r"fn \w+\(\)$", item.head) is not None


def wrong_edits(crate):
    """Returns the wrong edits of a crate: the name of each, and its lines `file:`, `old:` and `new:`."""
    return [(file.stem, re.findall(r"^(file|old|new): ?(.*)$", file.read_text(), re.M)) for file in sorted(folder(crate).glob("must-fail/*.edit"))]
