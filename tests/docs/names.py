"""The names in backticks on the pages: each is a path, an option, or a name of the sources, or is listed in tests/docs/foreign."""
import re

from pages import FENCED, GENERATED, front, manual, name_of
from sources import ROOT, crates, mask, ported, read_items

SPAN = re.compile(r"(?<!`)`([^`\n]+)`(?!`)")
OPTION = re.compile(r"--[a-z][a-z0-9-]+")
PATH = re.compile(r"(?:\./)?\.?[\w*-][\w.*-]*(?:/[\w.*-]*)+")
NAME = re.compile(r"([A-Za-z_]\w+(?:(?:::|\.)\w+)*)(?:<.*>)?(?:\(.*\)|!| \{ .* \})?(?:\.\w+\(\))?")
# A definition, a field or a constructor in Antt.
DEFINED = re.compile(r"^ *(?:(?:abbrev|unfoldable|pub|record|data|mutual) )*([A-Za-z_]\w*)\b[^=\n]*(?: :|$)", re.M)
DECLARED = re.compile(r"\b(?:fn|struct|enum|trait|const|static|type|mod|macro_rules!) (\w+)|\b(\w+):(?!:)|\b(?:requires|ensures) (\w+) \{|\bghost (\w+)")
SKIPPED = {"out", ".git"}


def files_of(*patterns):
    """Returns the repository's files that have one of these names, but those of builds."""
    return [file for pattern in patterns for file in ROOT.rglob(pattern) if not SKIPPED & set(file.relative_to(ROOT).parts)]


def variants(item):
    """Returns the names of an enum's variants."""
    return re.findall(r"^    (\w+)", mask(item.text).partition("{")[2], re.M)


def members(items):
    """Returns each type's name joined with the names of its functions, variants and fields."""
    found = set()
    for item in items:
        found |= {f"{item.name}::{child.name}" for child in item.children if child.kind in ("fn", "ghost", "type")}
        found |= {f"{item.name}::{variant}" for variant in variants(item)} if item.kind == "enum" else set()
        found |= {f"{item.name}::{field}" for field in re.findall(r"\b(\w+):(?!:)", mask(item.text))} if item.kind == "struct" else set()
    return found


class Names:
    """The names of this repository."""

    def __init__(self):
        self.crates, self.ported = set(crates()), ported() | {"std", "core"}
        self.known, self.pairs = set(self.crates), set()
        sources = files_of("*.rt", "*.rt.txt", "*.rs")
        for file in sources:
            text = file.read_text()
            self.known |= {name for match in DECLARED.findall(mask(text)) for name in match if name}
            for taken in re.findall(r"^ *(?:pub )?(?:ghost )?use ([^;]+);", text, re.M):
                self.known |= set(re.findall(r"\w+", taken))
        for file in files_of("*.rt"):
            items = read_items(file) if "tests" not in file.parts and "tests.rt" != file.name else []
            self.pairs |= members(items)
            self.known |= {variant for item in items if item.kind == "enum" for variant in variants(item)}
        self.owners = {pair.split("::")[0] for pair in self.pairs}
        for file in files_of("*.antt", "*.antt.txt"):
            self.known |= set(DEFINED.findall(file.read_text()))
        for file in files_of("*.h", "*.c"):
            self.known |= set(re.findall(r"\w+", mask(file.read_text())))
        everything = [file for file in files_of("*") if file.is_file()]
        self.files = {file.name for file in everything} | {file.name.split(".")[0] for file in everything} | {file.name for file in files_of("*")}
        scripts = [file for file in everything if file.suffix in ("", ".py", ".bash", ".1") and not name_of(file).startswith("tests/docs/foreign")]
        self.options = {word for file in [*scripts, *sources] for word in OPTION.findall(file.read_text().replace("\\-", "-"))}
        text = (ROOT / "tests/docs/foreign").read_text()
        self.foreign = {word for line in text.splitlines() if not line.startswith("#") for word in line.partition(": ")[2].split()}

    def has_path(self, page, path):
        """Returns whether a path is there: from the page, the top, or a folder in which the pages name files."""
        path = re.sub(r"^\./", "", path)
        if re.match(r"[A-Z]+/", path):
            return True  # (a folder of the reader's choice)
        path = re.sub(r"(?<=/)out/.*", "", path)
        places = ["", "docs/", "crates/", "tests/", "examples/", "crates/*/", "crates/*/specs/", "crates/*/src/", "crates/*/proofs/"]
        starts = [ROOT, page.parent]
        return any(next(start.glob(f"{place}{path.rstrip('/')}{end}"), None) for start in starts for place in places for end in ("", ".antt", ".rt"))

    def has(self, name):
        """Returns whether a name, whose parts are joined by `::` or `.`, is one of the sources."""
        if name in self.files or name in self.known:
            return True
        parts = re.split(r"::|\.", name)
        if parts[0] in self.ported:
            return True
        for owner, member in zip(parts, parts[1:]):
            if owner in self.owners and f"{owner}::{member}" not in self.pairs:
                return False
        return all(len(part) == 1 or part in self.known or part in self.files or part in self.foreign for part in parts)


def wrong_names():
    """Returns a line for each name in backticks that isn't there, the number of those that are, and that of the foreign words."""
    names, wrong, count, foreign = Names(), [], 0, set()
    others = [page for page in [*front(), GENERATED, ROOT / "bench/README.md"] if page.exists() and page.name != "CHANGELOG.md"]
    for page in [*manual(), *others]:
        text = re.sub(r"^Definitions: .*$", "", FENCED.sub("", page.read_text()), flags=re.M)
        for span in dict.fromkeys(SPAN.findall(text)):
            if span in names.foreign:
                foreign.add(span)
                continue
            words = span.split()
            checks = [(word, names.has_path(page, word)) for word in words if PATH.fullmatch(word) and word not in names.foreign]
            checks += [(word, word in names.options) for word in OPTION.findall(span) if span.startswith(("--", "./", word)) or words[0] in names.crates]
            name = NAME.fullmatch(span)
            if name and not checks:
                checks.append((name[1], names.has(name[1]) or name[1] in names.foreign))
            count += len(checks)
            wrong += [f"{name_of(page)}: there is no {word}" + (f", in `{span}`" if word != span else "") for word, is_there in checks if not is_there]
    return wrong, count, len(foreign)
