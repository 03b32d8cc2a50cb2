"""The pages: README.md, the pages of docs/, and the other pages at the top."""
import re

from sources import ROOT

GENERATED = ROOT / "docs/REFERENCE.md"
# The greatest number of words of a page, of README.md and docs/ without docs/REFERENCE.md, and of characters of a line or a cell.
MOST_WORDS = {
    "README.md": 700, "docs/GUIDE.md": 3500, "docs/PROVED.md": 2200, "docs/MAP.md": 1500, "docs/DECISIONS.md": 3000, "docs/PROVING.md": 1200,
    "docs/BENCH.md": 900,
}
MOST_WORDS_IN_ALL = 20000
MOST_CHARACTERS = 600
MOST_ROWS_OF_PLAN = 10
FENCED = re.compile(r"^```(\w*)\n(.*?)^```$", re.M | re.S)


def name_of(page):
    return str(page.relative_to(ROOT))


def manual():
    """Returns README.md and the pages of docs/ that are written by hand."""
    return [ROOT / "README.md", *(page for page in sorted((ROOT / "docs").glob("*.md")) if page != GENERATED)]


def front():
    """Returns the pages at the top of the repository but README.md."""
    return [ROOT / name for name in ("CHANGELOG.md", "CONTRIBUTING.md", "SECURITY.md")]


def cells(line):
    """Returns the cells of a table's row, or the line itself if it is no row."""
    return re.split(r"(?<!\\)\|", line.strip().strip("|")) if line.startswith("|") else [line]


def rows(text):
    """Returns the rows of the tables of a text, without their heads."""
    lines = text.splitlines()
    heads = {at for at, line in enumerate(lines) if re.match(r"^\|[-:| ]+\|$", line)}
    return [line for at, line in enumerate(lines) if line.startswith("|") and at not in heads and at + 1 not in heads]


def anchors(text):
    """Returns the anchors of a page's headings."""
    used, found = {}, set()
    for title in re.findall(r"^#+ (.+)$", FENCED.sub("", text), re.M):
        words = re.sub(r"[^\w\- ]", "", title.strip().lower()).replace(" ", "-")
        number = used.get(words, 0)
        used[words] = number + 1
        found.add(f"{words}-{number}" if number else words)
    return found


def wrong_sizes():
    """Returns a line for each page and line that is too long, and the number of words of README.md and docs/."""
    wrong, total = [], 0
    for page in manual():
        text, name = page.read_text(), name_of(page)
        words = len(text.split())
        total += words
        if words > MOST_WORDS.get(name, words):
            wrong.append(f"{name}: {words} words, at most {MOST_WORDS[name]} are allowed")
        for number, line in enumerate(FENCED.sub(lambda match: "\n" * match[0].count("\n"), text).splitlines(), 1):
            longest = max(map(len, cells(line)))
            if longest > MOST_CHARACTERS:
                wrong.append(f"{name}:{number}: {longest} characters in a line or a cell, at most {MOST_CHARACTERS} are allowed")
    if total > MOST_WORDS_IN_ALL:
        wrong.append(f"README.md and docs/: {total} words, at most {MOST_WORDS_IN_ALL} are allowed")
    plan = ROOT / "docs/PLAN.md"
    count = len(rows(plan.read_text())) if plan.exists() else 0
    if not 1 <= count <= MOST_ROWS_OF_PLAN:
        wrong.append(f"docs/PLAN.md: its table has {count} rows, 1 to {MOST_ROWS_OF_PLAN} are allowed")
    return wrong, total


def wrong_links():
    """Returns a line for each link that leads nowhere, and the number of links to pages."""
    wrong, count = [], 0
    for page in [*manual(), GENERATED, *front()]:
        if not page.exists():
            wrong.append(f"there is no {name_of(page)}")
            continue
        for target in re.findall(r"\]\(([^)\s]+)\)", FENCED.sub("", page.read_text())):
            if re.match(r"\w+:", target):
                continue
            count += 1
            path, _, anchor = target.partition("#")
            there = (page.parent / path).resolve() if path else page
            if not there.exists():
                wrong.append(f"{name_of(page)}: a link leads to {target}, which isn't there")
            elif anchor and anchor not in anchors(there.read_text()):
                wrong.append(f"{name_of(page)}: a link leads to {target}, which has no such heading")
    for name in ("docs/GUIDE.md", "docs/PROVING.md"):
        if not (ROOT / name).exists():
            wrong.append(f"there is no {name}")
    if "docs/GUIDE.md" not in (ROOT / "README.md").read_text():
        wrong.append("README.md: it doesn't link to docs/GUIDE.md")
    return wrong, count
