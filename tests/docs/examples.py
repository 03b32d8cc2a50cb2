"""The examples in README.md and docs/GUIDE.md: each is a part of the tests and programs that the gate runs."""
import re

from pages import FENCED, name_of
from sources import ROOT

USE = re.compile(r"^use ((?:\w+::)+)(\w+|\{[^}]*\});\n", re.M)


def imported(text):
    """Returns the names that a text imports from other crates, each with where it comes from."""
    return {(path, name.strip()) for path, names in USE.findall(text) if not path.startswith(("crate::", "super::"))
            for name in names.strip("{}").split(",") if name.strip()}


def wrong_imports(page, block, items, file):
    """Returns a line for each name that a block imports and needn't, or needs and doesn't import. A block may import nothing."""
    code = USE.sub("", block)
    needed = {(path, word) for path, word in imported(file) if re.search(rf"\b{word}\b", code)}
    return [f"{page}: the lines of use {'lack' if each in needed else 'have, and need not,'} {''.join(each)}, before:\n{items[0]}"
            for each in sorted(needed ^ imported(block))] if imported(block) else []


def wrong_rust(page, block, files):
    """Returns what is wrong with a Rust example: each of its items must be in one of the files."""
    items = [item.strip("\n") for item in re.split(r"\n\n(?=///|#\[|fn |pub )", USE.sub("", block).strip("\n"))]
    found = [text for text in files if all(f"{item}\n" in text for item in items)]
    return wrong_imports(page, block, items, found[0]) if found else [f"{page}: not in one file of the tests:\n{USE.sub('', block)}"]


def wrong_examples():
    """Returns what is wrong with the examples, and their number."""
    tests = sorted([*ROOT.glob("crates/*_rows/src/tests/calling/*.rt"), *ROOT.glob("crates/*_rows/src/tests/guide/*.rt")])
    files = [file.read_text() for file in tests]
    programs = "\n".join(file.read_text() for file in sorted((ROOT / "examples/c").glob("*.c")))
    wrong, count = [], {"rust": 0, "c": 0}
    for page in (ROOT / "README.md", ROOT / "docs/GUIDE.md"):
        for language, block in FENCED.findall(page.read_text()) if page.exists() else []:
            if language not in count:
                continue
            count[language] += 1
            if language == "rust":
                wrong += wrong_rust(name_of(page), block, files)
            elif block not in programs:
                wrong.append(f"{name_of(page)}: not in a program of examples/c:\n{block}")
    for language, least in (("rust", 6), ("c", 1)):
        if count[language] < least:
            wrong.append(f"README.md and docs/GUIDE.md: {count[language]} examples in {language}, at least {least} are wanted")
    if (ROOT / "crates/yamlemit/stdin").read_text() != (ROOT / "examples/first.script").read_text():
        wrong.append("examples/first.script isn't the stored input of the program yamlemit")
    return wrong, sum(count.values())
