#!/usr/bin/env python3
"""Rows: runs of a built program, whose results were worked out by hand.

    tests/rows.py PROGRAM FILE..    runs the rows of these files, and prints how many there are

A file has lists of rows by their names. A row is a list in

    yaml       what it shows, the input, the output, and the arguments, if there are any; the status is 0
    refused    the same, but in place of the output what standard error says after `standard input:`; the status is 1, and the output empty

and an object in `rows`, whose keys are the fields of `Row` here. Arguments there may be lists of arguments, each for a run of its own.

Each run has a folder of its own. It holds the files of the object `files`, which a file of rows may have, and those of the row's `before`.
Afterwards it must hold the same, changed as the row's `after` says, and nothing else. These objects have the text of each file by its name,
or an object with the target of a symbolic `link`, or with a `text` and the file's `mode`, and null for no file. A name that ends in `/` is
that of an empty folder.

A text is a string, in which U+DC80 to U+DCFF are the bytes from 0x80 on that aren't UTF-8; or a list of texts, one after the other; or a
list that begins with a number: so often the texts after it.

The status is 1 if a run differs, if a file has no rows or an empty list, if a key is unknown, and if the program isn't built (`tests/built`).
"""
import concurrent.futures
import dataclasses
import json
import os
import pathlib
import subprocess
import sys
import tempfile

sys.dont_write_bytecode = True  # (so that nothing is left beside the sources)
from built import built


@dataclasses.dataclass
class Row:
    """A run, and what must come of it: `error` is the line on standard error, `first_error_line` the first of several."""
    name: str
    arguments: list = ()
    input: str = ""
    status: int = 0
    output: str = ""
    error: str = ""
    first_error_line: str = None
    before: dict = dataclasses.field(default_factory=dict)
    after: dict = dataclasses.field(default_factory=dict)


FIELDS = [field.name for field in dataclasses.fields(Row)]


def encoded(text):
    """The bytes of a text."""
    if isinstance(text, bytes):
        return text
    if isinstance(text, str):
        return text.encode("utf-8", "surrogateescape")
    if not isinstance(text, list):
        raise TypeError(f"{text!r} is no text")
    if text and isinstance(text[0], int):
        return text[0] * encoded(text[1:])
    return b"".join(map(encoded, text))


# ---- files of rows

def allow_keys(found, *names):
    """Refuses an object that has another key than these."""
    for name in found:
        if name not in names:
            raise ValueError(f"unknown key {name!r}")


def of_yaml(rows):
    for name, given, output, *arguments in rows:
        yield Row(name, arguments, given, output=output)


def of_refused(rows):
    for name, given, words, *arguments in rows:
        yield Row(name, arguments, given, status=1, error=f"standard input:{words}")


def of_rows(rows):
    for row in rows:
        allow_keys(row, *FIELDS)
        for entry in [*row.get("before", {}).values(), *row.get("after", {}).values()]:
            allow_keys(entry if isinstance(entry, dict) else {}, "link", "text", "mode")
        several = row.get("arguments", [])
        for arguments in several if several and isinstance(several[0], list) else [several]:
            yield Row(**{**row, "arguments": arguments})


LISTS = {"yaml": of_yaml, "refused": of_refused, "rows": of_rows}


def object_of(pairs):
    """An object of JSON, which is refused if it has a key twice."""
    found = dict(pairs)
    if len(found) < len(pairs):
        raise ValueError(f"a key that comes twice, of {', '.join(key for key, _ in pairs)}")
    return found


def rows_of(lists, makers):
    """The rows of lists by their names, each by the function of its name. It is an error if there is no list, and if one is empty."""
    if not lists:
        raise ValueError("there are no rows")
    allow_keys(lists, *makers)
    for name, rows in lists.items():
        if not rows:
            raise ValueError(f"the list {name!r} is empty")
        yield from makers[name](rows)


def read_rows(path, makers=LISTS):
    """The rows of a file, each with the files of its folder. Functions by the names of lists make them."""
    try:
        lists = json.loads(pathlib.Path(path).read_text(encoding="utf-8"), object_pairs_hook=object_of)
        files = lists.pop("files", {})
        return [dataclasses.replace(row, before={**files, **row.before}) for row in rows_of(lists, makers)]
    except (TypeError, ValueError) as fault:
        sys.exit(f"{path}: {fault}")


# ---- folders

def put(folder, name, entry):
    """Makes a file, a link or an empty folder."""
    path = folder / name
    path.parent.mkdir(parents=True, exist_ok=True)
    if name.endswith("/"):
        path.mkdir()
    elif isinstance(entry, dict) and "link" in entry:
        path.symlink_to(entry["link"])
    else:
        path.write_bytes(encoded(entry["text"] if isinstance(entry, dict) else entry))
        if isinstance(entry, dict):
            path.chmod(int(entry["mode"], 8))


def names_of(folder):
    """The names of all that is in a folder; that of a folder in it if this is empty."""
    for path in folder.rglob("*"):
        name = str(path.relative_to(folder))
        if path.is_symlink() or not path.is_dir():
            yield name
        elif not any(path.iterdir()):
            yield name + "/"


def is_as(path, entry):
    """Tests whether what has this path is as the entry says."""
    if isinstance(entry, dict) and "link" in entry:
        return path.is_symlink() and os.readlink(path) == entry["link"]
    if path.is_symlink() or path.is_dir():
        return not path.is_symlink() and entry == ""
    if isinstance(entry, dict):
        return path.read_bytes() == encoded(entry["text"]) and path.stat().st_mode & 0o777 == int(entry["mode"], 8)
    return path.read_bytes() == encoded(entry)


def short(value):
    """A value as it is printed, without its middle if it is long."""
    text = repr(value)
    return text if len(text) <= 600 else f"{text[:300]} .. {text[-300:]}"


def shown(path):
    """What a fault prints of a path."""
    if path.is_symlink():
        return f"a link to {os.readlink(path)}"
    if path.is_dir():
        return "a folder"
    return f"a file of mode {path.stat().st_mode & 0o777:o} with {short(path.read_bytes())}" if path.exists() else "not there"


def wrong_files(folder, wanted):
    """Tells what a folder has and should not have, what it doesn't have, and what is otherwise than it should be."""
    found = set(names_of(folder))
    wrong = found ^ set(wanted) | {name for name in found & set(wanted) if not is_as(folder / name, wanted[name])}
    return [f"{name} is {shown(folder / name)}" for name in sorted(wrong)]


# ---- runs


def differs(program, row):
    """Runs a row. Returns lines that tell how it differs, or nothing."""
    with tempfile.TemporaryDirectory() as name:
        folder = pathlib.Path(name)
        for each, entry in row.before.items():
            put(folder, each, entry)
        ran = subprocess.run([program, *row.arguments], input=encoded(row.input), capture_output=True, timeout=60, cwd=folder)
        wrong = wrong_files(folder, {each: entry for each, entry in {**row.before, **row.after}.items() if entry is not None})
    said, error = ran.stderr, encoded(row.error + "\n" if row.error else "")
    if row.first_error_line is not None:
        said, error = said.split(b"\n")[0], encoded(row.first_error_line)
    pairs = [("status", ran.returncode, row.status), ("output", ran.stdout, encoded(row.output)), ("standard error", said, error)]
    faults = [f"    {what} {short(got)}, want {short(want)}" for what, got, want in pairs if got != want]
    faults += [f"    {line}" for line in wrong]
    return "\n".join([f"{row.name}, {list(row.arguments)}, {short(encoded(row.input))}:", *faults]) if faults else None


def run_rows(program, rows):
    """Runs rows, several at once. Returns what `differs` tells of those that differ."""
    with concurrent.futures.ThreadPoolExecutor(os.cpu_count()) as pool:
        return [fault for fault in pool.map(lambda row: differs(program, row), rows) if fault]


def main(name, *paths):
    rows = [row for path in paths for row in read_rows(path)]
    faults = run_rows(built(name), rows)
    print(*faults, f"{name}: {len(rows)} rows, {len(faults)} wrong", sep="\n")
    return 1 if faults or not rows else 0


if __name__ == "__main__":
    sys.exit(main(*sys.argv[1:]) if len(sys.argv) > 2 else "usage: tests/rows.py PROGRAM FILE..")
