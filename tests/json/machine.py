"""JSON files: those of `files` here, and those of this machine, of node's and of Python's packages among them."""
import pathlib
import random
import sys

OWN = pathlib.Path(__file__).resolve().with_name("files")

PLACES = ["/usr/lib/node_modules", "/usr/share/nodejs", "/usr/share", "/usr/lib", sys.prefix]


def own_files():
    """The names and the texts of the files of this repository."""
    for path in sorted(OWN.glob("*.json")):
        yield path.name, path.read_text(encoding="utf-8")


def json_files(count, seed, most=200_000):
    """The names and the texts of up to `count` files of less than `most` bytes, the same for each seed."""
    found = []
    for place in PLACES:
        if len(found) < 4 * count:
            found += sorted(p for p in pathlib.Path(place).rglob("*.json") if p.is_file() and p.stat().st_size < most)[:4 * count]
    found = sorted(set(found))
    for path in random.Random(seed).sample(found, min(count, len(found))):
        try:
            yield str(path), path.read_text(encoding="utf-8")
        except (OSError, UnicodeDecodeError):
            pass
