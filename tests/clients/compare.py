"""Compares the output of dump.py with libyaml and with the drop-in: the bytes are the same but for folded texts with a line that begins
with a space, and for characters past U+FFFF, which libyaml escapes although unicode is allowed; with the drop-in each value loads back.

    compare.py LIBYAML DROP_IN
"""
import ast
import json
import sys


def texts(value):
    """The texts of a value, names too."""
    if isinstance(value, dict):
        value = [*value.keys(), *value.values()]
    if isinstance(value, list):
        return [text for each in value for text in texts(each)]
    return [value] if isinstance(value, str) else []


def may_differ(old, new):
    lines = [line for text in texts(ast.literal_eval(old["values"])) for line in text.split("\n")]
    folded = old["options"]["default_style"] == ">" and any(line.startswith(" ") for line in lines)
    escaped = old["options"]["allow_unicode"] and "\\U0001F600" in old["yaml"] and old["loads"]
    return folded or (escaped and "\\U" not in new["yaml"] and "\U0001f600" in new["yaml"])


def main():
    libyaml, drop_in = ([json.loads(line) for line in open(name)] for name in sys.argv[1:])
    wrong = [] if len(libyaml) == len(drop_in) else [f"{len(libyaml)} values and {len(drop_in)}"]
    others = 0
    for number, (old, new) in enumerate(zip(libyaml, drop_in)):
        if old["drop_in"] or not new["drop_in"]:
            wrong.append(f"value {number}: not with libyaml and with the drop-in")
        elif not new["loads"]:
            wrong.append(f"value {number} doesn't load back: {new['values']}, {new['options']}, {new['yaml']!r}")
        elif old["yaml"] != new["yaml"]:
            others += 1
            if not may_differ(old, new):
                wrong.append(f"value {number}: {new['options']}\n{old['yaml']!r}\n{new['yaml']!r}")
    print("\n".join(wrong[:20]) if wrong else f"clients: {len(libyaml)} values dumped, {others} of them otherwise than by libyaml, as listed")
    sys.exit(1 if wrong else 0)


main()
