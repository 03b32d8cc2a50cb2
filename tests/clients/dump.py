"""Dumps random values by PyYAML over libyaml: a line of JSON for each, with the value, the bytes, and whether they load back.

    dump.py VALUES

The values are the same in each run. `drop_in` says whether the emitter is the drop-in.
"""
import json
import random
import sys

import yaml

LETTERS = "ab c-:#,[]{}&*!|>'\"%@`?~.0123456789\t\n\r é\u0085\u00a0\u2028\u2029\ufeff\ufffd\x00\x07\x7f\x80中\U0001f600"
WORDS = ["", "yes", "no", "null", "~", "1e3", "0x1f", "12:30", "---", "...", "- a", "? b", "a: b", "# c", "=", "<<", " a", "a ", "\n", "a\n", "a\n\n"]


def text(random_):
    if random_.random() < 0.3:
        return random_.choice(WORDS)
    plain = random_.random() < 0.5
    letters = "abc de" if plain else LETTERS
    return "".join(random_.choice(letters) for _ in range(random_.choice([1, 3, 8, 30, 120])))


def value(random_, depth):
    kind = random_.random()
    if depth and kind < 0.25:
        return [value(random_, depth - 1) for _ in range(random_.randrange(4))]
    if depth and kind < 0.5:
        return {text(random_): value(random_, depth - 1) for _ in range(random_.randrange(4))}
    if kind < 0.6:
        return random_.choice([None, True, False, 0, -7, 1.5, 1e300, b"\x00\xff"])
    return text(random_)


def options(random_):
    return {
        "default_style": random_.choice([None, None, None, "'", '"', "|", ">"]),
        "default_flow_style": random_.choice([None, True, False]),
        "canonical": random_.choice([None, None, None, True]),
        "indent": random_.choice([None, 2, 4, 9, 12]),
        "width": random_.choice([None, 20, 80, 1000]),
        "allow_unicode": random_.choice([None, True]),
        "line_break": random_.choice([None, "\n", "\r\n"]),
        "explicit_start": random_.choice([None, True]),
        "explicit_end": random_.choice([None, True]),
        "version": random_.choice([None, None, (1, 1)]),
        "tags": random_.choice([None, None, {"!e!": "tag:e,2000:"}]),
    }


def preloaded():
    """Whether yaml_emitter_emit is that of the drop-in."""
    with open("/proc/self/maps") as maps:
        return any("libyaml_emitter" in line for line in maps)


def dump(values, given):
    """A document for each value."""
    if len(values) == 1:
        return yaml.dump(values[0], Dumper=yaml.CDumper, **given)
    return yaml.dump_all(values, Dumper=yaml.CDumper, **given)


def loads_as(dumped, values):
    try:
        return list(yaml.load_all(dumped, Loader=yaml.CSafeLoader)) == values
    except yaml.YAMLError:
        return False


def main():
    random_ = random.Random(1)
    drop_in = preloaded()
    for number in range(int(sys.argv[1])):
        values = [value(random_, 3) for _ in range(random_.choice([1, 1, 1, 2, 5]))]
        given = options(random_)
        dumped = dump(values, given)
        print(json.dumps({"drop_in": drop_in, "values": repr(values), "options": given, "yaml": dumped, "loads": loads_as(dumped, values)}))


main()
