#!/usr/bin/python3
"""dump.py FILE: the YAML of a JSON file on standard output, by PyYAML's dumper over libyaml (python3-yaml)."""
import json
import sys

import yaml

if len(sys.argv) != 2:
    sys.exit(__doc__)
with open(sys.argv[1], encoding="utf-8") as given:
    value = json.load(given)
yaml.dump(value, sys.stdout.buffer, Dumper=yaml.CSafeDumper, sort_keys=False, allow_unicode=True, encoding="utf-8")
