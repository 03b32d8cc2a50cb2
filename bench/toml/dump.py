#!/usr/bin/python3
"""dump.py FILE: the YAML of a TOML file on standard output, by Python's tomllib and PyYAML's dumper over libyaml (python3-yaml)."""
import sys
import tomllib

import yaml

if len(sys.argv) != 2:
    sys.exit(__doc__)
with open(sys.argv[1], "rb") as given:
    value = tomllib.load(given)
yaml.dump(value, sys.stdout.buffer, Dumper=yaml.CSafeDumper, sort_keys=False, allow_unicode=True, encoding="utf-8")
