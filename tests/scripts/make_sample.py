#!/usr/bin/env python3
"""Writes the stored sample anew: random scripts, each with what the model says that the program does.

    tests/scripts/make_sample.py > tests/scripts/sample.jsonl

The model is that of tests/model. Seeds count from 0, and each even one has the line `portable on`. A script is left out if it
is longer than 4,000 bytes, or if its output comes close to the size of the buffer, since the line of a write error then
depends on when the buffer is flushed.
"""
import json
import pathlib
import sys

COUNT = 300
LONGEST = 4000
NEAR_BUFFER = 16000


def case(seed, script, run):
    status, output, line, length = run(script)
    if len(script) > LONGEST or length > NEAR_BUFFER:
        return None
    # Bytes are kept as the characters of the same numbers.
    return {
        "seed": seed,
        "script": script.decode("latin-1"),
        "status": status,
        "output": output.decode("latin-1"),
        "line": line,
    }


def main():
    sys.dont_write_bytecode = True  # (so that nothing is left beside the sources)
    sys.path.insert(0, str(pathlib.Path(__file__).resolve().parents[1] / "model"))
    sys.setrecursionlimit(100000)
    import compare
    import program_model

    seed = found = 0
    while found < COUNT:
        made = case(seed, compare.script_of(seed, True), program_model.run)
        seed += 1
        if made:
            print(json.dumps(made, sort_keys=True))
            found += 1


if __name__ == "__main__":
    main()
