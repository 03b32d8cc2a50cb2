#!/usr/bin/env python3
"""Runs the stored sample of scripts through a program: status, bytes and printed line must be those that the model gave.

    tests/scripts/sample.py PROGRAM
"""
import json
import pathlib
import subprocess
import sys


def differs(program, case):
    ran = subprocess.run([program], input=case["script"].encode("latin-1"), capture_output=True, timeout=60)
    line = case["line"] + "\n" if case["line"] else ""
    wanted = (case["status"], case["output"].encode("latin-1"), line.encode())
    if (ran.returncode, ran.stdout, ran.stderr) == wanted:
        return False
    print(f"script of seed {case['seed']} differs")
    print(f"  program {ran.returncode} {ran.stdout!r} {ran.stderr!r}")
    print(f"  model   {wanted[0]} {wanted[1]!r} {wanted[2]!r}")
    return True


def main(program):
    cases = [json.loads(line) for line in pathlib.Path(__file__).with_name("sample.jsonl").open()]
    differ = sum(differs(program, case) for case in cases)
    print(f"{len(cases)} stored scripts, {differ} differ")
    return 1 if differ or not cases else 0


if __name__ == "__main__":
    sys.exit(main(sys.argv[1]))
