"""The path of a built program, for tests in Python."""
import pathlib
import subprocess
import sys


def built(name):
    """The path that `tests/built NAME` prints; ends the test with status 1 if the program isn't built."""
    ran = subprocess.run([pathlib.Path(__file__).with_name("built"), name], stdout=subprocess.PIPE, text=True)
    return pathlib.Path(ran.stdout.strip()) if ran.returncode == 0 else sys.exit(1)
