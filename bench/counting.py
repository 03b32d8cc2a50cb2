"""Counts the instructions of programs by valgrind, so a busy machine doesn't change the numbers.

glibc's `rep stosb` and `rep movsb`, which callgrind counts as an instruction a byte, are switched off for every program. Needs valgrind."""
import os
import re
import subprocess
import sys

WITHOUT_REP = dict(os.environ, GLIBC_TUNABLES="glibc.cpu.x86_rep_stosb_threshold=1000000000:glibc.cpu.x86_rep_movsb_threshold=1000000000")
# (the function of libyaml, and that of `Engine` to which `yaml_emitter_emit` hands each event; it is inlined itself)
EMITTING = re.compile(r"^\s*([\d,]+) .*?:(?:yaml_emitter::engine::Engine::emit::\S+|yaml_emitter_emit) ", re.M)


def profiled(command, given, folder):
    """Runs a command under callgrind with a file as its standard input; its output, and the number of its instructions."""
    with open(given, "rb") as source:
        ran = subprocess.run(["valgrind", "--tool=callgrind", f"--callgrind-out-file={folder / 'profile'}", *command], stdin=source,
                             capture_output=True, env=WITHOUT_REP)
    if ran.returncode:
        sys.exit(f"{command[0]}: status {ran.returncode}: {ran.stderr.decode(errors='replace')}")
    return ran.stdout, int(re.search(rb"Collected\s*:\s*(\d+)", ran.stderr)[1])


def counted(program, script, folder):
    """The output of a program on a script, and millions of instructions: of the whole run, and of emitting with all that it calls."""
    output, whole = profiled([program], script, folder)
    table = subprocess.run(["callgrind_annotate", "--inclusive=yes", folder / "profile"], stdout=subprocess.PIPE, text=True).stdout
    inside = [int(found.replace(",", "")) for found in EMITTING.findall(table)]
    if not inside:
        sys.exit(f"{program}: callgrind finds no function that emits")
    return output, whole / 1e6, max(inside) / 1e6
