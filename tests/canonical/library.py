"""The programs in C over the library yaml_c, which say of each text what the library does."""
import pathlib
import shutil
import subprocess

HERE = pathlib.Path(__file__).resolve().parent
CRATE = HERE.parents[1] / "crates" / "yaml_c"
LIBRARY = CRATE / "out" / "libyaml_c.a"


def compiled(source, library, folder):
    """The program of a source beside this file, over the library."""
    kit = pathlib.Path(shutil.which("rt")).resolve().parents[1]
    program = folder / pathlib.Path(source).stem
    subprocess.run(["cc", "-std=c99", "-Wall", "-Wextra", "-Werror", "-pedantic", "-O2", "-I", CRATE / "include", "-o", program,
                    HERE / source, library, kit / "c" / "liblibc_c.a"], check=True)
    return program


def said_of(program, texts):
    """What a program prints of these texts."""
    given = b"".join(b"%d\n%s" % (len(data), data) for data in texts)
    return subprocess.run([program], input=given, stdout=subprocess.PIPE, timeout=300, check=True).stdout


def answers(program, texts):
    """The line, the column and the words of the status, for each of these texts twice: if keys must differ, and if they may repeat."""
    for said in said_of(program, texts).decode().splitlines():
        line, column, words = said.split(" ", 2)
        yield int(line), int(column), words
