"""C that stands beside calls of the library."""
import os
import shutil
import subprocess
import sys

# Of each cell of a table the quicker one counts.
COMPILERS = ("gcc", "clang")
FLAGS = ["-O3", "-march=x86-64-v2"]


def compilers():
    """Those of the C compilers that are there."""
    return [compiler for compiler in COMPILERS if shutil.which(compiler)]


def by_hand(source, work, words):
    """The programs of a C file, one for each compiler and kind of words; what cannot be built is named and left out."""
    programs = []
    for compiler in compilers():
        for word, kind in words.items():
            program = os.path.join(work, f"by_hand_{word}_{compiler}")
            command = [compiler, *FLAGS, f"-DWORD={kind}", f'-DNAME="{word}"', "-o", program, source]
            if subprocess.run(command, stderr=subprocess.DEVNULL).returncode == 0:
                programs.append(program)
            else:
                print(f"{source} is not built: {' '.join(command)}", file=sys.stderr)
    return programs
