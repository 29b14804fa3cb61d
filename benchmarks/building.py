"""Programs proved and built in a folder of their own, over copies of a checkout's libraries and of what is built of them."""
import os
import shutil
import subprocess


def libraries(checkout, depends):
    """The libraries below a program, lowest first as in crates.txt, with their lines."""
    needs, lines = {}, []
    for line in open(os.path.join(checkout, "crates.txt")):
        name, colon, rest = line.split("#")[0].partition(":")
        if colon:
            needs[name.split()[0]] = rest.split()
            lines.append((name.split()[0], line))
    wanted, left = set(), list(depends)
    while left:
        name = left.pop()
        if name in needs and name not in wanted:
            wanted.add(name)
            left += needs[name]
    return [(name, line) for name, line in lines if name in wanted]


def copy_of(crate, to):
    """Copies a library with what is built of it, as far as crates above need it."""
    for part in ("src", "specs", "proofs", os.path.join("out", "rlib")):
        if os.path.isdir(os.path.join(crate, part)):
            shutil.copytree(os.path.join(crate, part), os.path.join(to, part), symlinks=True)


def build(checkout, work, name, depends, sources):
    """Builds a program of these source files in a folder: where it stands, or None, and what `rt` told.

    Of the files those with a capital letter are specifications.
    """
    lines = []
    for library, line in libraries(checkout, depends):
        copy_of(os.path.join(checkout, "crates", library), os.path.join(work, "crates", library))
        lines.append(line)
    crate = os.path.join(work, "crates", name)
    os.makedirs(os.path.join(crate, "src"))
    specs = []
    for path in sources:
        module = os.path.splitext(os.path.basename(path))[0]
        if module[0].isupper():
            specs.append(module)
            os.makedirs(os.path.join(crate, "specs"), exist_ok=True)
            shutil.copy(path, os.path.join(crate, "specs", module + ".antt"))
        else:
            shutil.copy(path, os.path.join(crate, "src", module + ".rt"))
    if specs:
        with open(os.path.join(crate, "specs", "Lib.antt"), "w") as file:
            file.writelines(f"pub mod {module}\n" for module in specs)
    with open(os.path.join(work, "crates.txt"), "w") as file:
        file.writelines(lines + [f"{name}: {' '.join(depends)}\n"])
    words = ["rt", "run", "--jobs", str(os.cpu_count())]
    run = subprocess.run(words, cwd=crate, stdout=subprocess.PIPE, stderr=subprocess.STDOUT, text=True)
    program = os.path.join(crate, "out", name)
    told = [line for line in run.stdout.split("\n") if not line.startswith(("library", "statements", "checked"))]
    return (None if run.returncode or not os.path.exists(program) else program), told
