"""A program that is made, proved and built in a temporary folder, over copies of the crates that it stands on."""
import os
import shutil
import subprocess
import sys


def below(lines, roots):
    """The lines of crates.txt of these crates and of all below them, in order."""
    own = {line.split(":")[0]: line.split(":")[1].split() for line in lines if ":" in line and not line.startswith("#")}
    wanted, left = set(), [it for it in roots if it in own]
    while left:
        name = left.pop()
        if name not in wanted:
            wanted.add(name)
            left += [it for it in own[name] if it in own]
    return [f"{name}: {' '.join(deps)}".rstrip() for name, deps in own.items() if name in wanted]


def write(folder, path, text):
    """Writes a file, and makes the folders to it."""
    path = os.path.join(folder, path)
    os.makedirs(os.path.dirname(path), exist_ok=True)
    with open(path, "w", encoding="utf-8") as file:
        file.write(text)


def build(folder, name, stands_on, files):
    """Makes the program of these files, by their paths in its crate, which stands on these crates. Proves and builds it.
    Gives its path."""
    top = os.getcwd()
    with open(os.path.join(top, "crates.txt")) as file:
        lines = below(file.readlines(), stands_on)
    for line in lines:
        crate = line.split(":")[0]
        shutil.copytree(os.path.join(top, "crates", crate), os.path.join(folder, "crates", crate), symlinks=True)
    lines.append(f"{name}: {' '.join(stands_on)}")
    write(folder, "crates.txt", "\n".join(lines) + "\n")
    crate = os.path.join(folder, "crates", name)
    for path, text in files.items():
        write(crate, path, text)
    built = subprocess.run(["rt", "run"], cwd=crate, stdout=subprocess.PIPE, stderr=subprocess.STDOUT, text=True)
    program = os.path.join(crate, "out", name)
    if not os.path.exists(program):
        sys.exit(built.stdout[-4000:])
    return program
