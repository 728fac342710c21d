#!/usr/bin/env python3
"""Compares what link_vectors and Java's verifier say of class files in whose code single bytes were changed.

usage: mutants.py COUNT FOLDER ..
Each FOLDER has the class files of a program. Of COUNT programs with one changed byte each, made by a fixed seed, those are
compared that link_vectors links. It prints how many those are, and each difference that docs/verification.md doesn't name.
"""
import os
import random
import subprocess
import sys
import tempfile

PROGRAM = os.path.join("crates", "link_vectors", "out", "link_vectors")
SIZES = {3: 4, 4: 4, 5: 8, 6: 8, 7: 2, 8: 2, 9: 4, 10: 4, 11: 4, 12: 4, 15: 3, 16: 2, 18: 4}
# a handler covers an instruction of a constructor before its object is initialized: Java may accept it
EARLY_HANDLER = "8"


def code_places(data):
    """Returns the places of the bytes of all code arrays of a class file (JVMS 4.1, 4.7.3)."""
    at, names, index = 10, {}, 1

    def number(size):
        nonlocal at
        at += size
        return int.from_bytes(data[at - size:at], "big")

    count = int.from_bytes(data[8:10], "big")
    while index < count:
        tag = number(1)
        if tag == 1:
            size = number(2)
            names[index] = data[at:at + size]
            at += size
        else:
            at += SIZES[tag]
        index += 2 if tag in (5, 6) else 1
    at += 6
    interfaces = number(2)
    at += 2 * interfaces
    places = []
    for _ in "fields", "methods":
        for _ in range(number(2)):
            at += 6
            for _ in range(number(2)):
                name, size = names[number(2)], number(4)
                if name == b"Code":
                    length = int.from_bytes(data[at + 4:at + 8], "big")
                    places += range(at + 8, at + 8 + length)
                at += size
    return places


def mutants(count, folders):
    """Yields the class files of programs of which one byte of code is another one."""
    draw = random.Random(1)
    programs = [{name: read(os.path.join(folder, name)) for name in sorted(os.listdir(folder))} for folder in folders]
    choices = [(files, name, place) for files in programs for name in files for place in code_places(files[name])]
    for _ in range(count):
        files, name, place = draw.choice(choices)
        data = bytearray(files[name])
        data[place] = (data[place] + draw.randrange(1, 256)) % 256
        yield {**files, name: bytes(data)}


def read(path):
    with open(path, "rb") as file:
        return file.read()


def write(folder, files):
    os.mkdir(folder)
    for name, data in files.items():
        with open(os.path.join(folder, name), "wb") as file:
            file.write(data)


def ours(folder):
    """Returns `safe`, or `unsafe` and the number of the rule's kind, or None where the program isn't linked."""
    files = [os.path.join(folder, name) for name in sorted(os.listdir(folder))]
    lines = subprocess.run([PROGRAM, *files], capture_output=True, check=True).stdout.decode(errors="replace").split("\n", 2)
    return lines[1].split()[1:3] if lines[0] == "files linked" else None


def main():
    count, folders = int(sys.argv[1]), sys.argv[2:]
    with tempfile.TemporaryDirectory() as top:
        subprocess.run(["javac", "-d", top, "checks/verification/Verifier.java"], check=True)
        paths = []
        for number, files in enumerate(mutants(count, folders)):
            paths.append(os.path.join(top, str(number)))
            write(paths[-1], files)
        lines = "".join(f"{path}\n" for path in paths).encode()
        java = subprocess.run(["java", "-cp", top, "Verifier"], input=lines, capture_output=True, check=True).stdout.decode().split()
        seen = [(path, ours(path), verdict) for path, verdict in zip(paths, java)]
    linked = [it for it in seen if it[1]]
    differing = [it for it in linked if it[1][0] != it[2] and it[1][1:] != [EARLY_HANDLER]]
    safe = sum(said == ["safe"] for _, said, _ in linked)
    print(f"{len(linked)} of {count} linked, {safe} of them type safe, {len(differing)} other than Java")
    for path, said, verdict in differing:
        print(os.path.basename(path), *said, verdict)
    return 1 if differing or not linked else 0


sys.exit(main())
