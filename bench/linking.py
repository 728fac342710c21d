#!/usr/bin/env python3
"""Times link_vectors over programs that are as dear to link as their size allows: how many seconds until it says whether
the program is linked, and its memory then. What it prints of the program after that isn't waited for.

usage: bench/linking.py     at the top of the repository, after `rt run` in crates/link_vectors has built the program
"""
import os
import sys

from class_files import ABSTRACT, INTERFACE, PUBLIC, STATIC, SUPER, Maker, timed, u2

PROGRAM = os.path.join("crates", "link_vectors", "out", "link_vectors")
RETURN = b"\xb1"
API = PUBLIC | INTERFACE | ABSTRACT


def entries_of_one_name():
    one = Maker("A")
    for _ in range(60000):
        one.named("b" * 60000, again=True)
    return [one]


def strings_of_one_text():
    one = Maker("A")
    for _ in range(60000):
        one.string("s" * 60000, again=True)
    return [one]


def references_of_one_descriptor():
    one = Maker("A")
    for _ in range(30000):
        one.reference(10, "A", "m", "(" + "J" * 127 + ")V", again=True)
    return [one]


def upside_down():
    return [Maker("C%d" % i, "C%d" % (i + 1) if i < 1023 else "java/lang/Object") for i in range(1024)]


def a_ring():
    return [Maker("C%d" % i, "C%d" % ((i + 1) % 1024)) for i in range(1024)]


def one_interface_named_often():
    one = Maker("A", interfaces=["I"] * 65000)
    return [Maker("I", flags=API), one]


def interfaces_over_interfaces():
    return [Maker("I%d" % i, interfaces=["I%d" % j for j in range(i)], flags=API) for i in range(500)]


def many_declarers():
    files = []
    for i in range(1000):
        one = Maker("C%d" % i)
        one.method("m", code=RETURN)
        files.append(one)
    user = Maker("User")
    for i in range(30000):
        user.reference(10, "C%d" % (i % 1000), "m", "()V", again=True)
    return files + [user]


def methods_above_empty_classes():
    top = Maker("Top")
    for i in range(18000):
        top.method("m%d" % i, code=RETURN)
    return [top] + [Maker("C%d" % i, "Top") for i in range(1000)]


def one_interface_of_many_methods():
    api, top = Maker("Api", flags=API), Maker("Top", interfaces=["Api"])
    for i in range(18000):
        api.method("m%d" % i, flags=PUBLIC | ABSTRACT)
        top.method("m%d" % i, code=RETURN)
    return [api, top] + [Maker("C%d" % i, "Top", ["Api"]) for i in range(1000)]


def abstract_classes_below_one_interface():
    api = Maker("Api", flags=API)
    for i in range(50000):
        api.method("m%d" % i, flags=PUBLIC | ABSTRACT)
    return [api] + [Maker("C%d" % i, interfaces=["Api"], flags=PUBLIC | SUPER | ABSTRACT) for i in range(1000)]


def many_interfaces_of_the_same_methods():
    apis = [Maker("I%d" % i, flags=API) for i in range(500)]
    for api in apis:
        for j in range(60):
            api.method("m%d" % j, flags=PUBLIC | ABSTRACT)
    top = Maker("Top", interfaces=["All"])
    for j in range(60):
        top.method("m%d" % j, code=RETURN)
    return apis + [Maker("All", interfaces=["I%d" % i for i in range(500)], flags=API), top] + [Maker("C%d" % i, "Top") for i in range(500)]


def many_large_classes():
    files = []
    for i in range(9):
        one = Maker("C%d" % i, "C%d" % (i - 1) if i else "java/lang/Object")
        for j in range(22000):
            one.method("m%d" % j, code=RETURN)
        files.append(one)
    return files + [Maker("D%d" % i, "C8") for i in range(1000)]


def arrays_of_arrays():
    one = Maker("A")
    code = b""
    for depth in range(1, 256):
        code += b"\x01\xc0" + u2(one.named("[" * depth + "L" + "A" + ";")) + b"\x57"
    one.method("f", code=code + RETURN)
    long = Maker("b" * 60000)
    long.method("f", code=b"\x01\xc0" + u2(long.named("[" * 255 + "L" + "b" * 60000 + ";")) + b"\x57" + RETURN)
    return [one, long]


def one_entry_named_often():
    one = Maker("A")
    use = one.reference(10, "A", "f", "()V")
    one.method("f", flags=PUBLIC | STATIC, code=(b"\xb8" + u2(use)) * 21000 + RETURN)
    return [one]


def measure(name, files):
    (first,), seconds, memory, size = timed(PROGRAM, files, 1)
    print("%-36s %4d files %8d bytes %6.2f s %5s MB: %s" % (name, len(files), size, seconds, memory, first[:40]), flush=True)


def main():
    if not os.path.exists(PROGRAM):
        sys.exit("build link_vectors first: cd crates/link_vectors && rt run")
    for case in (entries_of_one_name, strings_of_one_text, references_of_one_descriptor, upside_down, a_ring,
                 one_interface_named_often, interfaces_over_interfaces, many_declarers, methods_above_empty_classes,
                 one_interface_of_many_methods, abstract_classes_below_one_interface,
                 many_interfaces_of_the_same_methods, many_large_classes,
                 arrays_of_arrays, one_entry_named_often):
        measure(case.__name__, case())


main()
