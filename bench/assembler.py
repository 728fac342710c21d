#!/usr/bin/env python3
"""Times `jrev make` over texts that are as dear to assemble as their size allows, and prints seconds and memory.

usage: bench/assembler.py     at the top of the repository, after `./jrev --version` has built the program
"""
import os
import resource
import subprocess
import sys
import time

PROGRAM = os.path.join("crates", "jrev_main", "out", "jrev_main")
MOST = 1048576
METHOD = "method 9 m ()V stack 0 locals 0"


def filled(head, line_of, tail):
    """As many lines as fit into the size of a text."""
    lines = [head]
    size = len(head) + 1 + len(tail) + 1
    number = 0
    while size + len(line_of(number)) + 1 <= MOST:
        lines.append(line_of(number))
        size += len(lines[-1]) + 1
        number += 1
    return "\n".join(lines + [tail]) + "\n"


def many_labels():
    return filled("class A\n" + METHOD, lambda n: "l%x:" % n, "end")


def labels_used():
    def line(n):
        return "l%x:" % (n // 2) if n % 2 else "goto l%x" % (n // 2)
    return filled("class A\n" + METHOD, line, "end")


def many_classes():
    return filled("class A", lambda n: "implements i%x" % n, "field 0 f I")


def many_strings():
    return filled("class A\n" + METHOD, lambda n: 'ldc_w str "%x"' % n, "end")


def many_longs():
    return filled("class A\n" + METHOD, lambda n: "ldc2_w %d" % (n * 1000003), "end")


def one_byte_lines():
    return filled("class A", lambda n: "x", "x")


def empty_lines():
    return "class A" + "\n" * (MOST - 7)


def same_names():
    return filled("class A", lambda n: "field 0 f%x Ljava/lang/String;" % n, "field 0 last I")


def one_long_name():
    name = "a" * 65000
    return filled("class A", lambda n: "implements " + name, "field 0 f I")


def long_members():
    name = "a" * 32000
    return filled("class A\n" + METHOD, lambda n: "getfield A %s%x I" % (name, n), "end")


def many_methods():
    return filled("class A", lambda n: "method 9 m%x ()V stack 0 locals 0\na:\ngoto a\nend" % n, "field 0 f I")


def no_end():
    return filled("class A", lambda n: "method 9 m%x ()V stack 0 locals 0" % n, "return")


def many_frames():
    return filled("class A\n" + METHOD, lambda n: "frame A B int / int" if n % 2 else "nop", "end")


def wide_frame():
    return filled("class A\n" + METHOD + "\nframe " + "int " * 65000 + "/", lambda n: "nop", "end")


def wide_switches():
    def line(n):
        return "tableswitch 0 a" + " a" * 5000
    return filled("class A\n" + METHOD + "\na:", line, "end")


def interface_calls():
    descriptor = "(" + "L" + "a" * 30000 + ";)V"
    return filled("class A\n" + METHOD, lambda n: "invokeinterface A m%x %s" % (n, descriptor), "end")


def measure(name, text):
    start = time.time()
    done = subprocess.run([PROGRAM, "make"], input=text.encode(), stdout=subprocess.PIPE, stderr=subprocess.PIPE)
    seconds = time.time() - start
    most = resource.getrusage(resource.RUSAGE_CHILDREN).ru_maxrss // 1024
    said = done.stderr.decode(errors="replace").strip() or "%d bytes" % len(done.stdout)
    print("%-16s %8d bytes %6.2f s, at most %4d MB so far; status %d, %s" % (name, len(text), seconds, most, done.returncode, said))


def main():
    if not os.path.exists(PROGRAM):
        sys.exit("build the program first: ./jrev --version")
    for case in (many_labels, labels_used, many_classes, many_strings, many_longs, one_byte_lines, empty_lines, same_names, one_long_name,
                 long_members, many_methods, no_end, many_frames, wide_frame, wide_switches, interface_calls):
        measure(case.__name__, case())


main()
