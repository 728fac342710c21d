#!/usr/bin/env python3
"""Times class_show over class files that are as dear to read as their size allows, and prints seconds and memory.

usage: bench/hostile.py     at the top of the repository, after `./class_show` has built the program
"""
import os
import resource
import struct
import subprocess
import sys
import tempfile
import time

PROGRAM = os.path.join("crates", "class_show", "out", "class_show")


def u2(*numbers):
    return struct.pack(">%dH" % len(numbers), *numbers)


def u4(number):
    return struct.pack(">I", number)


def utf8(text):
    return b"\x01" + u2(len(text)) + text


# Entries 1 to 8 of each pool: this class, its superclass, a method's name and descriptor, and two attributes.
FIRST = [utf8(b"T"), b"\x07" + u2(1), utf8(b"java/lang/Object"), b"\x07" + u2(3), utf8(b"f"), utf8(b"()V"),
         utf8(b"Code"), utf8(b"StackMapTable")]


def class_file(entries=(), fields=b"", field_count=0, methods=b"", method_count=0, attributes=b"", attribute_count=0):
    pool = FIRST + list(entries)
    return (bytes.fromhex("cafebabe00000034") + u2(len(pool) + 1) + b"".join(pool) + u2(33, 2, 4, 0)
            + u2(field_count) + fields + u2(method_count) + methods + u2(attribute_count) + attributes)


def method(code, handlers=(), frames=b"", frame_count=0):
    maps = u2(frame_count) + frames
    content = (u2(10, 10) + u4(len(code)) + code + u2(len(handlers)) + b"".join(handlers)
               + u2(1) + u2(8) + u4(len(maps)) + maps)
    return u2(9, 5, 6, 1) + u2(7) + u4(len(content)) + content


def many_fields():
    names = [utf8(b"n%d" % i) for i in range(60000)]
    fields = b"".join(u2(0, 9 + i, 60009, 0) for i in range(60000))
    return class_file(names + [utf8(b"I")], fields=fields, field_count=60000)


def few_long_names():
    names = [utf8(b"a" * 300 + b"%04d" % i) for i in range(250)]
    kinds = [utf8(b"[" * (1 + i) + b"I") for i in range(240)]
    pairs = [(i, j) for i in range(250) for j in range(240)][:60000]
    fields = b"".join(u2(0, 9 + i, 259 + j, 0) for i, j in pairs)
    return class_file(names + kinds, fields=fields, field_count=len(pairs))


def full_pool():
    return class_file([b"\x08" + u2(1)] * 65526)


def many_attributes():
    return class_file(attributes=(u2(1) + u4(9) + b"x" * 9) * 65535, attribute_count=65535)


def long_code():
    code = b"\x00" * 65534 + b"\xb1"
    handlers = [u2(0, 65535, 65534, 0)] * 65535
    frames = b"\x00" * 65535
    return class_file(methods=method(code, handlers, frames, 65535), method_count=1)


def many_switches():
    # Each tableswitch has 16 targets at its own offset.
    one = b"\xaa\0\0\0" + u4(0) + u4(0) + u4(15) + u4(0) * 16
    code = one * (65000 // len(one)) + b"\xb1"
    return class_file(methods=method(code), method_count=1)


def wide_frames():
    # One frame of 60,000 locals, and a frame with the same locals at each instruction after it.
    code = b"\x00" * 60000 + b"\xb1"
    frames = b"\xff" + u2(0) + u2(60000) + b"\x01" * 60000 + u2(0) + b"\x00" * 60000
    return class_file(methods=method(code, (), frames, 60001), method_count=1)


LONG_CLASS = b"L" + b"a" * 65000 + b";"


def one_long_descriptor():
    # Fields with different names, all of one type with a long name.
    names = [utf8(b"n%d" % i) for i in range(40000)]
    fields = b"".join(u2(0, 10 + i, 9, 0) for i in range(40000))
    return class_file([utf8(LONG_CLASS)] + names, fields=fields, field_count=40000)


def long_method_descriptor():
    # Methods with different names, all with one long descriptor; each has the code of one instruction.
    names = [utf8(b"n%d" % i) for i in range(15000)]
    content = u2(10, 10) + u4(1) + b"\xb1" + u2(0, 0)
    tail = u2(7) + u4(len(content)) + content
    methods = b"".join(u2(9, 10 + i, 9, 1) + tail for i in range(15000))
    return class_file([utf8(b"(" + LONG_CLASS + b")V")] + names, methods=methods, method_count=15000)


def interface_calls():
    # One code that is full of invokeinterface, all of one method with a long descriptor.
    entries = [utf8(b"(" + LONG_CLASS + b")V"), b"\x0c" + u2(5, 9), b"\x0b" + u2(2, 10)]
    code = (b"\xb9" + u2(11) + b"\x02\x00") * 13000 + b"\xb1"
    return class_file(entries, methods=method(code), method_count=1)


def measure(name, bytes_of):
    with tempfile.NamedTemporaryFile(suffix=".class", delete=False) as file:
        file.write(bytes_of)
    start = time.time()
    done = subprocess.run([PROGRAM, file.name], stdout=subprocess.PIPE, stderr=subprocess.STDOUT)
    seconds = time.time() - start
    most = resource.getrusage(resource.RUSAGE_CHILDREN).ru_maxrss // 1024
    last = done.stdout.decode(errors="replace").rstrip().split("\n")[-1]
    print("%-16s %8d bytes %6.2f s, at most %4d MB so far; last line: %s" % (name, len(bytes_of), seconds, most, last[:50]))
    os.unlink(file.name)


def main():
    if not os.path.exists(PROGRAM):
        sys.exit("build class_show first: cd crates/class_show && rt run")
    for case in (many_fields, few_long_names, full_pool, many_attributes, long_code, many_switches, wide_frames, one_long_descriptor,
                 long_method_descriptor, interface_calls):
        measure(case.__name__, case())


main()
