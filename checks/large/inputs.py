"""Writes the large inputs of checks/large.sh, and what each must print, into a folder: inputs.py FOLDER.

The class files are written byte by byte (JVMS SE 8, 4.1), and the wanted numbers are computed here.
"""

import struct
import sys
from pathlib import Path

MAIN = ("main", "([Ljava/lang/String;)V")
STATIC = 9


class ClassFile:
    """A class file of static methods without branches, which needs no stack map."""

    def __init__(self, name):
        self.name = name
        self.entries, self.indexes, self.methods = [], {}, []
        self.this = self.class_of(name)
        self.super = self.class_of("java/lang/Object")
        self.code_name = self.text("Code")

    def entry(self, key, content):
        if key not in self.indexes:
            self.entries.append(content)
            self.indexes[key] = len(self.entries)
        return self.indexes[key]

    def text(self, text):
        content = text.encode()
        return self.entry(("text", text), struct.pack(">BH", 1, len(content)) + content)

    def class_of(self, name):
        return self.entry(("class", name), struct.pack(">BH", 7, self.text(name)))

    def member(self, tag, owner, name, descriptor):
        pair = self.entry(("pair", name, descriptor), struct.pack(">BHH", 12, self.text(name), self.text(descriptor)))
        return self.entry((tag, owner, name, descriptor), struct.pack(">BHH", tag, self.class_of(owner), pair))

    def getstatic(self, owner, name, descriptor):
        return struct.pack(">BH", 0xB2, self.member(9, owner, name, descriptor))

    def invokestatic(self, owner, name, descriptor):
        return struct.pack(">BH", 0xB8, self.member(10, owner, name, descriptor))

    def invokevirtual(self, owner, name, descriptor):
        return struct.pack(">BH", 0xB6, self.member(10, owner, name, descriptor))

    def method(self, name, descriptor, stack, local_words, code):
        content = struct.pack(">HHI", stack, local_words, len(code)) + code + struct.pack(">HH", 0, 0)
        head = struct.pack(">HHHH", STATIC, self.text(name), self.text(descriptor), 1)
        self.methods.append(head + struct.pack(">HI", self.code_name, len(content)) + content)

    def prints(self, value):
        """A main method that prints an int."""
        out = self.getstatic("java/lang/System", "out", "Ljava/io/PrintStream;")
        println = self.invokevirtual("java/io/PrintStream", "println", "(I)V")
        self.method(*MAIN, 3, 1, out + value + println + b"\xb1")

    def content(self):
        head = struct.pack(">IHHH", 0xCAFEBABE, 0, 52, len(self.entries) + 1) + b"".join(self.entries)
        shape = struct.pack(">HHHHHH", 0x21, self.this, self.super, 0, 0, len(self.methods))
        return head + shape + b"".join(self.methods) + struct.pack(">H", 0)


def int_of(value):
    return (value + 2**31) % 2**32 - 2**31


def write_large(folder):
    """One class of more than 900 KiB, of 16 methods of 60,000 bytes each, through which a number goes."""
    large, calls, number = ClassFile("Large"), b"\x04", 1
    for place in range(16):
        step = bytes([0x1A, 0x10, 31, 0x68, 0x10, place, 0x60, 0x3B])  # n = n * 31 + place
        code = step * 7499 + bytes(6) + b"\x1a\xac"  # .. and six times nop
        assert len(code) == 60000
        large.method(f"m{place}", "(I)I", 2, 1, code)
        calls += large.invokestatic("Large", f"m{place}", "(I)I")
        for _ in range(7499):
            number = int_of(number * 31 + place)
    large.prints(calls)
    content = large.content()
    assert 900 * 1024 < len(content) <= 1024 * 1024
    (folder / "large").mkdir()
    (folder / "large" / "Large.class").write_bytes(content)
    (folder / "large.wanted").write_text(f"{number}\n")


def write_many(folder):
    """As many classes as a program may have, each of which gives its number."""
    (folder / "many").mkdir()
    main, calls = ClassFile("Many"), b"\x03"
    for place in range(1023):
        name = f"F{place}"
        one = ClassFile(name)
        one.method("get", "()I", 1, 0, struct.pack(">Bh", 0x11, place) + b"\xac")
        (folder / "many" / f"{name}.class").write_bytes(one.content())
        calls += main.invokestatic(name, "get", "()I") + b"\x60"
    main.prints(calls)
    (folder / "many" / "Many.class").write_bytes(main.content())
    (folder / "many.wanted").write_text(f"{sum(range(1023))}\n")


def write_others(folder):
    """A class among files that are none."""
    others = folder / "others"
    others.mkdir()
    for number in range(5000):
        (others / f"other{number}.txt").write_text(f"{number}\n")
    small = ClassFile("Small")
    small.prints(struct.pack(">Bh", 0x11, 5000))
    (others / "Small.class").write_bytes(small.content())
    (folder / "others.wanted").write_text("5000\n")


def main(folder):
    write_large(folder)
    write_many(folder)
    write_others(folder)
    (folder / "lines.wanted").write_text("".join(f"{number}\n" for number in range(50000)))
    (folder / "threads.wanted").write_text("".join(f"{number}\n" for number in range(254)))


main(Path(sys.argv[1]))
