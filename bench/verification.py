#!/usr/bin/env python3
"""Times link_vectors over class files that are as dear to verify as their size allows: how many seconds until it says
whether the program is type safe, and its memory then. What it prints of the program after that isn't waited for.

usage: bench/verification.py     at the top of the repository, after `rt run` in crates/link_vectors has built the program
"""
import os
import sys

from class_files import PUBLIC, STATIC, Maker, timed, u2

PROGRAM = os.path.join("crates", "link_vectors", "out", "link_vectors")
MOST_BYTES = 1 << 20
NOP, ICONST, POP, RETURN, ATHROW, ACONST = b"\x00", b"\x03", b"\x57", b"\xb1", b"\xbf", b"\x01"
NEW, ALOAD, INVOKESPECIAL = b"\xbb", b"\x19", b"\xb7"
INT, TOP, LONG = b"\x01", b"\x00", b"\x04"


class Frames:
    """The entries of a StackMapTable (JVMS 4.7.4), in the order of their offsets."""

    def __init__(self):
        self.count, self.last, self.parts = 0, -1, []

    def add(self, at, kind, rest=b"", small=None):
        delta = at - self.last - 1
        self.last, self.count = at, self.count + 1
        if small is not None and delta < 64:
            self.parts.append(bytes([small + delta]) + rest)
        else:
            self.parts.append(bytes([kind]) + u2(delta) + rest)

    def same(self, at):
        self.add(at, 251, small=0)

    def same_with(self, at, item):
        self.add(at, 247, item, small=64)

    def append(self, at, *items):
        self.add(at, 251 + len(items), b"".join(items))

    def chop(self, at, count):
        self.add(at, 251 - count)

    def full(self, at, locals_, stack=()):
        self.add(at, 255, u2(len(locals_)) + b"".join(locals_) + u2(len(stack)) + b"".join(stack))

    def bytes(self):
        return u2(self.count) + b"".join(self.parts)


def branch(at, to):
    """iconst_0; ifeq"""
    return ICONST + b"\x99" + u2((to - at - 1) % 65536)


def filled(make):
    """A class of as many such methods as a file of 1 MiB has room for."""
    one = Maker("A")
    size = 0
    for i in range(1000):
        before = len(one.bytes())
        if before + size > MOST_BYTES:
            break
        make(one, "m%d" % i)
        size = len(one.bytes()) - before
    return one


def dead_start(frames, locals_, stack=()):
    frames.full(1, locals_, stack)
    return RETURN


def same_frames(one, name):
    frames = Frames()
    code = dead_start(frames, [INT] * 60000) + NOP * 60000 + RETURN
    for at in range(2, 60002):
        frames.same(at)
    one.method(name, flags=PUBLIC | STATIC, code=code, most=(60000, 2), frames=frames.bytes())


def branches_over_wide_locals(one, name):
    frames = Frames()
    code, count = dead_start(frames, [INT] * 60000), 15000
    middle = 1 + 4 * (count // 2)
    for _ in range(count):
        code += branch(len(code), middle)
    frames.full(middle, [INT] * 60000)
    one.method(name, flags=PUBLIC | STATIC, code=code + RETURN, most=(60000, 2), frames=frames.bytes())


def changes_under_branches(one, name):
    frames = Frames()
    code, count = dead_start(frames, [INT] * 60000), 9000
    middle = 1 + 7 * (count // 2)
    for i in range(count):
        code += ACONST + b"\x3a" + bytes([i % 256]) if i % 2 else ICONST + b"\x36" + bytes([i % 256])
        code += branch(len(code), middle)
    frames.full(middle, [TOP] * 256 + [INT] * 59744)
    one.method(name, flags=PUBLIC | STATIC, code=code + RETURN, most=(60000, 2), frames=frames.bytes())


def branches_over_a_deep_stack(one, name):
    frames = Frames()
    code, count = ICONST * 28000, 9000
    middle = 28000 + 4 * (count // 2)
    for _ in range(count):
        code += branch(len(code), middle)
    frames.full(middle, [], [INT] * 28000)
    one.method(name, flags=PUBLIC | STATIC, code=code + RETURN, most=(1, 28002), frames=frames.bytes())


def two_frames_in_turn(one, name):
    frames, half = Frames(), 7500
    code = dead_start(frames, [INT] * 60000)
    first, second = 4 + 4 * half, 5 + 4 * half
    for i in range(half):
        code += branch(len(code), second if i % 2 else first)
    code += b"\xa7" + u2(5) + RETURN * 2
    frames.full(first, [INT, TOP] * 30000)
    frames.full(second, [TOP, INT] * 30000)
    frames.full(second + 1, [INT] * 60000)
    for i in range(half):
        code += branch(len(code), second if i % 2 else first)
    one.method(name, flags=PUBLIC | STATIC, code=code + RETURN, most=(60000, 2), frames=frames.bytes())


def appends_and_chops(one, name):
    frames = Frames()
    code = (RETURN + RETURN) * 32000
    frames.full(1, [INT] * 30000)
    for at in range(2, 64000):
        if at % 2:
            frames.chop(at, 3)
        else:
            frames.append(at, LONG, LONG, LONG)
    one.method(name, flags=PUBLIC | STATIC, code=code, most=(30010, 2), frames=frames.bytes())


def handlers_everywhere(one, name):
    frames, throwable = Frames(), b"\x07" + u2(one.named("java/lang/Throwable"))
    code = NOP * 65532 + RETURN + ATHROW
    frames.same_with(65533, throwable)
    one.method(name, flags=PUBLIC | STATIC, code=code, most=(1, 2), frames=frames.bytes(),
               handlers=[(0, 65533, 65533, 0)] * 65535)


def under_handlers(one, name, body):
    """A method of this body under handlers, each of whose frames has one int more in its locals than the one before."""
    frames, count, handlers = Frames(), 13000, []
    throwable = b"\x07" + u2(one.named("java/lang/Throwable"))
    code = dead_start(frames, [TOP] + [INT] * count) + body
    end = len(code)
    frames.full(end, [TOP])
    for at in range(end + 1, end + 1 + 2 * count, 2):
        frames.append(at, INT)
        frames.same_with(at + 1, throwable)
        handlers.append((1, end, at + 1, 0))
    one.method(name, flags=PUBLIC | STATIC, code=code + RETURN + (RETURN + ATHROW) * count, most=(count + 1, 2),
               frames=frames.bytes(), handlers=handlers)


def stores_under_handlers(one, name):
    under_handlers(one, name, (ICONST + b"\x3b" + ACONST + b"\x4b") * 4500)


def nops_under_handlers(one, name):
    under_handlers(one, name, NOP * 36000)


def new_over_wide_locals(one, name):
    frames, use = Frames(), one.named("A")
    code = dead_start(frames, [INT] * 60000) + (b"\xbb" + u2(use) + POP) * 16000 + RETURN
    one.method(name, flags=PUBLIC | STATIC, code=code, most=(60000, 2), frames=frames.bytes())


def new_over_new_objects(one, name):
    frames, use = Frames(), one.named("A")
    made = b"\xbb" + u2(use)
    frames.same(1)
    frames.full(5, [b"\x08" + u2(1)] * 60000)
    code = RETURN + made + RETURN + (made + POP) * 16000 + RETURN
    one.method(name, flags=PUBLIC | STATIC, code=code, most=(60000, 2), frames=frames.bytes())


def initializations(one, name, objects, blocks):
    """A method over locals that all hold uninitialized objects, once for each of some numbers of objects. Each block initializes those of these
    locals, and a frame after it brings all objects back."""
    frames, use, init = Frames(), one.named("A"), one.reference(10, "A", "<init>", "()V")
    code = RETURN + (NEW + u2(use)) * objects + RETURN
    frames.same(1)
    frames.full(len(code), [b"\x08" + u2(1 + 3 * (i % objects)) for i in range(60000)])
    for i, block in enumerate(blocks):
        if i:
            frames.same(len(code))
        code += b"".join(ALOAD + bytes([local]) + INVOKESPECIAL + u2(init) for local in block) + RETURN
    one.method(name, flags=PUBLIC | STATIC, code=code, most=(60000, objects), frames=frames.bytes())


def init_over_wide_locals(one, name):
    initializations(one, name, 1, [[0]] * 9000)


def inits_among_objects(one, name):
    initializations(one, name, 30, [[i % 30, (i + 1 + i // 30 % 29) % 30] for i in range(5900)])


def calls_over_a_deep_stack(one, name):
    frames, use = Frames(), one.reference(10, "A", "f", "(" + "I" * 255 + ")V")
    code = b""
    for _ in range(16):
        frames.full(len(code) + 1, [], [INT] * 60000)
        code += RETURN + (b"\xb8" + u2(use)) * 235
    one.method(name, flags=PUBLIC | STATIC, code=code + RETURN, most=(0, 60000), frames=frames.bytes())


def one_switch(one, name):
    frames, count = Frames(), 16000
    end = 16 + 4 * count
    code = ICONST + b"\xaa\x00\x00" + (end - 1).to_bytes(4, "big") + (0).to_bytes(4, "big") + (count - 1).to_bytes(4, "big")
    code += (end - 1).to_bytes(4, "big") * count
    frames.same(end)
    one.method(name, flags=PUBLIC | STATIC, code=code + RETURN, most=(1000, 1), frames=frames.bytes())


def many_small_methods(one, name):
    for i in range(1000):
        one.method("%s_%d" % (name, i), flags=PUBLIC | STATIC, code=RETURN)


def measure(make):
    one = filled(make)
    if make is calls_over_a_deep_stack:
        one.method("f", "(" + "I" * 255 + ")V", flags=PUBLIC | STATIC, code=RETURN, most=(255, 0))
    if make in (init_over_wide_locals, inits_among_objects):
        above = one.reference(10, "java/lang/Object", "<init>", "()V")
        one.method("<init>", code=b"\x2a" + INVOKESPECIAL + u2(above) + RETURN, most=(1, 1))
    lines, seconds, memory, size = timed(PROGRAM, [one], 2)
    said = lines[1] if lines[0] == "files linked" else lines[0]
    print("%-28s %8d bytes %6.2f s %5s MB: %s" % (make.__name__, size, seconds, memory, said[:40]), flush=True)


def main():
    if not os.path.exists(PROGRAM):
        sys.exit("build link_vectors first: cd crates/link_vectors && rt run")
    for make in (same_frames, branches_over_wide_locals, changes_under_branches, branches_over_a_deep_stack,
                 two_frames_in_turn, appends_and_chops, handlers_everywhere, nops_under_handlers, new_over_wide_locals,
                 new_over_new_objects, init_over_wide_locals, inits_among_objects, calls_over_a_deep_stack, one_switch,
                 many_small_methods, stores_under_handlers):
        measure(make)


main()
