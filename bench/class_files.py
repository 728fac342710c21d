"""Class files that are made for benches."""
import os
import struct
import subprocess
import tempfile
import time

PUBLIC, STATIC, SUPER, INTERFACE, ABSTRACT = 1, 8, 32, 512, 1024


def u2(*numbers):
    return struct.pack(">%dH" % len(numbers), *numbers)


def u4(number):
    return struct.pack(">I", number)


class Maker:
    """One class file, whose pool entries are made at their first use."""

    def __init__(self, name, above="java/lang/Object", interfaces=(), flags=PUBLIC | SUPER):
        self.pool, self.known, self.members = [], {}, {"field": [], "method": []}
        self.flags = flags
        self.head = [self.named(name), self.named(above)]
        self.interfaces = [self.named(it) for it in interfaces]

    def entry(self, content, again=False):
        if again or content not in self.known:
            self.pool.append(content)
            self.known[content] = len(self.pool)
        return self.known[content]

    def utf8(self, text):
        data = text.encode()
        return self.entry(b"\x01" + u2(len(data)) + data)

    def named(self, name, again=False):
        return self.entry(b"\x07" + u2(self.utf8(name)), again)

    def string(self, text, again=False):
        return self.entry(b"\x08" + u2(self.utf8(text)), again)

    def reference(self, tag, owner, name, kind, again=False):
        pair = self.entry(b"\x0c" + u2(self.utf8(name), self.utf8(kind)), again)
        return self.entry(bytes([tag]) + u2(self.named(owner), pair), again)

    def method(self, name, kind="()V", flags=PUBLIC, code=None, most=(10, 10), frames=b"", handlers=()):
        """A method. With code: how many locals it has and how much stack at most, its StackMapTable, and its handlers."""
        attribute = b""
        if code is not None:
            table = u2(len(handlers)) + b"".join(u2(*it) for it in handlers)
            maps = u2(self.utf8("StackMapTable")) + u4(len(frames)) + frames if frames else b""
            content = u2(most[1], most[0]) + u4(len(code)) + code + table + u2(int(bool(frames))) + maps
            attribute = u2(self.utf8("Code")) + u4(len(content)) + content
        self.members["method"].append(u2(flags, self.utf8(name), self.utf8(kind), int(code is not None)) + attribute)

    def bytes(self):
        assert len(self.pool) < 65535
        body = u2(self.flags, *self.head) + u2(len(self.interfaces), *self.interfaces)
        for kind in ("field", "method"):
            body += u2(len(self.members[kind])) + b"".join(self.members[kind])
        return bytes.fromhex("cafebabe00000034") + u2(len(self.pool) + 1) + b"".join(self.pool) + body + u2(0)


def timed(program, files, count):
    """Runs a program over these class files until it has printed the given number of lines, and stops it there. Gives the lines, the
    seconds, its memory in MB, and how many bytes the files have."""
    with tempfile.TemporaryDirectory() as folder:
        paths = []
        for i, one in enumerate(files):
            paths.append(os.path.join(folder, "%04d.class" % i))
            with open(paths[-1], "wb") as file:
                file.write(one.bytes())
        size = sum(os.path.getsize(it) for it in paths)
        start = time.time()
        ran = subprocess.Popen([program, *paths], stdout=subprocess.PIPE, stderr=subprocess.STDOUT)
        lines = [ran.stdout.readline().decode(errors="replace").rstrip() for _ in range(count)]
        seconds = time.time() - start
        with open("/proc/%d/status" % ran.pid) as status:
            most = [int(it.split()[1]) // 1024 for it in status if it.startswith("VmHWM")]
        ran.kill()
        ran.wait()
        ran.stdout.close()
    return lines, seconds, most[0] if most else "?", size
