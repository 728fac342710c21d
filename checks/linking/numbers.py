#!/usr/bin/env python3
"""The numbers of a linked program, from what javap prints of its class files: numbers.py FILE.class ..

Members are looked for by JVMS 5.4.3 and selected by JVMS 6.5; classes, words and places are counted as docs/linking.md
has it. The lines are those that link_vectors prints of a program.
"""
import re
import subprocess
import sys

MOST_INDICES = 300
PUBLIC, PRIVATE, STATIC, FINAL, INTERFACE, ABSTRACT = 1, 2, 8, 16, 512, 1024
BASES = dict(Z="boolean", B="byte", C="char", S="short", I="int", J="long", F="float", D="double")


class Class:
    def __init__(self, name, flags, above, interfaces, fields, methods, words=0):
        self.name, self.flags, self.above, self.interfaces = name, flags, above, interfaces
        self.fields, self.methods, self.words = fields, methods, words
        self.pool, self.code = {}, []


class Member:
    def __init__(self, flags, name, descriptor):
        self.flags, self.name, self.descriptor, self.value = flags, name, descriptor, None
        self.has_code = False


def built_in(name, above="Object", methods="", interfaces=(), flags=PUBLIC, fields=(), words=0):
    """The methods are words: flags, and the name with its descriptor."""
    parts = methods.split()
    made = []
    for mark, text in zip(parts[::2], parts[1::2]):
        at = text.index("(")
        made.append(Member(int(mark), text[:at], text[at:]))
    above = "java/lang/" + above if above else None
    return Class(name, flags, above, list(interfaces), list(fields), made, words)


def library():
    """The built-in classes in their order (docs/library.md)."""
    two = "1 <init>()V 1 <init>(Ljava/lang/String;)V"
    lang = "java/lang/"
    classes = [
        built_in(lang + "Object", None, "1 <init>()V 17 wait()V 17 notify()V 17 notifyAll()V 1 equals(Ljava/lang/Object;)Z"),
        built_in(lang + "Class"),
        built_in(lang + "String", methods="1 length()I 1 charAt(I)C 1 equals(Ljava/lang/Object;)Z "
                 "1 concat(Ljava/lang/String;)Ljava/lang/String;", words=1),
        built_in(lang + "System", fields=[Member(PUBLIC | STATIC, "out", "Ljava/io/PrintStream;")]),
        built_in("java/io/PrintStream", methods="1 println()V 1 println(I)V 1 println(J)V 1 println(C)V 1 println(Z)V "
                 "1 println(Ljava/lang/String;)V"),
        built_in(lang + "Runnable", methods="1025 run()V", flags=PUBLIC | INTERFACE | ABSTRACT),
        built_in(lang + "Thread", methods="1 <init>()V 1 <init>(Ljava/lang/Runnable;)V 1 start()V 1 run()V 17 join()V "
                 "17 setPriority(I)V 17 getPriority()I 9 currentThread()Ljava/lang/Thread; 9 yield()V",
                 interfaces=[lang + "Runnable"], words=3),
        built_in(lang + "Throwable", "Object", two + " 1 getMessage()Ljava/lang/String;", words=1),
    ]
    below = """Exception Throwable RuntimeException Exception Error Throwable InterruptedException Exception
        ArithmeticException RuntimeException NullPointerException RuntimeException
        IndexOutOfBoundsException RuntimeException ArrayIndexOutOfBoundsException IndexOutOfBoundsException
        NegativeArraySizeException RuntimeException ArrayStoreException RuntimeException
        ClassCastException RuntimeException IllegalMonitorStateException RuntimeException
        IllegalArgumentException RuntimeException IllegalThreadStateException IllegalArgumentException
        IllegalStateException RuntimeException LinkageError Error NoClassDefFoundError LinkageError
        ExceptionInInitializerError LinkageError IncompatibleClassChangeError LinkageError""".split()
    for name, above in zip(below[::2], below[1::2]):
        classes.append(built_in(lang + name, above, two))
    gives = "Ljava/lang/StringBuilder;"
    append = " ".join("1 append(%s)%s" % (kind, gives) for kind in ["I", "J", "C", "Z", "Ljava/lang/String;"])
    classes.append(built_in(lang + "StringBuilder", methods=two + " " + append + " 1 length()I 1 toString()Ljava/lang/String;",
                            words=1))
    return classes


# the number of the first class of a file
FIRST = len(library()) + 1


# ---- what javap prints

def pool_of(lines):
    pool = {}
    for line in lines:
        found = re.match(r" +#(\d+) = (\w+) +(.*)$", line)
        if found:
            index, kind, rest = int(found[1]), found[2], found[3]
            if kind not in ("Utf8", "String", "Class"):
                rest = rest.split("//")[0].strip()
            pool[index] = (kind, rest)
        elif line == "{":
            break
    return pool


def text_at(pool, index):
    return pool[index][1]


def numbers(text):
    return [int(n) for n in re.findall(r"#(\d+)", text.split("//")[0])] or [int(n) for n in re.findall(r"\d+", text)]


def class_name(pool, index):
    return text_at(pool, numbers(pool[index][1])[0])


def pair(pool, index):
    name, descriptor = re.match(r"#(\d+):#(\d+)", pool[index][1]).groups()
    return text_at(pool, int(name)), text_at(pool, int(descriptor))


def member_of(lines, at, name):
    """The member whose descriptor stands in this line, the declaration being above it."""
    declared = lines[at - 1].strip().rstrip(";").split(" throws ")[0]
    descriptor = lines[at].split("descriptor: ")[1]
    if declared == "static {}":
        word = "<clinit>"
    elif "(" in declared:
        word = declared.split("(")[0].split()[-1]
        word = "<init>" if word == name.replace("/", ".") else word
    else:
        word = declared.split()[-1]
    return Member(int(re.search(r"0x(\w+)", lines[at + 1])[1], 16), word, descriptor)


def read_members(made, lines):
    member = None
    for at, line in enumerate(lines):
        if line.startswith("    descriptor: "):
            member = member_of(lines, at, made.name)
            (made.methods if member.descriptor.startswith("(") else made.fields).append(member)
        elif line.startswith("    ConstantValue: "):
            member.value = line.split(": ", 1)[1].split(" ", 1)
        elif line == "    Code:":
            member.has_code = True
        found = re.match(r" +\d+: (\w+) *(\S*)", line)
        if found and member:
            made.code.append((found[1], found[2]))


def read(path):
    lines = subprocess.run(["javap", "-p", "-v", path], capture_output=True, text=True, check=True).stdout.split("\n")
    pool = pool_of(lines)
    words = {}
    for line in lines:
        found = re.match(r"  (this_class|super_class|flags): (?:#(\d+)|\(0x(\w+)\))", line)
        if found and found[1] not in words:
            words[found[1]] = int(found[2]) if found[2] else int(found[3], 16)
    head = next(line for line in lines if re.match(r"(\w+ )*(class|interface) \S+", line))
    listed = re.search(r"implements (.*)$" if not words["flags"] & INTERFACE else r"extends (.*)$", head)
    interfaces = [name.strip().replace(".", "/") for name in listed[1].split(",")] if listed else []
    made = Class(class_name(pool, words["this_class"]), words["flags"], class_name(pool, words["super_class"]), interfaces, [], [])
    made.pool = pool
    read_members(made, lines[lines.index("{"):])
    return made


# ---- descriptors

def kind_at(text, at):
    """Dimensions, base and end of the field descriptor at a place, or None."""
    start = at
    while at < len(text) and text[at] == "[":
        at += 1
    if at < len(text) and text[at] in BASES:
        return at - start, text[at], at + 1
    if at < len(text) and text[at] == "L" and ";" in text[at:]:
        end = text.index(";", at)
        if is_class_name(text[at + 1:end]):
            return at - start, text[at + 1:end], end + 1
    return None


def is_class_name(text):
    return not set(".;[") & set(text) and all(text.split("/"))


def kinds_of(text):
    """The types of a field's or method's descriptor, or none."""
    if not text.startswith("("):
        kind = kind_at(text, 0)
        return [kind] if kind and kind[2] == len(text) else []
    kinds, at = [], 1
    while at < len(text) and text[at] != ")":
        kind = kind_at(text, at)
        if not kind:
            return []
        kinds.append(kind)
        at = kind[2]
    if text[at + 1:] == "V":
        return kinds
    kind = kind_at(text, at + 1)
    return kinds + [kind] if kind and kind[2] == len(text) else []


def named_in(text):
    return [text] * is_class_name(text) + [base for _, base, _ in kinds_of(text) if base not in BASES]


# ---- the program

class Program:
    def __init__(self, files):
        self.classes = library() + files
        self.files = files
        self.number = {c.name: i + 1 for i, c in enumerate(self.classes)}
        self.arrays = sorted(self.array_names())
        self.others = [n for f in files for k, t in sorted_pool(f) if k == "Utf8" for n in named_in(t)]
        self.strings = []
        for f in files:
            for kind, text in sorted_pool(f):
                if kind == "String" and text_at(f.pool, numbers(text)[0]) not in self.strings:
                    self.strings.append(text_at(f.pool, numbers(text)[0]))

    def array_names(self):
        named = {"[C", "[Ljava/lang/String;"}
        for f in self.files:
            for word, operand in f.code:
                if word == "newarray":
                    named.add("[" + next(b for b, t in BASES.items() if t == operand))
                elif word == "anewarray":
                    named.add(array_of(class_name(f.pool, numbers(operand)[0])))
                elif word in ("checkcast", "instanceof"):
                    named.add(class_name(f.pool, numbers(operand)[0]))
                elif word.startswith("invoke"):
                    named.add(class_name(f.pool, numbers(f.pool[numbers(operand)[0]][1])[0]))
        named = {n for n in named if n.startswith("[")}
        return {n[i:] for n in named for i in range(len(n) - len(n.lstrip("[")))}

    def at(self, number):
        return self.classes[number - 1]

    def number_of(self, name):
        if name.startswith("["):
            return len(self.classes) + 1 + self.arrays.index(name) if name in self.arrays else None
        return self.number.get(name)

    def up(self, number):
        """The class and its superclasses."""
        chain = [number]
        while self.at(chain[-1]).above:
            chain.append(self.number[self.at(chain[-1]).above])
        return chain

    def interfaces(self, number):
        return [self.number[i] for i in self.at(number).interfaces]

    def field(self, number, key):
        """JVMS 5.4.3.2."""
        for m in self.at(number).fields:
            if (m.name, m.descriptor) == key:
                return number, m
        for i in self.interfaces(number):
            found = self.field(i, key)
            if found:
                return found
        above = self.at(number).above
        return self.field(self.number[above], key) if above else None

    def own(self, number, key, test=lambda m: True):
        for place, m in enumerate(self.at(number).methods):
            if (m.name, m.descriptor) == key and test(m):
                return number, place
        return None

    def in_interfaces(self, number, key):
        for i in self.interfaces(number):
            found = self.own(i, key) or self.in_interfaces(i, key)
            if found:
                return found
        return None

    def method(self, number, key):
        """JVMS 5.4.3.3 and 5.4.3.4, and 6.5 for constructors."""
        if key[0] == "<init>":
            return self.own(number, key)
        chain = self.up(number)
        ways = [self.own(c, key) for c in chain] + [self.in_interfaces(c, key) for c in chain]
        return next((found for found in ways if found), None)

    def flags(self, found):
        return self.at(found[0]).methods[found[1]].flags

    def key(self, found):
        m = self.at(found[0]).methods[found[1]]
        return m.name, m.descriptor

    def selected(self, number, key):
        ways = (self.own(c, key, lambda m: not m.flags & (STATIC | PRIVATE)) for c in self.up(number))
        return next((found for found in ways if found), None)

    def select(self, number, called):
        if self.flags(called) & PRIVATE:
            return called
        found = self.selected(number if number <= len(self.classes) else 1, self.key(called))
        return found if found and not self.flags(found) & ABSTRACT else None

    def special(self, this, holder, found):
        if self.flags(found) & STATIC:
            return None
        above = self.number[self.at(this).above]
        if self.key(found)[0] == "<init>" or self.flags(found) & PRIVATE or holder not in self.up(above):
            return found
        return self.selected(above, self.key(found))

    def words(self, number):
        return sum(self.at(c).words + own_words(self.at(c).fields, 0) for c in self.up(number))

    def statics(self, number):
        return own_words(self.at(number).fields, STATIC) if number >= FIRST else 0

    def place(self, number, field):
        fields = self.at(number).fields
        before = own_words(fields[:fields.index(field)], field.flags & STATIC)
        above = self.at(number).above
        return before if field.flags & STATIC or not above else before + self.words(self.number[above])

    def object(self, number):
        sizes = [2 + (self.statics(c) if c <= len(self.classes) else 0) for c in range(1, number)]
        return 1 + sum(sizes)

    def string(self, text):
        return self.object(len(self.classes) + len(self.arrays) + 1) + 9 + 3 * self.strings.index(text)

    def descriptor(self, number):
        named = len(self.classes)
        return "L%s;" % self.at(number).name if number <= named else self.arrays[number - named - 1]

    def is_subtype(self, low, high):
        """JVMS 6.5, instanceof, of field descriptors."""
        if low == high or high == "Ljava/lang/Object;" and low not in BASES:
            return True
        if low[0] == high[0] == "[":
            return self.is_subtype(low[1:], high[1:])
        if not low[0] == high[0] == "L":
            return False
        made = self.at(self.number[low[1:-1]])
        above = made.interfaces + ([made.above] if made.above else [])
        return any(self.is_subtype("L%s;" % name, high) for name in above)

    # ---- lines

    def base(self, name):
        if name in BASES:
            return BASES[name]
        return str(self.number[name]) if name in self.number else "other%d" % self.others.index(name)

    def type(self, dimensions, base):
        return "%dx%s" % (dimensions, self.base(base)) if dimensions else self.base(base)

    def type_named(self, name):
        if name.startswith("["):
            return self.type(*kind_at(name, 0)[:2])
        return self.base(name) if name not in BASES else str(self.number.get(name) or "other%d" % self.others.index(name))

    def layout(self, number):
        named = number <= len(self.classes)
        above = self.at(number).above if named else "java/lang/Object"
        return "class %d super %d words %d static %d object %d" % (
            number, self.number[above], self.words(number) if named else 0, self.statics(number) if named else 0,
            self.object(number))

    def static_words(self, number):
        words = []
        for f in self.at(number).fields:
            if f.flags & STATIC:
                words += self.first_words(f)
        return words

    def first_words(self, field):
        kind, text = field.value or ("int", "0")
        if field.descriptor == "J":
            value = int(text.rstrip("l")) % 2 ** 64
            return [value % 2 ** 32, value // 2 ** 32]
        if kind == "String":
            return [self.string(text)]
        value = int(text)
        if field.descriptor == "Z":
            value %= 2
        return [value % 2 ** 32]

    def method_line(self, found):
        m = self.at(found[0]).methods[found[1]]
        kinds = [k[:2] for k in kinds_of(m.descriptor)]
        result = [] if m.descriptor.endswith(")V") else [kinds.pop()]
        words = sum(2 if k == (0, "J") else 1 for k in kinds)
        takes = "".join(" " + self.type(*k) for k in kinds)
        gives = self.type(*result[0]) if result else "nothing"
        body = "abstract" if m.flags & ABSTRACT else "code"
        return "method %d.%d flags %d words %d takes%s gives %s %s" % (*found, m.flags, words, takes, gives, body)

    def class_lines(self, number):
        yield self.layout(number)
        if self.at(number).flags & INTERFACE:
            yield "interface %d" % number
        yield "statics %d:%s" % (number, "".join(" %d" % w for w in self.static_words(number)))
        yield "superclasses %d:%s" % (number, "".join(" %d" % c for c in sorted(self.up(number))))
        found = self.own(number, ("<clinit>", "()V"), lambda m: m.flags & STATIC)
        yield "initializer %d: %s" % (number, shown(found))
        for place in range(len(self.at(number).methods)):
            yield self.method_line((number, place))

    def array_lines(self, number):
        name = self.arrays[number - len(self.classes) - 1]
        dimensions, base, _ = kind_at(name, 0)
        element = self.number_of(name[1:]) if dimensions > 1 else self.number.get(base) if base not in BASES else None
        yield "array %d %s of %s three %d" % (number, self.type(dimensions, base), element or "none", 6 if name == "[J" else 3)
        yield self.layout(number)

    def supertype_line(self, number):
        low, classes = self.descriptor(number), range(1, len(self.classes) + len(self.arrays) + 1)
        found = [high for high in classes if self.is_subtype(low, self.descriptor(high))]
        return "supertypes %d:%s" % (number, "".join(" %d" % high for high in found))

    def fixed_lines(self):
        yield "newarray:" + "".join(" %s" % (self.number_of("[" + b) or "none") for b in "ZCBSIJ")
        out = self.object(len(self.classes) + len(self.arrays) + 1)
        yield "out %d thread %d arguments %d" % (out, out + 2, out + 7)
        for n, text in enumerate(self.strings):
            yield "string %d at %d %s" % (n, out + 9 + 3 * n, text)
        yield "free %d" % (out + 9 + 3 * len(self.strings))

    def call_lines(self, number):
        for owner in [1, 6] + list(range(FIRST, len(self.classes) + 1)):
            calls = [(owner, place) for place in range(len(self.at(owner).methods))]
            yield "object %d calls of %d:%s" % (number, owner, "".join(" " + shown(self.select(number, c)) for c in calls))

    def member_operand(self, this, pool, entry):
        kind, text = pool[entry]
        owner, both = numbers(text)
        name, key = class_name(pool, owner), pair(pool, both)
        holder = 1 if name.startswith("[") else self.number[name]
        if kind == "Fieldref":
            number, field = self.field(holder, key)
            if number == 4:
                return "out"
            static = " static" if field.flags & STATIC else ""
            value = self.type(*kind_at(field.descriptor, 0)[:2])
            return "field of %s in %d%s %s place %d" % (self.type_named(name), number, static, value, self.place(number, field))
        found = self.method(holder, key)
        made = " constructs" if key[0] == "<init>" else ""
        return "method of %s is %s special %s%s" % (
            self.type_named(name), shown(found), shown(self.special(this, holder, found)), made)

    def operand(self, this, pool, index):
        kind, text = pool[index]
        if kind == "Integer":
            return "int " + text
        if kind == "Long":
            return "long " + text.rstrip("l")
        if kind == "String":
            return "string %d" % self.strings.index(text_at(pool, numbers(text)[0]))
        if kind == "Class":
            name = class_name(pool, index)
            return "class %s number %s array %s" % (
                self.type_named(name), self.number_of(name) or "none", self.number_of(array_of(name)) or "none")
        if kind in ("Fieldref", "Methodref", "InterfaceMethodref"):
            return self.member_operand(this, pool, index)
        return None

    def lines(self):
        named, count = len(self.classes), len(self.classes) + len(self.arrays)
        yield "classes %d and arrays %d" % (named, count)
        for number in range(FIRST, named + 1):
            yield from self.class_lines(number)
        for number in range(named + 1, count + 1):
            yield from self.array_lines(number)
        for number in range(FIRST, count + 1):
            yield self.supertype_line(number)
        yield from self.fixed_lines()
        for number in range(FIRST, named + 2):
            yield from self.call_lines(number)
        for number in range(FIRST, named + 1):
            pool = self.at(number).pool
            for index in sorted(i for i in pool if i < MOST_INDICES):
                text = self.operand(number, pool, index)
                if text:
                    yield "pool %d %d %s" % (number, index, text)


def sorted_pool(made):
    return [made.pool[index] for index in sorted(made.pool)]


def array_of(name):
    return "[" + name if name.startswith("[") else "[L%s;" % name


def own_words(fields, static):
    return sum(2 if f.descriptor == "J" else 1 for f in fields if f.flags & STATIC == static)


def shown(found):
    return "%d.%d" % found if found else "none"


if __name__ == "__main__":
    print("files linked")
    for line in Program([read(path) for path in sys.argv[1:]]).lines():
        print(line)
