"""Class files of the first form, from their structure (JVMS chapter 4): what the benchmark measures on."""

import struct


class Pool:
    """A constant pool in the order in which entries are first used."""

    def __init__(self):
        self.entries = []
        self.places = {}

    def add(self, entry):
        if entry not in self.places:
            self.entries.append(entry)
            self.places[entry] = len(self.entries)
        return self.places[entry]

    def text(self, text):
        raw = text.encode("ascii")
        return self.add(b"\x01" + struct.pack(">H", len(raw)) + raw)

    def class_(self, name):
        return self.add(b"\x07" + struct.pack(">H", self.text(name)))

    def method(self, class_name, name, descriptor):
        owner = self.class_(class_name)
        pair = self.add(b"\x0c" + struct.pack(">HH", self.text(name), self.text(descriptor)))
        return self.add(b"\x0a" + struct.pack(">HH", owner, pair))

    def bytes(self):
        return struct.pack(">H", len(self.entries) + 1) + b"".join(self.entries)


def sum_of_two_bytes(name, pad=0):
    """A class whose `main` reads two bytes, adds them and writes the sum.

    `pad` more bytes of text stand in its constant pool, in entries that nothing uses.
    """
    pool = Pool()
    this = pool.class_(name)
    above = pool.class_("java/lang/Object")
    main = pool.text("main")
    descriptor = pool.text("([Ljava/lang/String;)V")
    code_name = pool.text("Code")
    read = pool.method("sys/Native", "read", "()I")
    write = pool.method("sys/Native", "write", "(I)V")
    at = 0
    while pad > 0:
        size = min(pad, 60_000)
        pool.text(("x%07d" % at).ljust(max(size, 8), "y"))
        pad -= size
        at += 1
    code = b"\xb8" + struct.pack(">H", read)
    code += b"\xb8" + struct.pack(">H", read)
    code += b"\x60\xb8" + struct.pack(">H", write) + b"\xb1"
    content = struct.pack(">HHI", 2, 1, len(code)) + code + struct.pack(">HH", 0, 0)
    method = struct.pack(">HHHH", 0x0009, main, descriptor, 1)
    method += struct.pack(">HI", code_name, len(content)) + content
    return (
        struct.pack(">IHH", 0xCAFEBABE, 0, 52)
        + pool.bytes()
        + struct.pack(">HHHHHH", 0x0021, this, above, 0, 0, 1)
        + method
        + struct.pack(">H", 0)
    )


def field_entry(pool, class_name, name, descriptor):
    owner = pool.class_(class_name)
    pair = pool.add(b"\x0c" + struct.pack(">HH", pool.text(name), pool.text(descriptor)))
    return pool.add(b"\x09" + struct.pack(">HH", owner, pair))


def method_info(pool, flags, name, descriptor, max_stack, max_locals, code, frames=()):
    """A method with code; `frames` are its stack map frames, each as its bytes."""
    attributes = b""
    if frames:
        table = struct.pack(">H", len(frames)) + b"".join(frames)
        attributes = struct.pack(">HI", pool.text("StackMapTable"), len(table)) + table
    content = struct.pack(">HHI", max_stack, max_locals, len(code)) + code
    content += struct.pack(">HH", 0, 1 if frames else 0) + attributes
    head = struct.pack(">HHHH", flags, pool.text(name), pool.text(descriptor), 1)
    return head + struct.pack(">HI", pool.text("Code"), len(content)) + content


def constructor(pool, above):
    """A constructor without parameters, which calls that of the superclass."""
    call = struct.pack(">H", pool.method(above, "<init>", "()V"))
    return method_info(pool, 0x0001, "<init>", "()V", 1, 1, b"\x2a\xb7" + call + b"\xb1")


def whole(pool, name, above, fields, methods):
    """A public class of major 52 with these fields (their bytes) and methods (their bytes)."""
    this, superclass = pool.class_(name), pool.class_(above)
    return (
        struct.pack(">IHH", 0xCAFEBABE, 0, 52)
        + pool.bytes()
        + struct.pack(">HHHHH", 0x0021, this, superclass, 0, len(fields))
        + b"".join(fields)
        + struct.pack(">H", len(methods))
        + b"".join(methods)
        + struct.pack(">H", 0)
    )


def static_number(pool, name, number):
    """A static method that gives a number."""
    return method_info(pool, 0x0009, name, "()I", 1, 0, b"\x11" + struct.pack(">h", number % 30_000) + b"\xac")


def name_of(number):
    return "C%06d" % number


def link_of_a_chain(number, _count):
    """A class that extends the one before it, and the first `java/lang/Object`."""
    pool = Pool()
    above = name_of(number - 1) if number else "java/lang/Object"
    return whole(pool, name_of(number), above, [], [constructor(pool, above), static_number(pool, "f", number)])


def class_by_itself(number, _count):
    """A class that extends `java/lang/Object` and calls its own static method."""
    pool = Pool()
    own = struct.pack(">H", pool.method(name_of(number), "f", "()I"))
    methods = [
        constructor(pool, "java/lang/Object"),
        static_number(pool, "f", number),
        method_info(pool, 0x0009, "g", "()I", 1, 0, b"\xb8" + own + b"\xac"),
    ]
    return whole(pool, name_of(number), "java/lang/Object", [], methods)


def class_with_references(number, count):
    """A class that calls methods of ten others and reads fields of ten others."""
    pool = Pool()
    code = b"\x03"
    for step in range(10):
        other = name_of((number * 7 + step * 131 + 1) % count)
        code += b"\xb8" + struct.pack(">H", pool.method(other, "f", "()I")) + b"\x60"
        code += b"\xb2" + struct.pack(">H", field_entry(pool, other, "x", "I")) + b"\x60"
    field = struct.pack(">HHHH", 0x0009, pool.text("x"), pool.text("I"), 0)
    methods = [
        static_number(pool, "f", number),
        method_info(pool, 0x0009, "g", "()I", 2, 0, code + b"\xac"),
    ]
    return whole(pool, name_of(number), "java/lang/Object", [field], methods)


def class_refused_by_its_types(name):
    """A class that is well linked, and whose only method returns a number that is not there."""
    pool = Pool()
    return whole(pool, name, "java/lang/Object", [], [method_info(pool, 0x0009, "f", "()I", 1, 0, b"\xac")])


def class_of_many_frames(count):
    """A class with one method of `count` frames, six bytes apart."""
    pool = Pool()
    unit = b"\x1a\x99" + struct.pack(">h", 5) + b"\x00\x00"
    frames = [bytes([6])] + [bytes([5])] * (count - 1)
    method = method_info(pool, 0x0009, "f", "(I)V", 1, 1, unit * count + b"\xb1", frames)
    return whole(pool, "M", "java/lang/Object", [], [method])


def called(pool, class_name, name, descriptor):
    """An `invokestatic` of a method."""
    return b"\xb8" + struct.pack(">H", pool.method(class_name, name, descriptor))


def narrowing():
    """A class whose stores and returns keep less of an int than they are given: 300 as a byte, 70000 as a char, 2 as a boolean."""
    pool = Pool()
    letter = field_entry(pool, "Main", "letter", "B")
    wide = struct.pack(">H", pool.add(b"\x03" + struct.pack(">i", 70_000)))
    code = b"\x11" + struct.pack(">h", 300) + b"\xb3" + struct.pack(">H", letter)
    code += b"\xb2" + struct.pack(">H", letter) + called(pool, "sys/Native", "write", "(I)V")
    for name, descriptor, shift in (("byte", "()B", 0), ("char", "()C", 16), ("boolean", "()Z", 0)):
        code += called(pool, "Main", name, descriptor) + bytes([0x10, shift, 0x7A])
        code += called(pool, "sys/Native", "write", "(I)V")
    methods = [
        method_info(pool, 0x0009, "main", "([Ljava/lang/String;)V", 2, 1, code + b"\xb1"),
        method_info(pool, 0x0009, "byte", "()B", 1, 0, b"\x11" + struct.pack(">h", 300) + b"\xac"),
        method_info(pool, 0x0009, "char", "()C", 1, 0, b"\x13" + wide + b"\xac"),
        method_info(pool, 0x0009, "boolean", "()Z", 1, 0, b"\x05\xac"),
    ]
    field = struct.pack(">HHHH", 0x0009, pool.text("letter"), pool.text("B"), 0)
    return whole(pool, "Main", "java/lang/Object", [field], methods)


def wrong_interface():
    """A class that calls a method of an interface on an object whose class does not implement it, and the interface."""
    pool = Pool()
    owner = pool.class_("Shape")
    pair = pool.add(b"\x0c" + struct.pack(">HH", pool.text("draw"), pool.text("()V")))
    draw = pool.add(b"\x0b" + struct.pack(">HH", owner, pair))
    code = b"\xbb" + struct.pack(">H", pool.class_("Main")) + b"\x59\xb7" + struct.pack(">H", pool.method("Main", "<init>", "()V"))
    code += b"\xb9" + struct.pack(">HBB", draw, 1, 0) + b"\xb1"
    methods = [
        constructor(pool, "java/lang/Object"),
        method_info(pool, 0x0009, "main", "([Ljava/lang/String;)V", 2, 1, code),
    ]
    main = whole(pool, "Main", "java/lang/Object", [], methods)
    pool = Pool()
    this, above = pool.class_("Shape"), pool.class_("java/lang/Object")
    method = struct.pack(">HHHH", 0x0401, pool.text("draw"), pool.text("()V"), 0)
    shape = struct.pack(">IHH", 0xCAFEBABE, 0, 52) + pool.bytes()
    shape += struct.pack(">HHHHHH", 0x0601, this, above, 0, 0, 1) + method + struct.pack(">H", 0)
    return main, shape


SETS = {
    "a chain": link_of_a_chain,
    "each by itself": class_by_itself,
    "with references": class_with_references,
}
