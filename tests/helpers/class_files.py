"""Makes class files of version 49, constant by constant and method by method, for the scripts of tests/.

(The Java Virtual Machine Specification, chapter 4.)
"""
import struct

MAIN = "([Ljava/lang/String;)V"
RETURN = b"\xb1"


def u2(n):
    return struct.pack(">H", n)


def u4(n):
    return struct.pack(">I", n)


class ClassFile:
    """A class under construction. A constant that is there already is used again."""

    def __init__(self, name, parent="java/lang/Object", flags=0x21):
        self.pool, self.flags = [], flags
        self.this, self.above = self.type(name), self.type(parent)
        self.interfaces, self.fields, self.methods = [], [], []

    def constant(self, entry):
        if entry not in self.pool:
            self.pool.append(entry)
        return self.pool.index(entry) + 1

    def text(self, text):
        raw = text.encode("ascii")
        return self.constant(b"\x01" + u2(len(raw)) + raw)

    def type(self, name):
        return self.constant(b"\x07" + u2(self.text(name)))

    def string(self, text):
        return self.constant(b"\x08" + u2(self.text(text)))

    def integer(self, n):
        return self.constant(b"\x03" + struct.pack(">i", n))

    def member(self, tag, owner, name, desc):
        owner = self.type(owner)
        pair = self.constant(b"\x0c" + u2(self.text(name)) + u2(self.text(desc)))
        return self.constant(bytes([tag]) + u2(owner) + u2(pair))

    def field_ref(self, owner, name, desc):
        return self.member(9, owner, name, desc)

    def method_ref(self, owner, name, desc):
        return self.member(10, owner, name, desc)

    def interface_ref(self, owner, name, desc):
        return self.member(11, owner, name, desc)

    def interface(self, name):
        self.interfaces.append(self.type(name))

    def field(self, flags, name, desc, constant=None):
        """`constant` is the index of what a ConstantValue names."""
        told = b"" if constant is None else u2(self.text("ConstantValue")) + u4(2) + u2(constant)
        head = u2(flags) + u2(self.text(name)) + u2(self.text(desc))
        self.fields.append(head + u2(1 if told else 0) + told)

    def bare(self, flags, name, desc):
        """A method without code."""
        self.methods.append(u2(flags) + u2(self.text(name)) + u2(self.text(desc)) + u2(0))

    def method(self, flags, name, desc, code=RETURN, stack=4, local_count=4, table=(), attrs=()):
        """`table` has entries of start, end, handler and the index of the class that is caught, or 0; `attrs` the name and the bytes of
        each attribute of the code."""
        body = u2(stack) + u2(local_count) + u4(len(code)) + code
        body += u2(len(table)) + b"".join(u2(n) for entry in table for n in entry)
        body += u2(len(attrs)) + b"".join(u2(self.text(name)) + u4(len(told)) + told for name, told in attrs)
        head = u2(flags) + u2(self.text(name)) + u2(self.text(desc))
        self.methods.append(head + u2(1) + u2(self.text("Code")) + u4(len(body)) + body)

    def bytes(self):
        parts = [b"\xca\xfe\xba\xbe", u2(0), u2(49), u2(len(self.pool) + 1), *self.pool]
        parts += [u2(self.flags), u2(self.this), u2(self.above)]
        parts += [u2(len(self.interfaces)), *map(u2, self.interfaces)]
        parts += [u2(len(self.fields)), *self.fields, u2(len(self.methods)), *self.methods, u2(0)]
        return b"".join(parts)


def with_main(name, parent="java/lang/Object", flags=0x21):
    """A class whose `main` does nothing."""
    made = ClassFile(name, parent, flags)
    made.method(0x9, "main", MAIN)
    return made


def operation(opcode, index):
    """An opcode and an index into the constant pool."""
    return bytes([opcode]) + u2(index)


def code_of(made, text, constants):
    """The bytes of words, each of hexadecimal digits or the name of a constant, which gives its index."""
    return b"".join(u2(constants[word](made)) if word in constants else bytes.fromhex(word) for word in text.split())
