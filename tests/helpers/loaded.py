"""Class files and a listing as a machine that runs them needs them, for `machine.py`: methods with their code, members found by name,
and which class is below which (docs/LINKING.md, docs/LISTINGS.md). What links and has types is taken to be right.
"""
import os
import re
import struct
import sys
from typing import NamedTuple

sys.path.insert(0, os.path.join(os.path.dirname(os.path.realpath(__file__)), "..", "..", "tools"))
from built_in import BUILT_IN_METHODS, OBJECT  # noqa: E402
from class_reader import FIELD, METHODS, STATIC, Bytes, front_of, members_of  # noqa: E402
from listed import Listed  # noqa: E402

STRING = "java/lang/String"
INTEGER, TEXT_OF, CLASS = 3, 8, 7


def signature(descriptor):
    """The types of the arguments, and that of the result."""
    arguments, result = descriptor[1:].split(")")
    return re.findall(r"\[*(?:L[^;]+;|.)", arguments), result


def class_in(descriptor):
    """The class or the array that a field's descriptor spells, or None where it spells a number."""
    return descriptor if descriptor[0] == "[" else descriptor[1:-1] if descriptor[0] == "L" else None


class Method(NamedTuple):
    """A method of the program; `table` has bytes from, to and at, and the class that is caught, or None for all."""

    owner: object
    name: str
    desc: str
    flags: int
    code: bytes
    local_count: int
    table: list


class Loaded:
    """A class of the program, with its constants."""

    def __init__(self, content):
        read, self.pool, front = front_of(content)
        self.name, self.parent, self.interfaces, self.is_interface = front.name, front.parent, front.interfaces, front.is_interface
        self.fields, self.methods, self.known = {}, {}, {}
        for member, flags, attributes in members_of(read, self.pool):
            constants = [int.from_bytes(told, "big") for name, told in attributes if name == "ConstantValue"]
            self.fields.setdefault(member, (flags, constants[0] if constants else None))
        for member, flags, attributes in members_of(read, self.pool):
            codes = [told for name, told in attributes if name == "Code"]
            self.methods.setdefault(member, self.method(member, flags, codes[0] if codes else None))

    def method(self, member, flags, told):
        if told is None:
            return Method(self, *member, flags, None, 0, [])
        read = Bytes(told)
        _, local_count = read.number(2), read.number(2)
        code = read.take(read.number(4))
        entries = [struct.unpack(">HHHH", read.take(8)) for _ in range(read.number(2))]
        table = [(*places, self.pool.class_name(caught) if caught else None) for *places, caught in entries]
        return Method(self, *member, flags, code, local_count, table)

    def reference(self, index, tags):
        """The field or the method that a constant names."""
        if index not in self.known:
            self.known[index] = self.pool.reference(index, tags)
        return self.known[index]

    def constant(self, index):
        """The kind of a constant that can be pushed, and its number, its bytes, or its class."""
        kind, content = self.pool.constants[index]
        if kind == INTEGER:
            return kind, int.from_bytes(content, "big", signed=True)
        if kind == TEXT_OF:
            return kind, self.pool.entry(int.from_bytes(content, "big"), (1,))
        return CLASS, self.pool.class_name(index)


class Program:
    """The classes of the program by name, in their order, beside those of the listing."""

    def __init__(self, contents, listing, main):
        loaded = [Loaded(content) for content in contents]
        self.classes, self.main = {one.name: one for one in loaded}, main
        self.listed, self.found = Listed(listing), {}

    def head(self, name):
        """A class, of the program or of the library."""
        return self.classes.get(name) or self.listed.classes[name]

    def chain(self, name):
        """The class and those above it, the nearest first."""
        while name is not None:
            yield name
            name = self.head(name).parent

    def declares(self, name, what, member):
        return member in getattr(self.head(name), what)

    def declaring(self, what, reference):
        """The class that declares the field or the method to which a reference leads."""
        key = (what, reference)
        if key not in self.found:
            self.found[key] = self.field_from(reference.owner, reference[1:]) if what == "fields" else self.method_from(*reference)
        return self.found[key]

    def field_from(self, name, member):
        """A class, then its interfaces with those above them, then its superclass."""
        if name is None or self.declares(name, "fields", member):
            return name
        head = self.head(name)
        found = (self.field_from(above, member) for above in [*head.interfaces, head.parent])
        return next((owner for owner in found if owner), None)

    def method_from(self, name, called, desc):
        """The superclasses, and then their interfaces, level by level."""
        chain = list(self.chain(name))
        level = [above for owner in chain for above in self.head(owner).interfaces]
        places = list(chain)
        while level:
            places += level
            level = [above for owner in level for above in self.head(owner).interfaces]
        return next((owner for owner in places if self.declares(owner, "methods", (called, desc))), None)

    def body_from(self, name, called, desc):
        """The nearest method of the program, from the class upwards, if it is not static and has code."""
        for owner in self.chain(name):
            found = self.classes[owner].methods.get((called, desc)) if owner in self.classes else None
            if found:
                return None if found.flags & STATIC or found.code is None else found
        return None

    def is_built_in(self, owner, reference):
        return (owner, reference.name, reference.descriptor) in BUILT_IN_METHODS

    def is_below(self, name, other):
        """Whether what is of the first class or array is of the other, too."""
        if name == other or other == OBJECT:
            return True
        if name[0] == "[":
            parts = [class_in(part[1:]) for part in (name, other)] if other[0] == "[" else [None, None]
            return None not in parts and self.is_below(*parts)
        return any(other == above or self.is_behind(above, other) for above in self.chain(name))

    def is_behind(self, name, interface):
        """Whether the interface is one of those that a class names, or above one."""
        return any(above == interface or self.is_behind(above, interface) for above in self.head(name).interfaces)
