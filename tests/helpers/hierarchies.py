"""Small programs with members of one name in several places: classes and interfaces of two packages, made by random choices.

Each member that gives a number gives one of its own, so a program tells which members its references find: it computes one number
that has those that were found as its digits, to the base 256, and calls the library with it. A reference stands in a class of its
own, after a handler: where an error is thrown its digit is 0.
"""
import struct
from typing import NamedTuple

from class_files import MAIN, ClassFile, operation

OBJECT, MAKER = "java/lang/Object", ("<init>", "()V")
LISTING = "class api/Net extends java/lang/Object\nstatic api/Net put (I)V\n"
REFERENCES = 4
GETSTATIC, GETFIELD, PUTFIELD, INVOKEVIRTUAL, INVOKESPECIAL, INVOKESTATIC, INVOKEINTERFACE, NEW = 0xB2, 0xB4, 0xB5, *range(0xB6, 0xBA), 0xBB
DUP, ALOAD_0, SIPUSH, IRETURN, RETURN = b"\x59", b"\x2a", 0x11, b"\xac", b"\xb1"
PUBLIC, PRIVATE, PROTECTED, PACKAGE, STATIC, ABSTRACT = 1, 2, 4, 0, 8, 0x400
# flags of a member: most are public
ACCESS = [PUBLIC] * 8 + [PRIVATE, PROTECTED, PACKAGE]


class Type(NamedTuple):
    """A class or an interface, with the classes and interfaces above it: itself first, those of superclasses, too."""

    name: str
    made: ClassFile
    parent: str
    above: list
    is_interface: bool


class Member(NamedTuple):
    """A member: its class, its name, its descriptor and its flags."""

    owner: str
    name: str
    desc: str
    flags: int


class Program:
    """`classes` are its class files by their names, `members` those that give a number, by it, `numberless` the other
    methods that references name, and `kinds` those of its references."""

    def __init__(self, draw):
        self.draw, self.types, self.members, self.numberless, self.kinds = draw, [], {}, [], []
        for at in range(draw.randint(1, 3)):
            self.add_interface(f"{draw.choice('ab')}/I{at}")
        for at in range(draw.randint(3, 5)):
            self.add_class(f"{draw.choice('ab')}/C{at}")
        users = [self.user(at) for at in range(REFERENCES)]
        self.classes = {"a/Main": self.main(), **{made.name: made.made for made in self.types}, **users_by_name(users)}

    # ---- types and their members

    def number_of(self, member):
        number = len(self.members) + 1
        self.members[number] = member
        return number

    def interfaces_for(self, made, most):
        """Some of the interfaces that are there come above the type; all that is above them."""
        known = [other for other in self.types if other.is_interface]
        chosen = self.draw.sample(known, self.draw.randint(0, min(most, len(known))))
        for other in chosen:
            made.interface(other.name)
        return [name for other in chosen for name in other.above]

    def add_interface(self, name):
        made = ClassFile(name, flags=0x601)
        above = [name, *self.interfaces_for(made, 2)]
        for desc in "IS":
            if self.draw.randrange(3) == 0:
                made.field(0x19, "x", desc, made.integer(self.number_of(Member(name, "x", desc, 0x19))))
        if self.draw.randrange(2):
            made.bare(PUBLIC | ABSTRACT, "m", "()I")
            self.numberless.append(Member(name, "m", "()I", PUBLIC | ABSTRACT))
        self.types.append(Type(name, made, OBJECT, above, True))

    def add_class(self, name):
        known = [other for other in self.types if not other.is_interface]
        parent = self.draw.choice(known[-2:]) if known and self.draw.randrange(6) else None
        flags = self.draw.choice([0x21] * 8 + [0x20, 0x421])
        made = ClassFile(name, parent.name if parent else OBJECT, flags)
        above = [name, *(parent.above if parent else []), *self.interfaces_for(made, 2)]
        self.types.append(Type(name, made, parent.name if parent else OBJECT, above, False))
        own = [self.field_in(name, made, desc) for desc in "IS" if self.draw.randrange(5) < 2]
        self.maker(name, made, parent.name if parent else OBJECT, [field for field in own if field])
        for at in range(self.draw.randint(0, 2)):
            self.method_in(name, made, "ms"[at])
        if parent and self.draw.randrange(2):
            self.call_up(name, made, parent)

    def field_in(self, name, made, desc):
        """A field of a number: a static one is a constant, one of objects is told to be set by the constructor."""
        is_static = self.draw.randrange(3) > 0
        flags = self.draw.choice(ACCESS) | (STATIC if is_static else 0)
        number = self.number_of(Member(name, "x", desc, flags))
        made.field(flags, "x", desc, made.integer(number) if is_static else None)
        return None if is_static else (desc, number)

    def maker(self, name, made, parent, fields):
        code = ALOAD_0 + operation(INVOKESPECIAL, made.method_ref(parent, *MAKER))
        for desc, number in fields:
            code += ALOAD_0 + operation(SIPUSH, number) + operation(PUTFIELD, made.field_ref(name, "x", desc))
        made.method(PUBLIC, *MAKER, code + RETURN)

    def method_in(self, name, made, called):
        """A method that gives its number: `m` of objects or `s` of classes, and seldom the other way round."""
        is_static = (called == "s") != (self.draw.randrange(12) == 0)
        flags = self.draw.choice(ACCESS) | (STATIC if is_static else 0)
        number = self.number_of(Member(name, called, "()I", flags))
        made.method(flags, called, "()I", operation(SIPUSH, number) + IRETURN)

    def call_up(self, name, made, parent):
        """A method that calls `m` as the superclass has it, if one is declared above."""
        if any(member.name == "m" and member.owner in parent.above for member in self.members.values()):
            made.method(PUBLIC, "up", "()I", ALOAD_0 + operation(INVOKESPECIAL, made.method_ref(parent.name, "m", "()I")) + IRETURN)
            self.numberless.append(Member(name, "up", "()I", PUBLIC))

    # ---- references

    def user(self, at):
        """A class whose `get` uses one reference."""
        made = ClassFile(f"a/U{at}")
        kind, code = self.reference(made)
        self.kinds.append(kind)
        made.method(PUBLIC | STATIC, "get", "()I", code + IRETURN)
        return made

    def reference(self, made):
        """A reference to a member that is declared above the class that it names, as far as a glance tells; and the code."""
        for _ in range(100):
            called, used = self.draw.choice(("x", "s", "m", "up")), self.draw.choice(self.types)
            object_of = self.draw.choice([other for other in self.types if not other.is_interface])
            known = [member for member in [*self.members.values(), *self.numberless] if member.name == called and member.owner in used.above]
            if not known:
                continue
            found = self.draw.choice(known)
            if found.flags & STATIC:
                return self.static_use(made, used, found)
            if used.name in object_of.above:
                return self.object_use(made, used, found, new(made, object_of.name))
        return "none", b"\x03"

    def static_use(self, made, used, found):
        if found.name == "x":
            return "field", operation(GETSTATIC, made.field_ref(used.name, "x", found.desc))
        return "static", operation(INVOKESTATIC, made.method_ref(used.name, found.name, "()I"))

    def object_use(self, made, used, found, code):
        if found.name == "x":
            return "field", code + operation(GETFIELD, made.field_ref(used.name, "x", found.desc))
        if used.is_interface:
            return "virtual", code + operation(INVOKEINTERFACE, made.interface_ref(used.name, found.name, "()I")) + b"\x01\x00"
        return "virtual", code + operation(INVOKEVIRTUAL, made.method_ref(used.name, found.name, "()I"))

    def main(self):
        """Each digit, or 0 where an error is thrown; then the call of the library."""
        made, code, table = ClassFile("a/Main"), b"\x03\x3c", []
        for at in range(REFERENCES):
            begin = len(code)
            # the number, a jump over the handler, which pops what it caught and pushes 0, and the number is a digit more
            code += operation(INVOKESTATIC, made.method_ref(f"a/U{at}", "get", "()I")) + b"\xa7\x00\x05" + b"\x57\x03"
            table.append((begin, begin + 3, begin + 6, 0))
            code += b"\x3d\x1b" + operation(SIPUSH, 256) + b"\x68\x1c\x60\x3c"
        code += b"\x1b" + operation(INVOKESTATIC, made.method_ref("api/Net", "put", "(I)V")) + RETURN
        made.method(PUBLIC | STATIC, "main", MAIN, code, table=table)
        return made


def users_by_name(users):
    return {f"a/U{at}": made for at, made in enumerate(users)}


def new(made, name):
    return operation(NEW, made.type(name)) + DUP + operation(INVOKESPECIAL, made.method_ref(name, *MAKER))


def digits(number):
    """The digits of a number of 32 bits with a sign, those of the first reference first."""
    return list(struct.pack(">i", number))
