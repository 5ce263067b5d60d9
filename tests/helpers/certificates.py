"""Reads and writes certificates, for the scripts of tests/ that change single notes (docs/CERTIFICATES.md).

A certificate is read as a list of methods with code, in the order of the classes and of their methods; a method is a list of
instructions, each with its frame, or None where it is not reached, and its note. A note is a list: its kind, its site (except
of Free), and its fields, as the page has them. A site is [method, phase, base], and a term [kind, fields..].
"""
import struct

FREE, TAKING, HELD, GRANTED, OWED, STOP = range(6)
BEFORE, AFTER, EXCEPTIONAL = range(3)
CONST, VAR, VAR_ADD, ARGUMENT, RESULT, LOCK = range(6)

# the numbers that a note has after its site, where it has no list of terms
PLAIN = {GRANTED: "BBB", OWED: "BBB", STOP: "B"}
# those of a term
TERMS = {CONST: "i", VAR: "B", VAR_ADD: "Bi", ARGUMENT: "B", RESULT: "", LOCK: ""}


class Reader:
    def __init__(self, content):
        self.content, self.at = content, 0

    def take(self, form):
        """The numbers of this form, as `struct` has them."""
        found = struct.unpack_from(">" + form, self.content, self.at)
        self.at += struct.calcsize(">" + form)
        return list(found)

    def bytes(self, count):
        self.at += count
        return self.content[self.at - count : self.at]

    def type(self, names):
        kind = self.take("B")[0]
        if kind == 3:
            return [kind, names[self.take("I")[0]]]
        return [kind, self.take("I")[0]] if kind == 5 else [kind]

    def term(self):
        kind = self.take("B")[0]
        return [kind, *self.take(TERMS[kind])]

    def note(self, variables):
        kind = self.take("B")[0]
        if kind == FREE:
            return [FREE]
        note = [kind, self.take("HBH")]
        if kind == HELD:
            failed, holding, count = self.take("BBB")
            terms = [self.term() for _ in range(count)]
            return [*note, failed, holding, terms, [self.term() for _ in range(variables)]]
        return [*note, *self.take(PLAIN.get(kind, ""))]

    def instruction(self, names, variables):
        frame = None
        if self.take("B")[0]:
            frame = [[self.type(names) for _ in range(self.take("H")[0])] for _ in range(2)]
        return [frame, self.note(variables)]


# the types that have no more to tell
TOP, INT, NULL, THIS = [0], [1], [2], [4]


def reference(name):
    """To a class, or to an array by its descriptor."""
    return [3, name.encode("ascii")]


def fresh(at):
    """What the `new` of this index made, before its constructor is called."""
    return [5, at]


class Certificate:
    """A certificate that was read: its mode, 0 for hold and 1 for release, and the methods of each class."""

    def __init__(self, content, variables):
        reader = Reader(content)
        head, version, self.mode, count = reader.take("4sHBI")
        assert (head, version) == (b"CSPC", 1)
        names = [reader.bytes(reader.take("H")[0]) for _ in range(count)]
        self.classes = []
        for _ in range(reader.take("H")[0]):
            methods = range(reader.take("H")[0])
            self.classes.append([[reader.instruction(names, variables) for _ in range(reader.take("I")[0])] for _ in methods])
        assert reader.at == len(content)

    def notes(self, owner=0, method=0):
        """The instructions of a method, in place."""
        return self.classes[owner][method]

    def bytes(self):
        names = {}
        body = struct.pack(">H", len(self.classes))
        for methods in self.classes:
            body += struct.pack(">H", len(methods))
            for instructions in methods:
                body += struct.pack(">I", len(instructions))
                body += b"".join(frame_text(frame, names) + note_text(note) for frame, note in instructions)
        told = b"".join(struct.pack(">H", len(name)) + name for name in names)
        return struct.pack(">4sHBI", b"CSPC", 1, self.mode, len(names)) + told + body


def type_text(told, names):
    if told[0] == 3:
        return struct.pack(">BI", 3, names.setdefault(told[1], len(names)))
    return struct.pack(">BI", *told) if told[0] == 5 else bytes(told)


def frame_text(frame, names):
    if frame is None:
        return b"\0"
    return b"\1" + b"".join(struct.pack(">H", len(part)) + b"".join(type_text(told, names) for told in part) for part in frame)


def term_text(term):
    return struct.pack(">B" + TERMS[term[0]], *term)


def note_text(note):
    kind, *fields = note
    if kind == FREE:
        return b"\0"
    text = struct.pack(">BHBH", kind, *fields[0])
    if kind == HELD:
        _, failed, holding, terms, variables = fields
        return text + bytes([failed, holding, len(terms)]) + b"".join(map(term_text, [*terms, *variables]))
    return text + struct.pack(">" + PLAIN.get(kind, ""), *fields[1:])
