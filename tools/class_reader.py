"""What a class says of itself: its superclass, its interfaces, its members, and what it names of other classes.

Classes are read from the folders and jars of a class path.
"""
import os
import re
import struct
import zipfile
from typing import NamedTuple
from urllib.parse import unquote

from jars import manifest_attributes

PUBLIC, PROTECTED, STATIC, INTERFACE = 0x0001, 0x0004, 0x0008, 0x0200
# how many bytes a constant has after its tag, but for a text
SIZES = {3: 4, 4: 4, 5: 8, 6: 8, 7: 2, 8: 2, 9: 4, 10: 4, 11: 4, 12: 4, 15: 3, 16: 2, 17: 4, 18: 4, 19: 2, 20: 2}
CLASS, FIELD, METHODS, NAME_AND_TYPE = 7, 9, (10, 11), 12


class Unreadable(Exception):
    """A file or a class that cannot be read; the text says which, and why."""


class Reference(NamedTuple):
    """A field or a method that code names: the class, the name and the descriptor."""

    owner: str
    name: str
    descriptor: str


class Class(NamedTuple):
    """A class; of its fields and methods each is static or not, by name and descriptor."""

    name: str
    parent: str
    interfaces: list
    is_interface: bool
    fields: dict
    methods: dict
    named: set = frozenset()
    field_uses: set = frozenset()
    method_uses: set = frozenset()
    # the flags of each method
    flags: dict = {}


# ---- class files

class Bytes:
    """The bytes of a file, read from front to back."""

    def __init__(self, content):
        self.content, self.at = content, 0

    def take(self, size):
        if self.at + size > len(self.content):
            raise Unreadable("it ends too early")
        self.at += size
        return self.content[self.at - size : self.at]

    def number(self, size):
        return int.from_bytes(self.take(size), "big")


def constants_of(read):
    """The constant pool: each index with its tag and its bytes."""
    pool, index, count = {}, 1, read.number(2)
    while index < count:
        tag = read.number(1)
        if tag != 1 and tag not in SIZES:
            raise Unreadable(f"it has a constant with the tag {tag}")
        pool[index] = (tag, read.take(read.number(2) if tag == 1 else SIZES[tag]))
        index += 2 if tag in (5, 6) else 1
    return pool


class Pool:
    """The constants, with what their indices lead to."""

    def __init__(self, read):
        self.constants = constants_of(read)

    def entry(self, index, tags):
        tag, content = self.constants.get(index, (0, b""))
        if tag not in tags:
            raise Unreadable(f"its constant {index} is of the wrong kind")
        return content

    def text(self, index):
        return self.entry(index, (1,)).decode("utf-8", "surrogateescape")

    def class_name(self, index):
        return self.text(int.from_bytes(self.entry(index, (CLASS,)), "big"))

    def name_and_type(self, index):
        return tuple(self.text(part) for part in struct.unpack(">HH", self.entry(index, (NAME_AND_TYPE,))))

    def reference(self, index, tags=METHODS):
        owner, pair = struct.unpack(">HH", self.entry(index, tags))
        return Reference(self.class_name(owner), *self.name_and_type(pair))

    def of_tags(self, tags):
        return [index for index, (tag, _) in self.constants.items() if tag in tags]

    def references(self, tags):
        return {self.reference(index, tags) for index in self.of_tags(tags)}

    def classes(self):
        return {self.class_name(index) for index in self.of_tags((CLASS,))}


def attributes_of(read, pool):
    """The attributes that stand here, with their names."""
    return [(pool.text(read.number(2)), read.take(read.number(4))) for _ in range(read.number(2))]


def members_of(read, pool):
    """The fields or the methods that stand here: the name and descriptor of each, its flags, and its attributes."""
    for _ in range(read.number(2)):
        flags, name, descriptor = read.number(2), read.number(2), read.number(2)
        yield (pool.text(name), pool.text(descriptor)), flags, attributes_of(read, pool)


def flags_of(members):
    """The flags of each member; of two with one name and descriptor the first counts."""
    found = {}
    for member, flags, _ in members:
        found.setdefault(member, flags)
    return found


def static_of(members):
    return {member: bool(flags & STATIC) for member, flags in members.items()}


def front_of(content):
    """A class file as far as its fields: what reads on from there, its constants, and the class as far as it is known."""
    read = Bytes(content)
    if read.take(4) != b"\xca\xfe\xba\xbe":
        raise Unreadable("it is not a class file")
    read.take(4)
    pool = Pool(read)
    flags, name, parent = read.number(2), pool.class_name(read.number(2)), read.number(2)
    interfaces = [pool.class_name(read.number(2)) for _ in range(read.number(2))]
    above = pool.class_name(parent) if parent else None
    return read, pool, Class(name, above, interfaces, bool(flags & INTERFACE), {}, {})


def class_of(content):
    """The class that a class file has."""
    read, pool, front = front_of(content)
    fields, methods = flags_of(members_of(read, pool)), flags_of(members_of(read, pool))
    return front._replace(
        fields=static_of(fields),
        methods=static_of(methods),
        named=pool.classes(),
        field_uses=pool.references((FIELD,)),
        method_uses=pool.references(METHODS),
        flags=methods,
    )


def lines_of(content):
    """The line numbers of each method with code: the first byte of each, and the line."""
    read, pool, _ = front_of(content)
    flags_of(members_of(read, pool))
    codes = [(member, code) for member, _, attributes in members_of(read, pool) for name, code in attributes if name == "Code"]
    return {member: code_lines(code, pool) for member, code in codes}


def code_lines(code, pool):
    """The line numbers of a Code attribute, in their order."""
    read = Bytes(code)
    read.take(4)
    read.take(read.number(4))
    read.take(8 * read.number(2))
    tables = [content for name, content in attributes_of(read, pool) if name == "LineNumberTable"]
    return sorted(pair for table in tables for pair in struct.iter_unpack(">HH", table[2:]))


# ---- class paths

class Folder:
    """A folder of a class path."""

    def __init__(self, path):
        self.path = path

    def content(self, file):
        """The bytes of the file of this name, or None."""
        path = os.path.join(self.path, file)
        if not os.path.isfile(path):
            return None
        with open(path, "rb") as opened:
            return opened.read()

    def named(self):
        """The places that stand after it on the class path."""
        return []


class Jar:
    """A jar of a class path; of an entry for several versions of Java the newest counts."""

    def __init__(self, path):
        self.path, self.jar = path, zipfile.ZipFile(path)
        self.entries = {name: name for name in self.jar.namelist()}
        self.manifest = manifest_attributes((self.content("META-INF/MANIFEST.MF") or b"").decode("utf-8", "replace"))
        if ("multi-release", "true") in self.manifest:
            told = [match for name in self.entries if (match := re.fullmatch(r"META-INF/versions/(\d+)/(.+)", name))]
            self.entries.update((match[2], match[0]) for match in sorted(told, key=lambda match: int(match[1])))

    def content(self, file):
        """The bytes of the entry of this name, or None."""
        return self.jar.read(self.entries[file]) if file in self.entries else None

    def named(self):
        """The places that its manifest puts after it on the class path; those that are not there count for nothing."""
        words = [word for name, value in self.manifest if name == "class-path" for word in value.split()]
        folder = os.path.dirname(os.path.abspath(self.path))
        paths = [os.path.join(folder, unquote(word.removeprefix("file:"))) for word in words]
        return [path for path in paths if os.path.exists(path)]


class ClassPath:
    """Folders and jars, of which the first that has a class counts."""

    def __init__(self, text):
        self.places = {}
        for place in filter(None, text.split(os.pathsep)):
            if not os.path.exists(place):
                raise Unreadable(f"{place}: it is not there")
            self.add(place)

    def add(self, place):
        """Adds a place, and after it those that it names itself."""
        if place in self.places:
            return
        opened = self.guarded(place, Folder if os.path.isdir(place) else Jar, place)
        self.places[place] = opened
        for named in self.guarded(place, opened.named):
            self.add(named)

    def guarded(self, place, do, *words):
        """Does this, and tells the place where it fails."""
        try:
            return do(*words)
        except (OSError, zipfile.BadZipFile, NotImplementedError, RuntimeError) as fault:
            raise Unreadable(f"{place}: {fault}") from fault

    def content(self, name):
        """The bytes of the class of this name, or None."""
        for place, opened in self.places.items():
            found = self.guarded(place, opened.content, name + ".class")
            if found is not None:
                return found
        return None
