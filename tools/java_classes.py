"""The classes of Java itself, as the Java machine that is there has them: from Java 9 on they stand in one file, `lib/modules`,
and before in jars, `rt.jar` among them.

The file begins with a header of seven numbers: a mark, the version, flags, how many resources there are, the length of two tables,
and the sizes of the descriptions of the resources and of the texts. The tables serve to find a name, and are not read here. A
description is a row of numbers, each with its kind and its length in one byte before it: the texts of the module, the folder,
the name and the ending, by their places, and the place of the bytes and their two lengths.
"""
import glob
import mmap
import os
import re
import shutil
import struct
import subprocess
import zlib

from class_reader import ClassPath, Unreadable

MARK, HEADER = 0xCAFEDADA, 28
END, MODULE, FOLDER, NAME, ENDING, PLACE, PACKED, LENGTH = range(8)
# before bytes that were packed: a mark, two lengths, how they were packed and with what, and whether they were packed once
PACKED_MARK, PACKED_HEADER = 0xCAFEFAFA, struct.Struct("=I2Q2IB")


class NoJava(Unreadable):
    """There is no Java machine, or its classes cannot be read; the text says why."""


class Image:
    """The file with the classes of a Java machine."""

    def __init__(self, path):
        self.path = path
        with open(path, "rb") as file:
            self.bytes = mmap.mmap(file.fileno(), 0, access=mmap.ACCESS_READ)
        mark, _, _, _, length, descriptions, texts = struct.unpack_from("=7I", self.bytes)
        if mark != MARK:
            raise NoJava(f"{path}: its form is unknown")
        self.first = HEADER + 8 * length
        self.texts = self.first + descriptions
        self.begin = self.texts + texts
        self.resources = dict(self.classes())

    def text(self, place):
        begin = self.texts + place
        return self.bytes[begin : self.bytes.find(b"\0", begin)].decode("utf-8")

    def descriptions(self):
        """The numbers of each description, by their kinds."""
        at, rows, found = 0, self.bytes[self.first : self.texts], {}
        while at < len(rows):
            kind, length = rows[at] >> 3, (rows[at] & 7) + 1
            if kind == END:
                if found:
                    yield found
                found, length = {}, 0
            else:
                found[kind] = int.from_bytes(rows[at + 1 : at + 1 + length], "big")
            at += 1 + length

    def classes(self):
        """Each class with its place and its lengths."""
        texts = {}
        for found in self.descriptions():
            folder, name, ending = (self.text_once(found.get(kind, 0), texts) for kind in (FOLDER, NAME, ENDING))
            if ending == "class" and found.get(MODULE):
                yield f"{folder}/{name}" if folder else name, (found.get(PLACE, 0), found.get(PACKED, 0), found.get(LENGTH, 0))

    def text_once(self, place, texts):
        if place not in texts:
            texts[place] = self.text(place)
        return texts[place]

    def content(self, name):
        """The bytes of the class of this name, or None."""
        if name not in self.resources:
            return None
        place, packed, length = self.resources[name]
        begin = self.begin + place
        if not packed:
            return self.bytes[begin : begin + length]
        return self.unpacked(self.bytes[begin : begin + packed], length)

    def unpacked(self, content, length):
        mark, packed, _, how, _, is_last = PACKED_HEADER.unpack_from(content)
        if mark != PACKED_MARK or self.text(how) != "zip" or not is_last:
            raise NoJava(f"{self.path}: its classes are packed in an unknown way")
        return zlib.decompress(content[PACKED_HEADER.size : PACKED_HEADER.size + packed], bufsize=length)


def java():
    """The command `java`: that on the path, or that of JAVA_HOME."""
    home = os.environ.get("JAVA_HOME")
    found = shutil.which("java") or (home and shutil.which(os.path.join(home, "bin", "java")))
    if not found:
        raise NoJava("there is no java, neither on the path nor below JAVA_HOME")
    return found


def compiler(command):
    """A Java compiler: the `javac` beside this `java`, or that on the path, or `ecj`; None where none is."""
    beside = os.path.join(os.path.dirname(os.path.realpath(command)), "javac")
    return shutil.which(beside) or shutil.which("javac") or shutil.which("ecj")


def home_of(command):
    """The folder of a Java machine, which it tells itself."""
    try:
        ran = subprocess.run([command, "-XshowSettings:properties", "-version"], capture_output=True, text=True, check=False)
    except OSError as fault:
        raise NoJava(f"{command} does not run ({fault.strerror})") from fault
    told = re.search(r"^ *java\.home = (.*)$", ran.stderr, re.M)
    if not told:
        raise NoJava(f"{command} does not say where its classes are")
    return told[1].strip()


def image_of(home):
    """The classes of the Java machine in this folder."""
    modules = os.path.join(home, "lib", "modules")
    if os.path.isfile(modules):
        return Image(modules)
    jars = [path for part in ("lib", os.path.join("lib", "ext")) for path in sorted(glob.glob(os.path.join(home, part, "*.jar")))]
    if not any(os.path.basename(path) == "rt.jar" for path in jars):
        raise NoJava(f"{home}: it has no classes of Java")
    return ClassPath(os.pathsep.join(jars))


class JavaClasses:
    """The classes of the Java machine that is here, which is looked for when the first of them is asked for."""

    def __init__(self):
        self.image = None

    def content(self, name):
        """The bytes of the class of this name, or None."""
        if self.image is None:
            self.image = image_of(home_of(java()))
        return self.image.content(name)
