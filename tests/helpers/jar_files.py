"""Makes jars for the scripts of tests/: whole ones, and odd ones that no tool may take, each with what is printed of it."""
import io
import os
import struct
import warnings
import zipfile
import zlib

HERE = os.path.dirname(os.path.realpath(__file__))
ROOT = os.path.dirname(os.path.dirname(HERE))
DENIED = os.path.join(ROOT, "examples", "denied")
POLICY, LISTING = os.path.join(DENIED, "policy"), os.path.join(DENIED, "listing")
MANIFEST = "META-INF/MANIFEST.MF"
HEAD = b"Manifest-Version: 1.0\r\nMain-Class: a.S\r\n\r\n"
NO_JAR = "it is not a jar, or has bytes that its directory does not count"


def denied(name):
    with open(os.path.join(DENIED, name), "rb") as file:
        return file.read()


def jar_of(entries, remark=b"", method=zipfile.ZIP_DEFLATED, last=b""):
    """The bytes of a jar with these names and contents; a name may stand twice. `last` is a remark on the last entry."""
    made = io.BytesIO()
    with warnings.catch_warnings():
        warnings.simplefilter("ignore")
        with zipfile.ZipFile(made, "w", method) as jar:
            jar.comment = remark
            for name, content in entries:
                jar.writestr(name, content)
            jar.infolist()[-1].comment = last
    return made.getvalue()


def entries_of(content):
    """The names and contents of a jar, in their order."""
    with zipfile.ZipFile(io.BytesIO(content)) as jar:
        return [(info.filename, jar.read(info)) for info in jar.infolist()]


def write(folder, name, content):
    path = os.path.join(folder, name)
    with open(path, "wb") as file:
        file.write(content)
    return path


# ---- odd ones

# where the directory has what of an entry, from the beginning of its part, and how many bytes sooner its header has that
FLAGS, METHOD, SUM, PACKED, LENGTH, NAME = 8, 10, 16, 20, 24, 46
SOONER, HEADER_NAME = 2, 30
LONG_LENGTHS, OTHER_NAME = b"\1\0\x08\0" + bytes(8), b"\x75\x70\x05\0" + bytes(5)
HEADER = "the header before its bytes, or the descriptor after them, differs from the directory"


def told_otherwise(content, name, place, form, value):
    """The jar with another number in the directory's part for an entry."""
    at = content.rindex(name.encode("ascii")) - NAME + place
    return content[:at] + struct.pack(form, value) + content[at + struct.calcsize(form) :]


def in_header(content, name, place, form, value):
    """The jar with another number in the header before the bytes of an entry."""
    at = content.index(name.encode("ascii")) - HEADER_NAME + place - SOONER
    return content[:at] + struct.pack(form, value) + content[at + struct.calcsize(form) :]


def in_both(content, name, place, form, value):
    return in_header(told_otherwise(content, name, place, form, value), name, place, form, value)


def not_counted(entries, hidden):
    """The jar with the bytes of these entries, of which the directory has no part for the hidden ones."""
    made = io.BytesIO()
    with zipfile.ZipFile(made, "w", zipfile.ZIP_DEFLATED) as jar:
        for name, content in entries:
            jar.writestr(name, content)
        jar.filelist[:] = [info for info in jar.filelist if info.filename not in hidden]
    return made.getvalue()


def in_stream(entries):
    """The jar as it is written to a pipe, with sums and lengths after the bytes of each entry."""

    class Pipe(io.BytesIO):
        def seekable(self):
            return False

        def seek(self, *_):
            raise io.UnsupportedOperation

    made = Pipe()
    with zipfile.ZipFile(made, "w", zipfile.ZIP_DEFLATED) as jar:
        for name, content in entries:
            jar.writestr(name, content)
    return made.getvalue()


def bytes_after(content, value):
    """The jar with another sum after the bytes of its last entry."""
    at = content.rindex(b"PK\7\x08") + 4
    return content[:at] + struct.pack("<L", value) + content[at + 4 :]


def more_packed(content, name, added):
    """The jar with more bytes after the packed ones of its last entry, and counted with them."""
    place, packed = struct.unpack("<L", content[-6:-2])[0], content.rindex(name.encode("ascii")) - NAME + PACKED
    length = struct.unpack_from("<L", content, packed)[0] + len(added)
    content = in_both(content, name, PACKED, "<L", length)
    end = content[-6:].replace(struct.pack("<L", place), struct.pack("<L", place + len(added)))
    return content[:place] + added + content[place:-6] + end


def with_extra(entries, extra):
    """The jar with an extra field at an entry more."""
    made = io.BytesIO(jar_of(entries))
    with zipfile.ZipFile(made, "a") as jar:
        info = zipfile.ZipInfo("a/X.bin")
        info.extra = extra
        jar.writestr(info, b"some bytes")
    return made.getvalue()


def zeros(count, ending, length):
    """Entries of so many zeros, of which a jar has few bytes."""
    return [(f"a/Z{number}{ending}", bytes(length)) for number in range(count)]


def of_two_readings(entries):
    """Files that two readers may take for different jars."""
    whole, hidden = jar_of(entries), ("a/X.bin", b"some bytes")
    odd, streamed = jar_of([*entries, hidden]), in_stream([*entries, hidden])
    stored = jar_of([*entries, hidden], method=zipfile.ZIP_STORED)
    packed = len(zlib.compress(b"some bytes", wbits=-15))
    two = "its name can be read in two ways"
    neither = "'a/X.bin': it is neither stored nor deflated"
    length = "'a/X.bin': its length can be read in two ways"
    extra = "'a/X.bin': its extra fields can be read in two ways"
    return [
        ("a text", b"This is a text, and no jar, whatever its name is.\n", NO_JAR),
        ("an empty file", b"", NO_JAR),
        ("bytes before it", b"#!/bin/sh\n" + whole, NO_JAR),
        ("bytes after it", whole + b"\n", NO_JAR),
        ("another jar after it", whole + whole, NO_JAR),
        ("a remark at its end", jar_of(entries, b"a remark"), NO_JAR),
        ("what looks like a longer end", jar_of(entries, last=b"PK\6\7" + bytes(16)), NO_JAR),
        ("a hidden entry before all", not_counted([hidden, *entries], ["a/X.bin"]), NO_JAR),
        ("a hidden entry between", not_counted([*entries[:2], hidden, *entries[2:]], ["a/X.bin"]), NO_JAR),
        ("a hidden entry after all", not_counted([*entries, hidden], ["a/X.bin"]), NO_JAR),
        ("a directory with more", told_otherwise(odd, "a/X.bin", 32, "<H", 1), NO_JAR),
        ("a name with a zero byte", odd.replace(b"a/X.bin", b"a/X\0bin"), f"'a/X\\x00bin': {two}"),
        ("a name that is no UTF-8", odd.replace(b"a/X.bin", b"a/\xe4.bin"), f"'a/\\u03a3.bin': {two}"),
        ("another name before the bytes", odd.replace(b"a/X.bin", b"a/Y.bin", 1), f"a/X.bin: {HEADER}"),
        ("no header", in_header(odd, "a/X.bin", SOONER, "<L", 0), f"a/X.bin: {HEADER}"),
        ("another sum in the header", in_header(odd, "a/X.bin", SUM, "<L", 0), f"a/X.bin: {HEADER}"),
        ("another length in the header", in_header(odd, "a/X.bin", LENGTH, "<L", 0), f"a/X.bin: {HEADER}"),
        ("a header that tells sum and lengths after the bytes", in_header(odd, "a/X.bin", FLAGS, "<H", 8), f"a/X.bin: {HEADER}"),
        ("another length in the header of one that does", in_header(streamed, "a/X.bin", LENGTH, "<L", 9), f"a/X.bin: {HEADER}"),
        ("another sum after the bytes", bytes_after(streamed, 7), f"a/X.bin: {HEADER}"),
        ("encrypted", in_both(odd, "a/X.bin", FLAGS, "<H", 1), neither),
        ("another compression", in_both(odd, "a/X.bin", METHOD, "<H", 12), neither),
        ("another sum", in_both(odd, "a/X.bin", SUM, "<L", 7), "a/X.bin: its checksum is not the one that is given"),
        ("a length that is too long", in_both(odd, "a/X.bin", LENGTH, "<L", 11), "a/X.bin: its length is not the one that is given"),
        ("a length that is too short", in_both(odd, "a/X.bin", LENGTH, "<L", 9), "a/X.bin: its length is not the one that is given"),
        ("fewer bytes than are packed", in_both(odd, "a/X.bin", PACKED, "<L", packed - 1), "a/X.bin: its length is not the one that is given"),
        ("more bytes than are packed", more_packed(odd, "a/X.bin", b"more"), "a/X.bin: its length is not the one that is given"),
        ("two lengths of what is stored", in_both(stored, "a/X.bin", LENGTH, "<L", 9), length),
        ("stored bytes whose length stands after", in_both(stored, "a/X.bin", FLAGS, "<H", 8), length),
        ("long lengths", with_extra(entries, LONG_LENGTHS), extra),
        ("another name as an extra field", with_extra(entries, OTHER_NAME), extra),
        ("an extra field that is cut short", with_extra(entries, b"\x75\x55\0"), extra),
    ]


def too_long(entries):
    """Jars of which no more is unpacked than conspecj reads, and than a machine has room for."""
    mib = 1 << 20
    more = "bytes unpacked, which is more than"
    long = told_otherwise(jar_of([*entries, ("a/X.bin", b"")]), "a/X.bin", LENGTH, "<L", 1 << 29)
    return [
        ("a class file that is too long", jar_of([*entries, *zeros(1, ".class", mib + 1)]), f"a/Z0.class: it has {mib + 1} {more} {mib}"),
        ("class files that are too long", jar_of([*entries, *zeros(17, ".class", mib)]), "its class files have "),
        ("another entry that is too long", long, "a/X.bin: it has "),
    ]


def with_other_classes(entries):
    """Jars of which a Java machine may run other classes than are checked, or begin elsewhere."""
    rest = [entry for entry in entries if entry[0] != MANIFEST]
    without = [entry for entry in entries if not entry[0].endswith(".class")]
    quiet = denied("E.class")

    def more(*added):
        return jar_of([*entries, *added])

    def manifest(text):
        return jar_of([(MANIFEST, HEAD.rstrip() + b"\r\n" + text), *rest])

    part = "a part of its name is empty, `.` or `..`"
    brings = "which brings code that is not checked"
    return [
        ("a class twice", more(("a/S.class", quiet)), "a/S.class occurs twice"),
        ("a resource twice", more(("x", b"1"), ("x", b"2")), "x occurs twice"),
        ("entries for later versions", more(("META-INF/versions/9/a/S.class", quiet)), "META-INF/versions/9/a/S.class: some Java machines"),
        ("the same in other letters", more(("meta-inf/Versions/9/x", b"")), "meta-inf/Versions/9/x: some Java machines"),
        ("an index of other jars", more(("META-INF/INDEX.LIST", b"JarIndex-Version: 1.0\n\n")), "META-INF/INDEX.LIST: it names other jars"),
        ("a class path", manifest(b"Class-Path: more.jar\r\n\r\n"), f"its manifest has Class-Path, {brings}"),
        ("a class path over two lines", manifest(b"CLASS-\r\n pAtH: more.jar\n"), f"its manifest has Class-Path, {brings}"),
        ("an agent", manifest(b"Launcher-Agent-Class: a.S\r\n"), f"its manifest has Launcher-Agent-Class, {brings}"),
        ("another main class", manifest(b"\nName: x\nMain-Class: a.Other\n"), "its manifest names a.Other as the main class"),
        ("two manifests", more(("meta-inf/manifest.mf", b"")), "it has two manifests"),
        ("a class with another ending", more(("a/E.bin", quiet)), "a/E.bin: it is a class file, but is not named as one"),
        ("a class as a folder", more(("a/E.class/", quiet)), "a/E.class/: it is a class file, but is not named as one"),
        ("a way out of the folder", more(("../E.class", quiet)), f"'../E.class': {part}"),
        ("a name from the root", more(("/a/E.class", quiet)), f"'/a/E.class': {part}"),
        ("no class", jar_of(without), "it has no class files"),
    ]


def odd_jars(entries):
    """Each with what it is, its bytes, and how what is printed of it begins."""
    return of_two_readings(entries) + too_long(entries) + with_other_classes(entries)


# ---- stand-ins for conspecj

def stand_in(folder, line, status):
    """A program that prints this line and ends so, whatever it is asked."""
    path = write(folder, "stand-in", f"#!/bin/sh\nprintf '%s' '{line}'\nexit {status}\n".encode("ascii"))
    os.chmod(path, 0o755)
    return path
