"""Jars: what stands in one, byte by byte, and what none may have that is judged by its class files.

A Java machine has to find the same entries with the same bytes as are found here. So the file is read once, and one that two
readers could take for different jars is refused here: with bytes before, between or after what its directory counts, with names
that are cut short or in an unknown encoding, or with an entry that occurs twice. Some readers go by the directory, at the end of
the file, and others by the header before each entry: both have to find the same.
"""
import io
import re
import struct
import zipfile
import zlib
from typing import NamedTuple

STATE, OWN = "conspec/State.class", "META-INF/conspec/"
CERTIFICATE = OWN + "certificate"
END, FIRST_BYTES = 22, b"\xca\xfe\xba\xbe"
STORED_OR_DEFLATED = (zipfile.ZIP_STORED, zipfile.ZIP_DEFLATED)
# of an entry: how hard it was deflated, whether its sum and lengths stand after it, and the encoding of its name
HARDNESS, IS_TOLD_BEHIND, IS_UTF8 = 0x6, 0x8, 0x800
# extra fields that tell the lengths or the name of an entry once more
LONG_LENGTHS, OTHER_NAME = 0x0001, 0x7075
DIRECTORY_PART, HEADER = 46, struct.Struct("<4s5H3L2H")
# the greatest length of a class file and of a certificate, of all class files, and of all other entries
CLASS_FILE, CERTIFICATES, CLASS_FILES, OTHERS = 1 << 20, 1 << 26, 1 << 24, 1 << 28
JAVA = ("JAVA/", "JAVAX/", "SUN/", "JDK/")
# the first date that a jar can tell
DATE = (1980, 1, 1, 0, 0, 0)


UNCOUNTED = "it is not a jar, or has bytes that its directory does not count"
OTHER_HEADER = "the header before its bytes, or the descriptor after them, differs from the directory"


class Unfit(Exception):
    """A jar that cannot be judged by its class files, or that none may run; its texts say why."""


class Entry(NamedTuple):
    """An entry: what the directory says of it, and its bytes."""

    info: zipfile.ZipInfo
    content: bytes

    @property
    def name(self):
        return self.info.filename


# ---- reading

def has_one_end(content):
    """Whether the directory is where its size and its place say, right before an end without a remark, and the only one."""
    if len(content) < END or content[-END:-18] != b"PK\5\6" or content[-2:] != b"\0\0":
        return False
    disk, first_disk, here, count, size, place = struct.unpack("<4H2L", content[-18:-2])
    is_long = content[-42:-38] == b"PK\6\7"
    return disk == first_disk == 0 and here == count and size + place + END == len(content) and not is_long


def raw_name(info):
    """The bytes of a name, in the encoding in which it was read."""
    return info.orig_filename.encode("utf-8" if info.flag_bits & IS_UTF8 else "cp437")


def directory_of(jar, content):
    """What the directory says of each entry; its parts follow each other, and there is no byte besides."""
    infos = jar.infolist()
    count, size, at = struct.unpack("<H2L", content[-12:-2])
    end = at + size
    while at + DIRECTORY_PART <= end:
        at += DIRECTORY_PART + sum(struct.unpack_from("<3H", content, at + 28))
    if len(infos) != count or at != end:
        raise Unfit(UNCOUNTED)
    return infos


def extra_fields(extra):
    """The numbers of the extra fields of an entry, or None if they are not whole."""
    numbers = set()
    while extra:
        if len(extra) < 4:
            return None
        number, length = struct.unpack("<2H", extra[:4])
        if len(extra) < 4 + length:
            return None
        numbers.add(number)
        extra = extra[4 + length :]
    return numbers


def has_plain_extra(extra):
    numbers = extra_fields(extra)
    return numbers is not None and not numbers & {LONG_LENGTHS, OTHER_NAME}


def fault_of(info):
    """What is wrong with an entry before its bytes are read, or None."""
    name = info.orig_filename
    if name != info.filename or (not name.isascii() and not info.flag_bits & IS_UTF8):
        return "its name can be read in two ways"
    if any(part in ("", ".", "..") for part in name.removesuffix("/").split("/")):
        return "a part of its name is empty, `.` or `..`"
    if info.flag_bits & ~(HARDNESS | IS_TOLD_BEHIND | IS_UTF8) or info.compress_type not in STORED_OR_DEFLATED:
        return "it is neither stored nor deflated"
    if info.compress_type == zipfile.ZIP_STORED and (info.compress_size != info.file_size or info.flag_bits & IS_TOLD_BEHIND):
        return "its length can be read in two ways"
    if not has_plain_extra(info.extra):
        return "its extra fields can be read in two ways"
    return None


def limit_of(info):
    """The greatest length of an entry."""
    if info.filename == CERTIFICATE:
        return CERTIFICATES
    return CLASS_FILE if info.filename.endswith(".class") else OTHERS


def look_at_lengths(infos):
    """No more is unpacked than conspecj reads, and of what it does not read no more than a machine has room for."""
    for info in infos:
        if info.file_size > limit_of(info):
            raise Unfit(f"{info.filename}: it has {info.file_size} bytes unpacked, which is more than {limit_of(info)}")
    for what, limit in (("class files have", CLASS_FILES), ("entries that are not class files have", OTHERS)):
        length = sum(info.file_size for info in infos if info.filename.endswith(".class") == (limit == CLASS_FILES))
        if length > limit:
            raise Unfit(f"its {what} {length} bytes unpacked, which is more than {limit}")


def sums_of(info):
    return info.CRC, info.compress_size, info.file_size


def begin_of(content, info):
    """The place of the first byte of an entry, after its header, which agrees with the directory."""
    if len(content) < info.header_offset + HEADER.size:
        raise Unfit(f"{info.filename}: {OTHER_HEADER}")
    front, _, flags, method, _, _, *sums, name, extra = HEADER.unpack_from(content, info.header_offset)
    at = info.header_offset + HEADER.size
    after = at + name + extra
    # the descriptor after the bytes may have 0 here
    blanks = (0,) if flags & IS_TOLD_BEHIND else ()
    agrees = (front, flags, method) == (b"PK\3\4", info.flag_bits, info.compress_type)
    agrees = agrees and all(told in (wanted, *blanks) for told, wanted in zip(sums, sums_of(info)))
    if not agrees or content[at : at + name] != raw_name(info) or not has_plain_extra(content[at + name : after]):
        raise Unfit(f"{info.filename}: {OTHER_HEADER}")
    return after


def unpacked(packed_bytes, info):
    """The bytes of an entry, of which no more are unpacked than the directory says."""
    if info.compress_type == zipfile.ZIP_STORED:
        return packed_bytes
    reader = zlib.decompressobj(-zlib.MAX_WBITS)
    try:
        found = reader.decompress(packed_bytes, info.file_size + 1)
    except zlib.error as wrong:
        raise Unfit(f"{info.filename}: {wrong}") from wrong
    if not reader.eof or reader.unused_data or len(found) != info.file_size:
        raise Unfit(f"{info.filename}: its length is not the one that is given")
    return found


def end_of(content, info, at):
    """The place after an entry whose bytes end here: where its sum and lengths stand after it, they agree with the directory."""
    if not info.flag_bits & IS_TOLD_BEHIND:
        return at
    told = struct.pack("<3L", *sums_of(info))
    for front in (b"PK\7\x08", b""):
        if content[at : at + len(front) + len(told)] == front + told:
            return at + len(front) + len(told)
    raise Unfit(f"{info.filename}: {OTHER_HEADER}")


def entry_of(content, info):
    """An entry, and the place after it."""
    begin = begin_of(content, info)
    end = begin + info.compress_size
    found = unpacked(content[begin:end], info)
    if zlib.crc32(found) != info.CRC:
        raise Unfit(f"{info.filename}: its checksum is not the one that is given")
    return Entry(info, found), end_of(content, info, end)


def entries_in(content, infos):
    """The entries, which follow each other without a byte between, from the first byte to the directory."""
    found, after = {}, 0
    for info in sorted(infos, key=lambda info: info.header_offset):
        if info.header_offset != after:
            raise Unfit(UNCOUNTED)
        found[info.filename], after = entry_of(content, info)
    if after != struct.unpack("<L", content[-6:-2])[0]:
        raise Unfit(UNCOUNTED)
    return [found[info.filename] for info in infos]


def entries_of(content):
    """The entries of a jar, in the order of its directory."""
    if not has_one_end(content):
        raise Unfit(UNCOUNTED)
    try:
        with zipfile.ZipFile(io.BytesIO(content)) as jar:
            infos = directory_of(jar, content)
    except (zipfile.BadZipFile, UnicodeDecodeError, struct.error, NotImplementedError) as wrong:
        raise Unfit(str(wrong)) from wrong
    names = set()
    for info in infos:
        fault = fault_of(info)
        if fault:
            raise Unfit(f"{info.orig_filename!a}: {fault}")
        if info.filename in names:
            raise Unfit(f"{info.filename} occurs twice")
        names.add(info.filename)
    look_at_lengths(infos)
    return entries_in(content, infos)


# ---- what none may have

def manifest_attributes(text):
    """The attributes of a manifest, of all its parts, as pairs of a name in small letters and a value."""
    lines = re.split(r"\r\n|\r|\n", re.sub(r"(\r\n|\r|\n) ", "", text))
    return [(name.strip().lower(), value.strip()) for name, _, value in (line.partition(":") for line in lines)]


def manifest_of(entries):
    """The attributes of the manifest of a jar."""
    found = [entry for entry in entries if entry.name.upper() == "META-INF/MANIFEST.MF"]
    if len(found) > 1:
        raise Unfit("it has two manifests")
    return manifest_attributes(found[0].content.decode("utf-8", "replace") if found else "")


def look_at_manifest(entries, main):
    """No classes from elsewhere, no class that runs before `main`, and no other `main`."""
    for name, value in manifest_of(entries):
        if value and name in ("class-path", "launcher-agent-class"):
            raise Unfit(f"its manifest has {name.title()}, which brings code that is not checked")
        if name == "main-class" and value.replace(".", "/") != main:
            raise Unfit(f"its manifest names {value} as the main class")


def is_class(entry):
    """Whether a Java machine may take the entry for a class file: by its name, as that of a folder too, or by its first bytes."""
    return entry.name.removesuffix("/").endswith(".class") or entry.content.startswith(FIRST_BYTES)


def classes_of(entries, main):
    """The class files, in the order of the jar; refused where a Java machine would run others than these."""
    for entry in entries:
        upper = entry.name.upper()
        if is_class(entry) and upper.startswith(JAVA):
            raise Unfit(f"{entry.name}: the names below java/, javax/, sun/ and jdk/ are those of Java itself: give the class another")
        if upper.startswith("META-INF/VERSIONS/"):
            raise Unfit(f"{entry.name}: some Java machines take it in the place of another entry")
        if upper == "META-INF/INDEX.LIST":
            raise Unfit(f"{entry.name}: it names other jars, which are not checked")
        if is_class(entry) and not entry.name.endswith(".class"):
            raise Unfit(f"{entry.name}: it is a class file, but is not named as one")
    look_at_manifest(entries, main)
    found = [entry for entry in entries if is_class(entry)]
    if not found:
        raise Unfit("it has no class files")
    return found


# ---- writing

def is_signature(name):
    return re.fullmatch(r"META-INF/([^/]+\.(SF|RSA|DSA|EC)|SIG-[^/]*)", name.upper()) is not None


def entry_like(info, content):
    """An entry with the name, date and form of another, and these bytes."""
    made = zipfile.ZipInfo(info.filename, info.date_time)
    made.compress_type, made.external_attr = info.compress_type, info.external_attr
    return Entry(made, content)


def new_entry(name, content):
    made = zipfile.ZipInfo(name, DATE)
    made.compress_type, made.external_attr = zipfile.ZIP_DEFLATED, 0o644 << 16
    return Entry(made, content)


def packed(entries):
    """The bytes of a jar with these entries."""
    made = io.BytesIO()
    with zipfile.ZipFile(made, "w") as jar:
        for entry in entries:
            jar.writestr(entry.info, entry.content)
    return made.getvalue()
