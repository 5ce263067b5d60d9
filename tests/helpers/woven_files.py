"""What `inline` wrote of a program, to be checked as it is, and with single instructions and notes changed."""
import copy
import os
import re
import struct
import subprocess
import tempfile

from certificates import Certificate
from command_runs import DONE, REFUSED, put
from laid_out import WAYS, again, parts_of, told_again


def code_begins(content):
    """Where the code of the first method of a class file begins, which has its Code attribute first."""
    at, left = 10, struct.unpack_from(">H", content, 8)[0] - 1
    while left:
        tag = content[at]
        at += 3 + struct.unpack_from(">H", content, at + 1)[0] if tag == 1 else 3 if tag in (7, 8) else 5
        left -= 1
    at += 6
    at += 2 + 2 * struct.unpack_from(">H", content, at)[0]
    fields = struct.unpack_from(">H", content, at)[0]
    assert fields == 0
    # the count of methods, the method's head, and the attribute's name, length, sizes and length of code
    return at + 4 + 8 + 14


class Woven:
    """A program that was woven. Its first class has no fields, and its first method is `main`."""

    def __init__(self, runs, what, sources, classes, sites, variables=0, mode="hold"):
        """`sources` are the texts of policy and listing, `classes` the class files by their names, the main class first."""
        self.runs, self.what, self.variables, self.mode = runs, what, variables, mode
        self.main = next(iter(classes))
        files = {"POLICY": sources[0], "LISTING": sources[1], **{f"{name}.class": made.bytes() for name, made in classes.items()}}
        words = ["inline", "POLICY", "LISTING", self.main, "new", mode, *(f"{name}.class" for name in classes)]
        self.sites, self.count = sites, len(classes) + 1
        ended = runs.expect(what, words, DONE, f"inlined {mode} sites {sites} classes {self.count}\n", files)
        self.files = ended.files
        self.outputs = [*(f"new/{name}.class" for name in classes), "new/conspec/State.class"]
        self.accept()

    def accept(self):
        self.check(self.what, self.accepted(), self.files)

    def accepted(self):
        return f"accepted {self.mode} sites {self.sites}"

    def check(self, what, printed, files):
        words = ["check", "POLICY", "LISTING", "new/certificate", self.main, *self.outputs]
        self.runs.expect(what, words, REFUSED if printed.startswith("denied") else DONE, printed + "\n", files)

    def instructions(self):
        """The first byte and the words of each instruction of `main`, as `show` prints them."""
        with tempfile.TemporaryDirectory() as folder:
            for name in ("LISTING", self.outputs[0]):
                put(folder, name, self.files[name])
            words = [self.runs.program, "show", "LISTING", self.outputs[0]]
            lines = subprocess.run(words, cwd=folder, capture_output=True, text=True, check=True).stdout.splitlines()
        of_main = []
        for line in lines[2:]:
            if line.startswith("method"):
                break
            if re.match(r"\d", line):
                of_main.append(line.split(" ", 2)[1:])
        return [(int(at), text) for at, text in of_main]

    def denied(self, what, printed, code=(), notes=(), handler=None, mode=None):
        """The answer to the same files with changes in `main`.

        A change of code is the index of the first instruction that goes, the words of each that goes, as `show` has their
        fronts, and the bytes that come in their place: as many, with STATE and V0 for the constants that blocks name, and the
        name of a listed method that is called. After it may stand what the certificate tells of what comes: for each
        instruction the index of one with its types, or these, or None, and its note. A change of a note is an index and a note.
        `handler` is an entry of the exception table that stands in the place of the first; an empty one takes the first away.
        `mode` is another one for the certificate to tell, by its number there."""
        files = {**self.files}
        content = bytearray(files[self.outputs[0]])
        told = Certificate(files["new/certificate"], self.variables)
        told.mode, entries = told.mode if mode is None else mode, told.notes()
        old, found, begin = copy.deepcopy(entries), self.instructions(), code_begins(content)
        for index, note in notes:
            entries[index][1] = note
        for first, gone, text, *new in reversed(code):
            for place, words in enumerate(gone):
                assert found[first + place][1].startswith(words), (what, first + place, found[first + place][1], words)
            at = [found[first][0], found[first + len(gone)][0]]
            come = self.coded(text, found)
            assert len(come) == at[1] - at[0], (what, len(come), at)
            content[begin + at[0] : begin + at[1]] = come
            if new:
                frames = [copy.deepcopy(old[like][0] if isinstance(like, int) else like) for like, _ in new[0]]
                entries[first : first + len(gone)] = [[frame, note] for frame, (_, note) in zip(frames, new[0])]
        if handler is not None:
            change_handler(content, begin, handler)
        files[self.outputs[0]], files["new/certificate"] = bytes(content), told.bytes()
        self.check(f"{self.what}: {what}", printed, files)

    def laid_out(self):
        """The same programs, with `main` laid out as `inline` does not lay it out, are accepted, too."""
        for what, way in WAYS.items():
            files = {**self.files}
            content, told = files[self.outputs[0]], Certificate(files["new/certificate"], self.variables)
            begin, entries = code_begins(content), told.notes()
            length = struct.unpack_from(">I", content, begin - 4)[0]
            starts = [at for at, _ in self.instructions()]
            parts = way(parts_of(content[begin : begin + length], starts, entries))
            code, places = again(parts)
            moved = dict(zip([*starts, length], places))
            files[self.outputs[0]] = with_code(content, begin, code, moved)
            entries[:] = told_again(parts)
            files["new/certificate"] = told.bytes()
            if files != self.files:
                self.check(f"{self.what}, {what}", self.accepted(), files)

    def coded(self, text, found):
        """The bytes of words, each of hexadecimal digits or the name of what a block names."""
        constants = {}
        for _, words in found:
            name, *operands = words.split()
            if name == "ldc_w":
                constants.setdefault("STATE", operands[0])
            if name in ("getstatic", "putstatic"):
                constants.setdefault("V0", operands[0])
            if "api" in operands:
                constants.setdefault(operands[-2].upper(), operands[0])
        named = {name: struct.pack(">H", int(told[1:])) for name, told in constants.items()}
        return b"".join(named.get(word) or bytes.fromhex(word) for word in text.split())

    def runs_as(self, what, record, printed, judged="accepted"):
        """A run of one thread, its steps counted or its answers, ends so on the woven files, and `policy` says so of its events."""
        steps = sum(line if isinstance(line, int) else 1 for line in record)
        lines = [f"go 0 {line}" if isinstance(line, int) else line for line in record]
        wanted = "".join(line + "\n" for line in printed[:-1]) + f"{printed[-1]} {steps}\n"
        ended = self.replayed(what, lines, wanted)
        again = {**self.files, "RECORD": ended.printed.encode("ascii")}
        self.runs.expect("the events of this run", ["policy", "POLICY", "LISTING", "RECORD"], DONE, judged + "\n", again)

    def replayed(self, what, lines, printed):
        """What `replay` prints of the lines of a record."""
        files = {**self.files, "RECORD": "".join(line + "\n" for line in [*lines, "end running 0"]).encode("ascii")}
        words = ["replay", "LISTING", self.main, "RECORD", *self.outputs]
        status = REFUSED if printed.startswith("denied") else DONE
        return self.runs.expect(f"{self.what}: {what}", words, status, printed, files)


def with_code(content, begin, code, moved):
    """The class file with another code of its first method; of its handlers each place is where it is moved to."""
    length = struct.unpack_from(">I", content, begin - 4)[0]
    table = begin + length
    count = struct.unpack_from(">H", content, table)[0]
    handlers = [struct.unpack_from(">HHHH", content, table + 2 + 8 * number) for number in range(count)]
    size = struct.unpack_from(">I", content, begin - 12)[0] + len(code) - length
    made = content[: begin - 12] + struct.pack(">I", size) + content[begin - 8 : begin - 4] + struct.pack(">I", len(code)) + code
    made += struct.pack(">H", count) + b"".join(struct.pack(">HHHH", *(moved[at] for at in entry[:3]), entry[3]) for entry in handlers)
    return made + content[table + 2 + 8 * count :]


def change_handler(content, begin, handler):
    """Puts another first entry into the exception table after the code, or takes it away."""
    length = struct.unpack_from(">I", content, begin - 4)[0]
    at = begin + length
    if handler:
        struct.pack_into(">HHHH", content, at + 2, *handler)
        return
    count = struct.unpack_from(">H", content, at)[0]
    del content[at + 2 : at + 10]
    struct.pack_into(">H", content, at, count - 1)
    size = begin - 12
    struct.pack_into(">I", content, size, struct.unpack_from(">I", content, size)[0] - 8)
