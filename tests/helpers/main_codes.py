"""The code and the exception table of the first method of a class file, to be changed (`code_begins` of woven_files finds them)."""
import struct

from woven_files import code_begins


class MainCode:
    """`code` is bytes, and `table` a list of entries: start, end, handler, and the index of the class that is caught, or 0."""

    def __init__(self, content):
        self.content, self.begin = content, code_begins(content)
        length = struct.unpack_from(">I", content, self.begin - 4)[0]
        after = self.begin + length
        self.code, count = content[self.begin : after], struct.unpack_from(">H", content, after)[0]
        self.table = [struct.unpack_from(">HHHH", content, after + 2 + 8 * number) for number in range(count)]
        self.old_size = length + 8 * count

    def bytes(self):
        """The class file with what the code and the table are now."""
        begin, after = self.begin, self.begin + self.old_size + 2
        size = struct.unpack_from(">I", self.content, begin - 12)[0] - self.old_size + len(self.code) + 8 * len(self.table)
        head = self.content[: begin - 12] + struct.pack(">I", size) + self.content[begin - 8 : begin - 4]
        entries = b"".join(struct.pack(">HHHH", *entry) for entry in self.table)
        return head + struct.pack(">I", len(self.code)) + self.code + struct.pack(">H", len(self.table)) + entries + self.content[after:]
