"""Lays the code of `main` out otherwise, with the notes that belong to it: the same program, as `inline` does not write it."""
import copy
import struct
from typing import NamedTuple, Optional

from certificates import CONST, HELD

# opcodes with two bytes of offset after them
GOTO, IF_ICMP = 0xA7, range(0x9F, 0xA5)
JUMPS = [*range(0x99, 0xA8), 0xC6, 0xC7]
GETSTATIC, IADD = 0xB2, 0x60
# the kind of a type of a certificate: what a `new` made
UNINIT = 5


class Part(NamedTuple):
    """An instruction: its bytes, its place among those that were there (None of a new one), the place that it jumps to (such a
    place, or the part itself), and what the certificate tells."""

    code: bytes
    old: Optional[int]
    to: object
    entry: list


def parts_of(code, starts, entries):
    """The instructions of a code whose instructions begin there; it has no switch."""
    places, parts = {at: index for index, at in enumerate(starts)}, []
    for index, at in enumerate(starts):
        text = code[at : starts[index + 1] if index + 1 < len(starts) else len(code)]
        to = places[at + struct.unpack_from(">h", text, 1)[0]] if text[0] in JUMPS else None
        parts.append(Part(text, index, to, entries[index]))
    return parts


def again(parts):
    """The code of these parts, and where each instruction that was there stands in it; its end comes after them."""
    starts, at = {}, 0
    for part in parts:
        if part.old is not None:
            starts[part.old] = at
        starts[id(part)] = at
        at += len(part.code)
    code = b""
    for part in parts:
        to = part.to if isinstance(part.to, (int, type(None))) else id(part.to)
        code += part.code if to is None else part.code[:1] + struct.pack(">h", starts[to] - len(code))
    return code, [*(starts[index] for index in range(sum(part.old is not None for part in parts))), at]


def told_again(parts):
    """What the certificate says of these parts: an object that is not initialised yet is named by the place of its `new`."""
    places = {part.old: place for place, part in enumerate(parts) if part.old is not None}
    entries = [copy.deepcopy(part.entry) for part in parts]
    for frame, _ in entries:
        for told in [told for types in frame or [] for told in types if told[0] == UNINIT]:
            told[1] = places[told[1]]
    return entries


# ---- other ways to say the same

def with_jumps(parts):
    """Before each instruction of a check a jump to it."""
    made = []
    for part in parts:
        if part.entry[1][0] == HELD:
            made.append(Part(bytes([GOTO, 0, 3]), None, part.old, copy.deepcopy(part.entry)))
        made.append(part)
    return made


def turned(parts):
    """Where a test jumps if its atom does not hold, it jumps over such a jump if it does."""
    made = []
    for part, after in zip(parts, [*parts[1:], None]):
        kind, *note = part.entry[1]
        if part.code[0] in IF_ICMP and kind == HELD:
            site, failed, _, terms, variables = note
            missed = [HELD, site, failed + 1, 0, terms[:-2], variables]
            # the opcodes of a relation and of the other one differ in the last bit, counted from the first of them
            opcode = IF_ICMP[0] + ((part.code[0] - IF_ICMP[0]) ^ 1)
            made.append(Part(bytes([opcode]) + part.code[1:], part.old, after.old, part.entry))
            made.append(Part(bytes([GOTO, 0, 0]), None, part.to, [copy.deepcopy(parts[part.to].entry[0]), copy.deepcopy(missed)]))
        else:
            made.append(part)
    return made


def other_sums(parts):
    """The constant of a sum is pushed before the variable."""
    made = list(parts)
    for at in range(len(made) - 2):
        first, second, third = made[at : at + 3]
        is_sum = first.code[0] == GETSTATIC and third.code == bytes([IADD]) and third.entry[1][0] == HELD
        if is_sum and third.entry[1][4][-1][0] == CONST:
            below, (variable, constant) = third.entry[1][4][:-2], third.entry[1][4][-2:]
            middle, last = copy.deepcopy(second.entry), copy.deepcopy(third.entry)
            middle[1][4], last[1][4] = [*below, constant], [*below, constant, variable]
            made[at] = Part(second.code, first.old, None, first.entry)
            made[at + 1] = Part(first.code, second.old, None, middle)
            made[at + 2] = Part(third.code, third.old, None, last)
    return made


WAYS = {"with jumps": with_jumps, "its tests turned": turned, "its sums in the other order": other_sums}
