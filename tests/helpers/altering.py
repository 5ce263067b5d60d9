"""Alters the bytes of a file at random, for the scripts of tests/ that ask what becomes of it."""
import struct

# what the numbers of two bytes in a constant name, by its tag: the tags of those
INDICES = {7: [1], 8: [1], 9: [7, 12], 10: [7, 12], 11: [7, 12], 12: [1, 1]}
FLAGS = "flags"


def numbered(draw, content):
    """A number of two bytes is one more or less."""
    at = draw.randrange(len(content) - 1)
    number = int.from_bytes(content[at : at + 2], "big") + draw.choice((-1, 1))
    return content[:at] + (number % 65536).to_bytes(2, "big") + content[at + 2 :]


def placed(draw, content):
    """A bit or a byte is another; or bytes go, come twice, or are those of another place."""
    kind, at, count = draw.choice((0, 0, 0, 1, 1, 1, 2, 3, 4)), draw.randrange(len(content)), draw.randint(1, 4)
    if kind == 0:
        return content[:at] + bytes([content[at] ^ 1 << draw.randrange(8)]) + content[at + 1 :]
    if kind == 1:
        return content[:at] + bytes([draw.randrange(256)]) + content[at + 1 :]
    if kind == 2:
        return content[:at] + content[at + count :]
    if kind == 3:
        return content[: at + count] + content[at:]
    other = draw.randrange(len(content))
    return content[:at] + content[other : other + count] + content[at + count :]


def altered(draw, content, more=()):
    """The content altered in one to three places, by these two ways, and more of them."""
    for _ in range(draw.choice((1, 1, 1, 2, 3))):
        if len(content) > 1:
            content = draw.choice([numbered, placed, placed, *more])(draw, content)
    return content


# ---- class files

def number_at(content, at, size=2):
    return int.from_bytes(content[at : at + size], "big")


def pool_places(content):
    """Where each constant of a class file begins, by its index, and where the pool ends."""
    at, places = 10, {}
    for index in range(1, number_at(content, 8)):
        places[index] = at
        tag = content[at]
        at += 3 + number_at(content, at + 1) if tag == 1 else 3 if tag in (7, 8) else 5
    return places, at


def members_of(content, at, slots):
    """Notes the flags, names and descriptors of the fields or methods that begin there, and answers where they end."""
    count, at = number_at(content, at), at + 2
    for _ in range(count):
        slots += [(at, FLAGS), (at + 2, 1), (at + 4, 1)]
        attributes, at = number_at(content, at + 6), at + 8
        for _ in range(attributes):
            at += 6 + number_at(content, at + 2, 4)
    return at


def slots_of(content):
    """The places of numbers of two bytes, each with the tag of the constant that it names, or as flags."""
    places, end = pool_places(content)
    slots = [(at + 1 + 2 * number, tag) for at in places.values() for number, tag in enumerate(INDICES.get(content[at], ()))]
    count = number_at(content, end + 6)
    slots += [(end, FLAGS), *((end + 2 + 2 * at, 7) for at in (0, 1)), *((end + 8 + 2 * at, 7) for at in range(count))]
    members_of(content, members_of(content, end + 8 + 2 * count, slots), slots)
    return slots


def slotted(draw, content):
    """In a class file another constant of its kind is named, or a flag is another."""
    try:
        places, _ = pool_places(content)
        at, kind = draw.choice(slots_of(content))
        if kind == FLAGS:
            number = number_at(content, at) ^ 1 << draw.choice((0, 1, 2, 3, 4, 5, 6, 9, 10, 12))
        else:
            number = draw.choice([index for index, place in places.items() if content[place] == kind])
        return content[:at] + struct.pack(">H", number) + content[at + 2 :]
    except (IndexError, struct.error):
        # what was altered before is not a class file any more
        return placed(draw, content)
