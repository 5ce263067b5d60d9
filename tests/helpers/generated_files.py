"""What docs/GENERATED.md says of the files that are made from a number, written once more."""
import struct

MOST = 2**63 - 1
LISTING = b"class api/Net extends java/lang/Object\nstatic api/Net send (I)V\nstatic api/Net read ()I\n"
POLICY = (
    b"MAXINT 1000000 SCOPE Session SECURITY STATE int n = 0; "
    b"BEFORE void api.Net.send(int a) PERFORM n <= 999998 && a >= 0 -> { n = n + 1; }\n"
)


# ---- the page once more


def u2(number):
    return struct.pack(">H", number)


def u4(number):
    return struct.pack(">I", number)


def text(chars):
    return b"\1" + u2(len(chars)) + chars.encode()


def type_of(name):
    return b"\7" + u2(name)


def method_ref(owner, member):
    return b"\x0a" + u2(owner) + u2(member)


def named(name, desc):
    return b"\x0c" + u2(name) + u2(desc)


def method(flags, name, code_name, stack, code):
    body = u2(stack) + u2(1) + u4(len(code)) + code + u2(0) + u2(0)
    return u2(flags) + u2(name) + u2(6) + u2(1) + u2(code_name) + u4(len(body)) + body


def class_file(pool, *methods):
    head = b"\xca\xfe\xba\xbe" + u2(0) + u2(49) + u2(len(pool) + 1) + b"".join(pool)
    return head + u2(0x21) + u2(2) + u2(4) + u2(0) + u2(0) + u2(len(methods)) + b"".join(methods) + u2(0)


class Draws:
    """The numbers that are drawn, one after the other."""

    def __init__(self, seed):
        self.state = seed

    def next(self):
        self.state = (self.state * 6364136223846793005 + 1442695040888963407) % 2**64
        return self.state // 2**33


def site(drawn):
    if drawn % 2 == 0:
        return b"\x11" + u2(drawn // 2 % 1000) + b"\xb8" + u2(16)
    return b"\xb8" + u2(20) + b"\x57"


def thread_class(index, sites):
    pool = [text(f"g/C{index}"), type_of(1), text("java/lang/Thread"), type_of(3), text("<init>"), text("()V"), named(5, 6)]
    pool += [method_ref(4, 7), text("run"), text("Code"), text("api/Net"), type_of(11), text("send"), text("(I)V")]
    pool += [named(13, 14), method_ref(12, 15), text("read"), text("()I"), named(17, 18), method_ref(12, 19)]
    maker = method(1, 5, 10, 1, b"\x2a\xb7" + u2(8) + b"\xb1")
    return class_file(pool, maker, method(1, 9, 10, 1, b"".join(sites) + b"\xb1"))


def main_class(classes):
    pool = [text("g/Main"), type_of(1), text("java/lang/Object"), type_of(3), text("main"), text("([Ljava/lang/String;)V")]
    pool += [text("Code"), text("<init>"), text("()V"), named(8, 9), text("start"), named(11, 9)]
    code = b""
    for index in range(classes):
        at = len(pool) + 1
        pool += [text(f"g/C{index}"), type_of(at), method_ref(at + 1, 10), method_ref(at + 1, 12)]
        code += b"\xbb" + u2(at + 1) + b"\x59\xb7" + u2(at + 2) + b"\xb6" + u2(at + 3)
    return class_file(pool, method(9, 5, 7, 2, code + b"\xb1"))


class Made:
    """What is made of the numbers: the files in their order, how many sites send, and the line that is printed."""

    def __init__(self, seed, classes, sites):
        draws = Draws(seed)
        drawn = [[draws.next() for _ in range(sites)] for _ in range(classes)]
        self.sending = sum(number % 2 == 0 for numbers in drawn for number in numbers)
        made = [thread_class(index, [site(number) for number in numbers]) for index, numbers in enumerate(drawn)]
        made.append(main_class(classes))
        self.names = [f"out/g/C{index}.class" for index in range(classes)] + ["out/g/Main.class"]
        self.files = dict(zip(self.names, made))
        self.files["out/listing"], self.files["out/policy"] = LISTING, POLICY
        total = sum(map(len, made))
        self.line = f"generated classes {classes + 1} sites {classes * sites} bytes {total}\n"


def written(files):
    return {name: content for name, content in files.items() if content is not None}


def differing(found, wanted):
    """The first file in which what stands is not what is wanted."""
    for name in sorted(set(found) | set(wanted)):
        if found.get(name) != wanted.get(name):
            return f"{name} is not as the page says" if name in found else f"{name} is not there"
    return ""
