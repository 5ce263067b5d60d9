"""Small programs of several threads at random, for the scripts of tests/ that run programs.

`a/P` begins up to four threads, of `a/T`, of `a/U` below it, or with an `a/R` as target. All of them work on static fields, on one object
of `a/S` or of `a/V` below it, on arrays, monitors and exceptions, and call the library. Some wait for each other, for ever too. No loop
is without an end. Each statement leaves the operands as they were, so that what is made has types.
"""
import struct

from class_files import MAIN, ClassFile, code_of

LISTING = b"""class api/Net extends java/lang/Object
class api/Broken extends java/lang/Exception
static api/Net send ()V
static api/Net read ()I
static api/Net ask ()Z
static api/Net name ()Ljava/lang/String;
static api/Net make ()Lapi/Net;
static api/Net give (IIZ)V
static api/Net show (Ljava/lang/Object;)V
method api/Net <init> ()V
method api/Net push (I)V
method api/Net self ()Lapi/Net;
class java/io/PrintStream extends java/lang/Object
field java/lang/System out Ljava/io/PrintStream;
method java/io/PrintStream println (Ljava/lang/String;)V
method java/io/PrintStream println (I)V
method java/io/PrintStream print (Ljava/lang/Object;)V
"""
# those that policies are made of
METHODS = [
    "void api.Net.send()",
    "int api.Net.read()",
    "boolean api.Net.ask()",
    "void api.Net.push(int a)",
    "void api.Net.give(int a, int b, boolean c)",
    "void java.io.PrintStream.println(int a)",
]
OBJECT, THREAD, MAKER, NOTHING = "java/lang/Object", "java/lang/Thread", "<init>", "()V"
STATIC, PUBLIC, SYNCHRONIZED = 0x8, 0x1, 0x20


def named(owner, name, desc):
    return lambda made: made.method_ref(owner, name, desc)


def field(owner, name, desc):
    return lambda made: made.field_ref(owner, name, desc)


def of_type(name):
    return lambda made: made.type(name)


CONSTANTS = {
    "SEND": named("api/Net", "send", NOTHING),
    "READ": named("api/Net", "read", "()I"),
    "ASK": named("api/Net", "ask", "()Z"),
    "NAME": named("api/Net", "name", "()Ljava/lang/String;"),
    "MAKE": named("api/Net", "make", "()Lapi/Net;"),
    "GIVE": named("api/Net", "give", "(IIZ)V"),
    "SHOW": named("api/Net", "show", "(Ljava/lang/Object;)V"),
    "NET.MAKER": named("api/Net", MAKER, NOTHING),
    "PUSH": named("api/Net", "push", "(I)V"),
    "SELF": named("api/Net", "self", "()Lapi/Net;"),
    "PRINT.TEXT": named("java/io/PrintStream", "println", "(Ljava/lang/String;)V"),
    "PRINT.NUMBER": named("java/io/PrintStream", "println", "(I)V"),
    "PRINT": named("java/io/PrintStream", "print", "(Ljava/lang/Object;)V"),
    "OUT": field("java/lang/System", "out", "Ljava/io/PrintStream;"),
    "EXIT": named("java/lang/System", "exit", "(I)V"),
    "LENGTH": named("java/lang/String", "length", "()I"),
    "OBJECT.MAKER": named(OBJECT, MAKER, NOTHING),
    "THREAD.MAKER": named(THREAD, MAKER, NOTHING),
    "AIM": named(THREAD, MAKER, "(Ljava/lang/Runnable;)V"),
    "START": named(THREAD, "start", NOTHING),
    "JOIN": named(THREAD, "join", NOTHING),
    "RUN": named(THREAD, "run", NOTHING),
    "T.RUN": named("a/T", "run", NOTHING),
    "T.MAKER": named("a/T", MAKER, NOTHING),
    "U.MAKER": named("a/U", MAKER, NOTHING),
    "R.MAKER": named("a/R", MAKER, NOTHING),
    "S.MAKER": named("a/S", MAKER, NOTHING),
    "V.MAKER": named("a/V", MAKER, NOTHING),
    "OOPS.MAKER": named("a/Oops", MAKER, NOTHING),
    "EXCEPTION.MAKER": named("java/lang/Exception", MAKER, NOTHING),
    "BOTH": named("a/P", "both", "(I)I"),
    "ADD": named("a/S", "add", "(I)I"),
    "STEP": named("a/S", "step", NOTHING),
    "STEPS": lambda made: made.interface_ref("a/I", "step", NOTHING),
    "COUNT": field("a/P", "count", "I"),
    "ONCE": field("a/P", "once", "I"),
    "SHARED": field("a/P", "shared", "La/S;"),
    "LAST": field("a/P", "last", "Ljava/lang/Thread;"),
    "KEPT": field("a/S", "kept", "I"),
    "NEXT": field("a/S", "next", "La/S;"),
    "P": of_type("a/P"),
    "T": of_type("a/T"),
    "U": of_type("a/U"),
    "R": of_type("a/R"),
    "S": of_type("a/S"),
    "V": of_type("a/V"),
    "OOPS": of_type("a/Oops"),
    "NET": of_type("api/Net"),
    "STRING": of_type("java/lang/String"),
    "THREADS": of_type(THREAD),
    "OBJECTS": of_type(OBJECT),
    "TEXT": lambda made: made.string("text"),
    "EMPTY": lambda made: made.string(""),
    "LARGE": lambda made: made.integer(2_000_000_000),
}
CAUGHT = [
    "java/lang/Throwable", "java/lang/RuntimeException", "java/lang/NullPointerException", "java/lang/ArithmeticException", "api/Broken", "a/Oops",
    None,
]
# what makes one number of two
RECKONED = [
    "60", "64", "68", "6c", "70", "78", "7a", "7c", "7e", "80", "82", "5f 64",
    "5c 60 5f 57 60", "5a 64 60", "05 5d 64 60 58", "05 5b 60 64 60", "04 05 5e 60 60 60 60 60",
]
RELATIONS_OF_ONE, RELATIONS_OF_TWO = range(0x99, 0x9F), range(0x9F, 0xA5)
# locals: numbers in 1 and 2, an array in 3, the counters of loops from 4 on
FIRST_LOOP, LOOPS = 4, 3


# what a method may do: `main` begins threads, and runs them; what threads do calls other methods; those that are called call none
MAIN_LEVEL, RUN_LEVEL, LEAF = range(3)


class Body:
    """A method's code under construction: parts, each of which gives its bytes once labels have places; and handlers."""

    def __init__(self, draw, made, level):
        self.draw, self.made, self.level = draw, made, level
        self.parts, self.length, self.places, self.handlers, self.depth, self.loops = [], 0, {}, [], 0, 0

    def part(self, length, bytes_of):
        self.parts.append(bytes_of)
        self.length += length

    def put(self, text):
        code = code_of(self.made, text, CONSTANTS)
        self.part(len(code), lambda: code)

    def way(self, label, at, form=">h"):
        """The offset of a jump that stands at this place."""
        return struct.pack(form, self.places[label] - at)

    def jump(self, opcode, label):
        at = self.length
        self.part(3, lambda: bytes([opcode]) + self.way(label, at))

    def mark(self, label):
        self.places[label] = self.length

    def labels(self, count):
        return [object() for _ in range(count)]

    def add_to(self, flags, name, desc):
        """Puts the method into its class."""
        code = b"".join(bytes_of() for bytes_of in self.parts)
        table = [(self.places[begin], self.places[end], self.places[at], caught) for begin, end, at, caught in self.handlers]
        self.made.method(flags, name, desc, code, 6, FIRST_LOOP + LOOPS, table)

    # ---- values

    def number(self):
        """Pushes a number."""
        self.put(self.draw.choice(["1b", "1c", "03", "04", "05", "06", "1064", "11ff38", "13 LARGE", "b2 COUNT", "2d 03 2e", "2d be"]))

    def shared(self):
        """Pushes the shared object, which may be null."""
        self.put("b2 SHARED")

    # ---- statements

    def statements(self, most):
        for _ in range(self.draw.randint(1, most)):
            self.statement()

    def statement(self):
        simple, deep = self.SIMPLE, self.DEEP
        kind = self.draw.choice(deep) if self.depth < 3 and self.draw.randrange(3) == 0 else self.draw.choice(simple)
        kind(self)

    def inner(self, most=3):
        self.depth += 1
        self.statements(most)
        self.depth -= 1

    def send(self):
        self.put("b8 SEND")

    def read(self):
        self.put("b8 READ " + self.draw.choice(["57", "3c", "3d", "b3 COUNT"]))

    def give(self):
        self.number()
        self.put("b2 COUNT")
        self.put(self.draw.choice(["03", "04", "05", "b8 ASK"]))
        self.put("b8 GIVE")

    def show(self):
        values = ["13 TEXT", "13 P", "01", "2d", "b2 SHARED", "b2 LAST", "b8 NAME", "b8 MAKE", "04 bd NET", "bb S 59 b7 S.MAKER"]
        self.put(self.draw.choice(values) + " b8 SHOW")

    def push(self):
        self.put(self.draw.choice(["bb NET 59 b7 NET.MAKER", "bb NET 59 b7 NET.MAKER", "bb NET 59 b7 NET.MAKER b6 SELF", "b8 MAKE", "01"]))
        self.number()
        self.put("b6 PUSH")

    def say(self):
        self.put("b2 OUT")
        kind = self.draw.randrange(4)
        if kind == 0:
            self.number()
        value = self.draw.choice(["13 EMPTY", "01", "13 P", "2d"])
        self.put(["b6 PRINT.NUMBER", "13 TEXT b6 PRINT.TEXT", "b8 NAME b6 PRINT.TEXT", f"{value} b6 PRINT"][kind])

    def reckon(self):
        self.number()
        self.number()
        self.put(self.draw.choice(RECKONED))
        self.put(self.draw.choice(["", "74", "91", "92", "93"]) + " " + self.draw.choice(["3c", "3d", "b3 COUNT"]))

    def count(self):
        self.put(self.draw.choice(["b2 COUNT 04 60 b3 COUNT", "840101", "c4 8400020005", "b2 COUNT 59 b3 COUNT b3 COUNT"]))

    def array(self):
        self.put(self.draw.choice([
            "06 bc0a 4e",
            "2d be 3c",
            "2d c0 " + self.draw.choice(["OBJECTS", "OBJECTS", "STRING"]) + " 57",
            "04 bc08 59 03 1c 54 03 33 3c",
            "04 bc04 59 03 1b 54 03 33 3d",
            "05 bc05 59 04 1b 55 04 34 3c",
            "05 bc09 59 04 1b 56 04 35 3c",
            "05 bc0a 59 04 1b 4f 04 2e 3c",
            "04 bc0a 1b 05 70 2e 3c",
            "04 bd STRING 59 03 13 TEXT 53 03 32 b6 LENGTH 3d",
            "04 bd NET 03 13 TEXT 53",
            "04 bd STRING c0 OBJECTS 57",
            "1b 100f 7e bc0a be 3d",
            "1b 100f 70 bd STRING 57",
        ]))

    def object(self):
        kind = self.draw.choice([0, 1, 2, 6, 7] if self.level == LEAF else range(8))
        if kind == 0:
            self.put(self.draw.choice(["bb S 59 b7 S.MAKER b3 SHARED", "bb V 59 b7 V.MAKER b3 SHARED", "01 b3 SHARED"]))
            return
        self.shared()
        self.put([
            "",
            "b4 KEPT 3c",
            "1b b5 KEPT",
            "1c b6 ADD 3c",
            "b6 STEP",
            "b9 STEPS 0100",
            "c1 V 3d",
            self.draw.choice(["59 b5 NEXT", "b4 NEXT b3 SHARED", "c0 V 57", "c0 S 57"]),
        ][kind])

    def call(self):
        self.number()
        self.put("3d" if self.level == LEAF else "b8 BOTH 3d")

    def other(self):
        self.put(self.draw.choice([
            "b2 LAST b6 JOIN",
            "b2 LAST b6 START",
            "b2 LAST b6 RUN" if self.level == MAIN_LEVEL else "00",
            "13 P c3",
            "13 P c2" if self.draw.randrange(4) == 0 else "00",
            "13 TEXT b6 LENGTH 3c",
            "b2 ONCE b8 ASK 68 3d",
            "00",
        ]))

    def throws(self):
        """Throws, where a number is not 0; or stops the program, seldom."""
        (behind,) = self.labels(1)
        self.number()
        self.jump(0x99, behind)
        if self.draw.randrange(8) == 0:
            self.number()
            self.put("b8 EXIT")
        else:
            self.put(self.draw.choice(["bb OOPS 59 b7 OOPS.MAKER bf", "01 bf", "bb OOPS 59 b7 OOPS.MAKER bf"]))
        self.mark(behind)

    def begin(self):
        """Begins a thread, in `main`; another method sends."""
        self.put("b8 SEND" if self.level != MAIN_LEVEL else self.draw.choice([
            "bb T 59 b7 T.MAKER 59 b3 LAST b6 START",
            "bb U 59 b7 U.MAKER 59 b3 LAST b6 START",
            "bb THREADS 59 bb R 59 b7 R.MAKER b7 AIM 59 b3 LAST b6 START",
            "bb THREADS 59 b7 THREAD.MAKER 59 b3 LAST b6 START",
        ]))

    def choose(self):
        """One of two ways."""
        other, behind = self.labels(2)
        self.number()
        if self.draw.randrange(2):
            self.jump(self.draw.choice(RELATIONS_OF_ONE), other)
        else:
            self.number()
            self.jump(self.draw.choice(RELATIONS_OF_TWO), other)
        self.inner()
        self.jump(0xA7, behind)
        self.mark(other)
        self.inner()
        self.mark(behind)

    def of_references(self):
        """Does something where two references are the same, or one is null."""
        (behind,) = self.labels(1)
        self.shared()
        if self.draw.randrange(2):
            self.jump(self.draw.choice([0xC6, 0xC7]), behind)
        else:
            self.put(self.draw.choice(["01", "b2 SHARED", "b2 LAST"]))
            self.jump(self.draw.choice([0xA5, 0xA6]), behind)
        self.inner()
        self.mark(behind)

    def loop(self):
        if self.loops == LOOPS:
            self.inner()
            return
        place, (again,) = FIRST_LOOP + self.loops, self.labels(1)
        # a long one now and then, so that several workers come to a program
        rounds = 40 if self.loops == 0 and self.draw.randrange(4) == 0 else self.draw.randint(1, 3)
        self.put(f"10{rounds:02x} 36{place:02x}")
        self.mark(again)
        self.loops += 1
        self.inner()
        self.loops -= 1
        self.put(f"84{place:02x}ff 15{place:02x}")
        self.jump(0x9D, again)

    def tried(self):
        """A handler over statements."""
        begin, end, at, behind = self.labels(4)
        caught = self.draw.choice(CAUGHT)
        self.mark(begin)
        self.inner()
        self.mark(end)
        self.jump(0xA7, behind)
        self.mark(at)
        self.put(self.draw.choice(["57", "57", "b8 SHOW"]))
        self.inner(2)
        self.mark(behind)
        self.handlers.append((begin, end, at, self.made.type(caught) if caught else 0))

    def locked(self):
        """A block of statements under a monitor, which a handler gives up too, as a compiler writes it, or does not."""
        lock = self.draw.choice(["13 P", "13 S", "b2 SHARED"])
        if lock != "b2 SHARED" and self.draw.randrange(3):
            begin, end, at, behind = self.labels(4)
            self.put(f"{lock} c2")
            self.mark(begin)
            self.inner()
            self.put(f"{lock} c3")
            self.mark(end)
            self.jump(0xA7, behind)
            self.mark(at)
            self.put(f"{lock} c3 bf")
            self.mark(behind)
            self.handlers.append((begin, end, at, 0))
        else:
            self.put(f"{lock} c2")
            self.inner()
            self.put(f"{lock} c3")

    def switched(self):
        """One of three ways, by a table or by keys."""
        *ways, behind = self.labels(4)
        self.put("1b 06 7e")
        opcode, at = self.draw.choice([0xAA, 0xAB]), self.length
        head = bytes([opcode]) + bytes(3 - at % 4)

        def bytes_of():
            first, *others = (self.way(way, at, ">i") for way in ways)
            if opcode == 0xAA:
                return head + first + struct.pack(">ii", 0, 1) + b"".join(others)
            return head + first + struct.pack(">i", 2) + b"".join(struct.pack(">i", key) + way for key, way in zip((1, 3), others))

        self.part(len(head) + (20 if opcode == 0xAA else 24), bytes_of)
        for way in ways:
            self.mark(way)
            self.inner(2)
            self.jump(0xA7, behind)
        self.mark(behind)

    SIMPLE = [send, send, read, give, give, show, push, say, reckon, count, array, object, object, object, call, other, throws, begin]
    DEEP = [choose, of_references, loop, loop, tried, tried, locked, locked, switched]


# numbers in locals 1 and 2, and an array in local 3
BEGINS = "03 3c 04 3d 06 bc0a 4e"


def maker(made, above, front=""):
    made.method(PUBLIC, MAKER, NOTHING, code_of(made, f"2a b7 {above} {front} b1", CONSTANTS))


def body(draw, made, flags, name, desc, level, front=BEGINS, back="b1", most=6):
    """A method of the class."""
    code = Body(draw, made, level)
    code.put(front)
    code.statements(most)
    code.put(back)
    code.add_to(flags, name, desc)


def main_class(draw):
    made = ClassFile("a/P")
    for name, desc in (("count", "I"), ("shared", "La/S;"), ("last", "Ljava/lang/Thread;")):
        made.field(PUBLIC | STATIC, name, desc)
    made.field(PUBLIC | STATIC, "once", "I", made.integer(7))
    code = Body(draw, made, MAIN_LEVEL)
    code.put(BEGINS + draw.choice([" bb S 59 b7 S.MAKER b3 SHARED", " bb V 59 b7 V.MAKER b3 SHARED", ""]))
    for _ in range(draw.choice([0, 1, 2, 2, 3, 3, 4])):
        code.begin()
    code.statements(6)
    code.put("b1")
    code.add_to(PUBLIC | STATIC, "main", MAIN)
    body(draw, made, PUBLIC | STATIC | draw.choice([0, SYNCHRONIZED]), "both", "(I)I", LEAF, "1a 3c 04 3d 06 bc0a 4e", "1b ac", 3)
    if draw.randrange(8) == 0:
        body(draw, made, STATIC, "<clinit>", NOTHING, LEAF, most=2)
    return made


def shared_classes(draw):
    """`a/I`, `a/S` and `a/V`."""
    asked = ClassFile("a/I", flags=0x601)
    asked.bare(PUBLIC | 0x400, "step", NOTHING)
    shared = ClassFile("a/S")
    shared.interface("a/I")
    shared.field(PUBLIC, "kept", "I")
    shared.field(PUBLIC, "next", "La/S;")
    maker(shared, "OBJECT.MAKER", "2a 08 b5 KEPT")
    front, back = "04 3d 06 bc0a 4e 2a 2a b4 KEPT 1b 60 b5 KEPT", "2a b4 KEPT ac"
    body(draw, shared, PUBLIC | draw.choice([0, SYNCHRONIZED]), "add", "(I)I", LEAF, front, back, 2)
    body(draw, shared, PUBLIC, "step", NOTHING, LEAF, most=2)
    below = ClassFile("a/V", "a/S")
    maker(below, "S.MAKER")
    body(draw, below, PUBLIC | draw.choice([0, SYNCHRONIZED]), "step", NOTHING, LEAF, back=draw.choice(["b1", "2a b7 STEP b1"]), most=2)
    return [asked, shared, below]


def thread_classes(draw):
    """`a/T`, `a/U` below it, which may have a `run` of its own, and the target `a/R`."""
    thread, below, target = ClassFile("a/T", THREAD), ClassFile("a/U", "a/T"), ClassFile("a/R")
    target.interface("java/lang/Runnable")
    maker(thread, "THREAD.MAKER")
    maker(below, "T.MAKER")
    maker(target, "OBJECT.MAKER")
    for made in (thread, target):
        body(draw, made, PUBLIC, "run", NOTHING, RUN_LEVEL)
    if draw.randrange(2):
        body(draw, below, PUBLIC, "run", NOTHING, RUN_LEVEL, back=draw.choice(["b1", "2a b7 T.RUN b1"]))
    return [thread, below, target]


def random_program(draw):
    """The class files of a program, by their names, in any order; the main class is `a/P`."""
    oops = ClassFile("a/Oops", "java/lang/Exception")
    maker(oops, "EXCEPTION.MAKER")
    names = ["a/P", "a/I", "a/S", "a/V", "a/T", "a/U", "a/R", "a/Oops"]
    classes = list(zip(names, [main_class(draw), *shared_classes(draw), *thread_classes(draw), oops]))
    draw.shuffle(classes)
    return {name: made.bytes() for name, made in classes}
