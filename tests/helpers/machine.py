"""A machine that runs class files by docs/MACHINE.md and by the JVM specification, chapter 6, for the scripts of tests/ that compare runs.

It is written from these pages, and shares nothing with the program: it goes by the bytes of the code, one instruction a step. What runs
links and has types, so that no operand is missing.
"""
import operator
import struct

from loaded import CLASS, FIELD, INTEGER, METHODS, OBJECT, STATIC, STRING, TEXT_OF, Program, class_in, signature

SYNCHRONIZED = 0x20
LANG = "java/lang/"


def wrapped(number, bits=32):
    """A number cut to so many bits, the first of which is its sign."""
    number &= (1 << bits) - 1
    return number - (1 << bits) if number >> (bits - 1) else number


class Thing:
    """An object: of a class, or an array by its descriptor. A text has bytes; the object of a class has the name of the class."""

    def __init__(self, kind, number=None, text=None, named=None):
        self.kind, self.number, self.text, self.named = kind, number, text, named
        self.fields, self.items, self.target, self.thread = {}, None, None, None


class Thrown(Exception):
    """An instruction throws this object."""

    def __init__(self, thing):
        super().__init__()
        self.thing = thing


class Frame:
    """A method under way; at a call `at` stays until the return."""

    def __init__(self, method, values, lock=None):
        self.method, self.code, self.at, self.stack, self.lock = method, method.code, 0, [], lock
        self.locals = [*values, *[None] * (method.local_count - len(values))]

    def operand(self, form, at=1):
        return struct.unpack_from(">" + form, self.code, self.at + at)[0]

    def pops(self, count):
        """The topmost operands, the deepest first."""
        if not count:
            return []
        taken = self.stack[-count:]
        del self.stack[-count:]
        return taken


class Call:
    """A call of the library that waits for its answer."""

    def __init__(self, owner, reference, receiver, arguments, has_receiver):
        self.owner, self.name, self.desc = owner, reference.name, reference.descriptor
        self.receiver, self.arguments, self.has_receiver = receiver, arguments, has_receiver
        self.result = signature(self.desc)[1]

    def is_on_null(self):
        return self.has_receiver and self.receiver is None

    def words(self):
        return f"{self.owner} {self.name} {self.desc}"

    def plain(self):
        """The plain answer, by the table of docs/RUNS.md."""
        if self.result == "V":
            return "nothing"
        if class_in(self.result) is None:
            return "int 0"
        if class_in(self.result) == self.owner and self.has_receiver:
            return "receiver"
        return "text -" if class_in(self.result) == STRING else "null"


class Thread:
    """A thread: its frames, the topmost last, the call in which it waits, and the methods that it has to begin yet."""

    def __init__(self, number, frames, begins=()):
        self.number, self.frames, self.begins, self.call = number, frames, list(begins), None


# ---- tables of instructions

PUSHED = {0x01: None, **{0x03 + number: number for number in range(-1, 6)}}
# local 0 to 3 of loads and stores, by their first opcodes
SHORT = {first + place: place for first in (0x1A, 0x2A, 0x3B, 0x4B) for place in range(4)}
LOADS, STORES = {0x15, 0x19, *range(0x1A, 0x1E), *range(0x2A, 0x2E)}, {0x36, 0x3A, *range(0x3B, 0x3F), *range(0x4B, 0x4F)}
# how many operands are taken, and which are put back, the deepest being 0
MOVED = {
    0x57: (1, ""), 0x58: (2, ""), 0x59: (1, "00"), 0x5A: (2, "101"), 0x5B: (3, "2012"), 0x5C: (2, "0101"), 0x5D: (3, "12012"),
    0x5E: (4, "230123"), 0x5F: (2, "10"),
}
TWO = {
    0x60: operator.add, 0x64: operator.sub, 0x68: operator.mul, 0x78: lambda one, two: one << (two & 31),
    0x7A: lambda one, two: one >> (two & 31), 0x7C: lambda one, two: (one & 0xFFFFFFFF) >> (two & 31), 0x7E: operator.and_,
    0x80: operator.or_, 0x82: operator.xor,
}
ONE = {0x74: lambda one: wrapped(-one), 0x91: lambda one: wrapped(one, 8), 0x92: lambda one: one & 0xFFFF, 0x93: lambda one: wrapped(one, 16)}
RELATIONS = [operator.eq, operator.ne, operator.lt, operator.ge, operator.gt, operator.le]
ARRAYS = {4: "[Z", 5: "[C", 6: "[F", 7: "[D", 8: "[B", 9: "[S", 10: "[I", 11: "[J"}
KEPT = {"[Z": lambda one: one & 1, "[B": lambda one: wrapped(one, 8), "[C": lambda one: one & 0xFFFF, "[S": lambda one: wrapped(one, 16)}
ARRAY_LOADS, ARRAY_STORES = {0x2E, 0x32, 0x33, 0x34, 0x35}, {0x4F, 0x53, 0x54, 0x55, 0x56}
RANGES = {"Z": (0, 1), "B": (-(2**7), 2**7 - 1), "C": (0, 2**16 - 1), "S": (-(2**15), 2**15 - 1), "I": (-(2**31), 2**31 - 1)}
RETURNS, ENTER, LEAVE = {0xAC, 0xB0, 0xB1}, 0xC2, 0xC3
VIRTUAL, SPECIAL, OF_CLASS, BY_INTERFACE = INVOKES = range(0xB6, 0xBA)


class Machine:
    """A program and its state. `stopped` is the value with which the program was stopped, or None."""

    def __init__(self, contents, listing, main):
        self.program, self.count, self.stopped, self.holders = Program(contents, listing, main), 0, None, {}
        self.literals, self.named = {}, {}
        self.statics = {
            (one.name, *member): self.first_of(one, member, constant)
            for one in self.program.classes.values()
            for member, (flags, constant) in one.fields.items()
            if flags & STATIC
        }
        of_library = [(owner, name, desc) for word, owner, name, desc in self.program.listed.members if word == "field"]
        self.statics.update((place, self.new(class_in(place[2]))) for place in of_library)
        words = self.new(f"[L{STRING};")
        words.items = []
        frames = [Frame(one.methods["<clinit>", "()V"], []) for one in self.program.classes.values() if ("<clinit>", "()V") in one.methods]
        frames.append(Frame(self.program.classes[main].methods["main", f"([L{STRING};)V"], [words]))
        self.threads = [Thread(0, frames[:1], frames[1:])]

    # ---- the heap

    def new(self, kind, text=None):
        """A new object, which is the next of the heap."""
        self.count += 1
        return Thing(kind, self.count - 1, text)

    def literal(self, text):
        return self.literals.setdefault(text, Thing(STRING, text=text))

    def class_object(self, name):
        return self.named.setdefault(name, Thing(f"{LANG}Class", named=name))

    def first_of(self, owner, member, constant):
        """The value of a static field before it is written."""
        number = class_in(member[1]) is None
        kind, told = owner.constant(constant) if constant else (None, None)
        if kind == INTEGER and number:
            return told
        return self.literal(told) if kind == TEXT_OF and member[1] == f"L{STRING};" else 0 if number else None

    def thrown(self, name):
        return Thrown(self.new(f"{LANG}{name}Exception"))

    def shown(self, value):
        """A value as a record has it."""
        if value is None or isinstance(value, int):
            return "null" if value is None else str(value)
        if value.named is not None:
            return f"class:{value.named}"
        if self.program.is_below(value.kind, STRING):
            return f"text:{(value.text or b'').hex() or '-'}"
        return f"obj:{value.kind}@{value.number}"

    # ---- which steps there are

    def has_ended(self, number):
        return not self.threads[number].frames

    def enabled(self, number):
        """Whether the thread can make a step; one in a call takes an answer, or goes on where the receiver is null."""
        if self.stopped is not None or number >= len(self.threads) or self.has_ended(number):
            return False
        thread = self.threads[number]
        return thread.call is not None or not self.waits(thread)

    def waits(self, thread):
        frame = thread.frames[-1]
        opcode = frame.code[frame.at]
        if opcode == ENTER:
            return self.is_taken(frame.stack[-1], thread)
        if opcode not in INVOKES:
            return False
        reference, owner, receiver = self.called(frame)
        if self.program.is_built_in(owner, reference):
            joined = receiver.thread if reference.name == "join" and receiver is not None else None
            return joined is not None and not self.has_ended(joined)
        method = self.method_for(frame, owner, reference, receiver)
        return method is not None and self.is_taken(self.lock_of(method, receiver), thread)

    def is_taken(self, lock, thread):
        return lock is not None and self.holders.get(lock, (thread, 0))[0] is not thread

    def takes(self, number, answer):
        """Whether the thread can make this step: a plain one, or an answer that fits its call."""
        call = self.threads[number].call if self.enabled(number) else None
        if answer is None or call is None or call.is_on_null():
            return self.enabled(number) and answer is None and (call is None or call.is_on_null())
        return self.fits(call, *answer.split(" "))

    def fits(self, call, word, told=None):
        """Whether the answer fits the call, by the table of docs/MACHINE.md."""
        result, (arguments, _) = class_in(call.result), signature(call.desc)
        if word in ("nothing", "int"):
            least, most = RANGES.get(call.result, (1, 0))
            return call.result == "V" if word == "nothing" else least <= int(told) <= most
        if word == "throws":
            return self.program.is_below(told, f"{LANG}Throwable")
        if result is None or call.result == "V":
            return False
        is_interface = result[0] != "[" and self.program.head(result).is_interface
        if word == "text":
            return result in (STRING, OBJECT) or is_interface
        if word == "fresh":
            is_class = told in self.program.listed.own and not self.program.head(told).is_interface
            return is_class and (is_interface or self.program.is_below(told, result))
        if word == "arg" and (int(told) >= len(arguments) or class_in(arguments[int(told)]) is None):
            return False
        if word == "receiver" and not call.has_receiver:
            return False
        thing = call.receiver if word == "receiver" else call.arguments[int(told)] if word == "arg" else None
        return thing is None or is_interface or self.program.is_below(thing.kind, result)

    def end(self):
        """How the run ended, or `running`."""
        if self.stopped is not None:
            return f"stopped {self.stopped}"
        if all(self.has_ended(number) for number in range(len(self.threads))):
            return "finished"
        return "running" if any(self.enabled(number) for number in range(len(self.threads))) else "deadlock"

    # ---- a step

    def step(self, number, answer=None):
        """The thread makes a step, or takes this answer; gives the line of what the library sees, or None."""
        assert self.takes(number, answer), (number, answer)
        thread = self.threads[number]
        try:
            return self.answered(thread, answer) if thread.call else self.execute(thread, thread.frames[-1])
        except Thrown as thrown:
            self.throw(thread, thrown.thing)
            return None

    def answered(self, thread, answer):
        call, thread.call = thread.call, None
        word, *told = answer.split(" ") if answer else ("throws", f"{LANG}NullPointerException")
        if word == "throws":
            self.throw(thread, self.new(told[0]))
            return f"except {thread.number} {call.words()}"
        value = {
            "nothing": lambda: None,
            "int": lambda: int(told[0]),
            "null": lambda: None,
            "text": lambda: self.new(STRING, bytes.fromhex(told[0].replace("-", ""))),
            "fresh": lambda: self.new(told[0]),
            "arg": lambda: call.arguments[int(told[0])],
            "receiver": lambda: call.receiver,
        }[word]()
        self.go_on(thread.frames[-1], call.result, value)
        return f"return {thread.number} {call.words()}" + ("" if call.result == "V" else f" {self.shown(value)}")

    def throw(self, thread, thing):
        """Control goes to the nearest handler, and the frames without one are left."""
        while thread.frames:
            frame = thread.frames[-1]
            for begin, end, at, caught in frame.method.table:
                if begin <= frame.at < end and (caught is None or self.program.is_below(thing.kind, caught)):
                    frame.at, frame.stack = at, [thing]
                    return
            self.leave(thread)
        thread.begins = []

    def leave(self, thread):
        lock = thread.frames.pop().lock
        if lock is not None and self.holders.get(lock, (None,))[0] is thread:
            self.release(lock, thread)

    def go_on(self, frame, result, value):
        """The frame goes on behind its call."""
        if result != "V":
            frame.stack.append(value)
        frame.at += 5 if frame.code[frame.at] == BY_INTERFACE else 3

    def enter(self, thread, method, values, lock=None):
        if lock is not None:
            self.take(lock, thread)
        thread.frames.append(Frame(method, values, lock))

    def take(self, lock, thread):
        self.holders[lock] = (thread, self.holders.get(lock, (thread, 0))[1] + 1)

    def release(self, lock, thread):
        if self.holders.get(lock, (None,))[0] is not thread:
            raise self.thrown("IllegalMonitorState")
        count = self.holders[lock][1] - 1
        self.holders[lock] = (thread, count)
        if not count:
            del self.holders[lock]

    def execute(self, thread, frame):
        """One instruction."""
        opcode, stack = frame.code[frame.at], frame.stack
        if opcode in INVOKES:
            return self.call(thread, frame)
        if opcode in RETURNS:
            return self.give_back(thread, frame, stack.pop() if opcode != 0xB1 else None)
        if 0x99 <= opcode <= 0xAB or opcode in (0xC6, 0xC7, 0xC8):
            frame.at = self.target(frame, opcode)
        elif opcode in (0xBF, ENTER, LEAVE):
            self.on_object(thread, frame, opcode)
        elif opcode == 0xC4:
            frame.at += self.local(frame, frame.code[frame.at + 1], "H", 2)
        elif opcode in LOADS or opcode in STORES or opcode == 0x84:
            frame.at += self.local(frame, opcode, "B", 1)
        else:
            frame.at += self.operate(frame, opcode, stack)
        return None

    def local(self, frame, opcode, form, at):
        """Loads and stores a local, or adds to it; gives the length of the instruction."""
        size = struct.calcsize(form)
        place = SHORT[opcode] if opcode in SHORT else frame.operand(form, at)
        if opcode == 0x84:
            frame.locals[place] = wrapped(frame.locals[place] + frame.operand("b" if form == "B" else "h", at + size))
            return at + 2 * size
        if opcode in LOADS:
            frame.stack.append(frame.locals[place])
        else:
            frame.locals[place] = frame.stack.pop()
        return at if opcode in SHORT else at + size

    def operate(self, frame, opcode, stack):
        """What works on operands, arrays and fields; gives the length of the instruction."""
        if opcode in PUSHED:
            stack.append(PUSHED[opcode])
        elif opcode in MOVED:
            count, order = MOVED[opcode]
            taken = frame.pops(count)
            stack += [taken[int(place)] for place in order]
        elif opcode in TWO:
            one, two = frame.pops(2)
            stack.append(wrapped(TWO[opcode](one, two)))
        elif opcode in ONE:
            stack.append(ONE[opcode](stack.pop()))
        elif opcode in (0x6C, 0x70):
            stack.append(self.divided(opcode, *frame.pops(2)))
        elif opcode in (0x10, 0x11):
            stack.append(frame.operand("b" if opcode == 0x10 else "h"))
            return opcode - 0x0E
        elif opcode in (0x12, 0x13):
            kind, told = frame.method.owner.constant(frame.operand("B" if opcode == 0x12 else "H"))
            stack.append(told if kind == INTEGER else self.class_object(told) if kind == CLASS else self.literal(told))
            return opcode - 0x10
        elif opcode in ARRAY_LOADS:
            stack.append(self.items_at(*frame.pops(2))[0])
        elif opcode in ARRAY_STORES:
            self.store(*frame.pops(3))
        elif opcode == 0xBE:
            stack.append(len(self.array(stack.pop()).items))
        elif opcode >= 0xB2:
            return self.of_constant(frame, opcode, stack)
        else:
            assert opcode == 0, opcode
        return 1

    def divided(self, opcode, one, two):
        if two == 0:
            raise self.thrown("Arithmetic")
        quotient = abs(one) // abs(two) * (-1 if (one < 0) != (two < 0) else 1)
        return wrapped(quotient if opcode == 0x6C else one - quotient * two)

    def array(self, thing):
        if thing is None:
            raise self.thrown("NullPointer")
        return thing

    def items_at(self, thing, index):
        """The items of the array from this index on."""
        items = self.array(thing).items
        if not 0 <= index < len(items):
            raise self.thrown("ArrayIndexOutOfBounds")
        return items[index:]

    def store(self, thing, index, value):
        self.items_at(thing, index)
        part = class_in(thing.kind[1:])
        if part is not None and value is not None and not self.program.is_below(value.kind, part):
            raise self.thrown("ArrayStore")
        thing.items[index] = KEPT.get(thing.kind, lambda one: one)(value)

    def of_constant(self, frame, opcode, stack):
        """What names a field, a class or the type of an array."""
        owner = frame.method.owner
        if opcode <= 0xB5:
            self.field(frame, opcode, owner.reference(frame.operand("H"), (FIELD,)))
            return 3
        if opcode == 0xBC:
            self.make_array(stack, ARRAYS[frame.operand("B")], 0)
            return 2
        name = owner.pool.class_name(frame.operand("H"))
        if opcode == 0xBB:
            stack.append(self.new(name))
        elif opcode == 0xBD:
            self.make_array(stack, "[" + (name if name[0] == "[" else f"L{name};"), None)
        elif opcode == 0xC1:
            thing = stack.pop()
            stack.append(int(thing is not None and self.program.is_below(thing.kind, name)))
        elif opcode == 0xC0:
            if stack[-1] is not None and not self.program.is_below(stack[-1].kind, name):
                raise self.thrown("ClassCast")
        return 3

    def make_array(self, stack, kind, first):
        size = stack.pop()
        if size < 0:
            raise self.thrown("NegativeArraySize")
        thing = self.new(kind)
        thing.items = [first] * size
        stack.append(thing)

    def field(self, frame, opcode, reference):
        place = (self.program.declaring("fields", reference), *reference[1:])
        value = frame.stack.pop() if opcode in (0xB3, 0xB5) else None
        holds = self.statics if opcode <= 0xB3 else self.array(frame.stack.pop()).fields
        if opcode in (0xB3, 0xB5):
            holds[place] = value
        else:
            frame.stack.append(holds.get(place, 0 if class_in(place[2]) is None else None))

    def target(self, frame, opcode):
        """Where control goes: the first byte of an instruction."""
        if opcode in (0xA7, 0xC8):
            return frame.at + frame.operand("h" if opcode == 0xA7 else "i")
        if opcode in (0xAA, 0xAB):
            return frame.at + self.switched(frame, opcode, frame.stack.pop())
        if opcode <= 0x9E:
            jumps = RELATIONS[opcode - 0x99](frame.stack.pop(), 0)
        elif opcode <= 0xA4:
            jumps = RELATIONS[opcode - 0x9F](*frame.pops(2))
        elif opcode <= 0xA6:
            one, two = frame.pops(2)
            jumps = (one is two) == (opcode == 0xA5)
        else:
            jumps = (frame.stack.pop() is None) == (opcode == 0xC6)
        return frame.at + (frame.operand("h") if jumps else 3)

    def switched(self, frame, opcode, number):
        at = 4 - frame.at % 4
        default, first = frame.operand("i", at), frame.operand("i", at + 4)
        if opcode == 0xAA:
            return frame.operand("i", at + 12 + 4 * (number - first)) if first <= number <= frame.operand("i", at + 8) else default
        pairs = {frame.operand("i", at + 8 + 8 * place): frame.operand("i", at + 12 + 8 * place) for place in range(first)}
        return pairs.get(number, default)

    def on_object(self, thread, frame, opcode):
        """Throws an object, or enters or leaves its monitor."""
        thing = self.array(frame.stack.pop())
        if opcode == 0xBF:
            raise Thrown(thing)
        (self.take if opcode == ENTER else self.release)(thing, thread)
        frame.at += 1

    # ---- calls

    def called(self, frame):
        """The reference of the call at which the frame stands, the class that declares its method, and the receiver."""
        reference = frame.method.owner.reference(frame.operand("H"), METHODS)
        receiver = None if frame.code[frame.at] == OF_CLASS else frame.stack[-len(signature(reference.descriptor)[0]) - 1]
        return reference, self.program.declaring("methods", reference), receiver

    def method_for(self, frame, owner, reference, receiver):
        """The method of the program that a call runs, or None: where the library's is called, the receiver is null, or none is found."""
        classes, opcode, member = self.program.classes, frame.code[frame.at], reference[1:]
        if owner not in classes or opcode != OF_CLASS and receiver is None:
            return None
        if opcode in (VIRTUAL, BY_INTERFACE):
            return self.program.body_from(receiver.kind, *member)
        above = frame.method.owner.parent
        if opcode == SPECIAL and reference.name != "<init>" and owner in self.program.chain(above):
            return self.program.body_from(above, *member)
        return classes[owner].methods[member]

    def lock_of(self, method, receiver):
        """What a call of the method enters, or None."""
        if not method.flags & SYNCHRONIZED:
            return None
        return self.class_object(method.owner.name) if method.flags & STATIC else receiver

    def call(self, thread, frame):
        reference, owner, receiver = self.called(frame)
        method, is_static = self.method_for(frame, owner, reference, receiver), frame.code[frame.at] == OF_CLASS
        arguments = frame.pops(len(signature(reference.descriptor)[0]))
        if not is_static:
            frame.stack.pop()
        if self.program.is_built_in(owner, reference):
            return self.built_in(thread, frame, reference, receiver, arguments)
        if owner not in self.program.classes:
            thread.call = Call(owner, reference, receiver, arguments, not is_static)
            return " ".join([f"call {thread.number} {thread.call.words()}", *map(self.shown, arguments)])
        if not is_static and receiver is None:
            raise self.thrown("NullPointer")
        if method is None:
            # the object lacks the method, so that the thread ends
            while thread.frames:
                self.leave(thread)
            thread.begins = []
            return None
        return self.enter(thread, method, arguments if is_static else [receiver, *arguments], self.lock_of(method, receiver))

    def give_back(self, thread, frame, value):
        self.leave(thread)
        if thread.frames:
            self.go_on(thread.frames[-1], signature(frame.method.desc)[1], value)
        elif thread.begins:
            thread.frames.append(thread.begins.pop(0))

    def own_run(self, thing):
        return None if thing is None else self.program.body_from(thing.kind, "run", "()V")

    def built_in(self, thread, frame, reference, receiver, arguments):
        name, value = reference.name, None
        if name == "exit":
            self.stopped = arguments[0]
            return
        if name != "<init>" and receiver is None:
            raise self.thrown("NullPointer")
        if name == "<init>" and reference.descriptor == f"(L{LANG}Runnable;)V":
            receiver.target = arguments[0]
        elif name == "start":
            self.start(receiver)
        elif name == "run":
            # by invokespecial Thread's is run
            own = receiver if frame.code[frame.at] != SPECIAL and self.own_run(receiver) else receiver.target
            if self.own_run(own):
                self.enter(thread, self.own_run(own), [own])
                return
        elif name == "length":
            value = sum(byte & 0xC0 != 0x80 for byte in receiver.text or b"")
        self.go_on(frame, signature(reference.descriptor)[1], value)

    def start(self, thing):
        """A thread begins, with the next number."""
        if thing.thread is not None:
            raise self.thrown("IllegalThreadState")
        thing.thread = len(self.threads)
        own = thing if self.own_run(thing) else thing.target
        run = self.own_run(own)
        self.threads.append(Thread(thing.thread, [Frame(run, [own])] if run else []))
