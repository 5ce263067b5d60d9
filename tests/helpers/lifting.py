"""A run of a program, and the same run of what is woven of it, by docs/TRANSPARENCY.md and docs/BLOCKS.md, for the scripts of tests/.

Both are made by the machine in Python. Where the blocks stand is found in the bytes of the woven code: the client's instructions are
there in their order, a block has the client's call once, and its end is behind the jump over its handler, or else behind what is done
after the call.
"""
import struct

from judged_events import Watched, method_in
from loaded import METHODS
from machine import INVOKES, LEAVE, Machine
from policy_texts import RETURN
from recorded_runs import Run

TWO_BYTES = {0x10, 0x12, 0x15, 0x19, 0x36, 0x3A, 0xBC}
THREE_BYTES = {0x11, 0x13, 0x84, *range(0x99, 0xA8), *range(0xB2, 0xB9), 0xBB, 0xBD, 0xC0, 0xC1, 0xC6, 0xC7}
BY_INTERFACE, GOTO, WIDE_GOTO, WIDE, INCREMENT, TABLE, LOOKUP = 0xB9, 0xA7, 0xC8, 0xC4, 0x84, 0xAA, 0xAB
STATE = "conspec/State"


class NotLifted(Exception):
    """The woven program does not make the lifted steps, or comes to another machine."""


def length_at(code, at):
    """How many bytes the instruction has."""
    opcode = code[at]
    if opcode in (TABLE, LOOKUP):
        begin = at + 4 - at % 4
        first, last = struct.unpack_from(">ii", code, begin + 4)
        return begin - at + (8 + 8 * first if opcode == LOOKUP else 12 + 4 * (last - first + 1))
    if opcode == WIDE:
        return 6 if code[at + 1] == INCREMENT else 4
    return 5 if opcode in (BY_INTERFACE, WIDE_GOTO) else 3 if opcode in THREE_BYTES else 2 if opcode in TWO_BYTES else 1


class Places:
    """Where the instructions of a method of the client stand in the woven one: in the `fronts` of their blocks, and by themselves."""

    def __init__(self, old, new, speaks, is_after):
        self.fronts, self.stands, place, at = {}, {}, 0, 0
        while at < len(old.code):
            self.fronts[at] = self.stands[at] = place
            if speaks(old, at):
                self.stands[at] = self.call_from(new.code, place, old.code[at : at + 3])
                reference = old.owner.reference(struct.unpack_from(">H", old.code, at + 1)[0], METHODS)
                place = self.end_of(new, self.stands[at], reference, is_after)
            else:
                assert new.code[place] == old.code[at], (place, at)
                place += length_at(new.code, place)
            at += length_at(old.code, at)
        assert place == len(new.code)
        self.begins = set(self.fronts.values())

    def call_from(self, code, place, call):
        while code[place : place + 3] != call:
            place += length_at(code, place)
        return place

    def end_of(self, new, call, reference, is_after):
        """Where the block of the call ends."""
        behind = call + length_at(new.code, call)
        handlers = [at for begin, end, at, caught in new.table if (begin, end, caught) == (call, behind, None)]
        if handlers:
            jump = handlers[0] - 3
            assert new.code[jump] == GOTO, jump
            return jump + struct.unpack_from(">h", new.code, jump + 1)[0]
        if not is_after(reference):
            return behind
        while new.code[behind] != LEAVE:
            behind += length_at(new.code, behind)
        return behind + 1 + (0 if reference.descriptor.endswith("V") else length_at(new.code, behind + 1))


class Lifting:
    """A client's machine and the run of the woven program beside it; `calls`, `returns` and `throws` count those with a block."""

    def __init__(self, judge, client, woven, listing, main):
        self.judge, self.client, self.run = judge, Machine(client, listing, main), Run(woven, listing, main)
        self.methods = {method for _, method in judge.clauses}
        self.after = {method for phase, method in judge.clauses if phase == RETURN}
        self.places, self.calls, self.returns, self.throws = {}, 0, 0, 0

    def named(self, reference):
        return method_in(self.client.program.declaring("methods", reference), *reference[1:])

    def speaks(self, method, at):
        """Whether a call with a block stands there."""
        if method.code[at] not in INVOKES:
            return False
        return self.named(method.owner.reference(struct.unpack_from(">H", method.code, at + 1)[0], METHODS)) in self.methods

    def places_of(self, method):
        key = method.owner.name, method.name, method.desc
        if key not in self.places:
            new = self.run.machine.program.classes[key[0]].methods[key[1:]]
            self.places[key] = Places(method, new, self.speaks, lambda reference: self.named(reference) in self.after)
        return self.places[key]

    # ---- steps

    def plain(self, number):
        """A step of the monitor, of which the library sees nothing."""
        if not self.run.machine.takes(number, None):
            raise NotLifted(f"thread {number} cannot go on inside a block")
        self.run.make(number)
        if self.run.lines[-1][2]:
            raise NotLifted(f"inside a block the library sees {self.run.lines[-1][2]}")

    def top(self, machine, number):
        frames = machine.threads[number].frames
        return frames[-1] if frames else None

    def climb(self, number):
        """Up to the call of the block, where the client's thread stands at such a call."""
        frame = self.top(self.client, number)
        stand = self.places_of(frame.method).stands[frame.at]
        while self.top(self.run.machine, number).at != stand:
            self.plain(number)

    def is_inside(self, number):
        """Whether the thread stands inside a block, but not at its front."""
        frame = self.top(self.run.machine, number)
        if frame is None:
            return False
        owner = self.client.program.classes[frame.method.owner.name]
        return frame.at not in self.places_of(owner.methods[frame.method.name, frame.method.desc]).begins

    def step(self, number, answer):
        """The step of the client, and those of the woven program for it."""
        thread, frame = self.client.threads[number], self.top(self.client, number)
        has_block = frame is not None and self.speaks(frame.method, frame.at)
        waits = thread.call is not None
        if has_block and not waits:
            self.calls += 1
            self.climb(number)
        if not self.run.machine.takes(number, answer):
            raise NotLifted(f"thread {number} cannot make the client's step")
        seen = self.client.step(number, answer)
        self.run.make(number, answer)
        if self.run.lines[-1][2] != seen:
            raise NotLifted(f"the library sees {self.run.lines[-1][2]}, not {seen}")
        if has_block and waits:
            self.returns += seen.startswith("return")
            self.throws += seen.startswith("except")
            while self.is_inside(number):
                self.plain(number)
        self.compare(seen)

    # ---- the two machines

    def compare(self, seen):
        """Once what the monitor adds is left out, the machines are the same."""
        old, new = self.client, self.run.machine
        left = {place: value for place, value in new.statics.items() if place[0] != STATE}
        if self.shown(old, old.statics) != self.shown(new, left) or old.count != new.count or old.stopped != new.stopped:
            raise NotLifted(f"after {seen} fields, objects or the end differ")
        if self.held(old) != self.held(new):
            raise NotLifted(f"after {seen} other monitors are held")
        if len(old.threads) != len(new.threads):
            raise NotLifted("there are other threads")
        for one, other in zip(old.threads, new.threads):
            if self.thread(old, one, lambda frame: self.places_of(frame.method)) != self.thread(new, other, None, one):
                raise NotLifted(f"after {seen} thread {one.number} differs")

    def shown(self, machine, values):
        return {place: machine.shown(value) for place, value in values.items()}

    def held(self, machine):
        return {machine.shown(lock): (thread.number, count) for lock, (thread, count) in machine.holders.items() if lock.named != STATE}

    def thread(self, machine, thread, places, client=None):
        """The thread as it is compared: its call, and its frames, each with its place in the woven code, its client's locals, and its
        operands."""
        told = [thread.call and thread.call.words()]
        for depth, frame in enumerate(thread.frames):
            waits = thread.call is not None and frame is thread.frames[-1]
            at = frame.at if places is None else (places(frame).stands if waits else places(frame).fronts)[frame.at]
            count = len(frame.locals) if client is None else len(client.frames[depth].locals) if depth < len(client.frames) else 0
            values = [*map(machine.shown, frame.locals[:count])], [*map(machine.shown, frame.stack)]
            told.append((frame.method.owner.name, frame.method.name, at, *values))
        return told

    def state(self):
        """What conspec/State holds."""
        values = {place[1]: value for place, value in self.run.machine.statics.items() if place[0] == STATE}
        return [values[f"v{index}"] for index in range(len(values))]


def lifted_of(made, contents, steps):
    """What `lift` has to print of these steps of the client, whose class files these are, and the lifting."""
    client, watched = Run(contents, made.listing, made.main), Watched(made.judge, made.is_held)
    lifting = Lifting(made.judge, contents, made.contents, made.listing, made.main)
    for place, (number, answer) in enumerate(steps):
        if not client.machine.takes(number, answer):
            return f"denied 301 {place}\n", lifting
        client.make(number, answer)
        fault = watched.fault(client.lines[-1][2])
        if fault:
            return f"denied {fault} {place}\n", lifting
        lifting.step(number, answer)
    return lifting.run.record(), lifting
