"""Runs of the machine in Python, step by step, and their records (docs/RECORDS.md), for the scripts of tests/."""
from machine import Machine

# how many steps a worker makes before it lets the book go
SLICE = 64


def steps_of(record):
    """The steps that a record tells, each a thread and the words of an answer, or None."""
    for line in record.splitlines():
        word, thread, *told = line.split(" ")
        if word == "go":
            yield from [(int(thread), None)] * int(told[0])
        elif word == "answer":
            yield int(thread), " ".join(told)


class Run:
    """A run under way: its machine, and for each step the thread, the words of the answer, and what the library saw."""

    def __init__(self, contents, listing, main):
        self.sources = contents, listing, main
        self.machine, self.lines = Machine(*self.sources), []

    def make(self, number, answer=None):
        self.lines.append((number, answer, self.machine.step(number, answer)))

    def events(self):
        return [event for _, _, event in self.lines if event]

    def end_line(self, end=None):
        return f"end {end or self.machine.end()} {len(self.lines)}"

    def record(self, end=None):
        """The record of the run: plain steps of one thread are one line, up to the next event, answer or step of another thread."""
        told, plain = [], None
        for number, answer, event in self.lines:
            if answer is not None:
                told.append(f"answer {number} {answer}")
            elif plain == number:
                told[-1] = f"go {number} {int(told[-1].split(' ')[2]) + 1}"
            else:
                told.append(f"go {number} 1")
            told += [event] if event else []
            plain = number if answer is None and not event else None
        return "".join(line + "\n" for line in [*told, self.end_line(end)])

    def waiting(self, number):
        """The call for whose answer the thread waits, or None."""
        call = self.machine.threads[number].call
        return None if call is None or call.is_on_null() else call

    def alone(self, budget):
        """What one worker makes of it (docs/RUNS.md): it begins at thread 0 and goes on by turns, anew in each holding. Gives the end."""
        number = 0
        while self.machine.end() == "running":
            if len(self.lines) == budget:
                return "budget"
            if len(self.lines) % SLICE == 0:
                number = 0
            count = len(self.machine.threads)
            order = [(number + place) % count if number < count else place for place in range(count)]
            number = next(one for one in order if self.machine.enabled(one))
            call = self.waiting(number)
            self.make(number, call.plain() if call else None)
            number += 1
        return self.machine.end()

    def printed(self):
        """The bytes that a console for `java/io/PrintStream` writes for the calls that were answered."""
        texts, calls = b"", {}
        for number, answer, event in self.lines:
            words = (event or "").split(" ")
            if words[0] == "call":
                calls[number] = words[2:]
            elif answer is not None:
                texts += console_text(*calls[number])
        return texts


def console_text(owner, name, _, *values):
    """What a console writes for a call (docs/RUNS.md): of its first argument a text or a number, and the end of the line."""
    if owner != "java/io/PrintStream" or name not in ("print", "println"):
        return b""
    first = values[0] if values else ""
    if first.startswith("text:"):
        text = bytes.fromhex(first[5:].replace("-", ""))
    else:
        text = b"" if first.startswith(("obj:", "class:", "null")) else first.encode("ascii")
    return text + (b"\n" if name == "println" else b"")
