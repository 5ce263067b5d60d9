"""The states of a policy, found by running conspecj: which event leads from which state to which, and which is refused.

No rule of a policy is held here. Of its text only the names of variables and methods and the numbers are read, and only once
conspecj has read it; what an event does in a state is asked of `conspecj policy`, on a record of the events that lead there.
In what state a record ends is asked by clauses that are put after the policy, for methods of a class of our own, each of
which refuses one state: the first that is refused tells it.
"""
import itertools
import os
import re
import subprocess
import tempfile
from typing import NamedTuple

from built_program import Refused, program

PROBE = "conspec/draw/Probe"
MOST_CLAUSES = 64
NUMBERS = {"Z": (0, 1), "B": (-128, 127), "S": (-32768, 32767), "C": (0, 65535), "I": (-(2**31), 2**31 - 1)}
LETTERS = {"void": "V", "int": "I", "boolean": "Z", "byte": "B", "short": "S", "char": "C"}
PHASES = {"BEFORE": "call", "AFTER": "return", "EXCEPTIONAL": "except"}
MOST_EVENTS = 400


class TooLarge(Exception):
    """There is more than can be drawn; the text says of what."""


class Clause(NamedTuple):
    """The event of a clause, as records write it, and the values that it is tried with."""

    phase: str
    owner: str
    name: str
    descriptor: str
    asked: tuple
    choices: tuple


class Edge(NamedTuple):
    """The events of one clause that lead from a state to a state, or are refused there, which is None."""

    source: int
    target: object
    clause: Clause
    values: tuple


# ---- the program

class Runs:
    """Runs of `conspecj policy` over records, in a folder of their own."""

    def __init__(self, policy, listing, folder):
        self.program, self.folder = program(), folder
        with open(policy, "rb") as first, open(listing, "rb") as second:
            self.policy, self.listing = first.read(), second.read()
        # the files are judged under their own names first
        self.first_refused([], os.path.abspath(policy), os.path.abspath(listing))
        self.write("listing", self.listing)

    def write(self, name, text):
        with open(os.path.join(self.folder, name), "wb") as file:
            file.write(text)

    def ask_with(self, guards):
        """Puts a clause for a method of our own after the policy for each guard."""
        lines = "".join(f"\nBEFORE void {PROBE.replace('/', '.')}.p{at}() PERFORM {guard} -> {{ }}" for at, guard in enumerate(guards))
        methods = "".join(f"static {PROBE} p{at} ()V\n" for at in range(len(guards)))
        self.write("policy", self.policy + lines.encode("ascii") + b"\n")
        if guards:
            self.write("listing", self.listing + f"class {PROBE} extends java/lang/Object\n{methods}".encode("ascii"))

    def first_refused(self, events, policy="policy", listing="listing"):
        """The place of the first event that is refused, or None."""
        self.write("record", ("".join(f"{event}\n" for event in events) + "end running 0\n").encode("ascii"))
        words = [self.program, "policy", policy, listing, "record"]
        line = subprocess.run(words, cwd=self.folder, capture_output=True, text=True, check=False).stdout.strip()
        if line == "accepted":
            return None
        told = re.fullmatch(r"(?:denied 191|stopped) (\d+)", line)
        if not told:
            raise Refused(line or "conspecj printed nothing")
        return int(told[1])


# ---- names and numbers of the text

def words_of(text):
    """The words of a policy without its remarks."""
    plain = re.sub(r"//[^\n]*", " ", text.decode("ascii", "replace"))
    return re.findall(r"<init>|[A-Za-z_$][\w$]*|\d+|->|[=!<>]=|&&|\|\||\S", plain)


def variables_of(words):
    """The names of the variables, with whether each is a bool, and the words after them."""
    at, found = words.index("STATE") + 1, {}
    while at < len(words) and words[at] in ("int", "bool"):
        found[words[at + 1]] = words[at] == "bool"
        at += 5
    return found, words[at:]


def clauses_of(words):
    """The words of each clause."""
    starts = [at for at, word in enumerate(words) if word in PHASES] + [len(words)]
    return [words[first:last] for first, last in zip(starts, starts[1:])]


def descriptor_of(words):
    """The descriptor of a type, such as `java . lang . String [ ]`."""
    name, arrays = "".join(word for word in words if word not in "[]"), words.count("[")
    return arrays * "[" + LETTERS.get(name, f"L{name.replace('.', '/')};")


def type_and_name(words):
    """A parameter: its descriptor, and its name, if it has one."""
    has_name = len(words) > 1 and words[-1] != "]" and words[-2] != "."
    return descriptor_of(words[:-1] if has_name else words), words[-1] if has_name else None


def split(words, mark):
    groups = [[]]
    for word in words:
        if word == mark:
            groups.append([])
        else:
            groups[-1].append(word)
    return [group for group in groups if group]


def clause_of(words):
    """The event of a clause, with the numbers at which what its guards ask may change."""
    phase, opened, closed, perform = words[0], words.index("("), words.index(")"), words.index("PERFORM")
    front, body = words[1:opened], words[perform + 1 :]
    # the method is the names between dots in front of the bracket; the type, and the result's name, stand before it
    begin = len(front) - 1
    while begin >= 2 and front[begin - 1] == ".":
        begin -= 2
    method, before = "".join(front[begin:]), front[:begin]
    result_name = before[-2] if before[-1:] == ["="] else None
    result = descriptor_of(before[:-2] if result_name else before)
    parameters = [type_and_name(group) for group in split(words[opened + 1 : closed], ",")]
    owner, name = method.rsplit(".", 1)
    descriptor = f"({''.join(letters for letters, _ in parameters)}){result}"
    places = parameters if phase == "BEFORE" else [(result, result_name)] if phase == "AFTER" and result != "V" else []
    asked = tuple(known if known in body else None for _, known in places)
    choices = tuple(points(letters, name_ in body, body) for letters, name_ in places)
    return Clause(PHASES[phase], owner.replace(".", "/"), name, descriptor, asked, choices)


def points(letters, is_asked, body):
    """The values that a place is tried with: one, if it is not asked about, else each number of the clause and those beside it."""
    if letters not in NUMBERS:
        return ("null",)
    if not is_asked:
        return (0,)
    least, most = NUMBERS[letters]
    if letters == "Z":
        return (0, 1)
    told = {int(word) for word in body if word.isdigit()}
    near = {sign * number + step for number in told for sign in (1, -1) for step in (-1, 0, 1)}
    return tuple(sorted({least, most, *(number for number in near if least <= number <= most)}))


def event_of(clause, values):
    """The line of an event, as a record has it."""
    return " ".join([clause.phase, "0", clause.owner, clause.name, clause.descriptor, *map(str, values)])


# ---- states

class States:
    """The states that are reached from the first, each with its values and with events that lead there."""

    def __init__(self, policy, listing, folder, most):
        self.runs, self.most = Runs(policy, listing, folder), most
        words = words_of(self.runs.policy)
        self.variables, rest = variables_of(words)
        self.numbers = sorted({int(word) for word in words if word.isdigit()} | {0})
        self.clauses = [clause_of(part) for part in clauses_of(rest)]
        self.room = MOST_CLAUSES - len(self.clauses)
        if self.room < 1 and self.variables:
            raise TooLarge(f"{len(self.clauses)} clauses, which leaves no room to ask for the state")
        self.values, self.paths, self.edges = [], [], []

    def differs_from(self, values):
        """A guard that holds in all states but this."""
        return " || ".join(f"{name} != {str(value).lower()}" for name, value in zip(self.variables, values))

    def find(self, path):
        """The number of the state in which these events end, if it is known; None if one of them, the last, is refused."""
        for first in range(0, max(len(self.values), 1), max(self.room, 1)):
            guards = [self.differs_from(values) for values in self.values[first : first + self.room]] if self.variables else []
            self.runs.ask_with(guards)
            refused = self.runs.first_refused([*path, *(f"call 0 {PROBE} p{at} ()V" for at in range(len(guards)))])
            if refused is not None:
                return None if refused < len(path) else first + refused - len(path)
        return 0 if self.values and not self.variables else len(self.values)

    def value_of(self, path, name, is_bool, old):
        """The value of a variable after these events."""
        near = {old, *self.numbers, *(old + number for number in self.numbers), *(old - number for number in self.numbers)}
        tries = [True, False] if is_bool else sorted(number for number in near if 0 <= number <= 1_000_000_000)
        for first in range(0, len(tries), self.room):
            some = tries[first : first + self.room]
            self.runs.ask_with([f"{name} != {str(value).lower()}" for value in some])
            refused = self.runs.first_refused([*path, *(f"call 0 {PROBE} p{at} ()V" for at in range(len(some)))])
            if refused is not None:
                return some[refused - len(path)]
        raise Refused(f"the value of {name} is not found")

    def add(self, path, before):
        """A new state, in which these events end; `before` are the values of the state before it."""
        if len(self.values) == self.most:
            raise TooLarge(f"more than {self.most} states")
        old = before or [0] * len(self.variables)
        self.values.append([self.value_of(path, *variable, value) for variable, value in zip(self.variables.items(), old)])
        self.paths.append(path)

    def explore(self):
        """Finds all states and edges, in the order in which they are reached."""
        events = [(clause, values) for clause in self.clauses for values in itertools.product(*clause.choices)]
        if len(events) > MOST_EVENTS:
            raise TooLarge(f"{len(events)} events to try in each state, which is more than {MOST_EVENTS}")
        self.add([], None)
        source = 0
        while source < len(self.values):
            self.leave(source, events)
            source += 1
        return self

    def leave(self, source, events):
        """Tries each event in a state."""
        reached = {}
        for clause, values in events:
            path = [*self.paths[source], event_of(clause, values)]
            target = self.find(path)
            if target == len(self.values):
                self.add(path, self.values[source])
            reached.setdefault((target, clause), []).append(values)
        self.edges += [Edge(source, target, clause, tuple(values)) for (target, clause), values in reached.items()]


def states_of(policy, listing, most):
    """The states of a policy, at most so many; policy and listing are the names of files."""
    with tempfile.TemporaryDirectory() as folder:
        return States(policy, listing, folder, most).explore()
