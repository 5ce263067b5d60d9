"""Reads the texts of policies, for the scripts of tests/ that go through what a policy can do (docs/POLICIES.md)."""
import re
from typing import NamedTuple

WORD = re.compile(r"//[^\n]*|\s+|<init>|[A-Za-z_$][\w$]*|\d+|->|&&|\|\||==|!=|<=|>=|[{}()\[\];,.=<>+-]")
CALL, RETURN, THROW = PHASES = ("BEFORE", "AFTER", "EXCEPTIONAL")
RESULT = "the result"


class Atom(NamedTuple):
    """A name of a variable, the place of an argument, or RESULT; a relation; and a number."""

    base: object
    relation: str
    number: int


class Update(NamedTuple):
    """The variable becomes the number, or is changed by it."""

    variable: str
    number: int
    is_sum: bool


class Branch(NamedTuple):
    atoms: list
    updates: list


class Clause(NamedTuple):
    """The phase, the method, and what it asks: its branches name a type for each base that is no variable."""

    phase: str
    method: str
    types: dict
    branches: list


class Policy(NamedTuple):
    """The greatest number, the variables with their greatest values and their first ones, and the clauses."""

    most: int
    variables: dict
    first: dict
    clauses: list


class Reader:
    """A text that is a policy."""

    def __init__(self, text):
        found = [match[0] for match in WORD.finditer(text)]
        assert "".join(found) == text, text
        self.words = [word for word in found if not word.isspace() and not word.startswith("//")]
        self.at, self.variables, self.first, self.most = 0, {}, {}, 0

    def next(self):
        self.at += 1
        return self.words[self.at - 1]

    def has(self, word):
        if self.at < len(self.words) and self.words[self.at] == word:
            self.at += 1
            return True
        return False

    def want(self, *words):
        for word in words:
            assert self.next() == word, (word, self.words[: self.at])

    def policy(self):
        self.want("MAXINT")
        self.most = int(self.next())
        self.want("SCOPE", "Session", "SECURITY", "STATE")
        while self.at < len(self.words) and self.words[self.at] in ("int", "bool"):
            kind, name = self.next(), self.next()
            self.variables[name] = self.most if kind == "int" else 1
            self.want("=")
            self.first[name] = self.constant()
            self.want(";")
        clauses = []
        while self.at < len(self.words):
            clauses.append(self.clause())
        return Policy(self.most, self.variables, self.first, clauses)

    def dotted(self):
        """Names with dots between, and the brackets of an array after them."""
        text = self.next()
        while self.has("."):
            text += "." + self.next()
        while self.has("["):
            self.want("]")
            text += "[]"
        return text

    def clause(self):
        phase, result = self.next(), self.dotted()
        assert phase in PHASES, phase
        bases, types = {}, {RESULT: result}
        if self.words[self.at + 1] == "=":
            bases[self.next()] = RESULT
            self.want("=")
        method = self.dotted()
        self.want("(")
        parameters = []
        while not self.has(")"):
            parameters.append(self.dotted())
            if self.words[self.at] not in (",", ")"):
                name = self.next()
                if phase == CALL:
                    bases[name], types[len(parameters) - 1] = len(parameters) - 1, parameters[-1]
            self.has(",")
        self.want("PERFORM")
        return Clause(phase, f"{method}({', '.join(parameters)})", types, self.body(bases))

    def body(self, bases):
        branches = []
        while self.at < len(self.words) and self.words[self.at] not in PHASES:
            guards = [[]] if self.has("ELSE") else self.guard(bases)
            self.want("->")
            updates = self.block()
            branches += [Branch([*atoms, *self.in_range(updates)], updates) for atoms in guards]
        return branches

    def guard(self, bases):
        """The lists of atoms of which one has to hold."""
        found = [self.atoms(bases)]
        while self.has("||"):
            found.append(self.atoms(bases))
        return found

    def atoms(self, bases):
        if self.has("true"):
            return []
        found = [self.atom(bases)]
        while self.has("&&"):
            found.append(self.atom(bases))
        return found

    def atom(self, bases):
        name, relation = self.next(), self.next()
        return Atom(bases.get(name, name), relation, self.constant())

    def constant(self):
        sign = -1 if self.has("-") else 1
        word = self.next()
        return ("false", "true").index(word) if word in ("true", "false") else sign * int(word)

    def block(self):
        self.want("{")
        updates = []
        while not self.has("}"):
            name = self.next()
            self.want("=")
            if self.words[self.at] in self.variables:
                self.want(name)
                sign = -1 if self.next() == "-" else 1
                updates.append(Update(name, sign * int(self.next()), True))
            else:
                updates.append(Update(name, self.constant(), False))
            self.want(";")
        return updates

    def in_range(self, updates):
        """What keeps sums in range."""
        for name, number, is_sum in updates:
            if is_sum and number > 0:
                yield Atom(name, "<=", self.most - number)
            elif is_sum and number < 0:
                yield Atom(name, ">=", -number)


def read(text):
    return Reader(text).policy()
