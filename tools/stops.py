"""Which call a policy refused, from the place at which a program stopped itself: a class, a method and a line.

A block has the line of its call. So the calls that can have been refused are those of that line that have a clause.
"""
import os
import re
import tempfile

from built_program import shown
from class_reader import front_of, lines_of

LETTERS = {"V": "void", "I": "int", "Z": "boolean", "B": "byte", "S": "short", "C": "char"}
EVENTS = {"call": "call", "return": "return", "except": "exception"}


def type_in(descriptor):
    """A type as policies write it."""
    plain = descriptor.lstrip("[")
    return LETTERS.get(plain, plain[1:-1].replace("/", ".")) + "[]" * (len(descriptor) - len(plain))


def in_policy(owner, name, descriptor):
    """A method as policies write it, without its result."""
    types = re.findall(r"\[*(?:L[^;]+;|.)", descriptor[1:].split(")")[0])
    return f"{owner.replace('/', '.')}.{name}({', '.join(map(type_in, types))})"


def calls_in(lines, method):
    """The calls of the methods of this name, as `conspecj show` has them: the method, the first byte of the call, and its constant."""
    found, member = [], None
    for words in map(str.split, lines):
        if words[0] == "method":
            member = (words[1], words[2])
        elif member and member[0] == method and len(words) > 3 and words[2].startswith("invoke"):
            found.append((member, int(words[1]), int(words[3].removeprefix("#"))))
    return found


def line_at(lines, at):
    """The line of an instruction, by its first byte; None where it has none."""
    return next((line for first, line in reversed(lines) if first <= at), None)


def shown_class(content, listing):
    with tempfile.TemporaryDirectory() as folder:
        path = os.path.join(folder, "some.class")
        with open(path, "wb") as file:
            file.write(content)
        return shown(listing, path)


def calls_with_clauses(content, listing, views, method, line):
    """The methods with a clause that the methods of this name call in this line; without line numbers, anywhere."""
    pool, lines, found = front_of(content)[1], lines_of(content), []
    for member, at, constant in calls_in(shown_class(content, listing), method):
        use = pool.reference(constant)
        owner = views.told.declares("methods", use.owner, (use.name, use.descriptor))
        called = (owner, use.name, use.descriptor)
        if called in views.clauses and called not in found and line in (line_at(lines[member], at), None):
            found.append(called)
    return found


def refused_text(views, called):
    """The events of a method that can have been refused."""
    events = [word for phase, word in EVENTS.items() if phase in views.clauses[called]]
    return f"the {' or '.join(events)} of {in_policy(*called)}"


def told_stop(content, listing, views, place):
    """What is printed of a stop in a class; the place has the class, the method and the line, which is below 0 if it is unknown."""
    name, method, line = place
    line = line if line >= 0 else None
    where = f"{name.replace('/', '.')}.{method}, " + ("line unknown" if line is None else f"line {line}")
    refused = [refused_text(views, called) for called in calls_with_clauses(content, listing, views, method, line)]
    return f"{where}: refused: {', or '.join(refused)}" if refused else f"{where}, which has no call with a clause"
