"""Runs conspecj over the class files of a jar, looks at what it accepts beside the library, and tells what is said of it, with the
words of tools/explain; and the words that the tools for jars have in common.
"""
import os
import subprocess
import sys
import tempfile
from typing import NamedTuple

from built_program import Refused, program
from class_reader import ClassPath, Unreadable, class_of
from jar_rules import refusals_of, views_of, warnings_of
from java_classes import JavaClasses, NoJava
from jars import CERTIFICATE, STATE, Unfit, classes_of, entries_of

HERE = os.path.dirname(os.path.realpath(__file__))
DONE, REFUSED, WORDS, FAILED = range(4)
# the statuses with which conspecj refuses what it was given; those above are of files, of memory, and of no run at all
REFUSALS = (1, 3, 4)
LIBRARY, NO_JDK, MODE = "--library", "--no-jdk", "--mode"


class Ran(NamedTuple):
    """What conspecj printed, its status, and what tools/explain says of the line; of a jar that it accepts, its classes beside the
    library, and what is warned of.
    """

    printed: str
    status: int
    explained: str
    views: object = None
    warnings: tuple = ()


class Named(NamedTuple):
    """What the words of a tool name: the files by their whole paths, the main class as class files write it, and the class path of
    the library; and whether the classes of Java count.
    """

    jar: str
    policy: str
    listing: str
    main: str
    library: str
    with_java: bool


# ---- words

def split_options(words, options):
    """The words without options, and each option with its value, which is the word after it, or True for NO_JDK; None if an option
    occurs twice or lacks its value, or another word is not allowed.
    """
    plain, found, rest = [], {}, list(words)
    while rest:
        word = rest.pop(0)
        if word in options and word not in found and (word == NO_JDK or rest):
            found[word] = True if word == NO_JDK else rest.pop(0)
        elif word == "" or word.startswith("-"):
            return None
        else:
            plain.append(word)
    return None if found.get(LIBRARY) == "" else (plain, found)


def named_by(words, options):
    jar, policy, listing, main = words
    library = os.pathsep.join(os.path.abspath(place) for place in options.get(LIBRARY, "").split(os.pathsep) if place)
    return Named(*map(os.path.abspath, (jar, policy, listing)), main.replace(".", "/"), library, NO_JDK not in options)


# ---- runs

def contents(path):
    with open(path, "rb") as file:
        return file.read()


def put(folder, entries):
    """Writes entries below the folder, under their names."""
    for entry in entries:
        path = os.path.join(folder, entry.name)
        os.makedirs(os.path.dirname(path), exist_ok=True)
        with open(path, "wb") as file:
            file.write(entry.content)
    return [entry.name for entry in entries]


def run(folder, listing, files, words):
    """Runs conspecj in the folder in which the class files stand; a refusal is explained there."""
    try:
        ran = subprocess.run([program(), *words], cwd=folder, capture_output=True, check=False)
    except OSError as fault:
        raise Refused(f"conspecj does not run ({fault})") from fault
    printed = ran.stdout.decode("utf-8", "replace")
    explained = ""
    if ran.returncode and printed.strip():
        told = [sys.executable, os.path.join(HERE, "explain"), "--show", listing, *files, "--", printed.strip()]
        explained = subprocess.run(told, cwd=folder, capture_output=True, text=True, check=False).stdout
    return Ran(printed, ran.returncode, explained)


def print_to(stream, text):
    """Prints a text; if nobody reads it any more, that is no fault of what was judged."""
    try:
        stream.write(text)
        stream.flush()
    except BrokenPipeError:
        os.dup2(os.open(os.devnull, os.O_WRONLY), stream.fileno())


def tell(ran):
    """Prints the line of conspecj, and its explanation beside it; the status of a tool."""
    print_to(sys.stdout, ran.printed)
    print_to(sys.stderr, ran.explained)
    if ran.status == 0:
        return DONE
    return REFUSED if ran.status in REFUSALS else FAILED


def tell_unfit(tool, jar, fault):
    """Prints each text, in a line with the names of the tool and of the jar; the status of a tool."""
    print_to(sys.stderr, "".join(f"{tool}: {jar}: {text}\n" for text in fault.args))
    return REFUSED


def tell_failure(tool, fault):
    """Prints what failed; the status of a tool."""
    print_to(sys.stderr, f"{tool}: {fault}\n")
    return FAILED


def tell_warnings(tool, ran):
    print_to(sys.stderr, "".join(f"{tool}: warning: {text}\n" for text in ran.warnings))


# ---- what is judged

def read_classes(entries):
    """The classes by their names; each has the name under which a Java machine looks for it."""
    found = {}
    for entry in entries:
        try:
            made = class_of(entry.content)
        except Unreadable as fault:
            raise Unfit(f"{entry.name}: {fault}") from fault
        if entry.name != made.name + ".class":
            raise Unfit(f"{entry.name}: it is the class {made.name}")
        found[made.name] = made
    return found


def look_beside_library(ran, program, named):
    """Refuses what none may have beside the library; the run with what is warned of."""
    sources = [JavaClasses()] if named.with_java else []
    sources += [ClassPath(named.library)] if named.library else []
    views = views_of(program, contents(named.listing), contents(named.policy), sources)
    try:
        refused = refusals_of(views)
        if refused:
            raise Unfit(*refused)
        return ran._replace(views=views, warnings=tuple(warnings_of(views)))
    except NoJava as fault:
        raise NoJava(f"{fault}; {NO_JDK} leaves the classes of Java out of account") from fault


def check(content, named):
    """What `conspecj check` says of the class files of a jar with the certificate in it, the class of the lock last; what it accepts
    is looked at beside the library.
    """
    entries = entries_of(content)
    classes = classes_of(entries, named.main)
    own = [entry for entry in classes if entry.name != STATE]
    certificates = [entry for entry in entries if entry.name == CERTIFICATE]
    if not certificates:
        raise Unfit(f"it has no {CERTIFICATE}")
    with tempfile.TemporaryDirectory() as folder:
        put(folder, certificates)
        files = put(folder, own + [entry for entry in classes if entry.name == STATE])
        ran = run(folder, named.listing, files, ["check", named.policy, named.listing, CERTIFICATE, named.main, *files])
    if ran.status:
        return ran
    program = read_classes(classes)
    program.pop(STATE.removesuffix(".class"), None)
    return look_beside_library(ran, program, named)
