"""The crates of this repository, what each stands on, and the words by which the checker gets one with its libraries."""
import functools
import hashlib
import os
import pathlib

KIT = "/opt/rattle"
TOP = os.path.realpath(os.path.join(os.path.dirname(__file__), "..", ".."))
LIBRARIES = "out/statements"


@functools.cache
def named():
    """Of each crate what it names: crates of this repository, and of the kit."""
    with open(f"{TOP}/crates.txt", encoding="utf-8") as it:
        rows = dict(line.split("#")[0].split(":", 1) for line in it if ":" in line.split("#")[0])
    return {name: words.split() for name, words in rows.items()}


@functools.cache
def uses():
    """Of each crate the crates of this repository that it names."""
    rows = named()
    return {name: [low for low in words if low in rows] for name, words in rows.items()}


@functools.cache
def below(name):
    """The crates below one, itself left out."""
    found = set(uses()[name])
    return found.union(*(below(low) for low in found))


def is_program(name):
    return os.path.exists(f"{TOP}/crates/{name}/src/main.rt")


def library(name):
    """Where the library stands that is made of a crate: its code and its statements, without the proofs."""
    return f"{TOP}/crates/{name}/{LIBRARIES}/{name}.rlib"


def kit_words(name, root):
    """The words for a command of the checker over the kit's standard library alone, for a crate with this root file."""
    found = ["--crate-name", name, root, "--links", f"{name}="]
    found += ["--antt-project", f"{KIT}/rattle/logic/antt-project.json", "--logic-built", f"{KIT}/logic_built"]
    return [*found, "-L", f"dependency={KIT}/rlibs", "--extern", f"std={KIT}/rlibs/std.rlib"]


def words(name):
    """The words for a command of the checker in the folder of the crate, over the built libraries below it."""
    rows = named()
    found = kit_words(name, "src/main.rt" if is_program(name) else "src/lib.rt")
    for low in rows[name]:
        found += ["--extern", f"{low}={library(low) if low in rows else f'{KIT}/rlibs/{low}.rlib'}"]
    for low in sorted(below(name)):
        found += ["-L", f"dependency={os.path.dirname(library(low))}"]
    return found


def files(name):
    """The files that the crate is made of, in order."""
    for part in ("src", "specs", "proofs"):
        for at, folders, its in os.walk(f"{TOP}/crates/{name}/{part}"):
            folders.sort()
            yield from (os.path.join(at, file) for file in sorted(its))


@functools.cache
def sum_of(name):
    """A sum of all that the library or program of a crate is made from."""
    found = hashlib.sha256(repr((name, named()[name], [sum_of(low) for low in uses()[name]])).encode())
    found.update(pathlib.Path(f"{KIT}/KIT-ID").read_bytes())
    for file in files(name):
        found.update(repr((os.path.relpath(file, TOP), pathlib.Path(file).read_bytes())).encode())
    return found.hexdigest()
