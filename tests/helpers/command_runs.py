"""Runs the built program over files in a folder of its own, and counts what it answers otherwise than expected.

Most runs begin with the files of one denied call: two classes, the second also with a block of each mode, and the class of
the lock. They are those of examples/denied, written by hand, and so are their certificates.
"""
import os
import subprocess
import sys
import tempfile

HERE = os.path.dirname(os.path.realpath(__file__))
ROOT = os.path.dirname(os.path.dirname(HERE))
DENIED = os.path.join(ROOT, "examples", "denied")

LISTING = b"class api/Net extends java/lang/Object\nstatic api/Net send ()V\n"
POLICY = b"MAXINT 1 SCOPE Session SECURITY STATE BEFORE void api.Net.send() PERFORM"

# the checks of a class that calls nothing, of one that calls the denied method, and of the same with a block, which lets the
# lock go before the call, or holds it
QUIET = ["check", "POLICY", "LISTING", "CERT", "a/E", "E.class", "State.class"]
SENDS = ["check", "POLICY", "LISTING", "S.CERT", "a/S", "S.class", "State.class"]
WOVEN = ["check", "POLICY", "LISTING", "W.CERT", "a/S", "W.class", "State.class"]
HELD = ["check", "POLICY", "LISTING", "H.CERT", "a/S", "H.class", "State.class"]

# the class that calls the denied method is woven
WEAVE = ["inline", "POLICY", "LISTING", "a/S", "new", "auto", "S.class"]

DONE, REFUSED, WORDS, INPUT, OVERFLOW, STORE, SINK, MEMORY, DEVICE, BUDGET = range(10)


def read(name):
    with open(os.path.join(DENIED, name), "rb") as file:
        return file.read()


def denied():
    """The files of the three checks, by their names."""
    files = {"LISTING": LISTING, "POLICY": POLICY}
    for name in ("E.class", "S.class", "W.class", "H.class", "State.class"):
        files[name] = read(name)
    files["CERT"] = read("E.certificate")
    for name in "SWH":
        files[f"{name}.CERT"] = read(f"{name}.certificate")
    return files


def changed(*edits):
    """The files with these changes, one after the other: a name, a place in the file, how many bytes go, and what comes."""
    files = denied()
    for name, at, gone, new in edits:
        old = files[name]
        assert at + gone <= len(old), (name, at, gone)
        files[name] = old[:at] + new + old[at + gone :]
    return files


class Ended:
    """How a run ended: its status, what it printed, also as its errors, and the files that stand then."""

    def __init__(self, status, printed, files, errors=b""):
        self.status, self.printed, self.files, self.errors = status, printed, files, errors


def put(folder, name, content):
    """Writes a file, or a long one of zeros where the content is its length; None stands for a folder."""
    path = os.path.join(folder, name)
    os.makedirs(path if content is None else os.path.dirname(path), exist_ok=True)
    if content is None:
        return
    with open(path, "wb") as file:
        if isinstance(content, int):
            file.truncate(content)
        else:
            file.write(content)


def standing(folder):
    """Each file below the folder with its bytes, and each folder below it with None."""
    found = {}
    for root, folders, names in os.walk(folder):
        for name in folders:
            found[os.path.relpath(os.path.join(root, name), folder)] = None
        for name in names:
            path = os.path.join(root, name)
            # a file of zeros is given by its length
            if os.path.getsize(path) > 1 << 26:
                found[os.path.relpath(path, folder)] = os.path.getsize(path)
                continue
            with open(path, "rb") as file:
                found[os.path.relpath(path, folder)] = file.read()
    return found


class Runs:
    """Runs the program, and counts."""

    def __init__(self, name):
        found = subprocess.run([os.path.join(ROOT, "tests", "program")], capture_output=True, text=True, check=False)
        if found.returncode:
            sys.exit(found.stderr)
        self.name, self.program, self.passed, self.failed = name, found.stdout.strip(), 0, 0

    def run(self, words, files, out=None, errors=None):
        """One run over these files. Standard output and standard error are kept, or go to `out` and `errors`."""
        with tempfile.TemporaryDirectory() as folder:
            for name, content in files.items():
                put(folder, name, content)
            ran = subprocess.run(
                [self.program, *words], cwd=folder, stdout=out or subprocess.PIPE, stderr=errors or subprocess.PIPE, check=False
            )
            return Ended(ran.returncode, (ran.stdout or b"").decode("latin-1"), standing(folder), ran.stderr or b"")

    def say(self, what, wrong):
        if wrong:
            self.failed += 1
            print(f"NOT AS EXPECTED: {what}: {wrong}")
        else:
            self.passed += 1
            print(what)

    def expect(self, what, words, status, printed, files=None, out=None, errors=None):
        """The run prints this and ends so; what it leaves is given back."""
        ended = self.run(words, denied() if files is None else files, out, errors)
        wrong = ""
        if (ended.status, ended.printed) != (status, printed):
            wrong = f"printed {ended.printed!r} with status {ended.status}, not {printed!r} with status {status}"
        self.say(f"{printed.strip() or '(nothing)'}: {what}", wrong)
        return ended

    def end(self):
        print(f"{self.name}: {self.passed} as expected, {self.failed} not")
        sys.exit(1 if self.failed else 0)
