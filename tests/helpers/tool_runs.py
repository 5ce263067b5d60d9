"""Runs the scripts of tools/, and counts what is otherwise than expected."""
import os
import subprocess
import sys

HERE = os.path.dirname(os.path.realpath(__file__))
ROOT = os.path.dirname(os.path.dirname(HERE))


class Counts:
    """Says what is not as expected, and counts."""

    def __init__(self, name):
        self.name, self.passed, self.failed = name, 0, 0

    def say(self, what, wrong):
        if wrong:
            self.failed += 1
            print(f"NOT AS EXPECTED: {what}: {wrong}")
        else:
            self.passed += 1
            print(what)

    def same(self, what, found, wanted):
        self.say(what, "" if found == wanted else f"{found!r}, not {wanted!r}")

    def end(self):
        print(f"{self.name}: {self.passed} as expected, {self.failed} not")
        sys.exit(1 if self.failed else 0)


class Ran:
    """How a tool ended: its status, what it printed, and what it printed as its errors."""

    def __init__(self, ended):
        self.status, self.printed, self.errors = ended.returncode, ended.stdout, ended.stderr


def run_tool(name, words, folder, text="", **environment):
    """Runs tools/NAME with these words in this folder, with this text as standard input."""
    path = os.path.join(ROOT, "tools", name)
    settings = {**os.environ, **environment}
    ended = subprocess.run([path, *words], cwd=folder, input=text, env=settings, capture_output=True, text=True, check=False)
    return Ran(ended)


def usages(counts, name, wrong):
    """`--help` tells the usage and each status; each list of wrong words gets one line, and status 2."""
    helped = run_tool(name, ["--help"], ROOT)
    usage = next((line for line in helped.printed.splitlines() if line.startswith("usage: ")), "")
    counts.say(f"{name} --help", "" if usage and "status  meaning" in helped.printed and not helped.status else helped.printed)
    for words in wrong:
        ran = run_tool(name, words, ROOT)
        told = (ran.status, ran.printed, ran.errors)
        counts.same(f"{name} {' '.join(words)}: its usage", told, (2, "", usage + "\n"))


def program():
    """The path of the built program."""
    found = subprocess.run([os.path.join(ROOT, "tests", "program")], capture_output=True, text=True, check=False)
    if found.returncode:
        sys.exit(found.stderr)
    return found.stdout.strip()
