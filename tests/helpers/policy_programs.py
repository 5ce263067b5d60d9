"""Policies over the library of examples/machine, and runs of its programs with the blocks of each on a Java machine, beside the same
programs as they were; and what is asked of `conspecj` for that, which serves other programs, too.
"""
import os
import re
import subprocess

from java_programs import LISTING, compiled, library_in, programs, really
from tool_runs import program

STOPPED = 77


def conspecj(folder, *words):
    """The line that is printed."""
    return subprocess.run([program(), *words], cwd=folder, capture_output=True, text=True, check=False).stdout


HEAD = "MAXINT 1000 SCOPE Session SECURITY STATE "
POLICIES = {
    "counts": HEAD
    + """int put = 0; int boxes = 0;
BEFORE void api.Out.put(int) PERFORM put <= 6 -> { put = put + 1; }
BEFORE void api.Box.<init>() PERFORM boxes <= 1 -> { boxes = boxes + 1; }
AFTER int api.Box.get() PERFORM boxes <= 999 -> { boxes = boxes + 1; }
""",
    "asks": HEAD
    + """bool low = false; int said = 3;
AFTER int r = api.In.number() PERFORM r == -1 -> { low = true; } r >= 0 || r < -1 -> { }
BEFORE void api.Out.put(int n) PERFORM low == false && n != 1000 || n <= 500 -> { }
BEFORE void api.Out.five(int a, int b, int c, int d, int e) PERFORM a >= -129 && e <= 70000 && c != 54321 -> { low = false; }
BEFORE void api.Out.narrow(byte b, short s, char c) PERFORM b < 0 && s == -32768 && c > 65534 -> { }
BEFORE void api.Out.say(java.lang.String) PERFORM true -> { said = said - 1; }
BEFORE java.lang.Runnable api.In.second(int n, java.lang.Runnable) PERFORM n < 6 || n == 6 -> { }
AFTER boolean b = api.In.yes() PERFORM b == true -> { said = said + 1; }
""",
    "watches": HEAD
    + """int failed = 0; int shown = 0;
EXCEPTIONAL void api.In.fail(int) PERFORM failed <= 1 -> { failed = failed + 1; }
AFTER void api.In.fail(int) PERFORM
AFTER java.lang.Object api.In.same(java.lang.Object) PERFORM shown <= 2 -> { shown = 7; } ELSE -> { shown = 0; }
EXCEPTIONAL void api.Box.set(int) PERFORM ELSE -> { failed = failed + 1; }
BEFORE void api.Out.show(java.lang.Object) PERFORM shown <= 9 -> { shown = shown + 1; }
""",
}
# race-free ones: what is counted is counted at calls, and ends only allow more
RACE_FREE = {
    "counts-calls": HEAD
    + """int put = 0; int boxes = 0; int got = 0;
BEFORE void api.Out.put(int) PERFORM put <= 6 -> { put = put + 1; }
BEFORE void api.Box.<init>() PERFORM boxes <= 1 -> { boxes = boxes + 1; }
AFTER int api.Box.get() PERFORM true -> { got = got + 1; } ELSE -> { }
""",
    "asks-and-allows": HEAD
    + """bool low = false; int said = 3;
AFTER int r = api.In.number() PERFORM r == -1 -> { low = true; } ELSE -> { }
BEFORE void api.Out.put(int n) PERFORM low == true && n != 1000 || n <= 500 -> { }
BEFORE void api.Out.five(int a, int b, int c, int d, int e) PERFORM a >= -129 && e <= 70000 && c != 54321 -> { }
BEFORE void api.Out.narrow(byte b, short s, char c) PERFORM b < 0 && s == -32768 && c > 65534 -> { }
BEFORE void api.Out.say(java.lang.String) PERFORM true -> { said = said - 1; }
BEFORE java.lang.Runnable api.In.second(int n, java.lang.Runnable) PERFORM n < 6 || n == 6 -> { }
AFTER boolean b = api.In.yes() PERFORM b == true -> { low = true; } ELSE -> { }
""",
    "watches-ends": HEAD
    + """int failed = 0; int shown = 0; bool done = false;
EXCEPTIONAL void api.In.fail(int) PERFORM true -> { failed = failed + 1; } ELSE -> { }
AFTER void api.In.fail(int) PERFORM ELSE -> { done = true; }
AFTER java.lang.Object api.In.same(java.lang.Object) PERFORM ELSE -> { done = true; }
EXCEPTIONAL void api.Box.set(int) PERFORM true -> { failed = failed + 1; } ELSE -> { }
BEFORE void api.Out.show(java.lang.Object) PERFORM shown <= 1 -> { shown = shown + 1; } done == true -> { }
""",
}
NOTHING, NO_RACE = "refuses-nothing", "refuses-nothing-and-is-race-free"
# what the clauses of these two change: of the first the order of events is seen, of the second only how many there were
LAST_ONE = {"BEFORE": "last = {};", "AFTER": "calls = calls + 1;", "EXCEPTIONAL": "failed = true;"}
HOW_MANY = {"BEFORE": "last = last + 1;", "AFTER": "calls = calls + 1;", "EXCEPTIONAL": "failed = true;"}
# of these, more is an event than the library prints
ON_NULL = ["NullCalls"]
TYPES = {"Z": "boolean", "B": "byte", "S": "short", "C": "char", "I": "int", "V": "void"}


def type_in(descriptor):
    """The type that a descriptor encodes, which is no array's, as policies write it."""
    return TYPES.get(descriptor, descriptor[1:-1].replace("/", "."))


def refuses_nothing(updates):
    """Clauses for the calls, returns and exceptions of the first methods of the listing, as many as there may be."""
    clauses = []
    with open(LISTING, encoding="ascii") as file:
        members = [line.split() for line in file if line.startswith(("static", "method"))]
    for number, (_, owner, name, descriptor) in enumerate(members[:21]):
        arguments, result = descriptor[1:].split(")")
        parameters = ", ".join(map(type_in, re.findall(r"L[^;]+;|.", arguments)))
        method = f"{type_in(result)} {owner.replace('/', '.')}.{name}({parameters})"
        clauses += [f"{kind} {method} PERFORM true -> {{ {update.format(number)} }} ELSE -> {{ }}" for kind, update in updates.items()]
    return HEAD + "int last = 0; int calls = 0; bool failed = false;\n" + "\n".join(clauses) + "\n"


def enforced(counts, folder, policy, classes, mode, listing=LISTING):
    """The folder of a program's classes with blocks of this mode, which `check` accepts, and how many sites it has; None if it is
    refused. The main class is the last.
    """
    main, out = classes[-1], os.path.join(folder, f"{policy}-{classes[-1]}-{mode}")
    files = [f"run/{name}.class" for name in classes]
    line = conspecj(folder, "inline", policy, listing, f"run/{main}", out, mode, *files)
    inlined = re.fullmatch(rf"inlined {mode} sites (\d+) classes (\d+)\n", line)
    if not inlined:
        counts.say(f"{policy}, run/{main}", line or "nothing is printed")
        return None
    made = [os.path.join(out, name) for name in [*files, "conspec/State.class"]]
    line = conspecj(folder, "check", policy, listing, os.path.join(out, "certificate"), f"run/{main}", *made)
    counts.same(f"{policy}, run/{main}: check", line, f"accepted {mode} sites {inlined[1]}\n")
    return out, f"{inlined[1]} sites in mode {mode}"


def races(counts, folder, policy, classes, listing=LISTING):
    """The policy is not race-free: mode release is answered with the line of `race`, and `auto` holds the lock."""
    files, main = [f"run/{name}.class" for name in classes], f"run/{classes[-1]}"
    line = conspecj(folder, "race", policy, listing)
    counts.say(f"{policy}: {line.strip()}", "" if re.match(r"denied (222|245) ", line) else "it has no race")
    found = conspecj(folder, "inline", policy, listing, main, os.path.join(folder, "none"), "release", *files)
    counts.same(f"{policy}, {main}: mode release", (found, os.path.exists(os.path.join(folder, "none"))), (line, False))
    found = conspecj(folder, "inline", policy, listing, main, os.path.join(folder, f"auto-{policy}-{classes[-1]}"), "auto", *files)
    counts.say(f"{policy}, {main}: mode auto", "" if found.startswith("inlined hold sites ") else found)


def answer_to(folder, policy, events, listing=LISTING):
    """What `conspecj policy` says of these events."""
    with open(os.path.join(folder, "record"), "w", encoding="ascii") as file:
        file.write("".join(f"{line}\n" for line in [*events, "end running 0"]))
    return conspecj(folder, "policy", policy, listing, "record").strip()


def wanted_of(folder, policy, events, end):
    """The events and the end with blocks, from those without."""
    told = re.fullmatch(r"(?:denied 191|stopped) (\d+)", answer_to(folder, policy, events))
    if not told:
        return events, end
    at = int(told[1])
    return events[: at if events[at].startswith("call") else at + 1], f"end stopped {STOPPED}"


def compare(counts, folder, classes, library, mode, policies):
    """Runs a program with the blocks of each policy beside the program as it was."""
    main = classes[-1]
    before, _, end_before = really(os.pathsep.join((library, folder)), classes, "-Xverify:all")
    for policy in policies:
        made = enforced(counts, folder, policy, classes, mode)
        if made is None:
            continue
        out, said = made
        events, _, end = really(os.pathsep.join((library, out)), classes, "-Xverify:all")
        obeys = re.fullmatch(r"accepted|stopped \d+", answer_to(folder, policy, events))
        wanted, wanted_end = (events, end) if main in ON_NULL else wanted_of(folder, policy, before, end_before)
        wrong = "" if obeys else "the events do not obey"
        if (events, end) != (wanted, wanted_end) or events != before[: len(events)]:
            wrong = f"{len(events)} events, {end}, not {len(wanted)} of {len(before)}, {wanted_end}"
        counts.say(f"{policy}, run/{main}: {said}, {len(events)} of {len(before)} events, {end}", wrong)


def machine(counts, folder, mode):
    """Each program of examples/machine under each policy that is race-free; those that are not are for mode hold alone."""
    compiled(folder)
    library = library_in(folder)
    racy, race_free = {**POLICIES, NOTHING: refuses_nothing(LAST_ONE)}, {**RACE_FREE, NO_RACE: refuses_nothing(HOW_MANY)}
    for name, text in {**racy, **race_free}.items():
        with open(os.path.join(folder, name), "w", encoding="ascii") as file:
            file.write(text)
    for classes in programs(folder):
        compare(counts, folder, classes, library, mode, race_free if mode == "release" else {**racy, **race_free})
        if mode == "release":
            for name in racy:
                races(counts, folder, name, classes)
