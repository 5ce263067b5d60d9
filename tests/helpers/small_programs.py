"""Small programs over a library of five calls, and policies for them, for the scripts of tests/."""
from class_files import MAIN, ClassFile, code_of

LISTING = b"""class api/Net extends java/lang/Object
class api/Broken extends java/lang/Exception
static api/Net send ()V
static api/Net read ()I
static api/Net ask ()Z
method api/Net push (I)V
method api/Net <init> ()V
static api/Net give (IIZ)V
"""
CONSTANTS = {
    "SEND": lambda made: made.method_ref("api/Net", "send", "()V"),
    "READ": lambda made: made.method_ref("api/Net", "read", "()I"),
    "ASK": lambda made: made.method_ref("api/Net", "ask", "()Z"),
    "PUSH": lambda made: made.method_ref("api/Net", "push", "(I)V"),
    "MAKE": lambda made: made.method_ref("api/Net", "<init>", "()V"),
    "GIVE": lambda made: made.method_ref("api/Net", "give", "(IIZ)V"),
    "OWN.GO": lambda made: made.method_ref("a/P", "go", "()V"),
    "OTHER.GO": lambda made: made.method_ref("a/Q", "go", "()V"),
    "NET": lambda made: made.type("api/Net"),
    "OWN": lambda made: made.type("a/P"),
    "OWN.MAKE": lambda made: made.method_ref("a/P", "<init>", "()V"),
    "THREAD.MAKE": lambda made: made.method_ref("java/lang/Thread", "<init>", "()V"),
    "START": lambda made: made.method_ref("java/lang/Thread", "start", "()V"),
}


def policy(most, variables, clauses):
    """The text of a policy whose numbers are at most so large, with these variables."""
    return f"MAXINT {most} SCOPE Session SECURITY STATE {variables} {clauses}".encode("ascii")


def main_of(text, local_count=3, size=2, handlers=(), parent="java/lang/Object"):
    """The class `a/P` whose `main` has this code; a handler is three places in it and the class that is caught."""
    made = ClassFile("a/P", parent)
    code = code_of(made, text, CONSTANTS)
    table = [(*places, made.type(caught)) for *places, caught in handlers]
    made.method(0x9, "main", MAIN, code, size, local_count, table)
    return made


BROKEN = "api/Broken"

# at most three sends
THREE = policy(1000, "int n = 0;", "BEFORE void api.Net.send() PERFORM n <= 2 -> { n = n + 1; }")
# no send after a read
NO_SEND = policy(
    1,
    "bool seen = false;",
    "BEFORE int api.Net.read() PERFORM ELSE -> { seen = true; } BEFORE void api.Net.send() PERFORM seen == false -> { }",
)
# each send needs a permission of its own
PERMISSION = policy(
    1,
    "bool permitted = false;",
    "AFTER boolean yes = api.Net.ask() PERFORM yes == true -> { permitted = true; } ELSE -> { permitted = false; } "
    "BEFORE void api.Net.send() PERFORM permitted == true -> { permitted = false; }",
)
# at most two reads that did not fail, and none of a negative number
ALL_THREE = policy(
    2,
    "int n = 0;",
    "BEFORE int api.Net.read() PERFORM n <= 1 -> { n = n + 1; } AFTER int r = api.Net.read() PERFORM r >= 0 -> { } "
    "EXCEPTIONAL int api.Net.read() PERFORM n >= 1 -> { n = n - 1; }",
)
# race-free: a send needs a permission, which stays once it was given
KEPT = policy(
    1,
    "bool permitted = false;",
    "AFTER boolean yes = api.Net.ask() PERFORM yes == true -> { permitted = true; } ELSE -> { } "
    "BEFORE void api.Net.send() PERFORM permitted == true -> { }",
)
# race-free: at most two reads; where one failed or gave a negative number, sends are allowed
ENDS_ALLOW = policy(
    9,
    "int n = 0; bool bad = false;",
    "BEFORE int api.Net.read() PERFORM n <= 1 -> { n = n + 1; } AFTER int r = api.Net.read() PERFORM r >= 0 -> { } ELSE -> { bad = true; } "
    "EXCEPTIONAL int api.Net.read() PERFORM ELSE -> { bad = true; } BEFORE void api.Net.send() PERFORM bad == true -> { }",
)


def two_threads():
    """The class `a/P` whose `main` starts a thread of that class and sends, as the thread does."""
    made = main_of("bb OWN 59 b7 OWN.MAKE b6 START b8 SEND b1", parent="java/lang/Thread")
    made.method(0x1, "<init>", "()V", code_of(made, "2a b7 THREAD.MAKE b1", CONSTANTS), 1, 1)
    made.method(0x1, "run", "()V", code_of(made, "b8 SEND b1", CONSTANTS), 0, 1)
    return made
