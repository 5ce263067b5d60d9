"""Small methods, each in the class `b/A` after its `main`, for the scripts of tests/ that ask for their types."""
from class_files import code_of, with_main

LISTING = b"""class api/Net extends java/lang/Object
static api/Net send (ILjava/lang/String;)I
method api/Net meet (ILjava/lang/String;)I
method api/Net <init> ()V
"""
MAKER = ("<init>", "()V")
CALLED = "(ILjava/lang/String;)I"

# what the names in codes below stand for
CONSTANTS = {
    "SEND": lambda made: made.method_ref("api/Net", "send", CALLED),
    "MEET": lambda made: made.method_ref("api/Net", "meet", CALLED),
    "OBJECT.MAKE": lambda made: made.method_ref("java/lang/Object", *MAKER),
    "OWN.MAKE": lambda made: made.method_ref("b/A", *MAKER),
    "NET.MAKE": lambda made: made.method_ref("api/Net", *MAKER),
    "OWN.NEXT": lambda made: made.field_ref("b/A", "next", "I"),
    "OTHER.NEXT": lambda made: made.field_ref("b/B", "next", "I"),
    "OWN": lambda made: made.type("b/A"),
    "NET": lambda made: made.type("api/Net"),
    "INTS": lambda made: made.type("[I"),
}


def class_with(desc, text, sizes, is_maker=False, table=()):
    """The class with one method more, which is static or a constructor."""
    made = with_main("b/A")
    made.field(0x1, "next", "I")
    flags, name = (0x1, "<init>") if is_maker else (0x9, "go")
    made.method(flags, name, desc, code_of(made, text, CONSTANTS), *sizes, table)
    # what OWN.MAKE names, after the method that is asked about
    if not is_maker:
        made.method(0x1, *MAKER, code_of(made, "2a b7 OBJECT.MAKE b1", CONSTANTS), 1, 1)
    return made.bytes()


def other_class():
    made = with_main("b/B")
    made.field(0x1, "next", "I")
    return made.bytes()
