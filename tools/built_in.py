"""The classes and methods that are built in (docs/LISTINGS.md); tests/listing compares them with the program."""

LANG = "java/lang/"
OBJECT = "java/lang/Object"
RUNNABLE, THREAD = LANG + "Runnable", LANG + "Thread"
SYSTEM_EXIT = (LANG + "System", "exit", "(I)V")

# each class that can be thrown, with its superclass
THROWN = {
    "Throwable": "Object",
    "Exception": "Throwable",
    **dict.fromkeys(("RuntimeException", "InterruptedException"), "Exception"),
    **dict.fromkeys(("NullPointerException", "ArithmeticException", "ClassCastException", "ArrayStoreException"), "RuntimeException"),
    **dict.fromkeys(("NegativeArraySizeException", "IllegalMonitorStateException"), "RuntimeException"),
    **dict.fromkeys(("IndexOutOfBoundsException", "IllegalArgumentException"), "RuntimeException"),
    "ArrayIndexOutOfBoundsException": "IndexOutOfBoundsException",
    "IllegalThreadStateException": "IllegalArgumentException",
}
SUPERCLASSES = {**dict.fromkeys(("Class", "String", "System", "Thread", "Runnable"), "Object"), **THROWN}
BUILT_IN_PARENTS = {OBJECT: None, **{LANG + name: LANG + parent for name, parent in SUPERCLASSES.items()}}
BUILT_IN = set(BUILT_IN_PARENTS)
BUILT_IN_METHODS = {
    (OBJECT, "<init>", "()V"),
    *((THREAD, "<init>", descriptor) for descriptor in ("()V", "(Ljava/lang/Runnable;)V")),
    *((THREAD, name, "()V") for name in ("start", "run", "join")),
    (RUNNABLE, "run", "()V"),
    SYSTEM_EXIT,
    (LANG + "String", "length", "()I"),
    *((LANG + name, "<init>", descriptor) for name in THROWN for descriptor in ("()V", "(Ljava/lang/String;)V")),
}
