"""What each line of `conspecj` means, the usual mistakes behind it, and what to do: the words of docs/REFUSALS.md.

`tests/refusals --write` puts these words into the page. Nothing here decides anything: the program does.
"""
from typing import NamedTuple


class Refusal(NamedTuple):
    """A refusal: its short name, the names of its fields, and its words."""

    title: str
    fields: tuple
    means: str
    mistakes: tuple
    remedy: str


CLASS_FILES = {
    101: Refusal(
        "not a class file",
        (),
        "The first four bytes of the file are not those of a class file.",
        (
            "A jar or an archive is given: it begins with PK.",
            "A source is given, or the words are in the wrong order.",
        ),
        "Unpack a jar with `jar xf`, compile a source, and give the files whose names end in `.class`.",
    ),
    102: Refusal(
        "another version",
        ("major version",),
        "The class was not compiled for Java 5: its major version is not 49.",
        (
            "The compiler was called without `-source 1.5 -target 1.5`; 52 is Java 8, 61 is Java 17.",
            "A `module-info.class` is among the files.",
        ),
        (
            "Compile for version 49, with `tools/compile`, `ecj -source 1.5 -target 1.5` or the javac of JDK 5 to 8, "
            "and leave `module-info.class` out."
        ),
    ),
    103: Refusal(
        "a file cut short",
        ("byte",),
        "The file, or the code of a method in it, ends within a number or a text; the byte is where that begins.",
        ("A download or a copy ended too early, or the disk was full.",),
        "Fetch or compile the file again, and compare its length with the original's.",
    ),
    104: Refusal(
        "bytes after the end",
        ("byte",),
        "There are bytes after the end of the class, or after the end of a method's code; the byte is the first of them.",
        ("An editor added a newline to the file, or two files were joined.",),
        "Take the file from where it was compiled.",
    ),
    105: Refusal(
        "an unknown constant",
        ("byte", "tag"),
        "The constant pool has a kind of constant that version 49 does not have; its byte and its tag are printed.",
        (
            (
                "The class was compiled for Java 7 or later, and its version was then set to 49: tags 15, 16 and 18 "
                "come from lambdas, method references, and strings joined with `+`."
            ),
        ),
        (
            "Compile it for version 49: setting the version number alone does not help. Write an anonymous class "
            "in place of a lambda."
        ),
    ),
    106: Refusal(
        "a wrong index or length",
        ("byte",),
        (
            "An index points outside the constant pool or to a constant of the wrong kind, or a text or a length may "
            "not stand where it does; its byte is printed."
        ),
        (
            "A tool that changes class files made an error.",
            "A text has a character beyond 16 bits, encoded in four bytes.",
            "The file is java/lang/Object itself, which has no superclass.",
        ),
        (
            "Make the file with a Java compiler, without an obfuscator; leave classes of the library out, since the "
            "listing names them."
        ),
    ),
    107: Refusal(
        "a file that is too long",
        ("number of bytes",),
        (
            "The file is longer than its kind may be: 1,048,576 bytes for a listing or a class file, 65,536 for a "
            "policy, 67,108,864 for a certificate, 268,435,456 for a record."
        ),
        (
            "The words are in the wrong order.",
            "A class has a large table of numbers or texts.",
        ),
        "Check the order of the words; split the class, or read the table from a file.",
    ),
}

CODES = {
    121: Refusal(
        "no such opcode",
        ("byte", "opcode"),
        "The code has an opcode that version 49 does not have.",
        (
            (
                "186 (`invokedynamic`) is a lambda, a method reference, or strings joined with `+` for Java 9 or "
                "later."
            ),
        ),
        "Compile for version 49; write an anonymous class in place of a lambda.",
    ),
    122: Refusal(
        "an instruction cut off",
        ("byte",),
        "The code ends within an instruction.",
        ("The file was changed, or made by a tool that counts wrongly.",),
        "Take the file from where it was compiled.",
    ),
    123: Refusal(
        "a jump into an instruction",
        ("byte",),
        "A branch or a switch goes to a byte where no instruction begins; the byte is that of the branch.",
        ("The file was changed, or made by a tool that counts wrongly.",),
        "Take the file from where it was compiled.",
    ),
    124: Refusal(
        "an unsupported instruction",
        ("byte", "opcode"),
        (
            "conspecj does not support this instruction of Java: it leaves out those on long, float and double, `jsr`, "
            "`ret` and `multianewarray`, and arrays of these numbers."
        ),
        (
            "The source has a long, float or double: 97 adds two longs.",
            "197 is `new int[3][4]`.",
            "168 is a `finally` from a compiler before Java 1.4.2.",
        ),
        "Count in int; make the outer array, and each inner one in a loop; compile again with a later compiler.",
    ),
    125: Refusal(
        "a malformed instruction",
        ("byte",),
        (
            "The instruction may not have these operands, as a `newarray` of an unknown type or a `lookupswitch` "
            "whose keys do not ascend."
        ),
        ("The file was changed, or made by a tool that counts wrongly.",),
        "Take the file from where it was compiled, or report the place to the tool's maker.",
    ),
    126: Refusal(
        "code without an end",
        ("byte",),
        "Control can run past the last instruction; the byte is where that one begins.",
        ("The code was cut between two instructions.",),
        "Take the file from where it was compiled.",
    ),
}

LINKING = {
    141: Refusal(
        "no main",
        (),
        (
            "No file has the main class, or that class does not itself declare a static `main` with the descriptor "
            "`([Ljava/lang/String;)V`."
        ),
        (
            "MAIN has dots: it is `a/S`, not `a.S`.",
            "MAIN ends in `.class`, or lacks its packages.",
            "The file of the main class is not among the words.",
            "`main` is inherited, or does not take an array of String.",
        ),
        "Name the class as its file does (`conspecj show` prints the name after `class`), and give its file.",
    ),
    142: Refusal(
        "a class given twice",
        ("class",),
        "An earlier file has the class, or the listing has it, or it is built in.",
        (
            "A file is given twice, as by two patterns of the shell.",
            "The listing names a class of the program.",
        ),
        "Leave one of them out: a class is either in the files or in the listing.",
    ),
    143: Refusal(
        "a name that is not found",
        ("class", "name"),
        (
            "The code of the class names a method, a field or a class that is neither in the files nor in the "
            "listing; or the instruction wants an instance member and finds a static one, or the reverse; or it "
            "writes a field of the library, or makes an array as if it were a class."
        ),
        (
            "The listing lacks the line.",
            "The line has `method` where the call is static, or another descriptor.",
            "The line names a subclass: a call is looked up in the class that it names and above, never below.",
            "The member is an instance field or a number: a listing has only static fields that hold objects.",
            "An interface has superinterfaces, which a listing cannot say.",
        ),
        (
            "Add the file, or the line that `tools/listing` prints for the class; `javap -c -p` shows what the code "
            "names."
        ),
    ),
    144: Refusal(
        "an unsupported superclass",
        ("class",),
        (
            "The class has a superclass or an interface that it may not have: the superclass is neither in the files nor "
            "Object, Thread, Throwable or a built-in class below that; or the interface is neither in the files nor "
            "Runnable; or the superclasses run in a circle; or one of these is `conspec/State`, the tool's own class."
        ),
        (
            (
                "The class extends a class of the library or implements one of its interfaces, such as Comparator or "
                "ActionListener."
            ),
            "The file of the superclass is not among the words.",
            "The class is an enum: its superclass is java/lang/Enum.",
        ),
        (
            "Give the superclass as a file, or do without it: keep the library's object in a field. Code that the "
            "library calls back cannot be checked."
        ),
    ),
    145: Refusal(
        "the tool's own class",
        ("class",),
        "A constant of the class contains `conspec/State`, the name of the tool's own class.",
        (
            "The class was woven before.",
            "A source names that class, or has the name in a string.",
        ),
        "Weave the compiler's files, not those that `inline` wrote; choose another name.",
    ),
    146: Refusal(
        "an unsupported method",
        ("class", "method"),
        (
            "The method is native; or abstract and static; or an abstract constructor; or a `<clinit>` that is not "
            "static with `()V`; or a synchronized `main`, `<clinit>` or `run ()V`; or its descriptor has long, "
            "float or double, or is malformed; or it lacks code that it needs, or has code that it may not have."
        ),
        (
            "A parameter or a result is a long or a double.",
            "`run` of a thread is synchronized.",
        ),
        (
            "Count in int; put a synchronized block inside the method; leave out classes with native methods, since "
            "nobody can check what they do."
        ),
    ),
    147: Refusal(
        "too many class files",
        ("number of files",),
        "There are more than 1,000 class files.",
        ("Tests, examples or a whole library are among the files.",),
        "Leave out what the main class does not need, and list a library instead of giving its files.",
    ),
    148: Refusal(
        "wrong code",
        ("class", "method", "code fault"),
        "The code of this method is refused; what is wrong with it follows, as a number from 121 to 126.",
        ("Most often 121 or 124: the class was compiled for a later Java, or has a long, float or double.",),
        "See the number after the method's.",
    ),
    149: Refusal(
        "a library method is overridden",
        ("class", "method"),
        (
            "An instance method of the class has the name and the descriptor of a listed or built-in method of a "
            "class or interface above it. Only `run ()V` may be overridden. Or an interface of the program asks for "
            "the method, the class does not have it as a public one, and a class of the library above has it: a "
            "Java machine would run that one, unseen."
        ),
        (
            "The listing has `java/lang/Object toString` or `equals`, and the class overrides it.",
            "A thread overrides `start` or `join`.",
            "An exception of the program has an interface that asks for `getMessage` or `printStackTrace`.",
        ),
        (
            "Give the method another name, in the interface too; or take the line out of the listing, if no call "
            "needs it."
        ),
    ),
    150: Refusal(
        "a wrong class name",
        ("class",),
        "The name of the class is not made of ASCII letters, digits, `_` and `$`, in parts joined by `/`.",
        ("The source has letters with accents, or is in another language, whose names have `-`.",),
        "Rename the class.",
    ),
    151: Refusal(
        "a wrong operand",
        ("class", "method", "instruction"),
        (
            "The instruction cannot take the constant that it names, or the constant's descriptor is malformed or has "
            "long, float or double; or a handler names a place where no instruction begins (then the number printed is "
            "that of all instructions)."
        ),
        (
            (
                "A method of the library that takes or gives a long, float or double is called, such as "
                "`System.currentTimeMillis`."
            ),
            "The file comes from a tool that counts wrongly.",
        ),
        "Call a method that does without these numbers; `javap -c -p` shows the call.",
    ),
    152: Refusal(
        "too many bytes of class files",
        ("number of bytes",),
        "The class files have more than 16,777,216 bytes in all; how many is printed.",
        ("Tests, examples or a whole library are among the files.",),
        "Leave out what the main class does not need, and list a library instead of giving its files.",
    ),
}

LISTINGS = {
    161: Refusal(
        "a malformed line",
        ("line",),
        "The line has no form that a listing has.",
        (
            "There are two spaces, a tab, or a space at the end.",
            "The lines end in carriage return and newline, as editors under Windows write them.",
            "The last line has no newline after it.",
            "A class is written with dots: it is `api/Net`, not `api.Net`.",
            (
                "A `class` line has no `extends`; or there is a space after a comma of `implements`; or an "
                "`interface` line goes on after the name."
            ),
            (
                "A descriptor is malformed, as `(String)V` for `(Ljava/lang/String;)V`, or has J, F or D, for long, "
                "float or double."
            ),
            "A `field` is a number or an array.",
            "A method has more than 255 arguments.",
            "A remark comes after a line's words, or a modifier such as `public` before them.",
        ),
        "Write the line as docs/LISTINGS.md has it, or let `tools/listing` write it.",
    ),
    162: Refusal(
        "declared twice",
        ("line",),
        "An earlier line declares the same, or it is built in, or it is the class `conspec/State`.",
        (
            "A method is listed with `static` and with `method`.",
            "The line is for a built-in class or method, such as `java/lang/Thread start ()V`.",
        ),
        "Leave the line out.",
    ),
    163: Refusal(
        "an unknown class",
        ("line",),
        (
            "The line names a superclass or an interface that is neither built in nor on an earlier line, or "
            "another class that is neither built in nor anywhere in the listing."
        ),
        (
            "A class comes before its superclass.",
            "The class of an argument or of a result has no line.",
            "A name is written in two ways.",
        ),
        "Add a `class` or `interface` line for it, above the lines of its subclasses.",
    ),
    164: Refusal(
        "too many lines",
        ("number of lines",),
        "The listing has more than 20,000 lines.",
        ("It lists a whole library, not what the program calls.",),
        "List what the program calls: `tools/listing` does.",
    ),
}

POLICIES = {
    181: Refusal(
        "a syntax error",
        ("byte",),
        "A policy cannot go on with this word, or no word begins with these bytes, or the text ends too early.",
        (
            "`=` is written for `==`, or `and` and `or` for `&&` and `||`.",
            "A condition has no comparison: `seen` is written for `seen == true`.",
            "A variable is declared with `boolean`: it is `bool`.",
            "`;`, `->` or PERFORM is missing, or the type before the method.",
            "A name is a keyword, or a number begins with a zero.",
            "The listing and the policy are given in each other's place.",
        ),
        "Compare this place with the grammar in docs/POLICIES.md.",
    ),
    182: Refusal(
        "an unknown name",
        ("byte",),
        (
            "The name is no variable, nor an argument at a call, nor the result at a return; or the left side of an "
            "update is no variable, or the right side is another variable."
        ),
        (
            "The parameter has a type and no name.",
            "An AFTER or EXCEPTIONAL clause asks about an argument.",
            "The result has no name: write `AFTER int r = ..`.",
        ),
        "Declare the name; or record what you need of the argument in a variable at the call, and ask about that.",
    ),
    183: Refusal(
        "a value of another kind",
        ("byte",),
        (
            "A truth value is used as a number or the reverse; or truth values are compared other than by `==` and "
            "`!=`; or an object or an array is asked about; or a bool is added to; or the result of a void method "
            "has a name."
        ),
        (
            "A boolean argument is compared with 0 or 1: write `false` or `true`.",
            "A String is asked about.",
        ),
        "Ask only about numbers and truth values.",
    ),
    184: Refusal(
        "a number out of its range",
        ("byte",),
        (
            "MAXINT is not from 1 to 1,000,000,000, or a first or assigned value is not from 0 to MAXINT, or a "
            "constant has more than 32 bits, or more than 1,000,000,000 is added."
        ),
        (
            "A variable begins with a value above MAXINT.",
            "A variable is meant to be negative.",
        ),
        "Raise MAXINT; count from the other end where a value would be negative.",
    ),
    185: Refusal(
        "no such method in the listing",
        ("byte",),
        "The listing has no such method in exactly that class.",
        (
            "The listing has the method in another class: a clause names the class that declares the method.",
            "The type before the method, or a parameter's, is not the descriptor's.",
            "A class is written without its packages: it is `java.lang.String`.",
            "The listing is empty, or for another program.",
        ),
        "Compare the class, the name, the parameters and the type in front with the line of the listing.",
    ),
    186: Refusal(
        "a name or clause given twice",
        ("byte",),
        (
            "A variable or a parameter is declared twice; or a parameter or the result has the name of a variable; or "
            "a block updates a variable twice; or a method has a second clause of the same kind."
        ),
        ("A method has two BEFORE clauses, in place of one with two guards.",),
        "Rename it; put the guards of both clauses into one.",
    ),
    187: Refusal(
        "a limit exceeded",
        ("byte",),
        (
            "There are more than 16 variables, 64 clauses, 64 branches in a clause or 16 atoms in a branch (one "
            "more for each `+` and `-` of the block), or a name has more than 64 bytes."
        ),
        ("A clause tests single values where two comparisons would do.",),
        "Ask for ranges with `<=` and `>=`; put what is common into fewer variables.",
    ),
    188: Refusal(
        "a clause for a built-in method",
        ("byte",),
        "The method is built in, and built-in methods have no clauses.",
        ("The clause is for `java.lang.System.exit` or `java.lang.Thread.start`.",),
        "Leave the clause out: these calls cannot be denied (docs/SECURITY.md).",
    ),
}

RUNS = {
    191: Refusal(
        "a refused event",
        ("event",),
        (
            "The event with this number, counted from 0, is the first that the policy refuses. Events are the lines "
            "`call`, `return` and `except`."
        ),
        (
            "If the policy says what you mean, there is no mistake: the run breaks it.",
            "A clause has no branch for a case that was meant to be allowed.",
            "A variable is at the end of its range: a sum above MAXINT makes its branch fail.",
        ),
        "Look at the event and at the clause for its method; add a guard or an ELSE if it should be allowed.",
    ),
    261: Refusal(
        "a malformed line of a record",
        ("line",),
        (
            "The line has no form that a record has, or it names a class or a method that the listing does not have, "
            "or brings the steps above 1,000,000. Where the end line is missing, the line after the last is printed."
        ),
        (
            "There are two spaces, a remark, or an empty line.",
            "The `end` line is missing, or has no newline after it.",
            "The record was made with another listing.",
        ),
        "Compare with the table in docs/RECORDS.md; give the listing with which the record was written.",
    ),
    301: Refusal(
        "a step that is not enabled",
        ("step",),
        (
            "The step with this number, counted from 0, cannot be made: its thread does not exist, has ended or waits; "
            "or there is an answer where no call is open, or one that the method cannot give, or a plain step where "
            "an answer is due. `replay` prints this, and `lift` of the program without blocks."
        ),
        (
            "The record is of another program, or of one that has been compiled again since.",
            "A line was removed or added by hand.",
            "`lift` is given the record of a woven program, as `run` prints it for one: it takes one of the program as it was.",
        ),
        "Give exactly the class files and the listing of the run; look at the step and at those before it.",
    ),
    281: Refusal(
        "a step that the policy refuses",
        ("step",),
        (
            "The run is not lifted: by the step with this number, counted from 0, the library sees a call, a return or "
            "an end by an exception that the policy refuses. The woven program would be stopped there."
        ),
        (
            "If the policy says what you mean, there is no mistake: the run breaks it, and enforcing it changes the run.",
            "A clause has no branch for a case that was meant to be allowed.",
        ),
        (
            "Let `replay` print the events of the record, and `policy` say which of them is refused; then see 191. To lift "
            "what comes before, cut the record at this step."
        ),
    ),
    282: Refusal(
        "overlapping calls in mode hold",
        ("step",),
        (
            "The run is not lifted: by the step with this number, counted from 0, a call of a method that the policy has "
            "a clause for begins while another such call is under way. The policy is woven in mode hold, whose lock "
            "keeps them apart, so the woven program makes no such run."
        ),
        (
            "There is no mistake: threads that call side by side wait for each other once the policy is enforced.",
            "The policy is not race-free, and could be: `race` says what breaks it.",
        ),
        (
            "Record a run in which each such call ends before the next begins; or see docs/RACES.md for what makes a "
            "policy race-free, so that it is woven in mode release."
        ),
    ),
}

CHECKS = {
    201: Refusal(
        "no types fit",
        ("class", "method", "instruction"),
        "No types of locals and operands fit up to this instruction.",
        (
            "The file was changed, or made by a tool that counts wrongly.",
            "A handler is for two classes (`catch (A | B e)`), and has no type here.",
            "A superclass in the listing is not the real one, so an object is not of the class that is wanted.",
        ),
        (
            "Compare the superclasses in the listing with those that `javap` prints; write two handlers for two "
            "classes; take the file from where it was compiled."
        ),
    ),
    202: Refusal(
        "the certificate's types are wrong",
        ("class", "method", "instruction", "rule"),
        "The types that the certificate gives break a rule at this instruction.",
        (
            "The certificate is of another version of the class.",
            "It was changed, or the tool that made it has an error.",
        ),
        "Take the certificate that was written with these files; if this is it, do not run them.",
    ),
    222: Refusal(
        "too many points to decide",
        ("first clause", "second clause", "number of points"),
        (
            "It is not decided whether the policy is race-free: these two clauses, counted from 0, would have to be "
            "tried at more than 1,000,000 states and events. `race` prints this, `inline` where MODE is `release`, and "
            "`check` where the certificate is of mode release and nothing else is wrong."
        ),
        ("A clause asks about many arguments, or compares one with many constants.",),
        (
            "Ask about fewer variables and arguments in one clause, or compare them with fewer constants; or weave "
            "with MODE `auto` or `hold`, which take every policy: the lock is then held during calls."
        ),
    ),
    241: Refusal(
        "not a certificate",
        ("byte",),
        "The file is not a certificate for this policy; the byte is the first that cannot belong to one.",
        (
            "Another file is given, or the words are in the wrong order.",
            "It was cut short, or is for a policy with another number of variables.",
        ),
        "Give the certificate that `inline` wrote, with the policy for which it wrote it.",
    ),
    242: Refusal(
        "the certificate has another shape",
        ("class", "method with code"),
        (
            "The certificate does not have the classes, methods with code and instructions of the program; the first "
            "place where they differ is printed, the method counted among those with code."
        ),
        (
            "The certificate is of another program.",
            (
                "The class files are not in the order in which they were written, or `conspec/State.class` is not the "
                "last."
            ),
            "A class was compiled again.",
        ),
        "Give the certificate and the files in the order in which `inline` wrote them.",
    ),
    243: Refusal(
        "a rule of the notes fails",
        ("class", "method", "instruction", "rule"),
        "At this instruction the program does not do what enforces the policy, or the certificate does not say how.",
        (
            (
                "Rule 2: a call that the policy has a clause for has no block. The file was not woven, or was woven "
                "for another policy."
            ),
            "The certificate is of another version of the class.",
            "Rule 1: the program names a variable of `conspec/State` by itself.",
            "Rules 7 and 8: a handler of the class leads into a block.",
        ),
        "Weave the files with `inline` for this policy; do not run a file that stays refused.",
    ),
    244: Refusal(
        "`conspec/State` does not fit the policy",
        ("field",),
        (
            "The class `conspec/State` does not have exactly the policy's variables, with their types and first values, "
            "or it is not public. The first field that is missing or wrong is printed, counted from 0, or how many "
            "there should be."
        ),
        ("`conspec/State.class` is for another policy, or for an older text of it, or is not given.",),
        "Give the file that was written with the others, and the policy for which they were woven.",
    ),
    245: Refusal(
        "the policy is not race-free",
        ("condition", "state and events"),
        (
            "In this state these events break the condition: M0, an end of a call is refused; M1, two calls cannot "
            "change places; M2, two ends cannot; M3, a call and then the end of another cannot. `race` prints this, "
            "`inline` where MODE is `release`, and `check` where the certificate is of mode release and nothing else is "
            "wrong."
        ),
        (
            "Something is counted at a return that should be counted at the call.",
            "What is allowed depends on the order of calls, so the lock has to be held.",
            "A certificate of mode release is given with a policy that is not its own.",
        ),
        (
            "See docs/RACES.md for the condition and what helps; or weave with MODE `auto` or `hold`, which take every "
            "policy: the lock is then held during calls."
        ),
    ),
}

# words, files and sizes, by the first word of the line
COMMANDS = {
    "usage": Refusal(
        "no such command",
        (),
        (
            "No command has these words: the command is unknown, a word is missing, empty or too many, MODE is not `auto`, "
            "`hold` or `release`, WORKERS is not from 1 to 64, or BUDGET not from 1 to 1,000,000."
        ),
        (
            "The command begins with a capital letter, or an option such as `--help` is given: there are no options.",
            "WORKERS or BUDGET has a sign, or a leading zero.",
            "A pattern of the shell finds no file.",
        ),
        "Compare the words with docs/COMMANDS.md.",
    ),
    "store": Refusal(
        "a file failed",
        ("name",),
        "The file does not exist or cannot be read, or it cannot be written.",
        (
            "The name has a typing error, or is relative to another folder.",
            "It is a folder, or there is a folder where it should be written.",
            "You may not read or write it, or the disk is full.",
        ),
        (
            "Check the name, and what is there. After `inline`, weave again before anything runs: the files that are "
            "there may come from two runs."
        ),
    ),
    "overflow": Refusal(
        "a size does not fit",
        ("class", "method", "size", "value"),
        (
            "What was to be written is too large: this size of this method has the value that is printed. Nothing was "
            "written."
        ),
        ("The method is very long: each block adds bytes to it, and more if its call has arguments.",),
        "Split the method; for `pool` split the class; for `certificate` give fewer classes at once.",
    ),
}

# the exit statuses that print no line
SILENT = {
    6: Refusal(
        "standard output failed",
        (),
        "Standard output could not be written; only the beginning of the line may have been printed.",
        ("The disk is full, or the program at the other end of the pipe ended.",),
        "Run it again with another output. With `inline`, all files have been written by then.",
    ),
    7: Refusal(
        "want of memory",
        (),
        "There was not enough memory, or a word is not text in the system's encoding.",
        (
            "A limit of the shell (`ulimit -v`) is too low.",
            "The name of a file is not UTF-8.",
        ),
        (
            "Raise the limit, give fewer files, or rename the file. After `inline`, weave again: the files that are "
            "there may come from two runs."
        ),
    ),
}

REFUSALS = {**CLASS_FILES, **CODES, **LINKING, **LISTINGS, **POLICIES, **RUNS, **CHECKS}

# the rules by their numbers, as docs/TYPING.md and docs/NOTES.md have them
RULES = {
    202: {1: "Entry", 2: "Depth", 3: "Operand", 4: "Local", 5: "Made", 6: "Successor", 7: "Handler"},
    243: {1: "Client", 2: "Call", 3: "Handler", 4: "Lock", 5: "Test", 6: "Update", 7: "Stop", 8: "Edge"},
}

# the sizes that `overflow` prints, as docs/WEAVING.md has them
SIZES = {
    "stack": "the operands of the method, at most 65,535",
    "locals": "the locals of the method, at most 65,535",
    "entries": "the entries of its exception table, at most 65,535",
    "pool": "the constants of the class, at most 65,535",
    "length": "the bytes of its code, at most 65,535",
    "branch": "the offset of a branch, from -32,768 to 32,767",
    "certificate": "the bytes of the certificate, at most 67,108,864",
}

# the lines that are not refusals: words in capitals stand for what changes
ANSWERS = {
    "accepted MODE sites N": (
        "`check` accepts the program: it obeys the policy, if exactly these files run, with `conspec/State` on the "
        "class path. N is the number of calls of methods that the policy has clauses for. 0 is suspicious where the "
        "policy denies something: check that the listing has each method at the class that declares it "
        "(docs/SECURITY.md)."
    ),
    "inlined MODE sites N classes K": (
        "`inline` wrote K class files and the certificate with which `check` accepts them; N calls have a block. "
        "Run what was written, not what was given. 0 is suspicious where the policy denies something, as above."
    ),
    "accepted": "`policy` accepts each event of the record.",
    "stopped INDEX": (
        "`policy` refuses the event with this number, a return or an end by an exception, and no later event has a "
        "clause: it has already happened, so the run obeys the policy, and nothing may follow it."
    ),
    "free": "`race` finds the policy race-free: the lock may be let go while the library runs.",
    "end finished N": "`replay`, `lift` or `run` made N steps, and every thread has ended.",
    "end deadlock N": "`replay`, `lift` or `run` made N steps, and no thread can make another.",
    "end stopped E N": (
        "`replay`, `lift` or `run` made N steps, and the program was stopped with the value E; a block stops it with 77."
    ),
    "end running N": "`replay` or `lift` made N steps, and the run is not over. Those of `lift` are the woven program's.",
    "end budget N": "`run` made N steps, as many as it may, and the run is not over: give a greater BUDGET.",
    "end device N": (
        "`run` made N steps, and then a device of the library failed, or gave what does not fit the call: for a "
        "program that prints, standard error is full or closed."
    ),
}
# the statuses of these that are not 0
ANSWER_STATUSES = {"end device N": 8, "end budget N": 9}
