"""The classes of a listing, and those that are built in, with the members that the program may name (docs/LISTINGS.md).

A listing is read once conspecj has read it: that its lines are right is not looked at here.
"""
from built_in import BUILT_IN_METHODS, BUILT_IN_PARENTS, OBJECT, RUNNABLE, SYSTEM_EXIT, THREAD
from class_reader import Class


def built_in_classes():
    """The built-in classes by their names."""
    found = {
        name: Class(name, parent, [RUNNABLE] if name == THREAD else [], name == RUNNABLE, {}, {})
        for name, parent in BUILT_IN_PARENTS.items()
    }
    for owner, name, descriptor in BUILT_IN_METHODS:
        found[owner].methods[name, descriptor] = (owner, name, descriptor) == SYSTEM_EXIT
    return found


def class_in(words):
    """The class that a line declares."""
    if words[0] == "interface":
        return Class(words[1], OBJECT, [], True, {}, {})
    return Class(words[1], words[3], words[5].split(",") if len(words) > 4 else [], False, {}, {})


class Listed:
    """The classes of a listing and those that are built in, and the lines of the members."""

    def __init__(self, text):
        self.classes = built_in_classes()
        lines = [line.split(" ") for line in text.decode("utf-8", "replace").split("\n") if line and not line.startswith("#")]
        self.own = [words[1] for words in lines if words[0] in ("class", "interface")]
        self.members = [words for words in lines if words[0] in ("method", "static", "field")]
        self.classes.update((words[1], class_in(words)) for words in lines if words[0] in ("class", "interface"))
        for word, owner, name, descriptor in self.members:
            found = self.classes[owner]
            (found.fields if word == "field" else found.methods)[name, descriptor] = word != "method"

    def names(self, owner, name, descriptor):
        """Whether the class is listed or built in, and has this method there."""
        return owner in self.classes and (name, descriptor) in self.classes[owner].methods
