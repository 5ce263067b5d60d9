"""The classes of a program and of the libraries below it, each read as it is asked for; and where a member is looked for in them."""
from class_reader import Unreadable, class_of


class Library:
    """Classes by their names: those that are given first, then those of each source, of which the first that has one counts, and
    then those that stand in for what no source has.

    A source answers the bytes of a class by its name (`content`), or None.
    """

    def __init__(self, given, *sources, otherwise=None):
        self.given, self.sources, self.otherwise = given, sources, otherwise or {}
        self.known, self.ways = dict(given), {}

    def content(self, name):
        """The bytes of the class of this name in the sources, or None."""
        found = (source.content(name) for source in self.sources)
        return next((content for content in found if content is not None), None)

    def has(self, name):
        """Whether a source has a class of this name."""
        return self.content(name) is not None

    def find(self, name):
        """The class of this name, or None."""
        if name not in self.known:
            content = self.content(name)
            try:
                self.known[name] = class_of(content) if content is not None else self.otherwise.get(name)
            except Unreadable as fault:
                raise Unreadable(f"{name}: {fault}") from fault
        return self.known[name]

    def chain(self, name):
        """The class and its superclasses, as far as they are there."""
        found = []
        while name and name not in found and self.find(name):
            found.append(name)
            name = self.find(name).parent
        return found

    def interfaces_of(self, names):
        """The interfaces of these classes and those above them, level by level."""
        level = [name for owner in names for name in self.find(owner).interfaces]
        found = []
        while level:
            level = [name for name in dict.fromkeys(level) if name not in found and self.find(name)]
            found += level
            level = [name for owner in level for name in self.find(owner).interfaces]
        return found

    def above(self, name):
        """The class, its superclasses, and then all their interfaces."""
        if name not in self.ways:
            chain = self.chain(name)
            self.ways[name] = chain + self.interfaces_of(chain)
        return self.ways[name]

    def declares(self, kind, owner, member):
        """The class that declares the member, looked for from this class upwards, or None."""
        return next((name for name in self.above(owner) if member in getattr(self.find(name), kind)), None)
