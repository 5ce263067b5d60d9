"""What no jar may have beside its library, since a real Java machine would run a method there with no event, or another class than
was checked; and what is warned of (docs/TOOLS.md has the table).

What a policy says and what a program does is not judged here. These rules compare three views of the classes: those of the jar,
those of the listing, and those of the library that will run. They hold only of a program that conspecj accepts.
"""
from typing import NamedTuple

from built_in import BUILT_IN_METHODS
from class_reader import PROTECTED, PUBLIC, STATIC
from jars import STATE
from library import Library
from listed import Listed
from policy_states import clause_of, clauses_of, variables_of, words_of

RUN = ("run", "()V")
OF_EACH_OBJECT = {("toString", "()Ljava/lang/String;"), ("hashCode", "()I"), ("equals", "(Ljava/lang/Object;)Z")}
NO_EVENT = "a Java machine would run it with no event"


class Views(NamedTuple):
    """The classes of the jar by their names; the listing; the library with the jar, as the listing tells it, and as it is, as far
    as that is known; the phases for which each method has a clause.
    """

    program: dict
    listed: Listed
    told: Library
    real: Library
    clauses: dict


def clauses_in(text):
    """The phases for which each method of a policy has a clause."""
    found = {}
    for words in clauses_of(variables_of(words_of(text))[1]):
        clause = clause_of(words)
        found.setdefault((clause.owner, clause.name, clause.descriptor), set()).add(clause.phase)
    return found


def views_of(program, listing, policy, sources):
    """The views; `sources` are those of the library, and none where it is not looked at."""
    listed = Listed(listing)
    told = Library({**listed.classes, **program})
    real = Library(program, *sources, otherwise=listed.classes)
    return Views(program, listed, told, real, clauses_in(policy))


def as_listed(owner, name, descriptor):
    return f"{owner} {name} {descriptor}"


# ---- classes

def other_class_runs(views):
    """A class of the jar that the library has."""
    for name in [*views.program, STATE.removesuffix(".class")]:
        if views.real.has(name):
            yield f"{name}: the library or Java has a class of this name, which runs in its place: give it another name"


def instance_methods(found):
    return [member for member, is_static in found.methods.items() if not is_static and member != RUN]


def own_chain(views, name):
    """The class and its superclasses in the jar."""
    return [above for above in views.told.chain(name) if above in views.program]


def is_declared(views, chain, member):
    """Whether one of these classes of the jar declares the method as a public one of objects."""
    flags = [views.program[name].flags.get(member, STATIC) for name in chain]
    return any(flag & PUBLIC and not flag & STATIC for flag in flags)


def library_method(views, name, member):
    """The class of the library above a class that has the method for it, or None: as the listing says, or as it is."""
    for above in views.told.above(name):
        if above not in views.program and member in views.told.find(above).methods:
            return above
    for above in views.real.chain(name):
        if above not in views.program and views.real.find(above).flags.get(member, 0) & (PUBLIC | PROTECTED):
            return above
    return None


def methods_left(views):
    """A class that leaves a method of its interface to the library."""
    for name, found in views.program.items():
        if found.is_interface:
            continue
        chain = own_chain(views, name)
        for interface in views.told.interfaces_of(chain):
            for member in instance_methods(views.program[interface]) if interface in views.program else ():
                owner = None if is_declared(views, chain, member) else library_method(views, name, member)
                if owner:
                    told = f"{as_listed(name, *member)}: its interface {interface} has it, and it is left to {owner}"
                    yield f"{told}, where {NO_EVENT}: declare it in {name}, public, or give it another name"


def of_each_object(views):
    """An interface with a method that a Java machine runs of any object at a busy call."""
    for name, found in views.program.items():
        for member in sorted(OF_EACH_OBJECT & set(instance_methods(found))) if found.is_interface else ():
            told = f"{as_listed(name, *member)}: an interface declares a method that each object has"
            yield f"{told}, and at a busy call {NO_EVENT}, whatever the object: leave it out of the interface, or give it another name"


# ---- calls

def uses_of(views):
    """Each method that a class of the jar names, with the class."""
    for name, found in views.program.items():
        for use in sorted(found.method_uses):
            if not use.owner.startswith("["):
                yield name, use


def constructors(views):
    """A constructor that a class of the jar names and that has no line."""
    for name, (owner, method, descriptor) in uses_of(views):
        if method != "<init>" or owner in views.program or views.listed.names(owner, method, descriptor):
            continue
        if not views.real.has(owner) or (method, descriptor) in views.real.find(owner).methods:
            told = f"{name}: it names {as_listed(owner, method, descriptor)}, which the listing does not have, and {NO_EVENT}"
            yield f"{told}: add the line `method {as_listed(owner, method, descriptor)}`"


def hidden_methods(views):
    """A static method of the library in the place of the listed one."""
    for name, (owner, method, descriptor) in uses_of(views):
        told = views.told.declares("methods", owner, (method, descriptor))
        if method == "<init>" or told is None or not views.told.find(told).methods[method, descriptor]:
            continue
        real = views.real.declares("methods", owner, (method, descriptor))
        if real and real != told and real not in views.real.above(told):
            which = f"{as_listed(owner, method, descriptor)}, which is that of {real}, and by the listing that of {told}"
            yield f"{name}: it names {which}: add the line `static {as_listed(real, method, descriptor)}`, and a clause where that has one"


# ---- the listing beside the library

def named_above(views, name):
    """The nearest class above a class of the library that is listed or built in."""
    return next((above for above in views.real.chain(name)[1:] if above in views.listed.classes), None)


def interfaces(views, library, name):
    """The listed and built-in interfaces of a class and of those above it."""
    known = views.listed.classes
    return {above for above in library.above(name) if above in known and above != name and known[above].is_interface}


def listed_class(views, name):
    """What is wrong with the line of a class."""
    told, real = views.listed.classes[name], views.real.find(name)
    if told.is_interface != real.is_interface:
        return f"it is {'an interface' if real.is_interface else 'a class'} in the library"
    if told.is_interface:
        return None
    above = named_above(views, name)
    if told.parent != above:
        return f"the nearest class above it that the listing names is {above}, not {told.parent}"
    missing = sorted(interfaces(views, views.real, name) - interfaces(views, views.told, name))
    added = sorted(interfaces(views, views.told, name) - interfaces(views, views.real, name))
    if missing:
        return f"in the library it also implements {', '.join(missing)}"
    return f"in the library it does not implement {', '.join(added)}" if added else None


def listed_classes(views):
    """A class whose line is not what the library has."""
    for name in views.listed.own:
        wrong = listed_class(views, name) if views.real.has(name) else None
        if wrong:
            yield f"{name}: the listing's line does not fit the library: {wrong}: make the listing again (tools/listing)"


def listed_members(views):
    """A line of a member that is not what the library has."""
    for word, owner, name, descriptor in views.listed.members:
        found = views.real.find(owner)
        is_static = (found.fields if word == "field" else found.methods).get((name, descriptor))
        if is_static is not None and is_static != (word != "method"):
            line = f"{word} {as_listed(owner, name, descriptor)}"
            yield f"{line}: in the library it is {'' if is_static else 'not '}static: make the listing again (tools/listing)"


def listed_twice(views):
    """Two lines for one method of the library, one at its class and one at a class that has it from there, with other clauses."""
    for word, owner, name, descriptor in views.listed.members:
        if word == "field" or name == "<init>":
            continue
        real = views.real.declares("methods", owner, (name, descriptor))
        both = [views.clauses.get((other, name, descriptor)) for other in (owner, real)]
        if real not in (None, owner) and views.listed.names(real, name, descriptor) and both[0] != both[1]:
            told = f"{owner} has it from {real}, where the listing has it, too, and not both have the same clauses"
            yield f"{word} {as_listed(owner, name, descriptor)}: {told}: leave this line out"


# ---- clauses

def overridden(views, method):
    """The built-in class whose method this one overrides, or None."""
    owner, name, descriptor = method
    above = [*views.told.above(owner), *views.real.above(owner)]
    return next((other for other in above if other != owner and (other, name, descriptor) in BUILT_IN_METHODS), None)


def unseen_runs(views):
    """A clause for a method that overrides a built-in one."""
    for method in sorted(views.clauses):
        other = None if method[1] == "<init>" else overridden(views, method)
        if other:
            told = f"{as_listed(*method)}: the policy has a clause for it, and it overrides that of {other}, through which {NO_EVENT}"
            yield f"{told}: leave {method[0]} out of the listing, or have clauses for what the method calls"


def own_methods(found):
    """The methods of objects that a class of the library lets others call."""
    return [member for member in instance_methods(found) if found.flags.get(member, PUBLIC) & (PUBLIC | PROTECTED)]


def overriding(views):
    """Each listed method of objects, with each listed class below whose own method overrides it in the library."""
    for name in views.listed.classes:
        above = views.real.above(name)[1:]
        for member in own_methods(views.real.find(name)):
            for other in above:
                if member[0] != "<init>" and views.listed.names(other, *member):
                    yield (other, *member), (name, *member)


def warnings_of(views):
    """Library methods that override listed ones, where not both have the same clauses; and what was not compared."""
    for above, below in sorted(overriding(views)):
        if views.clauses.get(above) == views.clauses.get(below) or above in BUILT_IN_METHODS:
            continue
        if views.listed.names(*below):
            yield f"{as_listed(*below)} overrides that of {above[0]}: give both the same clauses, since a call of either may run it"
        else:
            told = f"{as_listed(*below)} overrides that of {above[0]}, which has a clause, and has no line"
            yield f"{told}: its calls count as those of {above[0]}"
    absent = [name for name in views.listed.own if not views.real.has(name)] if views.real.sources else []
    if absent:
        yield f"neither Java nor the library has {', '.join(absent)}, so these classes of the listing were not compared (--library)"


REFUSALS = (
    other_class_runs,
    methods_left,
    of_each_object,
    constructors,
    hidden_methods,
    listed_classes,
    listed_members,
    listed_twice,
    unseen_runs,
)


def refusals_of(views):
    """All that is refused, in the order of the rules."""
    return [told for rule in REFUSALS for told in rule(views)]
