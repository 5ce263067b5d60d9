"""Judges events by a policy, as docs/POLICIES.md words it, for the scripts of tests/ that run programs."""
from loaded import class_in, signature
from policy_texts import CALL, RESULT, RETURN, THROW, read
from race_search import Search

PHASES = {"call": CALL, "return": RETURN, "except": THROW}
TYPES = {"V": "void", "Z": "boolean", "B": "byte", "C": "char", "S": "short", "I": "int"}


def type_in(descriptor):
    """The type as a policy has it."""
    part = descriptor.lstrip("[")
    return (TYPES.get(part) or class_in(part).replace("/", ".")) + "[]" * (len(descriptor) - len(part))


def method_in(owner, name, desc):
    """The method as a clause names it."""
    return f"{owner.replace('/', '.')}.{name}({', '.join(map(type_in, signature(desc)[0]))})"


class Judge:
    """A policy, by the text of it."""

    def __init__(self, text):
        self.policy = read(text)
        self.search = Search(self.policy)
        self.clauses = {(clause.phase, clause.method): clause for clause in self.policy.clauses}

    def first(self):
        """The state before the first event."""
        return dict(self.policy.first)

    def clause(self, line):
        """The clause for an event, or None."""
        word, _, owner, name, desc, *_ = line.split(" ")
        return self.clauses.get((PHASES[word], method_in(owner, name, desc)))

    def names(self, line):
        """Whether a clause names the method of an event."""
        _, _, owner, name, desc, *_ = line.split(" ")
        return any(method == method_in(owner, name, desc) for _, method in self.clauses)

    def after(self, state, line):
        """The state after an event, which is the same where no clause is for it, or None where it is refused."""
        clause, (word, _, _, _, _, *values) = self.clause(line), line.split(" ")
        if clause is None:
            return state
        numbers = {RESULT if word == "return" else at: int(value) for at, value in enumerate(values) if value.lstrip("-").isdigit()}
        return self.search.after(state, clause, numbers)

    def refused(self, events):
        """The place of the first event that is refused, or None; and whether it comes last of those with a clause, and is an end."""
        state, refused = self.first(), None
        for place, line in enumerate(events):
            if self.clause(line) is None:
                continue
            if refused is not None:
                return refused, False
            behind = self.after(state, line)
            refused, state = (place, state) if behind is None else (None, behind)
        return refused, refused is not None and not events[refused].startswith("call")

    def line(self, events):
        """What `policy` prints of these events."""
        place, may_come = self.refused(events)
        return "accepted" if place is None else f"stopped {place}" if may_come else f"denied 191 {place}"


REFUSED, OVERLAPS = 281, 282


class Watched:
    """What a policy says of the events of a run, one after another: its state, and whether a call with clauses is under way."""

    def __init__(self, judge, is_held):
        self.judge, self.is_held, self.state, self.under_way = judge, is_held, judge.first(), False

    def fault(self, event):
        """Takes what is seen of a step, and gives None; or the number of what keeps the run from being lifted (docs/COMMANDS.md)."""
        if not event:
            return None
        behind, has_clauses, is_call = self.judge.after(self.state, event), self.judge.names(event), event.startswith("call")
        if behind is None:
            return REFUSED
        if self.is_held and has_clauses and is_call and self.under_way:
            return OVERLAPS
        self.state, self.under_way = behind, is_call if has_clauses else self.under_way
        return None
