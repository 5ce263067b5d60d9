"""Looks for races of a policy by going through states and events, for the scripts of tests/: the four conditions of docs/RACES.md as
they are worded there, and nothing of how `race` decides them.

All values of a variable are tried where there are few; else, and of arguments and results, those near a number that stands in the
policy, and those near the ends.
"""
import itertools
import operator

from policy_texts import CALL, RESULT

RELATIONS = {"==": operator.eq, "!=": operator.ne, "<": operator.lt, "<=": operator.le, ">": operator.gt, ">=": operator.ge}
NUMBERS = {"int": (-(2**31), 2**31 - 1), "short": (-(2**15), 2**15 - 1), "byte": (-(2**7), 2**7 - 1), "char": (0, 2**16 - 1), "boolean": (0, 1)}
FEW, NEAR = 40, 2


def near(numbers, ends):
    """The numbers between the ends that are near one of these, or near an end."""
    marks = {number + step for number in [*numbers, *ends] for step in range(-NEAR, NEAR + 1)}
    return sorted(mark for mark in marks if ends[0] <= mark <= ends[1])


class Search:
    """A policy, and what is tried of it."""

    def __init__(self, policy):
        self.policy = policy
        self.calls = [clause for clause in policy.clauses if clause.phase == CALL]
        self.ends = [clause for clause in policy.clauses if clause.phase != CALL]

    def atoms(self, clauses):
        return [atom for clause in clauses for branch in clause.branches for atom in branch.atoms]

    def updates(self, clauses):
        return [update for clause in clauses for branch in clause.branches for update in branch.updates]

    def states(self, clauses):
        """The values of the variables that these clauses name."""
        named = {atom.base for atom in self.atoms(clauses)} | {update.variable for update in self.updates(clauses)}
        names = [name for name in self.policy.variables if name in named]
        for values in itertools.product(*(self.values(name, clauses) for name in names)):
            yield dict(zip(names, values))

    def values(self, name, clauses):
        most = self.policy.variables[name]
        if most <= FEW:
            return range(most + 1)
        asked = {atom.number for atom in self.atoms(clauses) if atom.base == name}
        changed = [update for update in self.updates(clauses) if update.variable == name]
        sums = {update.number for update in changed if update.is_sum}
        asked |= {update.number for update in changed if not update.is_sum}
        # where a value is, so that one or two sums lead to a number that is asked for
        steps = {0} | sums | {one + other for one in sums for other in sums}
        return near({number - step for number in asked | {0, most} for step in steps}, (0, most))

    def events(self, clause):
        """The numbers that are passed, or that comes back, as far as the clause asks for them."""
        bases = [base for base in clause.types if any(atom.base == base for atom in self.atoms([clause]))]
        choices = []
        for base in bases:
            # code can pass any number of 32 bits for a narrower type
            ends = NUMBERS[clause.types[base] if base == RESULT else "int"]
            choices.append(near({atom.number for atom in self.atoms([clause]) if atom.base == base} | {0}, ends))
        for numbers in itertools.product(*choices):
            yield dict(zip(bases, numbers))

    def after(self, state, clause, event):
        """The state after the event, or None where it is refused."""
        for atoms, updates in clause.branches:
            if all(RELATIONS[relation](event[base] if base in event else state[base], number) for base, relation, number in atoms):
                new = dict(state)
                for name, number, is_sum in updates:
                    new[name] = state[name] + number if is_sum else number
                return new
        return None

    def both(self, state, one, other):
        """The state after two events, each a clause and its numbers."""
        middle = self.after(state, *one)
        return None if middle is None else self.after(middle, *other)

    def refused_end(self):
        return any(self.after(state, clause, event) is None for clause in self.ends for state in self.states([clause]) for event in self.events(clause))

    def differing(self, firsts, seconds):
        """Whether some first and second event are accepted in this order, and not in the other with the same state after them."""
        for first, second in itertools.product(firsts, seconds):
            if not self.updates([first, second]):
                # where nothing changes each event is accepted or not, whatever comes before it
                continue
            events = [(clause, list(self.events(clause))) for clause in (first, second)]
            for state in self.states([first, second]):
                for one, other in itertools.product(*([(clause, event) for event in told] for clause, told in events)):
                    there = self.both(state, one, other)
                    if there is not None and self.both(state, other, one) != there:
                        return True
        return False

    def broken(self):
        """The first condition that is broken, or None."""
        if self.refused_end():
            return "M0"
        for name, firsts, seconds in (("M1", self.calls, self.calls), ("M2", self.ends, self.ends), ("M3", self.calls, self.ends)):
            if self.differing(firsts, seconds):
                return name
        return None
