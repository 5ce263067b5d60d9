"""Small policies at random, for the scripts of tests/."""

RELATIONS = ["==", "!=", "<", "<=", ">", ">="]


class Draws:
    """Policies for these methods, with numbers that are at most so great, and at most so many clauses. A method is asked about its
    argument where it has one, `int a`."""

    def __init__(self, draw, methods, greatest, clauses=3):
        self.draw, self.methods, self.greatest, self.clauses, self.most = draw, methods, greatest, clauses, 1
        self.variables = {}

    def atom(self, bases):
        name, kind = self.draw.choice(bases)
        if kind == "bool":
            return f"{name} {self.draw.choice(RELATIONS[:2])} {self.draw.choice(('true', 'false'))}"
        return f"{name} {self.draw.choice(RELATIONS)} {self.draw.randint(0, self.most)}"

    def update(self, name):
        if self.variables[name] == "bool":
            return f"{name} = {self.draw.choice(('true', 'true', 'false'))};"
        number = self.draw.randint(1, 2)
        return self.draw.choice((f"{name} = {self.draw.randint(0, self.most)};", f"{name} = {name} + {number};", f"{name} = {name} + {number};", f"{name} = {name} - {number};"))

    def block(self):
        names = [name for name in self.variables if self.draw.randrange(3) == 0]
        return "{ " + " ".join(map(self.update, names)) + " }"

    def clause(self, phase, method):
        bases = list(self.variables.items())
        head = method
        if phase == "BEFORE" and "(int a)" in method:
            bases.append(("a", "int"))
        if phase == "AFTER" and not method.startswith("void"):
            kind, rest = method.split(" ", 1)
            head = f"{kind} r = {rest}"
            bases.append(("r", "bool" if kind == "boolean" else "int"))
        branches = []
        for _ in range(self.draw.randint(0 if phase == "BEFORE" else 1, 2)):
            atoms = " && ".join(self.atom(bases) for _ in range(self.draw.randint(1, 2))) if bases else "true"
            branches.append(f"{atoms} -> {self.block()}")
        # an end that is refused is a race by itself, so that most of them have ELSE
        if self.draw.randrange(8) < (3 if phase == "BEFORE" else 7):
            branches.append("ELSE -> { }" if self.draw.randrange(2) else f"ELSE -> {self.block()}")
        return f"{phase} {head} PERFORM {' '.join(branches)}"

    def policy(self):
        self.most = self.draw.randint(1, self.greatest)
        self.variables = {"n": "int", "p": "bool", "m": "int"}
        for name in list(self.variables)[self.draw.randint(1, 3) :]:
            del self.variables[name]
        state = " ".join(f"int {name} = 0;" if kind == "int" else f"bool {name} = false;" for name, kind in self.variables.items())
        events = [(phase, method) for phase in ("BEFORE", "AFTER", "EXCEPTIONAL") for method in self.methods]
        chosen = self.draw.sample(events, self.draw.randint(1, self.clauses))
        clauses = "\n".join(self.clause(*event) for event in chosen)
        return f"MAXINT {self.most} SCOPE Session SECURITY STATE {state}\n{clauses}\n".encode("ascii")
