"""Random files of lines. What a line asks for is chosen by what those before it were answered, as tests/sessions.py
says: so most are answered well, some ask for what is not there, and a few are no events."""
import pathlib
import random
import re
import sys

sys.path.append(str(pathlib.Path(__file__).resolve().parents[2]))
from desks import PATH
from sessions import Session
from standards import derivation, sha256, store_path

LINES = 200
USERS = ["alice", "bob", "carol", "dave", "eve"]
# So few names, and so few bytes of files, that users come to the same derivations and the same trees.
NAMES = ["library", "editor", "browser"]
BYTES = ["61", "62", "0a"]
# How often a line is one of these; the others are events.
ODD = 0.04
ODD_LINES = [
    "", "# comment", "alice", "alice fetch", "alice fetch {p1}", "alice fetch {p999}", "alice source .a f:",
    "alice source a f:6", "alice derivation Derive", "alice finish 0 f:", "alice status 01", "users alice", "wait",
    "mallory source a f:"]
# How often an event asks for what may not be there, or not be so.
CARELESS = 0.1
# Of each fourth file the users have so little room that they come to its end; the others have ample room.
SMALL_CHARGE, LARGEST_CHARGE = 6000, 1 << 30
WEIGHTS = {
    "source": 20, "derivation": 30, "offer": 30, "fetch": 15, "trust": 15, "distrust": 6, "pin": 10, "unpin": 5,
    "closure": 20, "take": 15, "build": 20, "status": 10, "plan": 30, "start": 30, "finish": 25, "fail": 4,
    "forget": 12,
}


def realised(desk):
    """The classes of which he sees a record."""
    return sorted({out for near in desk.view() for out, _, _ in near.records})


def is_realised(desk, derivation):
    return {desk.derivations[path].out for path in derivation.inputs} <= set(realised(desk))


class Writer:
    """A file as it grows: its lines, what is printed for each, and in which lines a path or a class was told."""

    def __init__(self, seed):
        self.random, self.charge = random.Random(seed), LARGEST_CHARGE if seed % 4 else SMALL_CHARGE
        self.session, self.lines, self.printed, self.tellers = Session(self.charge), [], [], {}
        self.users = self.random.sample(USERS, self.random.randint(2, len(USERS)))
        self.add(" ".join(["users", *self.users]))
        self.desks = list(self.session.desks.values())
        while len(self.lines) < LINES:
            self.add(self.random.choice(ODD_LINES) if self.random.random() < ODD else self.event())

    def add(self, line):
        self.lines.append(line)
        self.printed.append(self.session.printed(line))
        for path, letters in zip(self.session.told[-1], ("ph", "cg")):
            if path:
                self.tellers.setdefault(path, []).append((letters, len(self.lines)))

    def event(self):
        while True:
            desk = self.random.choice(self.desks)
            verb, = self.random.choices(list(WEIGHTS), WEIGHTS.values())
            words = getattr(self, verb)(desk)
            if words:
                return f"{desk.name} {verb} {words}"

    # ---- parts of lines

    def one_of(self, fitting, others):
        """One that fits, now and then one of the others, and nothing where there is none."""
        items = list(others if self.random.random() < CARELESS else fitting)
        return self.random.choice(items) if items else None

    def some_of(self, items, most):
        items = list(items)
        return sorted(self.random.sample(items, self.random.randint(0, min(most, len(items)))))

    def path(self, path):
        """A path or a class, as an expansion where a line told it."""
        if path not in self.tellers:
            return path
        letters, number = self.random.choice(self.tellers[path])
        return f"{{{letters[0]}{number}}}"

    def hash_part(self, path):
        """Its digits, in base 16."""
        if path not in self.tellers:
            return path[11:43].encode().hex()
        letters, number = self.random.choice(self.tellers[path])
        return f"{{{letters[1]}{number}}}"

    def content(self, paths):
        return "".join(map(self.hash_part, self.some_of(paths, 3))) + self.random.choice(BYTES)

    def tree(self, paths):
        """A tree in which some of these hash parts stand."""
        kind = self.random.choice("fffxld")
        if kind != "d":
            return f"{kind}:{self.content(paths)}"
        names = self.some_of((b"bin", b"lib", b"read me"), 3)
        return f"d({','.join(f'{name.hex()}={self.tree(paths)}' for name in names)})"

    # ---- the words of each event

    def source(self, desk):
        return f"{self.random.choice(NAMES)} {self.tree(sorted(desk.held()))}"

    def derivation(self, desk):
        """One that another user has, or a new one."""
        others = [known for known in self.derivations_of_all() if known.path not in desk.derivations]
        copied = self.one_of([known for known in others if set(known.inputs) <= set(desk.derivations)
                              and set(known.sources) <= set(desk.sources)], others)
        if copied and self.random.random() < 0.5:
            text = copied.text
        else:
            inputs, sources = self.some_of(desk.derivations, 2), self.some_of(desk.sources, 1)
            outs = [desk.derivations[path].out for path in inputs]
            text = derivation(inputs, sources, self.some_of(["text", *outs], 2), self.random.choice(NAMES))
        return re.sub(PATH, lambda found: self.path(found[0]), text)

    def derivations_of_all(self):
        return [known for desk in self.desks for known in desk.derivations.values()]

    def offer(self, desk):
        known = self.one_of(desk.derivations.values(), self.derivations_of_all())
        if not known:
            return None
        candidates = sorted(desk.candidates(known)) if known.path in desk.derivations else []
        return f"{self.path(known.path)} {self.tree([known.out, *candidates])}"

    def fetch(self, desk):
        path = self.one_of(desk.held(), self.tellers)
        return path and self.path(path)

    def trust(self, desk):
        return self.one_of([user for user in self.users if user not in desk.trusted | {desk.name}], USERS)

    def distrust(self, desk):
        return self.one_of(sorted(desk.trusted), USERS)

    def pin(self, desk):
        pairs = sorted({(out, path) for near in desk.view() for out, path, _ in near.records})
        pair = self.one_of(pairs, ((out, path) for out in self.tellers for path in self.tellers))
        return pair and " ".join(map(self.path, pair))

    def unpin(self, desk):
        out = self.one_of(desk.pins, self.tellers)
        return out and self.path(out)

    def forget(self, desk):
        """A record that he has, or, now and then, one that another has or none."""
        own = sorted({(out, path) for out, path, _ in desk.records})
        pair = self.one_of(own, ((out, path) for out in self.tellers for path in self.tellers))
        return pair and " ".join(map(self.path, pair))

    def closure(self, desk):
        out = self.one_of(realised(desk), self.tellers)
        return out and self.path(out)

    take = closure

    def build(self, desk):
        ready = [known for known in desk.derivations.values() if is_realised(desk, known)]
        known = self.one_of(ready, self.derivations_of_all())
        return known and self.path(known.path)

    def goal(self, desk, fits):
        fitting = [number for number, goal in enumerate(desk.goals, 1) if fits(goal, number)]
        return str(self.one_of(fitting, range(1, len(desk.goals) + 2)) or "")

    def status(self, desk):
        return self.goal(desk, lambda goal, number: True)

    def plan(self, desk):
        return self.goal(desk, lambda goal, _: desk.told(goal) == "waiting" and is_realised(desk, goal.derivation))

    def start(self, desk):
        return self.goal(desk, lambda goal, _: not goal.job and goal.state == "planned")

    def led(self, desk):
        return self.goal(desk, lambda goal, number: goal.job == (desk.name, number))

    def finish(self, desk):
        """What its builder wrote refers to itself, and to what the goal was planned on."""
        number = self.led(desk)
        if not number:
            return None
        paths = []
        if int(number) <= len(desk.goals) and (goal := desk.goals[int(number) - 1]).text:
            paths = [store_path("scratch", sha256(goal.text.encode()), goal.derivation.name), *sorted(goal.labels())]
        return f"{number} {self.random.choice(['n:00', *[self.tree(paths)] * 20])}"

    def fail(self, desk):
        number = self.led(desk)
        return number and f"{number} {self.random.randrange(256)}"
