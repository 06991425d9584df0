"""Derivations, desks, goals and jobs, and what each event is answered, as docs/events.md and docs/definitions.md say.

Nothing of the store is used: each user has a desk of his own, with whole trees on it.
"""
import re

from standards import (
    DIGITS, Refused, archive, places_of, put, put_truly, quoted, read_archive, settled, sha256, store_path, tree_text)

NAME = r"(?!\.)[A-Za-z0-9+\-._?=]{1,211}"
PATH = rf"/nix/store/[{DIGITS}]{{32}}-{NAME}"
STRING = r'"(?:[ !#-\[\]-~]|\\["\\nrt])*"'
INPUT, PAIR = rf'\(({STRING}),\["out"\]\)', rf"\(({STRING}),({STRING})\)"


def listed(item):
    item = item.replace("(" + STRING + ")", STRING)
    return rf"\[((?:{item}(?:,{item})*)?)\]"


DERIVATION = re.compile(
    rf'Derive\(\[\("out","","",""\)\],{listed(INPUT)},{listed(STRING)},'
    rf"({STRING}),({STRING}),{listed(STRING)},{listed(PAIR)}\)")


def need(holds, why):
    if not holds:
        raise Refused(why)


# ---- derivations

def value(string):
    escapes = {"n": "\n", "r": "\r", "t": "\t"}
    return re.sub(r"\\(.)", lambda found: escapes.get(found[1], found[1]), string[1:-1])


def values(text):
    return [value(string) for string in re.findall(STRING, text)]


def ascends(items):
    return all(a < b for a, b in zip(items, items[1:]))


class Derivation:
    def __init__(self, text):
        found = DERIVATION.fullmatch(text)
        need(found, "31 BadDerivation")
        self.text, self.before_inputs, self.behind_inputs = text, text[:found.start(1)], text[found.end(1):]
        self.inputs = [value(path) for path in re.findall(INPUT, found[1])]
        self.sources = values(found[2])
        pairs = [(value(key), value(text)) for key, text in re.findall(PAIR, found[6])]
        environment = dict(pairs)
        self.platform, self.builder, self.arguments, self.pairs = found[3], value(found[4]), values(found[5]), pairs
        self.name = environment.get("name", "")
        well_formed = (
            ascends(self.inputs) and ascends(self.sources) and ascends([key for key, _ in pairs])
            and all(re.fullmatch(PATH, path) for path in self.inputs + self.sources)
            and all(path.endswith(".drv") for path in self.inputs)
            and len(value(found[3])) <= 255 and 1 <= len(self.builder) <= 255
            and all(re.fullmatch(r"(?!INPUTS$)[A-Za-z_][A-Za-z0-9_]{0,63}", key) for key in environment)
            and re.fullmatch(NAME, self.name) and len(self.name) <= 207 and environment.get("out") == "")
        need(well_formed, "31 BadDerivation")
        references = "".join(f":{path}" for path in sorted({*self.inputs, *self.sources}))
        self.path = store_path("text" + references, sha256(text.encode()), self.name + ".drv")

    def admit(self, known):
        """The mask, the rank and the class follow from those of the inputs."""
        masks = sorted(known[path].mask for path in self.inputs)
        inputs = ",".join(f'({quoted(mask)},["out"])' for mask in masks)
        masked = sha256((self.before_inputs + inputs + self.behind_inputs).encode())
        self.mask, self.rank = masked.hex(), 1 + max((known[path].rank for path in self.inputs), default=0)
        need(self.rank <= 64, "34 RankTooHigh")
        self.out = store_path("output:out", masked, self.name)

    def resolved(self, serving):
        """The text that is built, where these paths serve the classes of the inputs: they are sources of it, and
        their hash parts stand in the place of those of the classes in its strings."""
        images = {out[11:43]: path[11:43] for out, path in serving.items()}

        def written(text):
            string = "f", text.encode()
            places_of(string, images)
            return quoted(put(string, images)[1].decode())
        sources = ",".join(map(quoted, sorted({*self.sources, *serving.values()})))
        arguments = ",".join(map(written, self.arguments))
        texts = {key: quoted(text) if key == "name" else written(text) for key, text in self.pairs}
        pairs = ",".join(f"({quoted(key)},{text})" for key, text in texts.items())
        return (f'Derive([("out","","","")],[],[{sources}],{self.platform},{written(self.builder)},'
                f"[{arguments}],[{pairs}])")


# ---- desks

def by_path(label):
    """The place of a label among others: a class goes before none, which is that of a source."""
    path, out = label
    return path, out is None, out or ""


def served(record, tree, serving):
    """What serves a class, of a record that is chosen, where these paths serve the classes of its labels: where
    they are others than it names, their hash parts are put in the place of those, and it gets a path anew."""
    out, own, labels = record
    paths = {path: serving[of] if of else path for path, of in labels}
    replaced = {path: new for path, new in paths.items() if path != new}
    if not replaced:
        return record, tree
    need(own not in replaced.values(), "52 RewriteRefused Accidental")
    tree = put_truly(tree, {part[11:43]: new[11:43] for part, new in {own: own, **paths}.items()})
    least = {}
    for label in sorted(((paths[path], of) for path, of in labels), key=by_path):
        least.setdefault(label[0], label)
    new, _, _, tree = settled(tree, own[11:43], own[44:], sorted(least))
    return (out, new, tuple(least.values())), tree


class Goal:
    """What is asked to be built: the derivation; how far it is, as it is told; the job in which it is built,
    which is the name of the user who leads it and the number of his goal; and, once it is planned, the records
    and the sources that it is built from, each with its tree, the ranks of classes, and its text."""

    def __init__(self, derivation):
        self.derivation, self.state, self.job = derivation, "waiting", None
        self.records, self.sources, self.ranks, self.text = {}, {}, {}, None

    def becomes(self, state):
        self.state, self.job = state, None

    def built_from(self):
        return self.text, set(self.records), set(self.sources)

    def labels(self):
        """What an output may refer to: each path with its least class, a source behind all classes."""
        labels = {path: None for path in self.sources}
        for out, path, _ in self.records:
            labels[path] = min(labels.get(path) or out, out)
        return labels

    def record(self, tree):
        """The record of a tree that was built for it, under the path that follows from the text; and its tree."""
        labels, name = self.labels(), self.derivation.name
        own = store_path("scratch", sha256(self.text.encode()), name)
        path, references, _, tree = settled(tree, own[11:43], name, sorted(labels))
        return (self.derivation.out, path, tuple((reference, labels[reference]) for reference in references)), tree


class Desk:
    """What a user has: trees of sources by their paths, derivations by theirs, and for each record, which is
    its class, its path and its labels, a tree. A label is a path, and a class or nothing for a source.
    Besides he has a path for each class that he pinned, those whom he trusts, the ranks of classes, and his
    goals, which are numbered from 1."""

    def __init__(self, name, limit, desks):
        self.name, self.limit, self.desks, self.sources, self.derivations, self.records = name, limit, desks, {}, {}, {}
        self.pins, self.trusted, self.ranks, self.goals = {}, set(), {}, []

    def keep(self, sources, derivations, records):
        """Has these from now on, unless that is more than a user may have."""
        held = {**sources, **{path: tree for (_, path, _), tree in records.items()}}
        charge = sum(len(archive(tree)) for tree in held.values())
        few = len(sources) <= 1024 and len(derivations) <= 1024 and len(records) <= 4096
        need(few and charge <= self.limit, "13 Quota")
        self.sources, self.derivations, self.records = sources, derivations, records

    def held(self):
        return {**self.sources, **{path: tree for (_, path, _), tree in self.records.items()}}

    def source(self, name, tree):
        path = store_path("source", sha256(archive(tree)), name)
        if path not in self.sources:
            self.keep({**self.sources, path: tree}, self.derivations, self.records)
        return f"path {path}", path, None

    def derivation(self, text):
        need(len(text) <= 1 << 20, "22 TooLarge")
        new = Derivation(text)
        if new.path not in self.derivations:
            need(all(path in self.derivations for path in new.inputs), "32 MissingInput")
            need(all(path in self.sources for path in new.sources), "32 MissingInput")
            new.admit(self.derivations)
            self.keep(self.sources, {**self.derivations, new.path: new}, self.records)
        known = self.derivations[new.path]
        return f"drv {known.path} class {known.out}", known.path, known.out

    def candidates(self, derivation):
        """What an output may refer to: each path with its least class, a source behind all classes."""
        classes = {self.derivations[path].out for path in derivation.inputs}
        below = {(path, out) for out, path, _ in self.records if out in classes}
        while more := {label for out, path, labels in self.records if (path, out) in below
                       for label in labels if label[1]} - below:
            below |= more
        labels = {path: None for path in self.sources}
        for path, out in below:
            labels[path] = min(labels.get(path) or out, out)
        return labels

    def offer(self, path, tree):
        need(path in self.derivations, "41 UnknownDerivation")
        derivation = self.derivations[path]
        labels = self.candidates(derivation)
        path, references, _, tree = settled(tree, derivation.out[11:43], derivation.name, sorted(labels))
        record = derivation.out, path, tuple((reference, labels[reference]) for reference in references)
        if record not in self.records:
            self.keep(self.sources, self.derivations, {**self.records, record: tree})
            self.ranks[derivation.out] = derivation.rank
        return f"path {path}", path, None

    def fetch(self, path):
        need(path in self.held(), "53 NotHeld")
        return f"tree {tree_text(self.held()[path])}", None, None

    def trust(self, name):
        need(name in self.desks, "11 UnknownUser")
        self.trusted.add(name)
        return "ok", None, None

    def distrust(self, name):
        need(name in self.desks, "11 UnknownUser")
        self.trusted.discard(name)
        return "ok", None, None

    def pin(self, out, path):
        need(out in self.pins or len(self.pins) < 4096, "13 Quota")
        self.pins[out] = path
        return "ok", None, None

    def unpin(self, out):
        self.pins.pop(out, None)
        return "ok", None, None

    def forget(self, out, path):
        """Has the records of a class at a path no longer, unless what he has needs one: a label of another record,
        or a goal that is built, as he sees it. One that is built out of his sight waits."""
        left = {record: tree for record, tree in self.records.items() if record[:2] != (out, path)}
        need(len(left) < len(self.records), "53 NotHeld")
        built = [goal for goal in self.goals if goal.job and any(record[:2] == (out, path) for record in goal.records)]
        need(not any((path, out) in labels for _, _, labels in left), "55 InUse")
        need(not any(self.reaches(goal.job[0]) for goal in built), "55 InUse")
        for goal in built:
            goal.becomes("waiting")
        self.records = left
        return "ok", None, None

    def view(self):
        """The desks of those whom he reaches, his own among them."""
        near, seen = [self], []
        while near:
            desk = near.pop()
            if desk not in seen:
                seen.append(desk)
                near += [self.desks[name] for name in desk.trusted]
        return seen

    def chosen(self, out):
        """The least record that he sees of a class, of those with the pinned path if there are any."""
        of_class = {record: tree for desk in self.view() for record, tree in desk.records.items() if record[0] == out}
        need(of_class, "51 NotRealised")
        wanted = [record for record in of_class if record[1] == self.pins.get(out)] or list(of_class)
        record = min(wanted, key=lambda record: (record[1], [by_path(label) for label in record[2]]))
        return record, of_class[record]

    def reaches(self, name):
        return self.desks[name] in self.view()

    def entries(self, outs, sources=()):
        """The closure of classes and of sources: which paths serve the classes, the records that do, and the
        sources, each with its tree, and the ranks of the classes."""
        chosen, wanted = {}, list(outs)
        while wanted:
            out = wanted.pop()
            if out not in chosen:
                chosen[out] = self.chosen(out)
                wanted += [of for _, of in chosen[out][0][2] if of]
        sources = {path for (_, _, labels), _ in chosen.values() for path, of in labels if of is None} | set(sources)
        need(len(chosen) + len(sources) <= 1024, "54 ClosureTooLarge")
        ranks = {of: rank for desk in self.view() for of, rank in desk.ranks.items()}
        records, serving = {}, {}
        for of in sorted(chosen, key=lambda of: (ranks[of], of)):
            record, tree = served(*chosen[of], serving)
            records[record], serving[of] = tree, record[1]
        trees = {path: tree for desk in self.view() for path, tree in desk.sources.items()}
        return serving, records, {path: trees[path] for path in sources}, {of: ranks[of] for of in chosen}

    def closure(self, out):
        _, records, sources, _ = self.entries([out])
        entries = [((path, of), labels, tree) for (of, path, labels), tree in records.items()]
        entries += [((path, None), (), tree) for path, tree in sources.items()]
        texts = [closure_entry(*entry) for entry in sorted(entries, key=lambda entry: by_path(entry[0]))]
        return " ".join([f"closure {len(texts)}", *texts]), None, None

    def take(self, out):
        serving, records, sources, ranks = self.entries([out])
        self.copy(records, sources, ranks)
        return f"path {serving[out]}", serving[out], None

    def copy(self, records, sources, ranks):
        self.keep({**self.sources, **sources}, self.derivations, {**self.records, **records})
        self.ranks |= ranks

    def goal(self, number):
        need(number <= len(self.goals), "42 UnknownGoal")
        return self.goals[number - 1]

    def told(self, goal):
        """How far a goal is: one that is built in a job whose leader is out of reach counts as waiting."""
        if not goal.job:
            return goal.state
        leader, number = goal.job
        return f"building {leader} {number}" if self.reaches(leader) else "waiting"

    def status(self, number):
        told = self.told(self.goal(number))
        return told, told.removeprefix("done ") if told.startswith("done ") else None, None

    def build(self, path):
        need(path in self.derivations, "41 UnknownDerivation")
        need(len(self.goals) < 65535, "13 Quota")
        self.goals.append(Goal(self.derivations[path]))
        return f"goal {len(self.goals)}", None, None

    def plan(self, number):
        goal = self.goal(number)
        need(self.told(goal) == "waiting", "43 WrongState")
        try:
            outs = {self.derivations[path].out for path in goal.derivation.inputs}
            serving, records, sources, ranks = self.entries(outs, goal.derivation.sources)
            goal.text = goal.derivation.resolved({out: serving[out] for out in outs})
            goal.records, goal.sources, goal.ranks = records, sources, ranks
            goal.becomes("planned")
        except Refused as why:
            if why.number() == 51:
                raise
            goal.becomes(f"failed {why.number()}")
        return self.status(number)

    def start(self, number):
        goal = self.goal(number)
        need(not goal.job and goal.state == "planned", "43 WrongState")
        built = self.built_again(goal)
        try:
            self.copy(goal.records, goal.sources, goal.ranks)
            if built:
                goal.becomes(f"done {self.record(goal, *built)}")
            else:
                running = [other.job for desk in self.view() if desk.reaches(self.name) for other in desk.led()
                           if other.built_from() == goal.built_from()]
                goal.job = min(running, default=(self.name, number))
        except Refused:
            goal.becomes("failed 13")
        return self.status(number)

    def built_again(self, goal):
        """What was built already from the same for one whom he reaches, and is on that one's desk still, with labels
        that the closure gives: the record of the least path, for the goal's own class, and its tree."""
        labels = set(goal.labels().items())
        found = {record: tree for desk in self.view() for other in desk.goals
                 if other.state.startswith("done ") and other.built_from() == goal.built_from()
                 for record, tree in desk.records.items()
                 if record[:2] == (other.derivation.out, other.state.removeprefix("done ")) and labels.issuperset(record[2])}
        if not found:
            return None
        record = min(found, key=lambda record: record[1])
        return (goal.derivation.out, *record[1:]), found[record]

    def record(self, goal, record, tree):
        """Has the record of a goal, unless that is more than a user may have. Its path."""
        if record not in self.records:
            self.copy({record: tree}, {}, {goal.derivation.out: goal.derivation.rank})
        return record[1]

    def led(self):
        return [goal for number, goal in enumerate(self.goals, 1) if goal.job == (self.name, number)]

    def end(self, number, change):
        """What becomes of the goals of a job that ends: its leader has to be within reach."""
        job = self.name, number
        need(self.goal(number).job == job, "43 WrongState")
        for _, desk in sorted(self.desks.items()):
            for goal in [goal for goal in desk.goals if goal.job == job]:
                goal.becomes(change(desk, goal) if desk.reaches(self.name) else "waiting")
        return self.status(number)

    def finish(self, number, data):
        tree = read_archive(data)
        return self.end(number, lambda desk, goal: desk.finished(goal, tree))

    def finished(self, goal, tree):
        if not tree:
            return "failed 62"
        try:
            return f"done {self.record(goal, *goal.record(tree))}"
        except Refused as why:
            return f"failed {why.number()}"

    def fail(self, number, _):
        return self.end(number, lambda desk, goal: "failed 61")


def labelled(label):
    return f"{label[0]}@{label[1] or 'source'}"


def closure_entry(label, labels, tree):
    path, out = label
    return f"{path}({out or 'source'};{','.join(map(labelled, labels))};{len(archive(tree))})"
