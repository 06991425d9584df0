"""Cases of what `--verbose` says of goals that are left waiting when all files have ended: for which inputs, each by
its class, and why these are not there. Before that it says what it says of builders, which is looked at elsewhere."""
import re

from asking import content_path, nb, numbered
from desks import Derivation

OF_BUILDERS = r"(?:intstore: [a-z]+ [0-9]+ [a-z]+ (?:starts|ends, .*, [0-9]+ s)\n)*"
FAILS, HI = ("fail", "1"), ("text", "hi")
FAILED, WAITS, UNASKED = "it failed 61", "it waits", "nobody was asked for it"


def derivation(name, task, *inputs):
    """The derivation of a task of `nb`, with these inputs."""
    listed = ",".join(f'("{path}",["out"])' for path in sorted(input.path for input in inputs))
    made = Derivation(nb(name, *task).replace("[],[]", f"[{listed}],[]", 1))
    made.admit({input.path: input for input in inputs})
    return made


class File:
    """A file of lines, and the replies that are wanted to them."""

    def __init__(self, users):
        self.lines, self.replies, self.goals = [f"users {users}"], ["- ok"], {}

    def say(self, line, reply="- ok"):
        self.lines.append(line)
        self.replies.append(reply)

    def derive(self, user, *derivations):
        for made in derivations:
            self.say(f"{user} derivation {made.text}", f"{user} drv {made.path} class {made.out}")

    def build(self, user, *derivations):
        for made in derivations:
            self.goals[user] = self.goals.get(user, 0) + 1
            self.say(f"{user} build {made.path}", f"{user} goal {self.goals[user]}")

    def ask(self, user, *derivations):
        """The user adds derivations, and asks that each of them be built."""
        self.derive(user, *derivations)
        self.build(user, *derivations)

    def trust(self, user, other):
        self.say(f"{user} trust {other}", f"{user} ok")

    def offer(self, user, made, content):
        self.say(f"{user} offer {made.path} f:{content.hex()}", f"{user} path {content_path(made.name, content)}")

    def wait(self):
        self.say("wait")


def left(user, number, made, *lacks):
    """What is said of a goal that waits, for these inputs, each with why it is not there; they stand in the order of
    their paths."""
    said = f"intstore: {user} {number} {made.name} waits"
    ordered = sorted(lacks, key=lambda lack: lack[0].path)
    return [f"{said} for {input.out}: {why}" for input, why in ordered] or [said]


def check(cases, name, files, lines, words=("--verbose",)):
    """A case of files, of which these lines are said in the end; those of several users in any order."""
    texts = {f"file{n}": "\n".join(file.lines) for n, file in enumerate(files, 1)}
    with cases.folder(**texts) as folder:
        came = cases.run(folder, *words, *texts)
        said = re.sub(f"^{OF_BUILDERS}", "", came.errors) if words else came.errors
        faults = [] if sorted(said.splitlines()) == sorted(lines) else [f"said {said[:2000]!r}, wanted {lines[:20]}"]
        cases.check(name, folder, came, output="".join(numbered(file.replies) for file in files),
                    errors=re.compile("(?:.*\n)*"), others=faults)


Q, GOOD = derivation("q", FAILS), derivation("g", HI)
P = derivation("p", HI, Q)


def alone(cases):
    """One user, and what he asked for."""
    file = File("alice")
    file.derive("alice", Q)
    file.ask("alice", P)
    file.wait()
    check(cases, "waits_for_what_nobody_was_asked_for", [file], left("alice", 1, P, (Q, UNASKED)))
    check(cases, "waits_are_told_with_verbose_alone", [file], [], words=())
    file.build("alice", Q)
    file.wait()
    check(cases, "waits_for_what_failed", [file], left("alice", 1, P, (Q, FAILED)))
    on, both = derivation("r", HI, P), derivation("b", HI, Q, GOOD)
    file.ask("alice", on, GOOD, both)
    file.wait()
    check(cases, "waits_for_what_waits_and_for_one_of_two", [file], [
        *left("alice", 1, P, (Q, FAILED)), *left("alice", 3, on, (P, WAITS)), *left("alice", 5, both, (Q, FAILED))])
    late = derivation("l", HI, GOOD)
    file.ask("alice", late)
    check(cases, "waits_behind_the_last_wait", [file], [
        *left("alice", 1, P, (Q, FAILED)), *left("alice", 3, on, (P, WAITS)), *left("alice", 5, both, (Q, FAILED)),
        *left("alice", 6, late)])
    several = derivation("s", HI, Q, P, derivation("u", HI))
    file = File("alice")
    file.derive("alice", Q, derivation("u", HI))
    file.ask("alice", P)
    file.build("alice", Q)
    file.ask("alice", several)
    file.wait()
    check(cases, "waits_for_three_inputs", [file], [*left("alice", 1, P, (Q, FAILED)), *left(
        "alice", 3, several, (Q, FAILED), (P, WAITS), (derivation("u", HI), UNASKED))])
    file = File("alice")
    file.ask("alice", GOOD, derivation("o", HI, GOOD))
    file.wait()
    check(cases, "nothing_is_left_waiting", [file], [])


def of_others(cases):
    """What others have counts where they are reached by trust at the end, over others too."""
    for name, trusting, why in (("stranger", [], UNASKED), ("trusted", [("alice", "bob")], FAILED),
                                ("reached", [("alice", "carol"), ("carol", "bob")], FAILED),
                                ("trusting", [("bob", "alice")], UNASKED)):
        file = File("alice bob carol")
        for user, other in trusting:
            file.trust(user, other)
        file.ask("bob", Q)
        file.derive("alice", Q)
        file.ask("alice", P)
        file.wait()
        check(cases, f"waits_with_a_failure_of_one_{name}", [file], left("alice", 1, P, (Q, why)))
    for name, last, lines in (("at_the_end", [], left("alice", 1, P)),
                              ("no_longer", ["alice distrust bob"], left("alice", 1, P, (Q, UNASKED)))):
        file = File("alice bob")
        file.derive("alice", Q)
        file.ask("alice", P)
        file.wait()
        file.derive("bob", Q)
        file.offer("bob", Q, b"offered")
        file.trust("alice", "bob")
        for line in last:
            file.say(line, "alice ok")
        check(cases, f"waits_with_an_offer_of_one_trusted_{name}", [file], lines)


def of_two_files(cases):
    files = File("alice bob"), File("alice bob")
    for user, file in zip(("alice", "bob"), files):
        file.derive(user, Q)
        file.ask(user, P)
        file.wait()
    check(cases, "waits_of_two_files", files, [*left("alice", 1, P, (Q, UNASKED)), *left("bob", 1, P, (Q, UNASKED))])


def many(cases):
    """As many goals as a user may have wait for one input: they are told in the time of a case."""
    count = 10_000
    file = File("alice")
    file.derive("alice", Q, P)
    file.build("alice", *[P] * count)
    lines = [line for number in range(1, count + 1) for line in left("alice", number, P, (Q, UNASKED))]
    check(cases, f"{count}_goals_that_wait", [file], lines)


def waits(cases):
    alone(cases)
    of_others(cases)
    of_two_files(cases)
    many(cases)
