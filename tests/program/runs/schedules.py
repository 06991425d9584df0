"""Cases of when goals are built: beside a schedule that is computed here, over the sessions of several users, and beside
strangers whose builders take long. Builders are scripts of the shell that sleep."""
import itertools
import random
import re

from asking import content_path, numbered, shell
from desks import Derivation

# What a goal may take beside its builder, in seconds, and how much longer than the schedule all may take.
A_GOAL, SLOWER = 0.01, 1.05

SLEEPS = 'sleep "$1"; exec builders/nb text "$2"'
NOTED = 'sleep "$1"; cut -d " " -f 1 /proc/uptime >"at.$2"; exec builders/nb text "$2"'


def sleeping(name, seconds, *inputs, script=SLEEPS):
    """A derivation whose builder sleeps so long, with these inputs."""
    listed = ",".join(f'("{path}",["out"])' for path in sorted(input.path for input in inputs))
    text = shell(name, script, f"{seconds:.3f}", name).replace("[],[]", f"[{listed}],[]", 1)
    made = Derivation(text)
    made.admit({input.path: input for input in inputs})
    return made


class File:
    """The lines of a file, and the replies that are wanted."""

    def __init__(self, users, *trusts):
        self.lines, self.replies, self.goals = [f"users {users}"], ["- ok"], {}
        for user, other in trusts:
            self.say(f"{user} trust {other}", f"{user} ok")

    def say(self, line, reply="- ok"):
        self.lines.append(line)
        self.replies.append(reply)

    def derive(self, user, *derivations):
        for made in derivations:
            self.say(f"{user} derivation {made.text}", f"{user} drv {made.path} class {made.out}")

    def build(self, user, *derivations):
        for made in derivations:
            number = self.goals[user] = self.goals.get(user, 0) + 1
            self.say(f"{user} build {made.path}", f"{user} goal {number}")

    def done(self, user, number, made):
        self.say(f"{user} status {number}", f"{user} done {content_path(made.name, made.name.encode())}")

    def text(self):
        return "".join(f"{line}\n" for line in self.lines)


def check(cases, name, files, *, workers, most=None, others=lambda folder: []):
    """A case of files, of which all replies are as wanted; it takes so many seconds at most."""
    texts = {f"file{n}": file.text() for n, file in enumerate(files, 1)}
    with cases.folder(**texts) as folder:
        came = cases.run(folder, *texts, workers=workers)
        slow = [] if most is None or came.seconds <= most else [f"it took {came.seconds:.2f} s, and {most:.2f} are wanted"]
        cases.check(name, folder, came, output="".join(numbered(file.replies) for file in files),
                    others=[*slow, *others(folder)])


# ---- beside a schedule

def scheduled(seconds, inputs, workers):
    """How long goals take by so many workers, each of whom takes the ready goal of the least number as soon as he is
    free."""
    ends, free, running, clock = {}, workers, [], 0.0
    waiting = sorted(seconds)
    while waiting or running:
        for goal in [goal for goal in waiting if all(ends.get(input, clock + 1) <= clock for input in inputs[goal])]:
            if free == 0:
                break
            waiting.remove(goal)
            ends[goal] = clock + seconds[goal]
            running.append(goal)
            free -= 1
        clock = min(ends[goal] for goal in running)
        over = [goal for goal in running if ends[goal] <= clock]
        free += len(over)
        running = [goal for goal in running if goal not in over]
    return clock


def beside_a_schedule(cases):
    """Sixty goals that sleep, each with up to three inputs among those before it."""
    chance = random.Random(60)
    count = 60
    seconds = {goal: chance.choice((0.05, 0.1, 0.2, 0.4)) for goal in range(count)}
    inputs = {goal: sorted(chance.sample(range(max(0, goal - 12), goal), min(goal, chance.randrange(4))))
              for goal in range(count)}
    made = []
    for goal in range(count):
        made.append(sleeping(f"g{goal}", seconds[goal], *(made[input] for input in inputs[goal])))
    for workers in (1, 2, 3, 4, 7):
        file = File("alice")
        file.derive("alice", *made)
        file.build("alice", *made)
        file.say("wait")
        for number, derivation in enumerate(made, 1):
            file.done("alice", number, derivation)
        most = SLOWER * scheduled(seconds, inputs, workers) + A_GOAL * count
        check(cases, f"sixty_goals_as_scheduled_by_{workers}", [file], workers=workers, most=most)


def long_beside_a_chain(cases):
    """One goal of two seconds beside a chain of four that take half a second each."""
    long, chain = sleeping("long", 2.0), []
    for place in range(4):
        chain.append(sleeping(f"c{place}", 0.5, *chain[-1:]))
    for workers in (2, 3, 7):
        file = File("alice")
        file.derive("alice", long, *chain)
        file.build("alice", long, *chain)
        file.say("wait")
        for number, made in enumerate([long, *chain], 1):
            file.done("alice", number, made)
        check(cases, f"long_goal_beside_a_chain_by_{workers}", [file], workers=workers, most=2.6)


# ---- sessions of friends

def chains_of_friends(cases):
    """A chain of goals, each link of it asked for by a session of its own: with trust in one another all are done,
    whoever comes first."""
    chain = []
    for place in range(3):
        chain.append(sleeping(f"l{place}", 0.2, *chain[-1:]))
    names = ("alice", "bob", "carol")
    for count, workers in itertools.product((2, 3), (1, 2, 4)):
        for order in itertools.permutations(range(count)):
            users = names[:count]
            trusts = [(user, other) for user in users for other in users if user != other]
            files = []
            for place in order:
                user = users[place]
                file = File(" ".join(users), *[pair for pair in trusts if pair[0] == user])
                file.derive(user, *chain[:place + 1])
                file.build(user, *chain[:place + 1])
                file.say("wait")
                for number, made in enumerate(chain[:place + 1], 1):
                    file.done(user, number, made)
                files.append(file)
            check(cases, f"chain_of_{count}_sessions_{''.join(map(str, order))}_by_{workers}", files, workers=workers)


# ---- strangers

def noted(folder, name):
    """When a builder that notes that was at its end, in seconds since the machine has run."""
    return float((folder / f"at.{name}").read_text())


def strangers(cases):
    """A stranger's builders take long. Bob's second goal is built when his first is, and not when theirs are."""
    for workers in (1, 2):
        alice, bob = File("alice bob"), File("alice bob")
        for place in range(6):
            long = sleeping(f"s{place}", 3.0, script=NOTED)
            alice.derive("alice", long)
            alice.build("alice", long)
        alice.say("wait")
        first, second = (sleeping(name, 0.2, script=NOTED) for name in ("first", "second"))
        for number, made in enumerate((first, second), 1):
            bob.derive("bob", made)
            bob.build("bob", made)
            bob.say("wait")
            bob.done("bob", number, made)

        def is_held(folder):
            came, long = noted(folder, "second"), min(noted(folder, f"s{place}") for place in range(6))
            return [] if came < long else [f"Bob's second goal was built {came - long:.2f} s after a stranger's first"]
        check(cases, f"stranger_whose_builders_take_long_by_{workers}", [alice, bob], workers=workers, others=is_held)


def trust_while_others_wait(cases):
    """Bob's goal lacks what Alice has built, and his session comes to trust her while it is there: the next wait of
    his builds it."""
    library, program = sleeping("library", 0.3), None
    program = sleeping("program", 0.1, library)
    alice, bob = File("alice bob"), File("alice bob")
    alice.derive("alice", library)
    alice.build("alice", library)
    alice.say("wait")
    alice.done("alice", 1, library)
    slow = sleeping("slow", 1.0)
    bob.derive("bob", library, program, slow)
    bob.build("bob", program, slow)
    bob.say("wait")
    bob.say("bob status 1", "bob waiting")
    bob.say("bob trust alice", "bob ok")
    bob.say("wait")
    bob.done("bob", 1, program)
    check(cases, "trust_that_is_given_between_waits", [alice, bob], workers=2)


def refused_plans(cases):
    """A goal whose plan is refused is tried once a wait, and what else there is is built."""
    hi = sleeping("hi", 0.0)
    file = File("alice")
    file.derive("alice", hi)
    file.build("alice", hi, hi)
    file.say("wait")
    file.say("wait")
    file.done("alice", 1, hi)
    file.done("alice", 2, hi)
    check(cases, "goals_of_one_derivation", [file], workers=3)


def schedules(cases):
    beside_a_schedule(cases)
    long_beside_a_chain(cases)
    chains_of_friends(cases)
    strangers(cases)
    trust_while_others_wait(cases)
    refused_plans(cases)
