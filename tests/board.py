#!/usr/bin/env python3
"""What a board of 8 sessions and 3 builders should give: random lines for `board_trials`, and a check of what it printed.

    board.py lines SEED ROUNDS > LINES        board.py check LINES PRINTED

The check goes through the lines with a board of its own, which looks at all goals each time.
"""
import random
import sys

SEATS, USERS, BUILDERS = 8, 5, 3


def path(number):
    return "/nix/store/" + "0" * 31 + "0123456789abcdfghijklmnpqrsvwxyz"[number % 32] + f"-c{number}"


def lines(seed, rounds):
    chance = random.Random(seed)
    for _ in range(rounds):
        yield "new"
        goals, waiting = [], set()
        for seat in range(SEATS):
            yield f"workers {seat} {chance.randint(0, 3)}"
        for _ in range(chance.randint(20, 400)):
            call = chance.random()
            seat = chance.randrange(SEATS)
            if call < 0.08 or not goals:
                user, number = chance.randrange(USERS), chance.randrange(12)
                reached = chance.getrandbits(USERS) | 1 << user
                yield f"want {seat} {user} {number} {path(chance.randrange(8))} {reached}"
                goals.append((user, number))
                continue
            user, number = chance.choice(goals)
            if call < 0.14:
                yield f"open {seat}"
                waiting.add(seat)
            elif call < 0.16:
                yield f"close {seat}"
                waiting.discard(seat)
            elif call < 0.55:
                if waiting:
                    yield f"next {chance.choice(sorted(waiting))}"
            elif call < 0.80:
                leader = chance.choice(goals) if chance.random() < 0.8 else (chance.randrange(USERS), 20)
                how = chance.choice(["over", "ready", "ready", f"lacks {path(chance.randrange(8))}", f"built {leader[0]} {leader[1]}"])
                yield f"file {user} {number} {chance.getrandbits(USERS) | 1 << user} {how}"
            elif call < 0.92:
                yield f"ended {user} {number}"
            elif call < 0.95:
                yield f"came {path(chance.randrange(10))}"
            elif call < 0.97:
                yield f"jobended {user} {chance.choice([number, 20])}"
            elif call < 0.99:
                yield f"trust {chance.randrange(USERS)}"
            else:
                yield f"workers {seat} {chance.randint(0, 3)}"


class Goal:
    def __init__(self, seat, user, number, made, reached):
        self.seat, self.user, self.number, self.made, self.reached = seat, user, number, made, reached
        self.stage, self.thing, self.since = "woken", None, 0


class Board:
    def __init__(self):
        self.goals, self.last, self.count, self.missed, self.trusted = {}, {}, 0, 0, 0
        self.waiting = set()
        self.workers, self.busy = [0] * SEATS, [0] * SEATS
        self.running, self.served, self.given = [0] * USERS, [0] * USERS, 0

    def know(self, thing):
        self.last.setdefault(thing, self.missed)

    def come(self, thing):
        self.count += 1
        if thing not in self.last:
            self.missed = self.count
            return
        self.last[thing] = self.count
        for goal in self.goals.values():
            if goal.stage == "waits" and goal.thing == thing:
                goal.stage = "woken"

    def under_way(self, goal):
        return goal.stage not in ("waits", "over") and goal.seat in self.waiting

    def hangs_on(self, goal, other):
        if goal.stage != "waits":
            return False
        if goal.thing == (other.user, other.number):
            return True
        return goal.thing == other.made and goal.reached >> other.user & 1 == 1

    def is_led(self, seat):
        seen, left = [], [goal for goal in self.goals.values() if goal.seat == seat]
        while left:
            goal = left.pop()
            if goal in seen:
                continue
            seen.append(goal)
            if self.under_way(goal):
                return True
            left += [other for other in self.goals.values() if self.hangs_on(goal, other)]
        return False

    def turn(self):
        ready = [goal for goal in self.goals.values() if goal.stage == "ready" and self.busy[goal.seat] < self.workers[goal.seat]]
        if not ready:
            return []

        def claim(goal):
            return self.running[goal.user], self.served[goal.user], goal.number

        first = min(map(claim, ready))
        if sum(self.running) >= BUILDERS and first[0] > 0:
            return []
        return [goal for goal in ready if claim(goal) == first]


def check_next(board, seat, may, printed):
    words = printed.split()
    turn = board.turn()
    mine = [goal for goal in turn if goal.seat == seat]
    woken = [goal for goal in board.goals.values() if goal.stage == "woken" and goal.seat == seat]
    assert may == "true" or words == ["wait"], "something to do, and not notified"
    if words[0] == "build":
        goal = board.goals[int(words[1]), int(words[2])]
        assert goal in mine, "not its turn"
        goal.stage = "working"
        board.busy[seat] += 1
        board.given += 1
        board.running[goal.user] += 1
        board.served[goal.user] = board.given
        return "build"
    assert not mine or len(turn) > len(mine), "its turn, and nothing given"
    if words[0] == "look":
        goal = board.goals[int(words[1]), int(words[2])]
        assert goal in woken, "not woken"
        goal.stage, goal.since = "looked", board.count
        return "look"
    assert not woken, "a woken goal, and no look"
    if words[0] == "over":
        assert not board.is_led(seat), "over, and a chain is left"
        return "over"
    assert words == ["wait"]
    assert any(map(board.under_way, board.goals.values())), "nothing under way"
    return "wait" if board.is_led(seat) else "wait with the goal kept"


def file(board, rest):
    goal = board.goals.get((int(rest[0]), int(rest[1])))
    if goal is None:
        return
    thing = None
    if rest[3] == "lacks":
        thing = rest[4]
    elif rest[3] == "built":
        thing = int(rest[4]), int(rest[5])
    if thing is not None:
        board.know(thing)
    if goal.stage != "looked":
        return
    if thing is None:
        goal.stage, goal.reached = rest[3], int(rest[2])
    elif board.last[thing] > goal.since or board.trusted > goal.since:
        goal.stage = "woken"
    else:
        goal.stage, goal.thing, goal.reached = "waits", thing, int(rest[2])


def make(board, call, rest):
    if call == "workers":
        board.workers[int(rest[0])] = int(rest[1])
    elif call == "want":
        name = int(rest[1]), int(rest[2])
        if name not in board.goals:
            board.know(rest[3])
            board.know(name)
            board.goals[name] = Goal(int(rest[0]), *name, rest[3], int(rest[4]))
    elif call == "open":
        board.waiting.add(int(rest[0]))
    elif call == "close":
        board.waiting.discard(int(rest[0]))
        for goal in board.goals.values():
            if goal.seat == int(rest[0]) and goal.stage in ("looked", "ready"):
                goal.stage = "woken"
    elif call == "file":
        file(board, rest)
    elif call == "ended":
        goal = board.goals.get((int(rest[0]), int(rest[1])))
        if goal is not None and goal.stage == "working":
            goal.stage = "woken"
            board.busy[goal.seat] -= 1
            board.running[goal.user] -= 1
            board.come(goal.made)
            board.come((goal.user, goal.number))
    elif call == "came":
        board.come(rest[0])
    elif call == "jobended":
        board.come((int(rest[0]), int(rest[1])))
    elif call == "trust":
        board.count += 1
        board.trusted = board.count
        for goal in board.goals.values():
            if goal.stage == "waits" and goal.reached >> int(rest[0]) & 1:
                goal.stage = "woken"


def check(asked, printed):
    counts, board, at = {}, None, 0
    for place, line in enumerate(asked):
        call, *rest = line.split()
        if call == "new":
            board = Board()
        elif call == "next":
            try:
                how = check_next(board, int(rest[0]), printed[at], printed[at + 1])
            except AssertionError as why:
                sys.exit(f"line {place + 1}: {line}: {printed[at + 1]}: {why}")
            counts[how] = counts.get(how, 0) + 1
            at += 2
        else:
            make(board, call, rest)
    assert at == len(printed), "more was printed"
    print(", ".join(f"{how} {count}" for how, count in sorted(counts.items())))


if __name__ == "__main__":
    if sys.argv[1] == "lines":
        print("\n".join(lines(int(sys.argv[2]), int(sys.argv[3]))))
    else:
        check(open(sys.argv[2]).read().splitlines(), open(sys.argv[3]).read().splitlines())
