"""The lines of a file, and what is printed for each, as docs/lines.md, docs/events.md and docs/refusals.md say.

Nothing of the store is used: the desks are those of desks.py, and the builders those of builders.py.
"""
import re

from builders import written
from desks import NAME, PATH, Desk, need
from standards import Refused, archive

USER = r"[a-z][a-z0-9]{0,31}"


# ---- the words of a line

def read_tree(text, at=0, level=1):
    """The tree that a text has from there on, and where it ends."""
    need(level <= 64, "23 BadNar")
    kind = text[at:at + 2]
    if kind == "d(":
        return read_entries(text, at + 2, level)
    found = re.compile(r"[fxl]:((?:[0-9a-f]{2})*)").match(text, at)
    need(found, "23 BadNar")
    return (kind[0], bytes.fromhex(found[1])), found.end()


def read_entries(text, at, level):
    entries = []
    while text[at:at + 1] != ")":
        found = re.compile(r",?((?:[0-9a-f]{2}){1,255})=").match(text, at)
        need(found and found[0].startswith(",") == bool(entries), "23 BadNar")
        name = bytes.fromhex(found[1])
        need(name not in (b".", b"..") and b"/" not in name and b"\0" not in name, "23 BadNar")
        need(not entries or entries[-1][0] < name, "23 BadNar")
        entry, at = read_tree(text, found.end(), level + 1)
        entries.append((name, entry))
    return ("d", entries), at + 1


def whole_tree(text):
    tree, end = read_tree(text)
    need(end == len(text), "23 BadNar")
    need(len(archive(tree)) <= 64 << 20, "22 TooLarge")
    return tree


def whole(pattern, why):
    def read(text):
        need(re.fullmatch(pattern, text), why)
        return text
    return read


def number(least, most):
    def read(text):
        need(re.fullmatch("0|[1-9][0-9]*", text) and len(text) <= 9 and least <= int(text) <= most, "25 BadLine")
        return int(text)
    return read


def output(text):
    """The bytes that a builder wrote: those of a tree's archive, or others behind `n:`."""
    if not text.startswith("n:"):
        return archive(whole_tree(text))
    need(re.fullmatch("n:(?:[0-9a-f]{2})*", text), "25 BadLine")
    return bytes.fromhex(text[2:])


name_word, path_word, user_word = whole(NAME, "21 BadName"), whole(PATH, "24 BadPath"), whole(USER, "25 BadLine")
goal_number, exit_status = number(1, 65535), number(0, 255)
VERBS = {
    "source": (name_word, whole_tree), "derivation": None, "offer": (path_word, whole_tree), "fetch": (path_word,),
    "trust": (user_word,), "distrust": (user_word,), "pin": (path_word, path_word), "unpin": (path_word,),
    "closure": (path_word,), "take": (path_word,), "build": (path_word,), "status": (goal_number,),
    "plan": (goal_number,), "start": (goal_number,), "finish": (goal_number, output),
    "fail": (goal_number, exit_status), "forget": (path_word, path_word),
}
# What is asked so changes nothing, and is answered after the store was stopped as well.
QUERIES = "fetch", "closure", "status"


# ---- lines

class Session:
    verbs = VERBS

    def __init__(self, limit):
        self.limit, self.desks, self.told, self.ended, self.stopped = limit, None, [], False, False

    def expanded(self, line):
        def expand(found):
            number = int(found[2])
            if number > len(self.told):
                return found[0]
            path = self.told[number - 1][found[1] in "cg"]
            need(path, "25 BadLine")
            return path if found[1] in "pc" else path[11:43].encode().hex()
        return re.sub(r"\{([phcg])([1-9][0-9]*)\}", expand, line)

    def name_users(self, words):
        need("" not in words and words[0] == "users", "25 BadLine")
        names = words[1:]
        well_formed = all(re.fullmatch(USER, name) for name in names)
        if not well_formed or not 1 <= len(names) <= 64 or len(set(names)) < len(names):
            self.ended = True
            raise Refused("14 BadUsers")
        self.desks = {}
        self.desks |= {name: Desk(name, self.limit, self.desks) for name in names}
        return "-", ("ok", None, None)

    def wish(self, line):
        """The user of a line, his verb, and the words behind it, each read."""
        user, _, rest = line.partition(" ")
        verb, blank, text = rest.partition(" ")
        need(user != "users" and blank and verb in self.verbs, "25 BadLine")
        kinds = self.verbs[verb]
        words = text.split(" ") if kinds else [text]
        need(not kinds or "" not in words and len(words) == len(kinds), "25 BadLine")
        need(re.fullmatch(USER, user), "25 BadLine")
        return user, verb, [kind(word) for kind, word in zip(kinds, words)] if kinds else words

    def reply(self, line):
        """Who is answered, and what: the text, the path and the class of the reply."""
        actor = "-"
        try:
            need(len(line) <= 1 << 28, "22 TooLarge")
            need(all(" " <= character <= "~" for character in line), "25 BadLine")
            line = self.expanded(line)
            if self.desks is None:
                return self.name_users(line.split(" "))
            user, verb, words = self.wish(line)
            actor = user
            need(verb in QUERIES or not self.stopped, "92 Stopped")
            need(user in self.desks, "11 UnknownUser")
            return actor, getattr(self.desks[user], verb)(*words)
        except Refused as why:
            return actor, (f"refused {why}", None, None)

    def printed(self, line):
        """What is printed for the next line: nothing where it gets no reply."""
        text, told = "", ("", None, None)
        if line and not line.startswith("#") and not self.ended:
            actor, told = self.reply(line)
            text = f"{len(self.told) + 1} {actor} {told[0]}\n"
        self.told.append(told[1:])
        return text

    def replies(self, text):
        return map(self.printed, text.removesuffix("\n").split("\n"))


# ---- runs

def work(desk, number):
    """What a worker does for a goal that waits."""
    try:
        told, *_ = desk.plan(number)
        if told == "planned":
            told, *_ = desk.start(number)
    except Refused:
        return
    if told == f"building {desk.name} {number}":
        data = written(desk.goal(number))
        desk.fail(number, 1) if data is None else desk.finish(number, data)


class Run(Session):
    """A run with one worker: it plans, starts and ends what a line `wait` waits for."""
    verbs = {verb: kinds for verb, kinds in VERBS.items() if verb not in ("plan", "start", "finish", "fail")}

    def __init__(self, limit):
        super().__init__(limit)
        self.goals = []

    def reply(self, line):
        if line == "wait" and self.desks:
            self.wait()
            return "-", ("ok", None, None)
        actor, told = super().reply(line)
        if told[0].startswith("goal "):
            self.goals.append((self.desks[actor], int(told[0].removeprefix("goal "))))
        return actor, told

    def waiting(self):
        return [(desk, number) for desk, number in self.goals if desk.status(number)[0] == "waiting"]

    def wait(self):
        """Rounds over the goals that wait, as long as one leaves fewer of them than it found."""
        found, left = None, self.waiting()
        while left and left != found:
            found = left
            for goal in found:
                work(*goal)
            left = self.waiting()
