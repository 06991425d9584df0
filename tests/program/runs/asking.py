"""Derivations, and files of lines that ask for them and wait, each with the replies that are wanted. These follow from
tests/standards.py and tests/desks.py, with nothing of the store."""
import pathlib
import sys
from typing import NamedTuple

sys.path.append(str(pathlib.Path(__file__).resolve().parents[2]))
from desks import Derivation
from standards import archive, quoted, sha256, store_path

FAILED, NO_ARCHIVE = "failed 61", "failed 62"
PROGRAMS = ("PATH", "/usr/bin:/bin")


def text_of(name, builder, arguments=(), environment=(), sources=()):
    """The text of a derivation without inputs."""
    pairs = ",".join(f"({quoted(key)},{quoted(value)})" for key, value in
                     sorted([("name", name), ("out", ""), *environment]))
    listed = [",".join(map(quoted, texts)) for texts in (sources, arguments)]
    return f'Derive([("out","","","")],[],[{listed[0]}],"p",{quoted(builder)},[{listed[1]}],[{pairs}])'


def nb(name, *arguments):
    return text_of(name, "nb", arguments)


def shell(name, script, *words, environment=(), sources=()):
    """A derivation whose builder is a script of the shell, with these words."""
    return text_of(name, "/bin/sh", ["-c", script, "sh", *words], [PROGRAMS, *environment], sources)


def content_path(name, content):
    """The path of an output that is a file with these bytes and refers to nothing."""
    return store_path("source", sha256(archive(("f", content))), name)


def done(name, content):
    return f"done {content_path(name, content)}"


def told(text):
    """The reply to the derivation of a text."""
    derivation = Derivation(text)
    derivation.admit({})
    return f"drv {derivation.path} class {derivation.out}"


def scratch(text):
    """The path under which a derivation without inputs is built."""
    return store_path("scratch", sha256(text.encode()), Derivation(text).name)


def numbered(replies, first=1):
    """Replies, as they are printed."""
    return "".join(f"{number} {reply}\n" for number, reply in enumerate(replies, first))


class Goal(NamedTuple):
    """What a user asks for, and how far that is in the end."""
    user: str
    text: str
    status: str


def session(users, *goals):
    """A file that asks for goals, waits for them and asks how far they are; and the replies that are wanted."""
    lines, replies, statuses, numbers = [f"users {users}"], ["- ok"], [], {}
    for goal in goals:
        number = numbers[goal.user] = numbers.get(goal.user, 0) + 1
        lines += [f"{goal.user} derivation {goal.text}", f"{goal.user} build {{p{len(lines) + 1}}}"]
        replies += [f"{goal.user} {told(goal.text)}", f"{goal.user} goal {number}"]
        statuses.append((f"{goal.user} status {number}", f"{goal.user} {goal.status}"))
    lines += ["wait", *(line for line, _ in statuses)]
    replies += ["- ok", *(reply for _, reply in statuses)]
    return "".join(f"{line}\n" for line in lines), numbered(replies)


def one(text, status):
    """A session of one user with one goal."""
    return session("alice", Goal("alice", text, status))
