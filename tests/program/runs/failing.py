"""Builds in which one call to the system fails, once: what a build needs and does not get fails its goal with 61,
whatever the reason, and an interrupted call is made again. The same is built well when it is asked for again."""
import errno
import pathlib
import re
import shutil
import subprocess

from asking import FAILED, content_path, done, numbered, shell, told
from outside import run

HERE = pathlib.Path(__file__).resolve().parent
ERRORS = errno.EINTR, errno.EAGAIN, errno.ENOMEM, errno.ENOSPC, errno.EMFILE
# Which of three goals, built one after another, has the call that fails: the first, the second or the third one of
# its kind. A file of inputs is removed before it is made, where that may fail since nothing is there, and after the
# builder has ended; /dev/null is opened once as the program begins, which goes on where it cannot be, and a process is
# started with it twice, for its input and its errors.
GOALS = {
    "open": (1, 2, 3), "write": (1, 2, 3), "pipe": (1, 2, 3), "posix_spawn": (1, 2, 3), "read": (1, 2, 3),
    "waitpid": (1, 2, 3), "open_null": (None, 1, 1), "unlink": (None, 1, None)}
# What is said of a goal of which the call fails.
SAID = {
    "open": "inputs not written", "write": "inputs not written", "unlink": "inputs not written", "pipe": "not started",
    "posix_spawn": "not started", "open_null": "not started", "read": "output not read", "waitpid": "end not learnt"}
BUILDER = 'test "$(stat -c %a "$INPUTS")" = 600 && exec builders/nb text "$1"'


def goals(failing):
    """A file that asks for three goals with an input, and for the same again; and the replies, where one has failed."""
    source = content_path("s", b"h")
    lines, replies = ["users alice", "alice source s f:68"], ["- ok", f"alice path {source}"]
    texts = [shell(f"n{n}", BUILDER, str(n), sources=[source]) for n in (1, 2, 3)]
    lines += [f"alice derivation {text}" for text in texts]
    replies += [f"alice {told(text)}" for text in texts]
    for first in 0, 3:
        for n in 1, 2, 3:
            lines += [f"alice build {{p{n + 2}}}", "wait", f"alice status {n + first}"]
            ended = FAILED if n == failing and not first else done(f"n{n}", b"%d" % n)
            replies += [f"alice goal {n + first}", "- ok", f"alice {ended}"]
    return "".join(f"{line}\n" for line in lines), numbered(replies)


def library(folder):
    """The library that lets a call fail."""
    path = folder / "failing.so"
    subprocess.run(["cc", "-shared", "-fPIC", "-O1", "-w", "-o", path, HERE / "failing.c", "-ldl"], check=True)
    return path


def failing_calls(cases):
    if not shutil.which("cc"):
        print("skipped failing_calls: there is no cc")
        return
    with cases.folder() as made:
        preloaded = library(made)
        for call, at in ((call, at) for call in GOALS for at in (1, 2, 3)):
            for error in ERRORS:
                check_failing(cases, preloaded, call, at, error)


def check_failing(cases, preloaded, call, at, error):
    failing = None if error == errno.EINTR else GOALS[call][at - 1]
    lines, replies = goals(failing)
    with cases.folder(lines=lines) as folder:
        numbers = [(n + first, f"n{n}") for first in (0, 3) for n in (1, 2, 3)]
        said = "".join(f"intstore: alice {number} {name} starts\nintstore: alice {number} {name} ends, "
                       f"{SAID[call] + ', failed 61' if number == failing else 'done [^ ]*'}, [0-9]+ s\n"
                       for number, name in numbers if number <= 3 or number - 3 == failing)
        words = [f"LD_PRELOAD={preloaded}", f"FAILING_CALL={call}", f"FAILING_AT={at}", f"FAILING_WITH={error}"]
        usual = ["--workers", 1, "--builders", "builders", "--work", "work", "--verbose", "lines"]
        came = run(folder, ["env", *words, cases.program, "run", *usual])
        kept = ["work/inputs-alice-1"] if call == "unlink" and failing else []
        cases.check(f"{call}_{at}_{errno.errorcode[error]}", folder, came, output=replies, errors=re.compile(said),
                    kept=kept)
