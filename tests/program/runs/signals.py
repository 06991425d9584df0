"""Signals and limits: a run that is ended whole, and what the caller leaves ignored or limited."""
import contextlib
import os
import pathlib
import signal
import subprocess
import time

from asking import FAILED, content_path, done, numbered, one, shell, told
from outside import left_in, processes_in, run

SLOW = "sleep 60"
USUAL = ["--workers", "1", "--builders", "builders", "--work", "work"]


def name_of(process):
    """The name of the program that a process runs; empty where the process has ended."""
    with contextlib.suppress(OSError):
        return pathlib.Path(f"/proc/{process}/comm").read_text().strip()
    return ""


def runs_in(session, name, limit=10):
    """Whether a process of a session runs the program of that name within so many seconds."""
    end = time.monotonic() + limit
    while not (found := any(name_of(process) == name for process in processes_in(session))) and time.monotonic() < end:
        time.sleep(0.01)
    return found


def faults_of_an_end(cases, folder, number):
    """What is wrong with a run whose group is ended by a signal while its builder runs. The signal is sent once
    `sleep` runs: between the fork and that, a child of the shell dash has the shell's own handler of SIGINT and loses
    the signal, and both stay."""
    command = [cases.program, "run", *USUAL, "slow"]
    child = subprocess.Popen(command, cwd=folder, stdin=subprocess.DEVNULL, stdout=subprocess.DEVNULL,
                             start_new_session=True)
    if not runs_in(child.pid, "sleep"):
        yield "its builder does not start"
    os.killpg(child.pid, number)
    if child.wait(10) != -number:
        yield f"it ended with {child.returncode}"
    if left := left_in(child.pid):
        yield f"{len(left)} of its processes were left"


def ended_whole(cases):
    """Files of inputs stay then, and do not harm a later run."""
    slow, _ = one(shell("a", SLOW), FAILED)
    lines, replies = one(shell("a", "exec builders/nb text hi"), done("a", b"hi"))
    for number in signal.SIGINT, signal.SIGTERM, signal.SIGHUP:
        with cases.folder(lines=lines, slow=slow) as folder:
            faults = list(faults_of_an_end(cases, folder, number))
            cases.say(f"ended_whole_by_{number.name.lower()}", faults)
            cases.check(f"after_{number.name.lower()}", folder, cases.run(folder, "lines"), output=replies)


def large_input(status):
    """A goal with an input of 64 KiB, and how far it is in the end."""
    source = content_path("s", bytes(65536))
    text = shell("a", "exec builders/nb text hi", sources=[source])
    lines = ["users alice", f"alice source s f:{'00' * 65536}", f"alice derivation {text}", "alice build {p3}", "wait",
             "alice status 1"]
    replies = ["- ok", f"alice path {source}", f"alice {told(text)}", "alice goal 1", "- ok", f"alice {status}"]
    return "\n".join(lines), numbered(replies)


def what_the_caller_ignores(cases):
    lines, replies = one(shell("a", "exec builders/nb text hi"), done("a", b"hi"))
    command = [cases.program, "run", *USUAL, "lines"]
    with cases.folder(lines=lines) as folder:
        came = run(folder, ["env", "--ignore-signal=CHLD", "env", "--default-signal=CHLD", *command])
        cases.check("chld_with_its_default_again", folder, came, output=replies)
    lines, replies = large_input(FAILED)
    limited = ["/bin/sh", "-c", 'ulimit -f 16 && exec "$@"', "sh", "env", "--ignore-signal=XFSZ"]
    with cases.folder(lines=lines) as folder:
        cases.check("file_size_limited", folder, run(folder, [*limited, *command]), output=replies)
