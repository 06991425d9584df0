"""Runs the built program from outside, and says of each case whether it came as wanted."""
import contextlib
import os
import pathlib
import signal
import subprocess
import tempfile
import time
from typing import NamedTuple, Optional

MOST_SHOWN = 2000


class Came(NamedTuple):
    """What came of a run: its status, or none where it was stopped since it did not end; what it wrote; how long it
    took, in seconds; its greatest resident memory, in bytes; and which of its processes it left behind."""
    status: Optional[int]
    output: str
    errors: str
    seconds: float
    memory: int
    left: list


def processes_in(session):
    """The processes of a session that have not ended."""
    found = []
    for folder in pathlib.Path("/proc").glob("[0-9]*"):
        with contextlib.suppress(OSError):
            state, _, _, number, *_ = (folder / "stat").read_text().rsplit(")", 1)[1].split()
            if int(number) == session and state not in "ZX":
                found.append(int(folder.name))
    return found


def left_in(session):
    """The processes of a session that have not ended within a second."""
    begun = time.monotonic()
    while (found := processes_in(session)) and time.monotonic() < begun + 1:
        time.sleep(0.01)
    return found


def wait_for(child, limit):
    """The status of a child and its greatest resident memory, in bytes; none where it takes longer than that."""
    begun = time.monotonic()
    while time.monotonic() < begun + limit:
        number, status, usage = os.wait4(child.pid, os.WNOHANG)
        if number:
            child.returncode = os.waitstatus_to_exitcode(status)
            return child.returncode, usage.ru_maxrss * 1024
        time.sleep(0.002)
    return None, 0


def run(folder, command, limit=60, output=None, closed=False):
    """Runs a command in a folder and in a session of its own, and stops it where it takes longer than the limit, in
    seconds. Its standard output goes to the file of that name, where one is given, or is closed."""
    command = ["/bin/sh", "-c", 'exec "$@" >&-', "sh", *command] if closed else command
    with tempfile.TemporaryFile() as errors, open(output, "wb") if output else tempfile.TemporaryFile() as written:
        begun = time.monotonic()
        child = subprocess.Popen([str(word) for word in command], cwd=folder, stdin=subprocess.DEVNULL, stdout=written,
                                 stderr=errors, start_new_session=True)
        status, memory = wait_for(child, limit)
        seconds, left = time.monotonic() - begun, left_in(child.pid)
        for process in left:
            with contextlib.suppress(ProcessLookupError):
                os.kill(process, signal.SIGKILL)
        if status is None:
            child.wait()
        texts = [] if output else [text_of(written)]
        return Came(status, "".join(texts), text_of(errors), seconds, memory, left)


def text_of(file):
    file.seek(0)
    return file.read().decode("latin-1")


def is_as(wanted, came):
    """Whether a text is the one that is wanted, or of the wanted form."""
    return came == wanted if isinstance(wanted, str) else bool(wanted.fullmatch(came))


def shown(text):
    return repr(text if isinstance(text, str) else text.pattern)[:MOST_SHOWN]


def faults_of(came, folder, status, output, errors, least, memory, kept):
    """What a run did otherwise than wanted, in words."""
    if came.status != status:
        yield f"status {came.status}, wanted {status}"
    for what, wanted, text in (("output", output, came.output), ("errors", errors, came.errors)):
        if not is_as(wanted, text):
            yield f"{what} {shown(text)}, wanted {shown(wanted)}"
    if came.seconds < least:
        yield f"it took {came.seconds:.2f} seconds, and at least {least} are wanted"
    if memory and came.memory > memory:
        yield f"it took {came.memory} bytes, and at most {memory} are wanted"
    if came.left:
        yield f"{len(came.left)} of its processes were left"
    inputs = sorted(str(file.relative_to(folder)) for file in pathlib.Path(folder).rglob("inputs-*"))
    if inputs != kept:
        yield f"of files of inputs {inputs} are left, wanted {kept}"


class Cases:
    """The cases, each in a temporary folder of its own, in which `builders` is the folder of `nb`, and `work` is one
    for files of inputs."""

    def __init__(self, program, builders):
        self.program, self.builders, self.passed, self.failed = program, builders, 0, 0

    @contextlib.contextmanager
    def folder(self, **files):
        with tempfile.TemporaryDirectory() as name:
            folder = pathlib.Path(name)
            (folder / "builders").symlink_to(self.builders)
            (folder / "work").mkdir()
            for file, text in files.items():
                (folder / file).write_text(text)
            yield folder

    def run(self, folder, *words, workers=1, **how):
        """Runs `intstore run` with these words behind the usual ones."""
        usual = ["--workers", workers, "--builders", "builders", "--work", "work"]
        return run(folder, [self.program, "run", *usual, *words], **how)

    def say(self, name, faults):
        """Prints whether a case passed, and counts it."""
        self.failed += bool(faults)
        self.passed += not faults
        print(f"FAILED {name}: {'; '.join(faults)}" if faults else f"ok {name}", flush=True)

    def check(self, name, folder, came, *, status=0, output="", errors="", least=0, memory=0, kept=(), others=()):
        """A case that passes where a run came as wanted, and nothing else is at fault with it."""
        self.say(name, [*faults_of(came, folder, status, output, errors, least, memory, list(kept)), *others])

    def end(self):
        print(f"{self.passed} passed, {self.failed} failed")
        return self.failed != 0
