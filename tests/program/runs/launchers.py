"""Cases of `--launcher` and `--limit`: what a launcher is started with, what ends a builder and all that it started, and
the launchers of `examples/launchers`, each where its tool is there."""
import contextlib
import os
import pathlib
import re
import shutil
import signal
import subprocess
import time

from asking import FAILED, PROGRAMS, Goal, content_path, done, nb, numbered, one, scratch, session, shell, text_of, told
from outside import run

LAUNCHERS = pathlib.Path(__file__).resolve().parents[3] / "examples/launchers"

# Keeps what it was started with, and starts the rest of its words.
KEEPING = """#!/bin/sh
tr '\\0' '\\n' </proc/$$/environ >variables
printf '%s\\n' "$@" >words
exec "$@"
"""
SLEEP = 301
IS_LEFT = "a process that the builder started is left"


def launcher(folder, text=KEEPING, name="launcher"):
    (folder / name).write_text(text)
    (folder / name).chmod(0o755)


def words_of(process):
    """The words that a process was started with; none where it has ended."""
    with contextlib.suppress(OSError):
        return pathlib.Path(f"/proc/{process}/cmdline").read_bytes().split(b"\0")
    return []


def processes_of(word):
    """The processes that have this word among their arguments."""
    return [int(folder.name) for folder in pathlib.Path("/proc").glob("[0-9]*") if word.encode() in words_of(folder.name)]


def left(word):
    """What is wrong where a process that has this word among its arguments does not end within 2 seconds."""
    end = time.monotonic() + 2
    while (found := processes_of(word)) and time.monotonic() < end:
        time.sleep(0.02)
    for process in found:
        with contextlib.suppress(ProcessLookupError):
            os.kill(process, signal.SIGKILL)
    return [IS_LEFT] if found else []


# ---- what is started

def what_is_started(cases):
    """The launcher has its words and then those of `env`, and none of the variables."""
    text = text_of("a", "nb", ["text", "hi", "x=y"], [("WORD", "two words"), PROGRAMS, ("LD_PRELOAD", "none.so")])
    lines, replies = one(text, done("a", b"hi x=y"))
    words = ["one", "-two=3", "/usr/bin/env", "-i", "--", "LD_PRELOAD=none.so", "PATH=/usr/bin:/bin", "WORD=two words",
             "name=a", "out=", f"out={scratch(text)}", "INPUTS=work/inputs-alice-1", "builders/nb", "text", "hi", "x=y"]
    passing = KEEPING.replace('exec "$@"', 'shift 2; exec "$@" 2>/dev/null')
    for name, word in (("launcher", "./launcher one -two=3"), ("launcher_between_blanks", " ./launcher  one\t-two=3 ")):
        with cases.folder(lines=lines) as folder:
            launcher(folder, passing)
            came = cases.run(folder, "--launcher", word, "lines")
            given = {part: (folder / part).read_text() for part in ("words", "variables") if (folder / part).exists()}
            wanted = {"words": "".join(f"{word}\n" for word in words), "variables": ""}
            others = [] if given == wanted else [f"given {given}, wanted {wanted}"]
            cases.check(name, folder, came, output=replies, others=others)


def as_without(cases):
    """Through a launcher a builder has what it has without, its own name and its status among that."""
    given = "echo \"$0|$#|$1\"; env | grep -v ^PWD= | sort; cat; ls /proc/$$/fd; cat /proc/$$/cmdline | tr '\\0' '|'"
    script = f"({given}) >given 2>&1; cp \"$INPUTS\" inputs; exec builders/nb text hi"
    lines, replies = one(shell("a", script, "two words\n", environment=[("WORD", 'a="b"\n')]), done("a", b"hi"))
    came = []
    for words in [], ["--launcher", "nice -n 0"]:
        with cases.folder(lines=lines) as folder:
            ran = cases.run(folder, *words, "lines")
            files = [(folder / name).read_bytes() if (folder / name).exists() else None for name in ("given", "inputs")]
            came.append(files)
            same = [] if came[0] == files and None not in files else [f"without {came[0]}, and with a launcher {files}"]
            cases.check(f"given_{'through_a' if words else 'without_a'}_launcher", folder, ran, output=replies, others=same)
    lines, replies = one(nb("a", "fail", "3"), FAILED)
    with cases.folder(lines=lines) as folder:
        said = re.compile("intstore: alice 1 a starts\nintstore: alice 1 a ends, status 3, failed 61, [0-9]+ s\n")
        came = cases.run(folder, "--launcher", "nice -n 0", "--verbose", "lines")
        cases.check("status_through_a_launcher", folder, came, output=replies, errors=said)


def not_started(cases):
    lines, failed = one(nb("a", "text", "hi"), FAILED)
    for name, word, program in (("that_is_missing", "./none x", "./none"), ("in_no_folder", "no-such-launcher x", "no-such-launcher"),
                                ("that_is_a_folder", "./work", "./work"), ("that_nobody_may_execute", "./lines", "./lines"),
                                ("of_blanks", "  ", "  ")):
        with cases.folder(lines=lines) as folder:
            came = cases.run(folder, "--launcher", word, "lines")
            cases.check(f"launcher_{name}", folder, came, status=3, errors=f"intstore: cannot start the launcher {program}\n")
    with cases.folder(lines=lines) as folder:
        launcher(folder, "#!/no/such/program\n")
        came = cases.run(folder, "--launcher", "./launcher", "--verbose", "lines")
        said = re.compile("intstore: alice 1 a starts\nintstore: alice 1 a ends, not started, failed 61, [0-9]+ s\n")
        cases.check("launcher_without_its_own_program", folder, came, output=failed, errors=said)
    ran = shell("a", ": >ran; exec builders/nb text hi").replace('"/bin/sh"', '"./a=b"')
    for name, words, status in (("taken_for_a_variable", ["--launcher", "nice"], FAILED),
                                ("of_an_equals_sign", [], done("a", b"hi"))):
        lines, replies = one(ran, status)
        with cases.folder(lines=lines) as folder:
            (folder / "a=b").symlink_to("/bin/sh")
            came = run(folder, [cases.program, "run", "--workers", 1, "--work", "work", *words, "lines"])
            others = [] if (folder / "ran").exists() == (status != FAILED) else ["it is wrong whether the builder ran"]
            cases.check(f"builder_{name}", folder, came, output=replies, others=others)


# ---- limits

def ended(cases, name, script, words, least, most, kept=()):
    """A builder that sleeps is ended by its limit, with all that it started, and the next goal is built."""
    goals = [Goal("alice", shell("a", script, f"{SLEEP}.{os.getpid()}"), FAILED), Goal("alice", nb("b", "text", "hi"), done("b", b"hi"))]
    lines, replies = session("alice", *goals)
    with cases.folder(lines=lines) as folder:
        came = cases.run(folder, *words, "lines")
        found = left(f"{SLEEP}.{os.getpid()}")
        others = [] if found == list(kept) else [f"left {found}, wanted {kept}"]
        if came.seconds > most:
            others.append(f"it took {came.seconds:.2f} seconds, and at most {most} are wanted")
        cases.check(name, folder, came, output=replies, least=least, others=others)


BUILDERS = (
    ("a_builder", 'exec sleep "$1"'),
    ("a_builder_that_ignores_term", 'trap "" TERM; sleep "$1"; sleep "$1"'),
    ("a_child_in_the_background", 'sleep "$1" & sleep "$1"'),
    ("a_child_in_the_background_that_ignores_term", '(trap "" TERM; sleep "$1") & sleep "$1"'),
)
OWN_SESSION = 'setsid sleep "$1" & sleep "$1"'


def limits(cases):
    for name, script in BUILDERS:
        ended(cases, f"limit_of_{name}", script, ["--limit", "1"], 1, 4)
        ended(cases, f"limit_of_{name}_with_a_log", script, ["--limit", "1", "--logs", "work"], 1, 4)
        ended(cases, f"limit_of_{name}_through_a_launcher", script, ["--limit", "1", "--launcher", "nice"], 1, 4)
    # What left the process group goes on; it is waited for 5 seconds where it has the output open.
    ended(cases, "limit_of_a_child_in_a_session_of_its_own", OWN_SESSION, ["--limit", "1"], 5, 9, [IS_LEFT])
    ended(cases, "limit_of_such_a_child_with_a_log", OWN_SESSION, ["--limit", "1", "--logs", "work"], 5, 9, [IS_LEFT])
    lines, replies = one(shell("a", "sleep 1; exec builders/nb text hi"), done("a", b"hi"))
    with cases.folder(lines=lines) as folder:
        cases.check("limit_that_is_kept", folder, cases.run(folder, "--limit", "60", "lines"), output=replies, least=1)


# ---- the examples

def is_missing(*tools):
    return [tool for tool in tools if not shutil.which(tool, path="/usr/bin:/bin")]


def has_namespaces():
    words = ["unshare", "--user", "--map-current-user", "--pid", "--fork", "--kill-child", "--mount-proc", "true"]
    return subprocess.run(words, stderr=subprocess.DEVNULL, check=False).returncode == 0


def limited(cases):
    if missing := is_missing("timeout", "prlimit", "unshare"):
        print(f"skipped limited: there is no {missing[0]}")
        return
    word = f"{LAUNCHERS}/limited 256 64 "
    for name, script in BUILDERS:
        ended(cases, f"limited_{name}", script, ["--launcher", f"{word}1"], 1, 4)
    if has_namespaces():
        ended(cases, "limited_child_in_a_session_of_its_own", OWN_SESSION, ["--launcher", f"{word}1"], 1, 4)
        ended(cases, "limited_child_of_a_limit", OWN_SESSION, ["--limit", "1", "--launcher", f"{word}60"], 1, 4)
    else:
        print("skipped limited_child_in_a_session_of_its_own: the kernel refuses process namespaces")
    fills = "exec /usr/bin/python3 -c 'x = bytearray(512 << 20); print(len(x))'"
    cases_of = (("memory_over_the_limit", fills, FAILED), ("memory_within_the_limit", "exec builders/nb text hi", done("a", b"hi")))
    for name, script, status in cases_of:
        lines, replies = one(shell("a", script), status)
        with cases.folder(lines=lines) as folder:
            came = cases.run(folder, "--launcher", f"{word}60", "lines")
            cases.check(f"limited_{name}", folder, came, output=replies)


# Says what is to be seen: an input, the names beside it, those in three folders, a process outside, and how many lines
# speak of the network.
LOOK = """exec 2>/dev/null
seen="$(cat "$1")|$(ls /nix/store)|$(ls /tmp)|$(echo $(ls "$2"))|$(ls work)|$(ls -d "/proc/$3" /etc/passwd)|$(wc -l </proc/net/dev)"
exec builders/nb text "$seen"
"""


def boxed_with_the_run(cases, words):
    """The run is killed, and the builder ends with it."""
    word = f"{SLEEP}.{os.getpid()}"
    lines, _ = one(shell("a", OWN_SESSION, word), FAILED)
    with cases.folder(lines=lines) as folder:
        usual = ["--workers", "1", "--builders", "builders", "--work", "work", *words, "lines"]
        child = subprocess.Popen([cases.program, "run", *usual], cwd=folder, stdin=subprocess.DEVNULL, stdout=subprocess.DEVNULL)
        end = time.monotonic() + 20
        while not any(b"sleep" in words_of(process) for process in processes_of(word)) and time.monotonic() < end:
            time.sleep(0.02)
        faults = [] if time.monotonic() < end else ["its builder does not start"]
        child.kill()
        child.wait()
        cases.say("boxed_builder_ends_with_the_run", faults + left(word))


def boxed(cases):
    if is_missing("bwrap"):
        print("skipped boxed: there is no bwrap")
        return
    probe = ["bwrap", "--unshare-all", "--ro-bind", "/", "/", "--proc", "/proc", "true"]
    if subprocess.run(probe, stderr=subprocess.DEVNULL, check=False).returncode:
        print("skipped boxed: the kernel refuses namespaces")
        return
    words = ["--launcher", f"{LAUNCHERS}/boxed builders"]
    source, other = content_path("s", b"h"), content_path("other", b"secret")
    with cases.folder() as folder:
        text = shell("a", LOOK, source, str(folder), str(os.getpid()), sources=[source])
        outside = folder.name if folder.parent == pathlib.Path("/tmp") else ""
        seen = f"h|{os.path.basename(source)}|{outside}|builders work|inputs-alice-1||3"
        lines = ["users alice bob", "alice source s f:68", f"bob source other f:{b'secret'.hex()}", f"alice derivation {text}",
                 "alice build {p4}", "wait", "alice status 1", "alice fetch {p7}"]
        (folder / "lines").write_text("\n".join(lines))
        came = cases.run(folder, *words, "lines")
        replies = ["- ok", f"alice path {source}", f"bob path {other}", f"alice {told(text)}", "alice goal 1", "- ok"]
        wanted = f"7 alice done /nix/store/[0-9a-z]{{32}}-a\n8 alice tree f:{seen.encode().hex()}\n"
        cases.check("boxed_sees_its_inputs_alone", folder, came, output=re.compile(re.escape(numbered(replies)) + wanted))
    boxed_with_the_run(cases, words)
    for name, script in (*BUILDERS, ("a_child_in_a_session_of_its_own", OWN_SESSION)):
        ended(cases, f"boxed_{name}", script, [*words, "--limit", "1"], 1, 4)


def elsewhere(cases):
    """The command is one that runs here what it is handed, as `srun` does, or hands it to a shell, as `ssh` does."""
    source = content_path("s", b"h")
    script = 'test "$INPUTS" != work/inputs-alice-1 && cksum <"$INPUTS" >read; test "$1" = "a \'b\'\n" && exec builders/nb inputs'
    text = shell("a", script, "a 'b'\n", sources=[source])
    lines = ["users alice", "alice source s f:68", f"alice derivation {text}", "alice build {p3}", "wait", "alice status 1",
             "alice fetch {p6}"]
    tree = f"tree f:{(source + chr(10)).encode().hex()}"
    for name in "nice", "ssh", "srun":
        if name == "srun" and is_missing("srun"):
            print("skipped elsewhere_srun: there is no srun")
            continue
        with cases.folder(lines="\n".join(lines)) as folder:
            launcher(folder, '#!/bin/sh\nshift\nexec /bin/sh -c "$*"\n', "ssh")
            words = {"nice": "nice", "ssh": "./ssh host", "srun": "srun --quiet"}[name]
            came = cases.run(folder, "--launcher", f"{LAUNCHERS}/elsewhere {words}", "lines")
            replies = ["- ok", f"alice path {source}", f"alice {told(text)}", "alice goal 1", "- ok"]
            wanted = re.compile(re.escape(numbered(replies)) + f"6 alice done /nix/store/[0-9a-z]{{32}}-a\n7 alice {tree}\n")
            cases.check(f"elsewhere_{name}", folder, came, output=wanted)
    lines, replies = one(nb("a", "fail", "3"), FAILED)
    with cases.folder(lines=lines) as folder:
        said = re.compile("intstore: alice 1 a starts\nintstore: alice 1 a ends, status 3, failed 61, [0-9]+ s\n")
        came = cases.run(folder, "--launcher", f"{LAUNCHERS}/elsewhere nice", "--verbose", "lines")
        cases.check("elsewhere_status", folder, came, output=replies, errors=said)


def launchers(cases):
    for group in (what_is_started, as_without, not_started, limits, limited, boxed, elsewhere):
        group(cases)
