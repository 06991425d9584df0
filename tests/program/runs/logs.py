"""Cases of `--logs`: what builders write to standard error is kept, as much of it as is to be, in a file of its own; and
no builder is held up by that, whatever it writes and whoever holds its standard error."""
import os
import re
import stat

from asking import FAILED, NO_ARCHIVE, Goal, done, nb, one, session, shell
from names import KEPT, dangling_link, faults, fifo, file_of_all, file_that_a_writer_has_open, hard_link, link, link_to_a_folder
from outside import run

MOST_KEPT = 16 << 20
# A quarter of what these builders write. What is measured counts also what the tests have in memory as they start the program.
MOST_MEMORY = 256 << 20
HI = "builders/nb text hi"
SAID = r"intstore: alice 1 a starts\nintstore: alice 1 a ends, {}, log logs/alice-1\.log, [0-9]+ s\n"


def kept_in(folder, name="alice-1.log"):
    """The bytes of a log, or none where there is no such file for its owner alone."""
    path = folder / "logs" / name
    status = path.lstat() if path.is_symlink() or path.exists() else None
    if status is None or not stat.S_ISREG(status.st_mode) or stat.S_IMODE(status.st_mode) != 0o600 or status.st_nlink != 1:
        return None
    return path.read_bytes()


def log_faults(folder, wanted, name="alice-1.log"):
    """What is wrong with a log, in words."""
    came = kept_in(folder, name)
    if came is None:
        return [f"{name} is no file of its own for its owner alone"]
    return [] if came == wanted else [f"{name} has {len(came)} bytes, {came[:200]!r}, wanted {len(wanted)}, {wanted[:200]!r}"]


def check_log(cases, name, script, status, wanted, words=(), files=(), before=None, **how):
    """A case of one goal, whose builder is a script of the shell that writes this to standard error."""
    lines, replies = one(shell("a", script), status)
    with cases.folder(lines=lines, **dict(files)) as folder:
        (folder / "logs").mkdir()
        if before:
            before(folder)
        came = cases.run(folder, "--logs", "logs", *words, "lines")
        cases.check(name, folder, came, output=replies, others=log_faults(folder, wanted), **how)


def what_is_kept(cases):
    check_log(cases, "log_of_a_good_build", f"echo noise >&2; exec {HI}", done("a", b"hi"), b"noise\n")
    check_log(cases, "log_of_nothing", f"exec {HI}", done("a", b"hi"), b"")
    check_log(cases, "log_of_a_failed_build", "printf 'a\\000\\377' >&2; exit 3", FAILED, b"a\0\xff")
    check_log(cases, "log_of_1_gib", f"head -c 1073741824 /dev/zero >&2; exec {HI}", done("a", b"hi"), bytes(MOST_KEPT),
              memory=MOST_MEMORY)
    check_log(cases, "log_of_1_gib_and_a_status", "head -c 1073741824 /dev/zero >&2; exit 3", FAILED, bytes(MOST_KEPT),
              memory=MOST_MEMORY)
    check_log(cases, "log_of_16_mib", f"head -c {MOST_KEPT} /dev/zero >&2; exec {HI}", done("a", b"hi"), bytes(MOST_KEPT))
    less = f"head -c {MOST_KEPT - 1} /dev/zero >&2; "
    check_log(cases, "log_of_16_mib_and_a_byte", f"{less}printf xy >&2; exec {HI}", done("a", b"hi"),
              bytes(MOST_KEPT - 1) + b"x")


def limited_log(cases):
    """What the file cannot take is let go, and the build goes on."""
    lines, replies = one(shell("a", f"head -c 100000 /dev/zero >&2; exec {HI}"), done("a", b"hi"))
    limited = ["/bin/sh", "-c", 'ulimit -f 16 && exec "$@"', "sh", "env", "--ignore-signal=XFSZ"]
    usual = ["--workers", 1, "--builders", "builders", "--work", "work", "--logs", "logs", "lines"]
    with cases.folder(lines=lines) as folder:
        (folder / "logs").mkdir()
        came = run(folder, [*limited, cases.program, "run", *usual])
        cases.check("log_that_cannot_grow", folder, came, output=replies, others=log_faults(folder, bytes(8192)))


def streams_at_once(cases):
    """Whichever stream is written first, or closed first, and whoever holds the other one."""
    noise = "head -c 300000 /dev/zero >&2"
    check_log(cases, "noise_between_pieces", f"{HI} >file; head -c 50 file; {noise}; tail -c +51 file; {noise}",
              done("a", b"hi"), bytes(600_000))
    check_log(cases, "output_between_noise", f"{noise}; head -c 300000 /dev/zero; {noise}", NO_ARCHIVE, bytes(600_000))
    check_log(cases, "both_at_once", f"{noise} & head -c 3000000 /dev/zero; wait; {noise}", NO_ARCHIVE, bytes(600_000))
    check_log(cases, "output_closed_before_noise", f"{HI}; exec >&-; {noise}; sleep 0.3; {noise}", done("a", b"hi"),
              bytes(600_000))
    check_log(cases, "errors_closed_before_the_output", f"{noise}; exec 2>&-; sleep 0.3; exec {HI}", done("a", b"hi"),
              bytes(300_000))
    check_log(cases, "output_closed_and_slow", f"{HI}; exec >&-; sleep 0.5; echo late >&2; exit 3", FAILED, b"late\n")


def errors_held_by_a_grandchild(cases):
    """Who holds the standard error of a builder that has ended is not waited for: the second builder lets him go."""
    holding = f"(until test -e released; do sleep 0.05; done) >&- & echo said >&2; exec {HI}"
    flooding = f"(until test -e released; do head -c 65536 /dev/zero; done >&2) >&- & exec {HI}"
    for name, script in ("held", holding), ("flooded", flooding):
        goals = [Goal("alice", shell("a", script), done("a", b"hi")),
                 Goal("alice", shell("b", f": >released; exec {HI}"), done("b", b"hi"))]
        lines, replies = session("alice", *goals)
        with cases.folder(lines=lines) as folder:
            (folder / "logs").mkdir()
            came = cases.run(folder, "--logs", "logs", "lines")
            others = log_faults(folder, b"said\n") if name == "held" else []
            cases.check(f"errors_{name}_by_a_grandchild", folder, came, output=replies, others=others)


def what_is_shown(cases):
    """Of a failed goal the log is named, and its last lines are shown, with nothing in them that a terminal obeys."""
    twelve = "for n in 1 2 3 4 5 6 7 8 9 10 11 12; do echo line $n >&2; done; "
    shown = "".join(f"intstore: alice 1 a: line {n}\n" for n in range(3, 13))
    text = "".join(f"line {n}\n" for n in range(1, 13)).encode()
    for name, script, status, said, kept in (
            ("last_ten_lines", twelve + "exit 3", FAILED, SAID.format("status 3, failed 61") + shown, text),
            ("no_archive", twelve + "echo x", NO_ARCHIVE, SAID.format("failed 62") + shown, text),
            ("no_newline_at_the_end", "printf 'one\\n\\ntwo' >&2; exit 3", FAILED, SAID.format("status 3, failed 61")
             + "intstore: alice 1 a: one\nintstore: alice 1 a: \nintstore: alice 1 a: two\n", b"one\n\ntwo"),
            ("controls", "printf '\\033[31mred\\r\\t\\377\\\\~\\177\\n' >&2; exit 3", FAILED, SAID.format("status 3, failed 61")
             + re.escape("intstore: alice 1 a: \\x1b[31mred\\x0d\\x09\\xff\\~\\x7f\n"), b"\x1b[31mred\r\t\xff\\~\x7f\n"),
            ("nothing_written", "exit 3", FAILED, SAID.format("status 3, failed 61"), b""),
            ("2_kib_of_a_long_line", "head -c 5000 /dev/zero | tr '\\0' x >&2; echo y >&2; exit 3", FAILED,
             SAID.format("status 3, failed 61") + f"intstore: alice 1 a: {'x' * 2046}y\n", b"x" * 5000 + b"y\n")):
        check_log(cases, f"shown_{name}", script, status, kept, ["--verbose"], errors=re.compile(said))
    good = f"intstore: alice 1 a starts\nintstore: alice 1 a ends, {re.escape(done('a', b'hi'))}, [0-9]+ s\n"
    check_log(cases, "shown_nothing_of_a_good_build", f"echo noise >&2; exec {HI}", done("a", b"hi"), b"noise\n",
              ["--verbose"], errors=re.compile(good))
    check_log(cases, "shown_nothing_without_verbose", "echo noise >&2; exit 3", FAILED, b"noise\n")
    said = SAID.format("status 3, failed 61") + "(intstore: alice 1 a: \n){9}intstore: alice 1 a: last\n"
    check_log(cases, "shown_is_the_end_of_1_gib",
              "head -c 1073741824 /dev/zero | tr '\\0' '\\n' >&2; echo last >&2; exit 3", FAILED, b"\n" * MOST_KEPT,
              ["--verbose"], errors=re.compile(said))


def names_of_logs(cases):
    """What stands under the name of a log before is removed, and never followed."""
    befores = link, dangling_link, link_to_a_folder, hard_link, fifo, file_of_all, file_that_a_writer_has_open
    lines, replies = one(shell("a", f"echo noise >&2; exec {HI}"), done("a", b"hi"))
    for before in befores:
        with cases.folder(lines=lines, **{KEPT: KEPT}) as folder:
            (folder / "logs").mkdir()
            before(folder, "logs/alice-1.log")
            came = cases.run(folder, "--logs", "logs", "lines", limit=10)
            cases.check(f"log_at_a_{before.__name__}", folder, came, output=replies,
                        others=[*faults(folder), *log_faults(folder, b"noise\n")])
    lines, replies = one(shell("a", f": >ran; exec {HI}"), FAILED)
    said = "intstore: alice 1 a starts\nintstore: alice 1 a ends, log not made, failed 61, [0-9]+ s\n"
    with cases.folder(lines=lines) as folder:
        (folder / "logs/alice-1.log").mkdir(parents=True)
        came = cases.run(folder, "--logs", "logs", "--verbose", "lines")
        cases.check("log_at_a_folder", folder, came, output=replies, errors=re.compile(said),
                    others=["the builder ran"] if (folder / "ran").exists() else [])
    with cases.folder(lines=lines) as folder:
        came = cases.run(folder, "--logs", "none", "lines")
        cases.check("no_folder_for_logs", folder, came, output=replies, errors="intstore: cannot use the folder none\n",
                    others=["`none` was made"] if (folder / "none").exists() else [])


def logs_of_many(cases):
    """Each goal has its own log, by the user and the number of the goal that leads the job; no builder has the file of
    another one open."""
    goals = [Goal(user, shell(f"{user}{n}", f"echo {user} {n} >&2; (ls /proc/$$/fd >open.{user}{n}); exec {HI}"),
                  done(f"{user}{n}", b"hi")) for n in (1, 2, 3) for user in ("alice", "bob")]
    goals.append(Goal("bob", nb("no-task"), FAILED))
    lines, replies = session("alice bob", *goals)
    with cases.folder(lines=lines) as folder:
        (folder / "logs").mkdir()
        came = cases.run(folder, "--logs", "logs", "lines", workers=7)
        others = [fault for user in ("alice", "bob") for n in (1, 2, 3)
                  for fault in log_faults(folder, f"{user} {n}\n".encode(), f"{user}-{n}.log")]
        opened = {name: (folder / name).read_text().split() for name in os.listdir(folder) if name.startswith("open.")}
        others += [f"{name} has {files}" for name, files in opened.items() if files != ["0", "1", "2"]]
        if (names := sorted(os.listdir(folder / "logs"))) != sorted(
                [f"{user}-{n}.log" for user in ("alice", "bob") for n in (1, 2, 3)] + ["bob-4.log"]):
            others.append(f"the logs are {names}")
        cases.check("logs_of_many_goals", folder, came, output=replies, others=others)


def logs(cases):
    for group in (what_is_kept, limited_log, streams_at_once, errors_held_by_a_grandchild, what_is_shown, names_of_logs, logs_of_many):
        group(cases)
