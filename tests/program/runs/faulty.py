"""Cases of several files, of faults and their order, and of lines that are refused."""
import pathlib
import re
import subprocess

from asking import content_path, numbered
from outside import run

REPLIES = pathlib.Path(__file__).resolve().parents[2] / "replies"
GOOD = "users alice\nalice source a f:\n"
TOLD = f"1 - ok\n2 alice path {content_path('a', b'')}\n"
MORE = "\n\nFor more information, try '--help'.\n"
MANY_USERS = "users " + " ".join(f"u{n}" for n in range(1, 66)) + "\n"


def later_files(cases):
    """The users are those of the first file. The line of users of another one has to be well-formed."""
    first = "# Only she is of the run.\n\nusers alice\nalice source a f:\nbob source a f:\nusers alice"
    second = "#\nusers bob carol\nbob source a f:\nalice source a f:\nalice trust carol\nalice distrust alice\n"
    path = content_path("a", b"")
    wanted = [numbered(["- ok", f"alice path {path}", "bob refused 11 UnknownUser", "- refused 25 BadLine"], 3),
              numbered(["- ok", "bob refused 11 UnknownUser", f"alice path {path}", "alice refused 11 UnknownUser",
                        "alice ok"], 2)]
    with cases.folder(first=first, second=second) as folder:
        cases.check("users_of_the_first_file", folder, cases.run(folder, "first", "second"), output="".join(wanted))
        cases.check("one_file_eight_times", folder, cases.run(folder, *["first"] * 8), output=wanted[0] * 8)


def check_words(cases, name, words, status, errors):
    """A case of a run that ends with a status and these words, and prints nothing."""
    files = {"good": GOOD, "empty": "", "comments": "# users alice\n\n#", "twice": "users alice alice\n" + GOOD,
             "nobody": "users\n" + GOOD, "source": "alice source a f:\n" + GOOD, "wait": "wait\n" + GOOD,
             "blanks": "users  alice\n" + GOOD, "many": MANY_USERS + GOOD, "capital": "users Alice\n" + GOOD}
    with cases.folder(**files) as folder:
        cases.check(name, folder, run(folder, [cases.program, "run", *words]), status=status, errors=errors)


def command_lines(cases):
    for name, words, errors in (
            ("no_file", ["--workers", "1"], "error: the following required arguments were not provided:\n  <FILE>.*"),
            ("no_workers", ["good"], "error: the following required arguments were not provided:\n  --workers <N>\n.*"),
            ("nine_files", ["--workers", "1", *["good"] * 9], "error: .*"),
            ("user_of_a_run", ["--workers", "1", "--user", "alice", "good"], "error: unexpected argument '--user' found\n.*"),
            ("explain_of_a_run", ["--workers", "1", "--explain", "good"], "error: unexpected argument '--explain' found\n.*"),
            ("logs_without_a_name", ["--workers", "1", "--logs", "", "good"], "error: a value is required for '--logs <DIR>'.*"),
            ("launcher_without_a_name", ["--workers", "1", "--launcher", "", "good"], "error: a value is required for '--launcher <PROGRAM>'.*"),
            ("workers_without_a_number", ["good", "--workers"], "error: a value is required for '--workers <N>'.*"),
            ("no_workers_and_a_missing_file", ["nothing"], "error: the following required arguments were not provided:\n.*")):
        check_words(cases, name, words, 2, re.compile(errors, re.DOTALL))
    for option, value, most, numbers in (("--workers", "N", 7, ("0", "8", "256")),
                                         ("--charge", "N", 1073741824, ("0", "1073741825")),
                                         ("--limit", "SECONDS", 31536000, ("0", "31536001", "18446744073709551616"))):
        for number in numbers:
            errors = f"error: invalid value '{number}' for '{option} <{value}>': {number} is not in 1..={most}{MORE}"
            if int(number) >= 2 ** 64:
                errors = re.compile(f"error: invalid value '{number}' for .*", re.DOTALL)
            words = [] if option == "--workers" else ["--workers", "1"]
            check_words(cases, f"{option[2:]}_{number}", [*words, option, number, "nothing"], 2, errors)
    errors = f"error: invalid value 'x' for '--workers <N>': invalid digit found in string{MORE}"
    check_words(cases, "workers_x", ["--workers", "x", "twice"], 2, errors)


def faults(cases):
    """Of several faults that of the command line is told first, then that of the first file that cannot be opened, and
    then that of a line of users."""
    command_lines(cases)
    for name, files, told in (
            ("missing_file", ["nothing"], "nothing"), ("two_missing_files", ["none", "nothing"], "none"),
            ("second_file_missing", ["good", "nothing", "none"], "nothing"), ("folder_as_a_file", ["work"], "work"),
            ("users_refused_and_a_missing_file", ["twice", "nothing"], "nothing"),
            ("no_users_and_a_missing_file", ["empty", "source", "nothing"], "nothing")):
        check_words(cases, name, ["--workers", "1", *files], 3, f"intstore: cannot read {told}\n")
    for file in "empty", "comments", "twice", "nobody", "source", "wait", "blanks", "many", "capital":
        check_words(cases, f"first_line_of_{file}", ["--workers", "1", file], 5, "")
        check_words(cases, f"first_line_of_{file}_behind", ["--workers", "1", "good", "good", file, "good"], 5, "")
    with cases.folder(good=GOOD) as folder:
        cases.check("no_fault", folder, run(folder, [cases.program, "run", "--workers", "7", "good"]), output=TOLD)


def help_of_run(cases):
    options = ["--workers <N>", "--builders <DIR>", "--work <DIR>", "--logs <DIR>", "--launcher <PROGRAM>",
               "--limit <SECONDS>", "--sweep", "--charge <N>", "--verbose", "<FILE>...", "--help"]
    for name, words in (("help_of_run", ["run", "--help"]), ("help_run", ["help", "run"])):
        with cases.folder() as folder:
            came = run(folder, [cases.program, *words])
            missing = [option for option in options if option not in came.errors]
            cases.check(name, folder, came, status=2, errors=re.compile(".*\n\nUsage: intstore run .*", re.DOTALL),
                        others=[f"it does not name {missing}"] if missing else [])


def outputs(cases):
    """Outputs that take nothing, and memory that is refused before a session begins: a line is longer than what may
    be mapped."""
    command = [cases.program, "run", "--workers", "1"]
    with cases.folder(good=GOOD) as folder:
        fault = {"status": 3, "errors": "intstore: cannot write\n"}
        cases.check("run_output_full", folder, run(folder, [*command, "good"], output="/dev/full"), **fault)
        cases.check("run_output_closed", folder, run(folder, [*command, "good"], closed=True), **fault)
        with (folder / "long").open("wb") as file:
            file.truncate(1 << 28)
        little = ["/bin/sh", "-c", 'ulimit -v 131072 && exec "$@"', "sh"]
        cases.check("run_memory_refused", folder, run(folder, [*little, *command, "long"]), status=4,
                    errors="intstore: out of memory\n")


def services(cases):
    """In the other subcommands the line `wait` is refused, and nothing is built; `strike` says how many are."""
    for stored in "process_builder", "lines_of_a_run":
        file = pathlib.Path(__file__).resolve().parent / f"{stored}.events"
        wanted = subprocess.run([REPLIES, file], stdout=subprocess.PIPE, text=True, check=True).stdout
        refused = [line for line in wanted.splitlines() if line.endswith(" - refused 25 BadLine")]
        lines = "".join(f"{line}\n" for line in wanted.splitlines() if line.split(" ")[1] == "alice")
        with cases.folder() as folder:
            cases.check(f"replay_of_{stored}", folder, run(folder, [cases.program, "replay", file]), output=wanted,
                        others=[] if refused else ["no line is refused"])
            came = run(folder, [cases.program, "strike", "--user", "alice", file])
            first = refused[0].split(" ")[0] if refused else "0"
            cases.check(f"strike_of_{stored}", folder, came, output=lines,
                        errors=f"intstore: lines refused 25: {len(refused)}, the first is line {first}\n")
