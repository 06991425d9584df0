"""What stands under the name of a file of inputs, or of a log, before it is made: it is removed and never followed."""
import os
import re

from asking import FAILED, done, one, shell

NAME = "work/inputs-alice-1"
KEPT = "kept"


def link(folder, name=NAME):
    (folder / name).symlink_to(folder / KEPT)


def dangling_link(folder, name=NAME):
    (folder / name).symlink_to(folder / "planted")


def link_to_a_folder(folder, name=NAME):
    (folder / "planted").mkdir()
    (folder / name).symlink_to(folder / "planted")


def hard_link(folder, name=NAME):
    os.link(folder / KEPT, folder / name)


def fifo(folder, name=NAME):
    os.mkfifo(folder / name)


def file_of_all(folder, name=NAME):
    (folder / name).write_text("of all")
    (folder / name).chmod(0o666)


def file_that_a_writer_has_open(folder, name=NAME):
    """Whoever has the file that was there open does not alter the inputs."""
    (folder / name).write_text("of all")
    file_that_a_writer_has_open.file = (folder / name).open("ab", buffering=0)


def faults(folder):
    """What is otherwise than before, in words."""
    if (folder / KEPT).read_text() != KEPT or (folder / KEPT).stat().st_nlink != 1:
        yield f"the file {KEPT} is another: {(folder / KEPT).read_bytes()[:100]!r}"
    planted = folder / "planted"
    if planted.is_file() or planted.is_dir() and any(planted.iterdir()):
        yield "a file was planted"


def names_of_inputs(cases):
    """The builder is well where its file of inputs is empty, a file of its own, and for its owner alone."""
    script = 'test "$(stat -c "%a %F %h" "$INPUTS")" = "600 regular empty file 1" && exec builders/nb text hi'
    lines, replies = one(shell("a", script), done("a", b"hi"))
    for before in link, dangling_link, link_to_a_folder, hard_link, fifo, file_of_all, file_that_a_writer_has_open:
        with cases.folder(lines=lines, **{KEPT: KEPT}) as folder:
            before(folder)
            came = cases.run(folder, "lines", limit=10)
            cases.check(f"inputs_at_a_{before.__name__}", folder, came, output=replies, others=list(faults(folder)))
    lines, replies = one(shell("a", script), FAILED)
    with cases.folder(lines=lines, **{KEPT: KEPT}) as folder:
        (folder / NAME).mkdir()
        came = cases.run(folder, "--verbose", "lines")
        said = "intstore: alice 1 a starts\nintstore: alice 1 a ends, inputs not written, failed 61, [0-9]+ s\n"
        cases.check("inputs_at_a_folder", folder, came, output=replies, errors=re.compile(said), kept=[NAME],
                    others=list(faults(folder)))
