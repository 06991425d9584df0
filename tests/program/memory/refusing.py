"""A program that is refused memory at one of its allocations, by a library that it is run with (LD_PRELOAD)."""
import os
import pathlib
import shutil
import subprocess

HERE = pathlib.Path(__file__).resolve().parent
OUT_OF_MEMORY = b"intstore: out of memory\n"
# In seconds; each run takes some milliseconds.
LONGEST = 60


def compiler():
    """The C compiler, `cc` or what CC names; nothing where it is missing."""
    return shutil.which(os.environ.get("CC", "cc"))


def build_library(folder):
    library = f"{folder}/refusing.so"
    subprocess.run([compiler(), "-O1", "-shared", "-fPIC", "-o", library, HERE / "refusing.c"], check=True)
    return library


class Program:
    def __init__(self, path, folder):
        self.path, self.library, self.counted = path, build_library(folder), pathlib.Path(folder) / "counted"

    def run(self, words, refused=0):
        """The status, standard output and standard error of a run whose allocation of that number is refused."""
        environment = {"LD_PRELOAD": self.library, "REFUSED": str(refused), "COUNTED": str(self.counted)}
        ran = subprocess.run([self.path, *words], env=environment, stdin=subprocess.DEVNULL, capture_output=True,
                             timeout=LONGEST, check=False)
        return ran.returncode, ran.stdout, ran.stderr

    def allocations(self, words):
        self.run(words)
        return int(self.counted.read_text())
