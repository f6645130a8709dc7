"""What scripts count that look at many things: what is so, and what isn't. Those of this folder whose names end in _hold or _holds, and
tests."""
import sys
import time


def is_built(file):
    """Whether it is a program, which was built beside the scripts and is none of the repository's files."""
    with open(file, "rb") as it:
        return it.read(4) == b"\x7fELF"


def becomes(is_so):
    """Whether something is so in a while, on a busy machine too."""
    deadline = time.monotonic() + 100
    while not is_so() and time.monotonic() < deadline:
        time.sleep(0.02)
    return is_so()


def is_there(file):
    """Whether the process whose number is in a file has not ended. A file is made before the number is written: then nothing has begun."""
    try:
        with open(file, encoding="utf-8") as it, open(f"/proc/{int(it.read())}/stat", encoding="utf-8") as told:
            return told.read().rpartition(")")[2].split()[0] != "Z"
    except (OSError, ValueError):
        return False


class Holding:
    """Counts for the script of this name, which has to find so much that is so: one that looks at less has lost something unseen."""

    def __init__(self, name, least, words=("hold", "don't")):
        self.name, self.least, self.words, self.held, self.wrong = name, least, words, 0, 0

    def __call__(self, what, is_so):
        if is_so:
            self.held += 1
        else:
            self.wrong += 1
            print(f"{self.name}: not so: {what}", file=sys.stderr)

    def status(self):
        """The status of the script, whose last line counts."""
        is_enough = self.held >= self.least
        print(f"{self.name}: {self.held} {self.words[0]}, {self.wrong} {self.words[1]}{'' if is_enough else f', and {self.least} at least have to'}")
        return 0 if is_enough and not self.wrong else 1
