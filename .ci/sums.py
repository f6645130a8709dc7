"""Sums of all that a verdict on a wrong body depends on.

A crate's state is the sum of
- its sources, definitions and proofs;
- what each crate below it shows to those above: its library as it was built, without the bodies of functions and the proofs over them,
  which no crate above can cite;
- what the check is called with, the scripts that judge, and the kit.
The sum of an edit is that of its name and its text."""
import functools
import hashlib
import json
import os
import re
from checks import KIT, PARTS, CheckFailed, below, check_of
from functions import ROOT

SCRIPTS = ("wrong_bodies", "checks.py", "functions.py", "kept.py", "rounds.py", "sums.py")
# of what a library is made of for a function, what its body and the proof over that are: a crate above is shown none of these modules, and
# none of those that say what the function promises reads them. Of a closure, whose folder is below one `fn`, they do
BODY = re.compile(r"/(Code/Mir|Lts|Lts/Given|Lts/View|Given|Goals|Tie|Proof|(Answers|Invariants|Proof)\.antt)$")
# of what a library says of itself, what only tells how it was built, or over which others
BUILT = re.compile(r"^(sum|checked|incremental|over|needs|carries|free|free-alone)\b.*\n", re.M)


def sum_of(*parts):
    return hashlib.sha256(repr(parts).encode()).hexdigest()


def bytes_of(path):
    with open(path, "rb") as file:
        return file.read()


def sum_of_file(path):
    """A sum of a file that may be large."""
    found = hashlib.sha256()
    with open(path, "rb") as file:
        while part := file.read(1 << 20):
            found.update(part)
    return found.hexdigest()


def files_in(folder):
    """The files in a folder, by their paths there, in order."""
    return sorted(os.path.relpath(f"{at}/{it}", folder) for at, _, files in os.walk(folder) for it in files)


def sum_of_files(folder, parts):
    """A sum of the files in these parts of a folder."""
    return sum_of(*((part, it, bytes_of(f"{folder}/{part}/{it}")) for part in parts for it in files_in(f"{folder}/{part}")))


@functools.lru_cache(maxsize=None)
def sum_of_kit(kit=KIT):
    """A sum of what a check reads of the kit: of each file the name, the size and the time, since there are too many to read."""
    found = []
    for part in ("bin", "toolchain", "logic_built", "rattle/logic", "rlibs"):
        for it in [it for it in files_in(f"{kit}/{part}") if "__pycache__" not in it]:
            at = os.lstat(f"{kit}/{part}/{it}")
            found.append((part, it, at.st_size, at.st_mtime_ns))
    return sum_of(bytes_of(f"{kit}/KIT-ID"), found)


def modules_of(folder):
    """A library's list of the modules that it is made of: of each the name, its sum and a flag."""
    try:
        lines = bytes_of(f"{folder}/toolchain/made.json").splitlines()
        return [(name, sum, flag) for name, _, _, sum, flag in map(json.loads, lines)]
    except (OSError, ValueError, TypeError) as why:
        raise CheckFailed(f"the library {os.path.basename(folder)} has no list of its modules: {why}") from why


@functools.lru_cache(maxsize=None)
def sum_of_library(folder):
    """A sum of what a library shows to crates above, whether `rt ci` or `rt lib` built it. Its list of modules has a sum of each. What is
    left out beside bodies, checked forms and `below`, is made of these and of the libraries below."""
    modules = modules_of(folder)
    functions = {it[0].removesuffix("/Statement") for it in modules if it[0].endswith("/Statement") and "/fn/" not in it[0]}

    def is_shown(name):
        body = BODY.search(name)
        return not body or name[:body.start()] not in functions

    made = [it for it in modules if is_shown(it[0])]
    texts = [(it, bytes_of(f"{folder}/lang/antt/{it}")) for it in files_in(f"{folder}/lang/antt") if is_shown(it) and it != "made.json"]
    format = BUILT.sub("", bytes_of(f"{folder}/format").decode())
    return sum_of(format, made, texts, sum_of_files(folder, ("lang/src", "interface")))


def state_of(name, own, libraries, scripts=f"{ROOT}/.ci"):
    """The state of a crate whose sources, definitions and proofs are in a folder, over these libraries, judged by the scripts of a folder."""
    judges = [(it, bytes_of(f"{scripts}/{it}")) for it in SCRIPTS]
    words = [it.replace(libraries.folder, "") for it in check_of(name, libraries)]
    lower = [(it, sum_of_library(libraries.path(it))) for it in below(name)]
    return sum_of(name, sum_of_files(own, PARTS), lower, words, judges, sum_of_kit())


def sum_of_edit(path):
    return sum_of(os.path.basename(path), bytes_of(path))
