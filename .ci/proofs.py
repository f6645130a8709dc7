"""What `rt ci` reads, and what it leaves. Whoever calls this is in the repository's folder."""
import glob
import os
import re
import shutil
from checks import KIT
from functions import crate_names
from sums import bytes_of, files_in, sum_of, sum_of_file, sum_of_kit

SCRIPTS = ("kept_proofs", "proofs.py", "checks.py", "functions.py", "kept.py", "sums.py")
# the crates' files, and what it refuses elsewhere
READ = re.compile(r"crates|crates/.*|HANDLES|(.*/)?(crates\.txt|(BUILD|MODULE)\.bazel|\.git|[^/]*\.(rt|antt))", re.S)
# of the kit, beside what `sum_of_kit` looks at
OF_KIT = ("c", "rattle/std/specs")


def what_counts():
    """A sum of all that `rt ci` reads, and of the scripts that keep; and of each file and folder of it in the repository the path, a sum, and
    when it was touched last."""
    found = []
    for at, folders, files in os.walk("."):
        apart = ".git" if at == "." else "out" if os.path.dirname(at) == "./crates" else ""
        for path in sorted(f"{at}/{it}"[2:] for it in [*folders, *files]):
            if os.path.islink(path):
                raise OSError(f"{path} is a link")
            if READ.fullmatch(path) and os.path.basename(path) != apart:
                # a crate's own folder is touched by what comes and goes as its out
                touched = os.path.dirname(path) != "crates" and os.lstat(path).st_ctime_ns
                found.append((path, sum_of_file(path) if os.path.isfile(path) else os.path.isdir(path), touched))
        folders[:] = sorted(it for it in folders if it != apart)
    if not os.path.lexists(".git"):
        raise OSError("this is no repository of its own, and may be in another one")
    kit = [(it, sum_of_file(f"{KIT}/{part}/{it}")) for part in OF_KIT for it in files_in(f"{KIT}/{part}")]
    scripts = [bytes_of(f".ci/{it}") for it in SCRIPTS]
    # the kit's sum as it is now, and not as it was at the first time
    return sum_of([it[:2] for it in found], scripts, kit, sum_of_kit.__wrapped__()), found


def what_is_left():
    """What `rt ci` leaves: each crate's library, and its program or tests, as each compiler builds them, with what they wrote."""
    return [it for name in crate_names() for part in ("rlib/*.rlib", f"{name}*", "stdout*") for it in sorted(glob.glob(f"crates/{name}/out/{part}"))]


def how_it_stands(paths):
    """Of each file and folder at or below these paths when it was changed last, and its size."""
    them = [f"{at}/{it}" for path in paths for at, folders, files in os.walk(path) for it in [".", *folders, *files]]
    return [(it, found.st_mtime_ns, found.st_size) for it in sorted([*paths, *them]) for found in [os.lstat(it)]]


def clear():
    """Removes what stands in its place. What checks keep for the next one stays, and all else."""
    for it in [*what_is_left(), *glob.glob("crates/*/out/rlib")]:
        (shutil.rmtree if os.path.isdir(it) else os.remove)(it)
