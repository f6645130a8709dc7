"""What is kept of earlier runs on this machine, by the sums of all that it was made from (`sums.py`).

Each entry is a file, whose name says what it was made from, and whose first line is a sum of its name and of the rest: one that is not
whole, or stands under another name, counts for nothing. They are in folders of the user's cache, which no other user may look into; who
can write there can also change what these scripts say."""
import json
import os
import stat
import tempfile
from sums import bytes_of, sum_of

CACHE = f"{os.environ.get('XDG_CACHE_HOME') or os.path.expanduser('~/.cache')}/dovecounter"
# of each state of a crate, which of its wrong bodies were refused; the project has 28 states at a time, in 60 KB
VERDICTS, MOST_VERDICTS = f"{CACHE}/wrong-bodies", 1000


def is_ours(folder):
    """Whether a folder, which is made if there is none, is the user's alone."""
    try:
        os.makedirs(folder, 0o700, exist_ok=True)
        at = os.lstat(folder)
    except OSError:
        return False
    return stat.S_ISDIR(at.st_mode) and at.st_uid == os.geteuid() and not at.st_mode & 0o077


def entry_of(folder, name):
    """What an entry holds; None if there is none, or if it is damaged."""
    try:
        told, _, content = bytes_of(f"{folder}/{name}").partition(b"\n") if is_ours(folder) else (b"", b"", b"")
        if told.decode() == sum_of(name, content):
            os.utime(f"{folder}/{name}")
            return content
    except (OSError, ValueError):
        pass
    return None


def keep_entry(folder, name, content, most):
    """Keeps an entry, and removes those that were longest unused beyond so many."""
    if not is_ours(folder):
        return
    try:
        # written apart and renamed, so that no other run meets half of it
        with tempfile.NamedTemporaryFile(dir=folder, prefix="new-", delete=False) as file:
            file.write(f"{sum_of(name, content)}\n".encode() + content)
        os.replace(file.name, f"{folder}/{name}")
        with os.scandir(folder) as found:
            oldest = sorted(found, key=lambda it: it.stat().st_mtime)
        for it in oldest[:-most]:
            os.remove(it.path)
    except OSError:
        # no room, say, or another run removed the same
        pass


def refused_before(name, state):
    """The sums of the edits that were refused in this state of a crate. Nothing else is kept: an edit that was not refused is tried again."""
    content = entry_of(VERDICTS, f"{name}-{state}")
    return set(json.loads(content)) if content else set()


def keep_refused(name, state, tried, refused):
    """Keeps which of the edits that were tried were refused, beside what is kept of others."""
    them = sorted(refused_before(name, state) - tried | refused)
    keep_entry(VERDICTS, f"{name}-{state}", json.dumps(them).encode(), MOST_VERDICTS)
