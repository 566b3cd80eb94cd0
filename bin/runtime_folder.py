"""A server's folder of named pipes, in XDG_RUNTIME_DIR or the folder for temporary files.

Who makes such a folder holds a lock on a file in it. The next start removes those that nobody holds, as a killed server's.
"""
import contextlib
import fcntl
import os
import re
import stat
import tempfile

NAME = re.compile(r"farserve-[a-z0-9_]{8}")
LOCK = "lock"
# The names of a worker's pipes, each followed by its number.
PIPES = ["requests", "replies", "far-requests", "far-replies"]
OWN = re.compile(rf"(?:{'|'.join(PIPES)})\d+|{LOCK}")


def parent():
    runtime = os.environ.get("XDG_RUNTIME_DIR", "")
    return runtime if os.path.isdir(runtime) else tempfile.gettempdir()


def remove(folder):
    """Removes the pipes, and the folder unless it has something else."""
    with contextlib.suppress(OSError):
        # The lock goes last, so that what is left of a removal that is cut short can be removed too.
        for name in sorted(os.listdir(folder), key=lambda it: it == LOCK):
            path = os.path.join(folder, name)
            if OWN.fullmatch(name) and (name == LOCK or stat.S_ISFIFO(os.lstat(path).st_mode)):
                os.unlink(path)
        os.rmdir(folder)


def remove_left(within):
    """Removes the user's folders that nobody holds."""
    for name in os.listdir(within) if os.access(within, os.R_OK) else []:
        folder = os.path.join(within, name)
        with contextlib.suppress(OSError):
            if NAME.fullmatch(name) and os.lstat(folder).st_uid == os.geteuid():
                # (an error says that it has no lock, or that somebody holds it)
                lock = os.open(os.path.join(folder, LOCK), os.O_RDWR | os.O_NOFOLLOW | os.O_CLOEXEC)
                try:
                    fcntl.flock(lock, fcntl.LOCK_EX | fcntl.LOCK_NB)
                    remove(folder)
                finally:
                    os.close(lock)


def held(within):
    """Makes a folder, and gives its path and the lock's descriptor."""
    while True:
        folder = tempfile.mkdtemp(prefix="farserve-", dir=within)
        lock = os.open(os.path.join(folder, LOCK), os.O_RDWR | os.O_CREAT | os.O_CLOEXEC, 0o600)
        fcntl.flock(lock, fcntl.LOCK_EX)
        # Between the two calls another start may have taken it for one that nobody holds.
        if os.fstat(lock).st_nlink:
            return folder, lock
        os.close(lock)


@contextlib.contextmanager
def runtime_folder():
    """A new folder, which is removed at the end."""
    within = parent()
    remove_left(within)
    folder, lock = held(within)
    try:
        yield folder
    finally:
        remove(folder)
        os.close(lock)
