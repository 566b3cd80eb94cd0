"""Memory groups of the system (cgroups), of version 1 or 2: processes that together may have so many bytes, or one of them is killed."""
import contextlib
import os
import time
from pathlib import Path

ROOT = Path("/sys/fs/cgroup")


def parent():
    """The folder of this process's group, and whether it is of version 2. None where there is no such group."""
    for line in Path("/proc/self/cgroup").read_text().splitlines():
        _, kinds, path = line.split(":", 2)
        folder = ROOT / ("memory" if kinds else "") / path.lstrip("/")
        if kinds == "memory" and folder.is_dir():
            return folder, False
        # (processes are in groups without groups of their own, so that of version 2 is made beside this one)
        if not kinds and "memory" in read(ROOT / "cgroup.subtree_control").split():
            return ROOT, True
    return None


def read(file):
    with contextlib.suppress(OSError):
        return file.read_text()
    return ""


class Group:
    """A group in a folder, for as many bytes."""

    def __init__(self, folder, is_second, most):
        self.folder, self.is_second = folder, is_second
        (folder / ("memory.max" if is_second else "memory.limit_in_bytes")).write_text(str(most))
        # What is swapped out would not count.
        with contextlib.suppress(OSError):
            (folder / ("memory.swap.max" if is_second else "memory.swappiness")).write_text("0")

    def join(self):
        """Has the calling process be in it, and those that it starts."""
        (self.folder / "cgroup.procs").write_text(str(os.getpid()))

    def killed(self):
        """How many were killed since they had more."""
        told = read(self.folder / ("memory.events" if self.is_second else "memory.oom_control"))
        return dict(it.split() for it in told.splitlines())["oom_kill"]

    def peak(self):
        told = read(self.folder / ("memory.peak" if self.is_second else "memory.max_usage_in_bytes"))
        return int(told or 0)


@contextlib.contextmanager
def memory_group(most):
    """A group for so many bytes, None where none can be made."""
    found, folder = parent(), None
    if found:
        folder = found[0] / f"fazhitta-{os.getpid()}-{time.monotonic_ns()}"
        with contextlib.suppress(OSError):
            folder.mkdir()
    if folder is None or not folder.is_dir():
        yield None
        return
    try:
        yield Group(folder, found[1], most)
    finally:
        # Its processes have ended a moment before they have left it.
        for _ in range(500):
            with contextlib.suppress(OSError):
                folder.rmdir()
                break
            time.sleep(0.01)
