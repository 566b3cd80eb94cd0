"""Trials of starts.py: how soon a server is ready, how signals end it, and what killed ones leave."""
import fcntl
import os
import random
import signal
import subprocess
import time
from pathlib import Path

from server_parts import PATIENCE, ROOT, Farserve, until
from starts_parts import Skipped

# Seconds in which a server that is built is ready, on a machine that has little else to do, and how many starts of Python they are
# where that is slow.
SOON = 0.5
PYTHONS = 30
STARTS = 20
WORDS = ["--memory", "64m", "--port", "0"]


def start_of_python():
    began = time.monotonic()
    subprocess.run(["/usr/bin/python3", "-BES", "-c", "pass"], check=True)
    return time.monotonic() - began


def a_built_server_is_soon_ready(tried, _):
    """The best of some starts, as others may use the machine too."""
    told, python = [], min(start_of_python() for _ in range(STARTS))
    for _ in range(STARTS):
        began = time.monotonic()
        with Farserve(tried.work, far=tried.folder()):
            told.append(time.monotonic() - began)
        if told[-1] < max(SOON, PYTHONS * python):
            return f"in {told[-1]:.2f} s"
    busy = os.getloadavg()[0] / os.cpu_count()
    if busy > 1:
        raise Skipped(f"the machine is too busy, with {busy:.1f} times as much to do as it can: ready in {min(told):.2f} s")
    raise AssertionError(told)


def a_signal_to_all_ends_a_server_well(tried, is_long):
    """Also if the gateway ends before the signal comes to the launcher."""
    times = 100 if is_long else 8
    for at in range(times):
        name = (signal.SIGINT, signal.SIGTERM)[at % 2]
        with Farserve(tried.work, far=None) as server:
            os.killpg(server.process.pid, name)
            assert server.process.wait(PATIENCE) == 0, server.text()
    # The gateway has it a little sooner. (Others may use the machine, so that little is much: of some times one has to be well.)
    statuses = []
    while 0 not in statuses and len(statuses) < 5:
        with Farserve(tried.work, far=None) as server:
            os.kill(server.pid("gateway"), name)
            time.sleep(0.05)
            server.process.send_signal(name)
            statuses.append(server.process.wait(PATIENCE))
    assert 0 in statuses, statuses
    assert not os.listdir(tried.runtime), "a folder of pipes is left"


def takes_interrupts(pid):
    """Whether SIGINT no longer ends the process at once, by its number: it is blocked, or caught."""
    status = dict(line.split(":\t") for line in Path(f"/proc/{pid}/status").read_text().splitlines() if ":\t" in line)
    bits = int(status["SigBlk"], 16) | int(status["SigCgt"], 16)
    return "python3" in os.readlink(f"/proc/{pid}/exe") and bits >> (signal.SIGINT - 1) & 1


def a_signal_at_any_moment_of_a_start_ends_it_well(tried, is_long):
    times, began = 200 if is_long else 25, time.monotonic()
    with Farserve(tried.work, far=None):
        longest = 1.2 * (time.monotonic() - began)
    moments = random.Random(times)
    for at in range(times):
        process = subprocess.Popen([ROOT / "bin/farserve", *WORDS], stdin=subprocess.DEVNULL, stdout=subprocess.DEVNULL,
                                   stderr=subprocess.PIPE, text=True, start_new_session=True)
        until(lambda: takes_interrupts(process.pid), "the launcher")
        time.sleep(moments.uniform(0, longest))
        os.killpg(process.pid, signal.SIGINT)
        said = process.communicate(timeout=PATIENCE)[1]
        assert process.returncode == 0 and "Traceback" not in said, (at, process.returncode, said)
    assert not os.listdir(tried.runtime), "a folder of pipes is left"
    return f"{times} of them, within {longest:.2f} s"


def folders_that_nobody_holds_are_removed(tried, _):
    """And no others: another server's, one without a lock or with something else in it, and what has another name."""
    kept, folders = [], tried.runtime

    def makes(name, *files):
        folder = folders / name
        folder.mkdir()
        for file in files:
            (folder / file).touch()
        return folder

    with Farserve(tried.work, far=None) as other:
        others = [it for it in folders.iterdir()]
        assert len(others) == 1, others
        with Farserve(tried.work, far=None) as killed:
            left = [it for it in folders.iterdir() if it not in others]
            killed.process.kill()
            killed.process.wait()
        assert len(left) == 1 and left[0].is_dir()
        kept = [makes("farserve-nolock00"), makes("farserve-theirs00", "lock", "theirs"), makes("farserve-other-name", "lock"),
                makes("farserve-isheld00", "lock"), others[0]]
        empty = makes("farserve-isleft00", "lock")
        with (kept[3] / "lock").open() as lock:
            fcntl.flock(lock, fcntl.LOCK_EX)
            with Farserve(tried.work, far=None):
                assert not left[0].exists() and not empty.exists(), list(folders.iterdir())
                assert all(it.is_dir() for it in kept) and (kept[1] / "theirs").exists(), list(folders.iterdir())
        other.answers()
    for folder in kept[:-1]:
        subprocess.run(["rm", "-r", folder], check=True)
    assert not os.listdir(folders)


TRIALS = [a_built_server_is_soon_ready, a_signal_to_all_ends_a_server_well, a_signal_at_any_moment_of_a_start_ends_it_well,
          folders_that_nobody_holds_are_removed]
