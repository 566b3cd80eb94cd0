"""Runs `rt ci` and reports its processor minutes by crate: gate_minutes.py FILE COMMAND [WORD]..

The command has the same output and status as without this. The minutes are written to FILE, which stays empty if there is no /proc.

`rt ci` prints no times. So this looks at the processes that it starts, every two seconds, and finds out from their command lines
what they are for:

    proof     `rattle build` or `rattle check` in the crate's folder
    edits     the same in a copy of the crate: a must-fail edit, or the check that a crate's edits begin with
    tests     the same with --test, which builds the tests too, and the run of the tests
    program   what the two compilers build of a proved program, and its runs

If a process ends between two looks, its time is what was seen last. So up to two seconds of each process are lost. The sum is
exact, because the system counts it when the command ends. What no look saw, and what rt itself took, is in the line `other`.
"""
import contextlib
import os
import re
import signal
import subprocess
import sys
import threading
from collections import defaultdict

SECONDS = 2
COLUMNS = ["proof", "edits", "tests", "program"]
# The program, or the tests of a crate, in the folder that rt runs it in.
RUN = re.compile(r"/rt-run-[^/]+/bin/(\w+?)(_tests)?$")
LINKED = re.compile(r"out/(\w+?)(_tests)?(\.by-rattle)?")


def read(path):
    with open(path, errors="replace") as file:
        return file.read()


def children(pid):
    found = []
    with contextlib.suppress(OSError):
        for task in os.listdir(f"/proc/{pid}/task"):
            found += read(f"/proc/{pid}/task/{task}/children").split()
    return found


def times(pid):
    """When the process began, and the ticks that it took so far, with all that it started. (Its number may be used again later.)"""
    fields = read(f"/proc/{pid}/stat").rpartition(")")[2].split()
    ticks = sum(map(int, fields[11:15]))
    # These fields include children that have ended and were waited for. The others have fields of their own.
    for child in children(pid):
        with contextlib.suppress(OSError):
            ticks += times(child)[1]
    return fields[19], ticks


def purpose(pid):
    """The crate and the column of a process, or None if its command line does not say, for example because it is about to change."""
    words = read(f"/proc/{pid}/cmdline").split("\0")
    if "--crate-name" in words:
        column = "tests" if "--test" in words else "program" if "--crate-checked" in words else "proof"
        if "/rt-edit-" in os.readlink(f"/proc/{pid}/cwd"):
            column = "edits"
        return words[words.index("--crate-name") + 1], column
    for word in words:
        found = RUN.search(word) or "rattle-link" in words[0] and LINKED.fullmatch(word)
        if found:
            return found[1], "tests" if found[2] else "program"
    return None


class Looks:
    """What was seen of the processes that one process started."""

    def __init__(self, pid):
        self.pid = pid
        self.ticks, self.purposes = {}, {}

    def look(self):
        for pid in children(self.pid):
            # (it may end meanwhile)
            with contextlib.suppress(OSError, ValueError, IndexError):
                began, ticks = times(pid)
                key = pid, began
                self.ticks[key] = max(ticks, self.ticks.get(key, 0))
                if not self.purposes.get(key):
                    self.purposes[key] = purpose(pid)

    def look_on(self, has_ended):
        while not has_ended.wait(SECONDS):
            self.look()

    def minutes(self):
        """By crate, those of each column."""
        found = defaultdict(lambda: dict.fromkeys(COLUMNS, 0.0))
        for key, ticks in self.ticks.items():
            if self.purposes.get(key):
                crate, column = self.purposes[key]
                found[crate][column] += ticks / os.sysconf("SC_CLK_TCK") / 60
        return found


def table(minutes, whole):
    """The lines, slowest crate first."""
    width = max(map(len, [*minutes, "processor minutes"]))
    rows = sorted(((name, sum(of.values()), of) for name, of in minutes.items()), key=lambda it: -it[1])
    yield f"{'processor minutes':{width}}" + "".join(f"{it:>9}" for it in [*COLUMNS, "sum"])
    for name, together, of in rows:
        yield f"{name:{width}}" + "".join(f"{it:9.1f}" for it in [*of.values(), together])
    seen = [sum(of[it] for _, _, of in rows) for it in COLUMNS]
    # (a command that was killed has not waited for all that it started)
    whole = max(whole, sum(seen))
    yield f"{'other':{width}}" + " " * 9 * len(COLUMNS) + f"{whole - sum(seen):9.1f}"
    yield f"{'all':{width}}" + "".join(f"{it:9.1f}" for it in [*seen, whole])


def main(file, *words):
    # The command gets a Ctrl-C too, and decides. (A child does not inherit a handler, but it inherits that a signal is ignored.)
    if signal.getsignal(signal.SIGINT) != signal.SIG_IGN:
        signal.signal(signal.SIGINT, lambda *_: None)
    try:
        process = subprocess.Popen(words)
    except OSError as why:
        print(f"{words[0]}: {why.strerror}", file=sys.stderr)
        return 127
    signal.signal(signal.SIGTERM, lambda *_: os.kill(process.pid, signal.SIGTERM))
    looks, has_ended = Looks(process.pid), threading.Event()
    looker = threading.Thread(target=looks.look_on, args=[has_ended], daemon=True)
    looker.start()
    _, status, usage = os.wait4(process.pid, 0)
    has_ended.set()
    looker.join()
    if looks.ticks:
        with contextlib.suppress(OSError), open(file, "w") as output:
            output.writelines(f"{it}\n" for it in table(looks.minutes(), (usage.ru_utime + usage.ru_stime) / 60))
    code = os.waitstatus_to_exitcode(status)
    if code < 0:
        # It ends as the command did.
        with contextlib.suppress(OSError):
            signal.signal(-code, signal.SIG_DFL)
        os.kill(os.getpid(), -code)
    return code


if __name__ == "__main__":
    sys.exit(main(*sys.argv[1:]))
