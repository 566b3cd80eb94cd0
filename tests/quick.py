"""bin/test --quick: what bin/test runs, except the proofs and the must-fail edits, side by side: quick.py SCRIPT..

It runs the #[test] functions of each crate (`rt try --test`), the stored run of each program (stored_run.py) and the named scripts
of tests/, which play the cases too, on builds without proofs. The output of a part is printed if it fails, in one piece when it has ended. The last line is
`N passed, M failed`. A crate's tests, a stored run and a script count as one each. A script that lacks what it needs counts as none.

As many parts run at once as there are processors. The scripts of QUIET wait until all others have ended, so that only they run side
by side. A script of HALVED gets --half: it runs every second trial, and prints which it leaves out (halves.py).

Ctrl-C ends all that was started: each part as by a Ctrl-C of its own, and after some seconds by SIGKILL.
"""
import contextlib
import ctypes
import os
import re
import shutil
import signal
import subprocess
import sys
import tempfile
import time
from pathlib import Path

ROOT = Path(__file__).resolve().parent.parent
TESTS = ROOT / "tests"
# Which programs a script runs. A script that is not named here waits for all of them.
RUNS = {
    "docs": [], "transcripts": ["transcripts"], "arguments": ["fartable"], "threads": ["fartable"], "thread_starts": ["fartable"], "gateway": [],
    "starts": ["fartable", "farrun", "wordcount", "farserve"], "wordcount_frames": ["wordcount"], "folders": ["fartable", "farrun"],
    "allocation_failures": ["fartable", "transcripts"], "scratch": ["farrun"], "server": ["farserve"],
    "fardump": ["farserve"], "cluster": ["farserve"], "stores": ["fartable", "farrun"], "library": ["farcalls"],
}
# Those whose trials have bounds of time, as the 60 seconds that a run of random files has. The longest is first.
QUIET = ["server", "gateway", "starts", "fardump", "cluster", "stores", "threads", "folders", "scratch"]
HALVED = ["server"]
# The status of a script that lacks what it needs.
SKIPPED = 77
# How many seconds the parts have to end after a Ctrl-C.
PATIENCE = 10
# How many bytes of memory a part may need.
MEMORY = 1 << 31
PR_SET_CHILD_SUBREAPER = 36
# The numbers of the signals that this has received.
received = []


class Part:
    """Something to run: `needs` are the parts that must have passed before, and `counts` is false for a build."""

    def __init__(self, name, words, needs=(), cwd=ROOT, counts=True, is_quiet=False):
        self.name, self.words, self.needs, self.cwd, self.counts, self.is_quiet = name, words, needs, cwd, counts, is_quiet
        self.process, self.status = None, None

    def start(self, room):
        self.began = time.monotonic()
        self.output = tempfile.TemporaryFile("w+", errors="replace", dir=room)
        how = {"stdin": subprocess.DEVNULL, "stdout": self.output, "stderr": subprocess.STDOUT, "start_new_session": True}
        # (env reports a command that is missing)
        self.process = subprocess.Popen(["env", *map(str, self.words)], cwd=self.cwd, env={**os.environ, "TMPDIR": room}, **how)

    def has_ended(self):
        self.status = self.process.poll()
        return self.status is not None

    def report(self):
        self.output.seek(0)
        text = self.output.read()
        self.output.close()
        took = f"({time.monotonic() - self.began:.0f} s)"
        if self.status not in (0, SKIPPED):
            print(f"== {self.name}\n{text.rstrip()}\nFAILED: {self.name}, with status {self.status} {took}", flush=True)
            return
        print(f"{self.name}: {'ok' if self.status == 0 else 'skipped'} {took}", flush=True)
        for line in text.splitlines():
            if "skipped: " in line or line.startswith("left out: "):
                print(f"    {line}", flush=True)

    def give_up(self):
        self.status = 1
        print(f"FAILED: {self.name}, since {' and '.join(it.name for it in self.needs if it.status)} failed", flush=True)


def parts(scripts):
    """All parts. The longest builds and tests are first, so that none of them is left alone at the end."""
    lines = (line.split("#")[0].partition(":") for line in (ROOT / "crates.txt").read_text().splitlines())
    listed = {head.split()[0]: words.split() for head, _, words in lines if head.strip()}
    texts = {name: [it.read_text() for it in (ROOT / "crates" / name / "src").rglob("*.rt")] for name in listed}

    def below(name):
        return {name}.union(*(below(it) for it in listed[name] if it in listed))

    sizes = {name: sum(len(text) for it in below(name) for text in texts[it]) for name in listed}
    names = sorted(listed, key=sizes.get, reverse=True)
    programs = [it for it in names if (ROOT / "crates" / it / "src/main.rt").is_file()]
    tested = [it for it in names if any(re.search(r"^\s*#\[test\]", text, re.M) for text in texts[it])]

    builds = {it: Part(f"build of {it}", [ROOT / "bin/build", it], counts=False) for it in programs}
    yield from builds.values()
    for name in tested:
        yield Part(f"tests of {name}", ["rt", "try", "--test", "--seconds", "600"], cwd=ROOT / "crates" / name)
    for name in programs:
        yield Part(f"stored run of {name}", ["/usr/bin/python3", "-B", TESTS / "stored_run.py", name], [builds[name]])
    for name in sorted(scripts, key=lambda it: QUIET.index(it) if it in QUIET else -1):
        needs = [builds[it] for it in RUNS.get(name, programs)]
        options = ["--half"] if name in HALVED else []
        yield Part(f"tests/{name}.sh", [TESTS / f"{name}.sh", *options], needs, is_quiet=name in QUIET)


def children(pid):
    found = []
    with contextlib.suppress(OSError):
        for task in os.listdir(f"/proc/{pid}/task"):
            found += map(int, Path(f"/proc/{pid}/task/{task}/children").read_text().split())
    return found


def all_below(pid):
    return [it for child in children(pid) for it in [child, *all_below(child)]]


def reap(running):
    """Waits for processes that were inherited because their parents have ended, so that they do not stay as zombies."""
    parts = [it.process.pid for it in running]
    for pid in children(os.getpid()):
        with contextlib.suppress(ChildProcessError):
            if pid not in parts:
                os.waitpid(pid, os.WNOHANG)


def end(running):
    """Ends all that was started. A second signal ends it at once."""
    for part in running:
        if not part.has_ended():
            os.killpg(part.process.pid, signal.SIGINT)
    limit = time.monotonic() + PATIENCE
    while len(received) < 2 and time.monotonic() < limit and not all(it.has_ended() for it in running):
        time.sleep(0.1)
    limit = time.monotonic() + PATIENCE
    while time.monotonic() < limit and (left := all_below(os.getpid())):
        for pid in left:
            with contextlib.suppress(OSError):
                os.kill(pid, signal.SIGKILL)
        reap([])
        time.sleep(0.01)


def most_at_once():
    """As many parts as there are processors, but no more than memory holds."""
    free = re.search(r"MemAvailable:\s+(\d+) kB", Path("/proc/meminfo").read_text())
    return max(1, min(len(os.sched_getaffinity(0)), (int(free[1]) << 10) // MEMORY))


def run(waiting, room):
    """Runs all parts."""
    running, most = [], most_at_once()

    def may_start(part):
        is_well = len(running) < most and all(it.status == 0 for it in part.needs)
        return is_well and (not part.is_quiet or all(it.is_quiet for it in [*waiting, *running]))

    try:
        while (waiting or running) and not received:
            for part in [it for it in waiting if any(need.status for need in it.needs)]:
                waiting.remove(part)
                part.give_up()
            while part := next((it for it in waiting if may_start(it)), None):
                waiting.remove(part)
                part.start(room)
                running.append(part)
            time.sleep(0.2)
            for part in [it for it in running if it.has_ended()]:
                running.remove(part)
                part.report()
            reap(running)
    finally:
        end(running)


def main(scripts):
    began = time.monotonic()
    ctypes.CDLL(None).prctl(PR_SET_CHILD_SUBREAPER, 1)
    for number in (signal.SIGINT, signal.SIGTERM, signal.SIGHUP):
        signal.signal(number, lambda it, _: received.append(it))
    every = list(parts(scripts))
    room = tempfile.mkdtemp(prefix="quick-")
    # Like /tmp itself, because some trials run as another user.
    os.chmod(room, 0o1777)
    try:
        run(every.copy(), room)
    finally:
        shutil.rmtree(room, ignore_errors=True)
    if received:
        print("interrupted; all that was started has ended", file=sys.stderr)
        return 128 + received[0]
    failed = [it for it in every if it.counts and it.status not in (0, SKIPPED)]
    passed = [it for it in every if it.counts and it.status == 0]
    print(f"nothing was proved in these {time.monotonic() - began:.0f} seconds: bin/test proves")
    print(f"{len(passed)} passed, {len(failed)} failed")
    return 1 if failed else 0


if __name__ == "__main__":
    sys.exit(main(sys.argv[1:]))
