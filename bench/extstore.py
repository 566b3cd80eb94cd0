"""Measures for extstore.sh, whose head says what: extstore.py LOAD FOLDER RUNS [--quick] [--cold] [ROUNDS].

LOAD is the program of bench/load, FOLDER has the servers' files. Each line of RUNS is of JSON: what a server did in a cell.
"""
import contextlib
import getpass
import json
import os
import socket
import subprocess
import sys
import tempfile
import threading
import time
from collections import defaultdict
from pathlib import Path
from statistics import median

ROOT = Path(__file__).resolve().parent.parent
sys.path.insert(0, str(ROOT / "tests"))
from server_parts import Farserve, until  # noqa: E402

MEBIBYTE = 1 << 20
CELLS = [(value, draw, gets) for value in (512, 4096) for draw in ("uniform", "zipf") for gets in (95, 50)]
# What the picture shows over the part of the data that memory holds.
DRAWN = 4096, "zipf", 95
PART = {1: "all", 2: "1/2", 4: "1/4", 8: "1/8", 16: "1/16"}
COLORS = {"farserve": "#c0392b", "memcached": "#2980b9"}
QUIET = {"stdin": subprocess.DEVNULL, "stdout": subprocess.DEVNULL, "stderr": subprocess.DEVNULL}
CONNECTIONS = ["--connections", "32", "--threads", "2"]
# The least MiB of slabs that memcached runs with.
LEAST_SLABS = 4
# A server is warm once so many in a hundred gets hit, or their part stops to grow.
WARM = 0.98


class Plan:
    """How much is measured, and for how long, in seconds."""

    def __init__(self, words):
        is_quick = "--quick" in words
        self.is_cold = "--cold" in words
        counts = [int(it) for it in words if not it.startswith("--")]
        self.rounds = counts[0] if counts else 1 if is_quick else 5
        self.data = 128 if is_quick else 256
        self.parts = (1, 4) if is_quick else (1, 2, 4, 8, 16)
        self.seconds, self.warm_up, self.most_warm = (1, 0.5, 3) if is_quick else (3, 1, 8)
        self.picture = tempfile.mkstemp(suffix=".svg")[1] if is_quick or self.is_cold else ROOT / "docs/extstore.svg"

    def keys(self, value):
        return self.data * MEBIBYTE // (16 + value)


class Running:
    """A server that answers: its processes, and its files in the folder."""

    def __init__(self, protocol, port, pids, folder):
        self.protocol, self.port, self.pids, self.folder = protocol, port, pids, folder

    def resident(self):
        """MiB of all its processes."""
        texts = (Path(f"/proc/{pid}/status").read_text() for pid in self.pids)
        return sum(int(it.partition("VmRSS:")[2].split()[0]) for it in texts) / 1024

    def files(self):
        """Ways to its files, which may have no names."""
        for file in (file for pid in self.pids for file in Path(f"/proc/{pid}/fd").iterdir()):
            with contextlib.suppress(OSError):
                if os.readlink(file).startswith(str(self.folder)):
                    yield file

    def disk(self):
        """MiB that its files take."""
        return sum(it.stat().st_blocks * 512 for it in self.files()) / MEBIBYTE

    def drop(self, is_ended):
        """Has the pages of its files written and dropped, until the event comes."""
        while not is_ended.wait(0.05):
            for file in self.files():
                with contextlib.suppress(OSError), open(file, "rb") as opened:
                    os.fdatasync(opened.fileno())
                    os.posix_fadvise(opened.fileno(), 0, 0, os.POSIX_FADV_DONTNEED)


@contextlib.contextmanager
def started(words, port, protocol, folder):
    process = subprocess.Popen([str(it) for it in words], **QUIET)

    def is_there():
        assert process.poll() is None, f"it has ended: {words}"
        with contextlib.suppress(OSError), socket.create_connection(("127.0.0.1", port)):
            return True
    try:
        until(is_there, words[0])
        yield Running(protocol, port, [process.pid], folder)
    finally:
        process.terminate()
        process.wait()


def free_port():
    with socket.create_server(("127.0.0.1", 0)) as held:
        return held.getsockname()[1]


@contextlib.contextmanager
def farserve(memory, folder):
    with Farserve(folder, memory=f"{memory}m") as server:
        yield Running("resp", server.port(), [server.pid("farserve"), server.pid("gateway")], folder)


@contextlib.contextmanager
def memcached(slabs, folder):
    """With room for four times the data, 4 KiB beside each value. Its pages of slabs are dealt out anew by what was seen for 3
    seconds, the least, in place of 30, so that it is warm soon; the flusher naps for a millisecond at most, since it evicts what
    it has not written in time."""
    file, port = folder / "extstore", free_port()
    further = f"ext_path={file}:2G,ext_threads=4,ext_item_size=512,ext_wbuf_size=2,ext_max_sleep=1000,slab_automove_window=3"
    words = ["memcached", "-U", 0, "-l", "127.0.0.1", "-p", port, "-u", getpass.getuser(), "-t", 4, "-m", slabs, "-o", further]
    try:
        with started(words, port, "memcached", folder) as running:
            yield running
    finally:
        file.unlink(missing_ok=True)


@contextlib.contextmanager
def redis(memory, folder):
    port = free_port()
    bound = ["--maxmemory", f"{memory}mb", "--maxmemory-policy", "allkeys-lru"]
    with started(["redis-server", "--port", port, "--save", "", "--dir", folder, *bound], port, "resp", folder) as running:
        yield running


class Measurement:
    def __init__(self, load, folder, runs, plan):
        self.load_program, self.folder, self.runs, self.plan = load, Path(folder), Path(runs), plan
        # The -m of memcached for so many MiB in all and bytes of a value.
        self.slabs = {}
        # Each load of a server has draws of its own, the same as of the other servers in the round.
        self.seed = 0

    def load(self, running, value, draw, gets, seconds, *further):
        self.seed += 1
        words = ["--seed", self.seed, "--protocol", running.protocol, "--address", f"127.0.0.1:{running.port}", "--keys", self.plan.keys(value)]
        words += ["--value", value, "--draw", draw, "--gets", gets, "--seconds", seconds, *CONNECTIONS, *further]
        ran = subprocess.run([self.load_program, *map(str, words)], stdout=subprocess.PIPE, check=True, text=True)
        return json.loads(ran.stdout)

    def warm_up(self, running, value):
        """Fills all keys in, and asks for them until hits are no more than before."""
        self.load(running, value, "uniform", 95, 0, "--fill")
        last = 0
        for turn in range(self.plan.most_warm):
            rate = self.load(running, value, "uniform", 95, 1)["hit_rate"]
            if rate > WARM or turn > 1 and rate < last + 0.01:
                break
            last = rate

    def fit(self, memory, value):
        """Finds with which -m memcached has so many MiB resident, from what it had beside its slabs with another."""
        slabs = max(memory - 12, LEAST_SLABS)
        for _ in range(2):
            with memcached(slabs, self.folder) as running:
                self.load(running, value, "uniform", 50, 1, "--fill")
                beside = running.resident() - slabs
            slabs = max(round(memory - beside), LEAST_SLABS)
        self.slabs[memory, value] = slabs
        tell(f"memcached -m {self.slabs[memory, value]} for {memory} MiB with values of {value} bytes: {beside:.1f} beside its slabs")

    def measure(self, name, memory, part, cells, round_):
        """Starts a server, and does cells of one size of values by it."""
        value = cells[0][0]
        if name == "memcached" and (memory, value) not in self.slabs:
            self.fit(memory, value)
        server, size = {"farserve": (farserve, memory), "redis": (redis, memory), "memcached": (memcached, self.slabs.get((memory, value)))}[name]
        with server(size, self.folder) as running, contextlib.ExitStack() as at_end:
            if self.plan.is_cold:
                is_ended = threading.Event()
                dropper = threading.Thread(target=running.drop, args=(is_ended,))
                dropper.start()
                at_end.callback(dropper.join)
                at_end.callback(is_ended.set)
            self.seed = 1000 * round_
            self.warm_up(running, value)
            self.seed = 1000 * round_ + 100
            for _, draw, gets in cells:
                self.load(running, value, draw, gets, self.plan.warm_up)
                told = self.load(running, value, draw, gets, self.plan.seconds)
                if told["errors"]:
                    tell(f"{name} has replied errors: {told['errors']}")
                run = {"round": round_, "server": name, "part": part, "value": value, "draw": draw, "gets": gets,
                       "resident": running.resident(), "disk": running.disk(), "load": told}
                with self.runs.open("a") as runs:
                    runs.write(json.dumps(run) + "\n")

    def measure_round(self, round_):
        for value in dict.fromkeys(value for value, _, _ in CELLS):
            for name in ("farserve", "memcached", "redis"):
                self.measure(name, self.plan.data // 4, 4, [it for it in CELLS if it[0] == value], round_)
        for part in (it for it in self.plan.parts if it != 4):
            for name in COLORS:
                self.measure(name, self.plan.data // part, part, [DRAWN], round_)


FIGURES = {
    "thousand calls/s": lambda it: it["load"]["calls_per_second"] / 1000,
    "hits, %": lambda it: it["load"]["hit_rate"] * 100,
    **{f"get {part}, µs": lambda it, part=part: it["load"]["gets"][part] for part in ("p50", "p99", "p99.9")},
    **{f"set {part}, µs": lambda it, part=part: it["load"]["sets"][part] for part in ("p50", "p99", "p99.9")},
    "resident, MiB": lambda it: it["resident"],
    "on disk, MiB": lambda it: it["disk"],
}
RATIOS = {"of farserve's calls": FIGURES["thousand calls/s"], "of its get p99": FIGURES["get p99, µs"]}


def tell(text):
    print(f"extstore.sh: {text}", file=sys.stderr, flush=True)


def short(value):
    return f"{value:.0f}" if value >= 100 else f"{value:.3g}"


def spread(values):
    return f"{short(median(values))} ({short(min(values))}–{short(max(values))})"


def read(path):
    """What each server did, by part and cell: a list of a run for each round."""
    runs = defaultdict(lambda: defaultdict(list))
    for run in map(json.loads, Path(path).read_text().splitlines()):
        runs[run["part"], run["value"], run["draw"], run["gets"]][run["server"]].append(run)
    return runs


def print_table(runs):
    print(" | ".join(["Memory", "Value", "Drawn", "Gets, %", "Server", *FIGURES, *RATIOS]))
    print("|".join(["---"] * (5 + len(FIGURES) + len(RATIOS))))
    for (part, *cell), servers in sorted(runs.items(), key=lambda it: (it[0][0] != 4, it[0])):
        for name, of in servers.items():
            told = [spread([figure(run) for run in of]) for figure in FIGURES.values()]
            told += [spread([figure(run) / figure(own) for run, own in zip(of, servers["farserve"])]) for figure in RATIOS.values()]
            print(" | ".join([PART[part], *map(str, cell), name, *told]))


WIDE, HIGH, TOP = 220, 150, 64


def panel(x, title, parts, lines):
    """Lines over the part of the data that memory holds, each with the range of its rounds: (color, values by part)."""
    top = max(max(of) for _, values in lines for of in values.values()) * 1.08

    def place(at, value):
        return x + 14 + at * (WIDE - 28) / max(len(parts) - 1, 1), TOP + HIGH - HIGH * value / top

    yield f'<text x="{x + WIDE / 2}" y="{TOP - 6}" text-anchor="middle" font-size="11">{title}</text>'
    yield f'<rect x="{x}" y="{TOP}" width="{WIDE}" height="{HIGH}" fill="none" stroke="#bbb"/>'
    for value in (0, top / 2, top):
        yield f'<text x="{x - 4}" y="{place(0, value)[1] + 4:.1f}" text-anchor="end" font-size="9" fill="#555">{short(value)}</text>'
    for at, part in enumerate(parts):
        yield f'<text x="{place(at, 0)[0]:.1f}" y="{TOP + HIGH + 12}" text-anchor="middle" font-size="9" fill="#555">{PART[part]}</text>'
    for color, values in lines:
        points = " ".join("{:.1f},{:.1f}".format(*place(at, median(values[part]))) for at, part in enumerate(parts))
        yield f'<polyline points="{points}" fill="none" stroke="{color}" stroke-width="2"/>'
        for at, part in enumerate(parts):
            (a, low), (_, high) = place(at, min(values[part])), place(at, max(values[part]))
            yield f'<line x1="{a:.1f}" y1="{low:.1f}" x2="{a:.1f}" y2="{high:.1f}" stroke="{color}"/>'


def draw(runs, plan):
    parts = sorted((part for part, *cell in runs if tuple(cell) == DRAWN), reverse=True)
    head = f"{plan.data} MiB of values of {DRAWN[0]} bytes, drawn by Zipf's law, {DRAWN[2]} % gets, by the part of them that memory holds"
    drawn = [f'<text x="46" y="18" font-size="13">{head}</text>']
    for at, (name, color) in enumerate(COLORS.items()):
        drawn.append(f'<line x1="{46 + at * 130}" y1="34" x2="{64 + at * 130}" y2="34" stroke="{color}" stroke-width="2.5"/>')
        drawn.append(f'<text x="{68 + at * 130}" y="38" font-size="11">{name}</text>')
    for at, figure in enumerate(("thousand calls/s", "get p99, µs", "hits, %")):
        lines = [(color, {part: [FIGURES[figure](run) for run in runs[part, *DRAWN][name]] for part in parts}) for name, color in COLORS.items()]
        drawn += panel(46 + at * (WIDE + 54), figure, parts, lines)
    width, height = 46 + 3 * (WIDE + 54), TOP + HIGH + 24
    top = f'<svg xmlns="http://www.w3.org/2000/svg" width="{width}" height="{height}" font-family="sans-serif">\n<rect width="100%" height="100%" fill="white"/>\n'
    Path(plan.picture).write_text(top + "\n".join(drawn) + "\n</svg>\n")


def main(load, folder, runs, *words):
    plan = Plan(words)
    disk = subprocess.run(["df", "--output=source,fstype", folder], stdout=subprocess.PIPE, check=True, text=True).stdout.split()[-2:]
    told = "their pages are written and dropped 20 times a second" if plan.is_cold else "they fit into the page cache"
    tell(f"the files lie on {' '.join(disk)}; {told}; the picture is {plan.picture}")
    began = time.monotonic()
    measurement = Measurement(load, folder, runs, plan)
    for round_ in range(1, plan.rounds + 1):
        measurement.measure_round(round_)
        tell(f"round {round_} of {plan.rounds} is done, {time.monotonic() - began:.0f} s, load {os.getloadavg()[0]:.1f}")
    told = read(runs)
    print_table(told)
    draw(told, plan)


if __name__ == "__main__":
    main(*sys.argv[1:])
