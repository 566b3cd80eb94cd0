"""Plays case files with each growth refused in turn: refused_cases.py PROGRAM LIBRARY [FILE..].

PROGRAM is the build of `transcripts`, and LIBRARY is refuse_allocation.c, built. Without a FILE all files of tests/cases are played that
have the line of MARK in their head. A call to which a growth is refused replies `memory`, and the program makes it once more. Then
each reply has to be what the file says: the call did what it should, and what was there before still was.

A run may also end where a growth was refused to the player itself, and not to a call that it makes (OWN). The growths of reading the
file come first, and are passed over but for some: a run ends with status 3 there. In the cases of servers, whose lanes go on, a
request may be answered by want of memory, or its connection closed, and the case ends there.

Prints how many growths each call was refused, by layer and opening, so that a call which no case reaches is seen. The status is 1
where a run ended otherwise, and, without a FILE, where a call that refused_calls.txt lists was refused no growth, or one that it
lists as taking no memory was refused one. All files take half a minute of a processor.
"""
import collections
import os
import re
import sys
import tempfile
from concurrent.futures import ThreadPoolExecutor
from pathlib import Path

from transcripts import CASES, counts, play

# What a file has in its head, before its first case.
MARK = "# Each of its allocations fails in turn, too."
LISTED = Path(__file__).resolve().parent / "refused_calls.txt"
# A file whose cases grow more often would take minutes.
MOST_GROWTHS = 5_000
# More runs at once than processors: where a server's thread is not started, 40 seconds are waited for a reply. A file has one server.
RUNS_AT_ONCE = os.cpu_count() + 2
SILENT = "can't be made: no reply came"
MOST_SILENT = 4
# Which call of a server the n-th growth is of is a matter of chance, since its threads ask for memory at once. So where a listed call
# was refused none, the files of its layer are swept again, so often at most.
SWEEPS = 12
# How a run ends where a growth was refused to the player itself. The last two are its words for a map that ended before it was
# renewed, and for a server without threads.
OWN = re.compile(
    r"can't be made: (?:.*\b(?:memory|memory allocation failed)|the map was not renewed: .*|no reply came)$", re.M)
# What a server replies for want of memory. It may be one of the replies to a request, as to EXEC.
WANT = "-OOM command not allowed: out of memory"
CLOSED = "closed"


def play_refused(program, library, path, number):
    """Plays with that growth refused, and gives the run's status, what it printed, and how many growths it asked for."""
    # Devices in files list the names in the folder for such: in one that is empty they always ask for as much.
    with tempfile.TemporaryDirectory() as scratch, tempfile.NamedTemporaryFile("r") as told:
        environment = {"LD_PRELOAD": library, "REFUSED": str(number), "GROWTHS": told.name, "TMPDIR": scratch}
        status, said = play(program, path, ["--refused"], environment)
        made = re.fullmatch(r"(\d+)\n", told.read())
    return status, said, int(made[1]) if made else None


def is_want(path, said):
    """Whether a server's reply was one of want of memory."""
    told = re.search(r"^    expected: (.*)\n(?:.*\n)*?    found:    (.*)$", said, re.M)
    if not told or path.parent.name != "server":
        return False
    expected, found = told.groups()
    # What stands in place of a part of the reply may have more words than that part.
    gateway, want, back = found.partition(WANT)
    return found == CLOSED or (want != "" and expected.startswith(gateway) and (WANT in back or expected.endswith(back)))


def judge(path, status, said):
    """The line of the call that a growth was refused to, or 0 where it was none; or None where the run may not end so."""
    again = [int(it) for it in re.findall(r"^\S+:(\d+): made again: ", said, re.M)]
    count = counts(said)
    if status == 3:
        return 0
    if status == 0 and count and count[1] == 0 and len(again) <= 1:
        return again[0] if again else 0
    if status == 1 and count and count[1] == 1:
        if is_want(path, said):
            return int(re.search(r"^\S+:(\d+): .*\n    expected: ", said, re.M)[1])
        if OWN.search(said):
            return 0
    return None


def named(path, number):
    """The layer and the opening of the case that a line is of, without settings, and the line's call."""
    words = [line.split("->")[0].split() for line in path.read_text().splitlines()]
    begun = max(at for at in range(number) if words[at][:1] == ["case"])
    opening = next(it for it in words[begun + 1:] if it and not it[0].startswith("#"))
    made = words[number - 1]
    call = made[1] if made[0].endswith(":") else made[0]
    return f"{path.parent.name} {' '.join(it for it in opening if '=' not in it)}: {call}"


def first_behind(program, library, path, growths):
    """The first growth behind those of reading the file."""
    first, end = 1, growths + 1
    while first < end:
        middle = (first + end) // 2
        if play_refused(program, library, path, middle)[0] == 3:
            first = middle + 1
        else:
            end = middle
    return first


def prepared(program, library, path):
    """The growths of a file, those that are refused, and what is wrong where the file can't be played so."""
    status, said, growths = play_refused(program, library, path, 0)
    if status != 0 or not growths or growths > MOST_GROWTHS:
        return growths or 0, [], [f"{path}: none refused: status {status}, {growths} growths\n{said}"]
    return growths, range(first_behind(program, library, path, growths), growths + 1), []


def tried(program, library, path, number):
    """The call that this growth was refused to, if one was told, and what is wrong."""
    status, said, _ = play_refused(program, library, path, number)
    line = judge(path, status, said)
    if line is None:
        return "", f"{path}: growth {number}: status {status}\n{said}"
    if SILENT in said:
        return SILENT, ""
    return named(path, line) if line else "", ""


def is_marked(path):
    head = path.read_text().partition("\ncase ")[0]
    return MARK in head.splitlines()


def listed():
    """The calls that have to be refused a growth, and those that take no memory, each as LAYER OPENING: CALL."""
    refused, without = [], []
    for line in LISTED.read_text().splitlines():
        if line.strip() and not line.startswith("#"):
            head, _, calls = line.partition(": ")
            mark = head.startswith("without ")
            (without if mark else refused).extend(f"{head.removeprefix('without ')}: {call}" for call in calls.split())
    return refused, without


def layers_left_out(calls):
    """The layers of the listed calls that were refused no growth."""
    calls = set(calls)
    return {it.split()[0] for it in listed()[0] if it not in calls}


def unlike_the_list(calls):
    refused, without = listed()
    yield from (f"{it} was refused no growth" for it in refused if not calls[it])
    yield from (f"{it} takes no memory, and was refused {calls[it]} growths" for it in without if calls[it])


def main(program, library, *words):
    named_paths = [Path(it).resolve() for it in words]
    paths = named_paths or [it for it in sorted(CASES.rglob("*.txt")) if is_marked(it)]
    # (those whose runs may wait come first)
    paths.sort(key=lambda it: it.parent.name != "server")
    with ThreadPoolExecutor(RUNS_AT_ONCE) as pool:
        files = list(pool.map(lambda it: prepared(program, library, it), paths))
        sweep = [(path, number) for path, (_, numbers, _) in zip(paths, files) for number in numbers]
        runs, found, layers = [], [], {path.parent.name for path in paths}
        for _ in range(SWEEPS):
            more = [it for it in sweep if it[0].parent.name in layers]
            runs += more
            found += pool.map(lambda it: tried(program, library, *it), more)
            layers = set() if named_paths else layers_left_out(call for call, _ in found)
    calls = collections.Counter(call for call, _ in found if call)
    wrong = [fault for _, _, faults in files for fault in faults] + [fault for _, fault in found if fault]
    silent = collections.Counter(path for (path, _), (call, _) in zip(runs, found) if call == SILENT)
    sweeps = {path: count for (path, _), count in collections.Counter(runs).items()}
    wrong += [f"{path}: {count} runs waited for a reply in vain" for path, count in silent.items() if count > MOST_SILENT * sweeps[path]]
    del calls[SILENT]
    if not named_paths:
        wrong += unlike_the_list(calls)
    by_opening = collections.defaultdict(list)
    for name, count in sorted(calls.items()):
        opening, _, call = name.partition(": ")
        by_opening[opening].append(f"{call} {count}")
    for opening, told in by_opening.items():
        print(f"{opening}: {', '.join(told)}")
    for fault in wrong:
        print(f"WRONG: {fault}")
    growths = sum(it for it, _, _ in files)
    print(f"{growths} growths of {len(paths)} files, {len(runs)} refused, {sum(calls.values())} of them to calls; {len(wrong)} wrong")
    return 1 if wrong or not paths else 0


if __name__ == "__main__":
    sys.exit(main(*map(str, sys.argv[1:])))
