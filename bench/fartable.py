"""Times the program on command files: fartable.py PROGRAM FARBENCH PLAIN [RUNS].

PROGRAM is fartable, FARBENCH has the plain run as `farbench plain`, and PLAIN is a folder with the plain Rust programs of
plain/, built: main and threads, which do the same, and registers. commands.py says what the files hold. In each of RUNS rounds, 5
if not given, each kind is run once, so that all meet what else the machine does. The best time of each kind is printed, and that in
the middle; the other columns are of the best. What is said of a command has the time of an empty file taken off. On a busy machine
the wall time says little, and the processor time more.

The status is 1 where a goal is missed, by the middle of the rounds' quotients: a best time of four threads asks that nothing
disturbs any of four processors, so on a shared machine it is rarer than that of one. A command's wall time may grow by at most a
quarter from the smallest file to the largest; one file may take at most 1.5 times the plain run's processor time where there are
as many frames as buckets; and one file, or four, where the frames are a quarter of the buckets that they use, may take at most 4
times the wall time that they take with frames for all.

Four files of other keys have to run at least 2.5 times one file's commands in a second on four cores. A shared machine has four
processors at each time, and rarely four cores' worth: where two of them are one core's, or another guest has a part of them, four
threads do not do 2.7 times one's work even in registers. So pairs of runs, of one file and of four, are made for this goal alone,
10 for each round. Before and behind each run as many threads as there are files work in registers, which tells how many cores'
worth there was. The goal is judged by the middle of the pairs with 3.7 or more, as measured, where these are 10. Where they are
fewer it is judged by all: by Amdahl's law each has a share of work that is done in turn, and at this share a quotient on four
cores. That estimate is too high where there is little worth: work in registers loses more by a core that is shared than a run
does. The quotients of all as measured are printed beside it, and those of the rounds.

Without a goal stands how many times one's commands four processes run that share nothing.
"""
import os
import statistics
import subprocess
import sys
import tempfile
import time

BUCKETS = 65_536
SIZES = [0, 8_192, 16_384, 32_768, 65_536]
LARGEST = SIZES[-1]
# The runs on empty files whose time is taken off, where those have another name.
EMPTY = {"four files": "four empty files", "four on few frames": "four empty files", "few frames": "ample"}
# A quarter of the buckets that 20,000 and 80,000 keys use, whose hashes spread over them: some 17,000 and 46,000.
FEW_FRAMES = 17_000 // 4
FEW_FOR_FOUR = 46_000 // 4
# The pairs of runs of one file and of four for each round; how many cores' worth are four; and so many pairs judge by themselves.
PAIRS = 10
FOUR_CORES = 3.7
ENOUGH_PAIRS = 10


def take_time(arguments, given, out, *others):
    """Runs a command once, beside the same with each of the other inputs, and gives the wall and processor time in seconds
    until all have ended, and their peak memory in KiB."""
    inputs = [open(name) for name in (given, *others)]
    outputs = [open(f"{out}{at or ''}", "w") for at in range(len(inputs))]
    began = time.perf_counter()
    children = [subprocess.Popen(arguments, stdin=source, stdout=sink) for source, sink in zip(inputs, outputs)]
    ended = [os.wait4(child.pid, 0) for child in children]
    took = time.perf_counter() - began
    for stream in inputs + outputs:
        stream.close()
    assert all(status == 0 for _, status, _ in ended), arguments
    used = [usage for _, _, usage in ended]
    return took, sum(use.ru_utime + use.ru_stime for use in used), sum(use.ru_maxrss for use in used)


def same(one, other):
    with open(one, "rb") as left, open(other, "rb") as right:
        return left.read() == right.read()


def commands_of(name, size):
    return 4 * size if name in ("four files", "four on few frames", "plain threads", "four processes") else size


def time_registers(program, threads):
    """The seconds that so many threads take which each do the same work in registers."""
    began = time.perf_counter()
    subprocess.run([program, str(threads)], check=True)
    return time.perf_counter() - began


def per_command(took, name, size):
    """Microseconds of wall and processor time a command, with the time of empty files taken off."""
    if size == 0:
        return [0, 0]
    empty = took[EMPTY.get(name, name), 0]
    return [(whole - less) / commands_of(name, size) * 1e6 for whole, less in zip(took[name, size][:2], empty)]


def report_registers(rounds):
    """Prints how many times one thread's work in registers four threads do."""
    middle = statistics.median(4 * one / four for one, four in rounds)
    one, four = map(min, zip(*rounds))
    print(f"work in registers, four threads to one: {middle:.2f} in the middle of the rounds, {4 * one / four:.2f} of the best times")


def run_pairs(one, four, registers, folder, count):
    """Runs one file and four in turns. Of each pair the two wall times in seconds, and how many times one thread's work in registers
    four did around them."""
    pairs = []
    for _ in range(count):
        took, works = [], []
        for (arguments, given), threads in ((one, 1), (four, 4)):
            before = time_registers(registers, threads)
            took.append(take_time(arguments, given, f"{folder}/pair")[0])
            works.append(before + time_registers(registers, threads))
        pairs.append((*took, 4 * works[0] / works[1]))
    return pairs


def on_four_cores(quotient, worth):
    """What the quotient would be on four cores, where it was found on so many cores' worth."""
    in_turn = (1 / quotient - 1 / worth) / (1 - 1 / worth)
    return 1 / (in_turn + (1 - in_turn) / 4)


def middle_half(values):
    low, middle, high = statistics.quantiles(values)
    return f"{middle:.2f} in the middle, {low:.2f} to {high:.2f} in the middle half"


def report_pairs(pairs, empty_one, empty_four):
    """Prints how many times one file's commands in a second four run, and says whether the goal is missed."""
    quotients = [4 * (one - empty_one) / (four - empty_four) for one, four, _ in pairs]
    worths = [worth for _, _, worth in pairs]
    on_four = [quotient for quotient, worth in zip(quotients, worths) if worth >= FOUR_CORES]
    reckoned = [on_four_cores(*both) for both in zip(quotients, worths)]
    is_enough = len(on_four) >= ENOUGH_PAIRS
    missed = statistics.median(on_four if is_enough else reckoned) < 2.5
    wanted = f", at least 2.5 wanted{': MISSED' if missed else ''}"
    print(f"{len(pairs)} pairs of one file and four, commands in a second, four to one: {middle_half(quotients)}")
    print(f"work in registers around them, four threads to one: {middle_half(worths)}")
    if is_enough:
        print(f"{len(on_four)} of the pairs on four cores' worth: {middle_half(on_four)}{wanted}")
    else:
        print(f"{len(on_four)} of the pairs on four cores' worth, too few to judge by")
    print(f"all pairs, reckoned for four cores: {middle_half(reckoned)}{'' if is_enough else wanted}")
    return missed


def main(program, farbench, plain, runs="5"):
    here = os.path.dirname(os.path.abspath(__file__))
    with tempfile.TemporaryDirectory() as folder:
        files = {}
        for file in range(4):
            for size in SIZES if file == 0 else [LARGEST]:
                files[size, file] = f"{folder}/{size}-{file}"
                with open(files[size, file], "w") as out:
                    subprocess.run([sys.executable, f"{here}/commands.py", str(size), "1", str(file)], stdout=out, check=True)
        kinds = {}
        for size in SIZES:
            given = files[size, 0]
            kinds["ample", size] = [program, str(BUCKETS), str(BUCKETS), "4096", "-"], given
            kinds["plain run", size] = [farbench, "plain", str(BUCKETS)], given
            kinds["plain Rust", size] = [f"{plain}/main", str(BUCKETS), "2", "4096", given], given
        kinds["few frames", LARGEST] = [program, str(BUCKETS), str(FEW_FRAMES), "4096", "-"], files[LARGEST, 0]
        four = [files[LARGEST, file] for file in range(4)]
        kinds["four files", LARGEST] = [program, str(BUCKETS), str(BUCKETS), "4096", *four], files[0, 0]
        kinds["four on few frames", LARGEST] = [program, str(BUCKETS), str(FEW_FOR_FOUR), "4096", *four], files[0, 0]
        kinds["four empty files", 0] = [program, str(BUCKETS), str(BUCKETS), "4096", *[files[0, 0]] * 4], files[0, 0]
        kinds["plain threads", 0] = [f"{plain}/threads", str(BUCKETS), str(BUCKETS), "4096", *[files[0, 0]] * 4], files[0, 0]
        kinds["plain threads", LARGEST] = [f"{plain}/threads", str(BUCKETS), str(BUCKETS), "4096", *four], files[0, 0]
        one = [program, str(BUCKETS), str(BUCKETS), "4096", "-"]
        kinds["four processes", 0] = one, *[files[0, 0]] * 4
        kinds["four processes", LARGEST] = one, *four
        load = os.getloadavg()
        rounds, registers = [], []
        for _ in range(int(runs)):
            registers.append([time_registers(f"{plain}/registers", threads) for threads in (1, 4)])
            rounds.append({kind: take_time(arguments, given, f"{folder}/{kind[0]}", *others) for kind, (arguments, given, *others) in kinds.items()})
            for name in ("plain run", "plain Rust", "few frames"):
                assert same(f"{folder}/ample", f"{folder}/{name}"), f"{name} writes something else"
            for name in ("plain threads", "four on few frames"):
                assert same(f"{folder}/four files", f"{folder}/{name}"), f"{name} writes something else"
        pairs = run_pairs(kinds["ample", LARGEST], kinds["four files", LARGEST], f"{plain}/registers", folder, PAIRS * int(runs))
    best = {kind: tuple(map(min, zip(*(took[kind] for took in rounds)))) for kind in kinds}
    middle = {kind: tuple(map(statistics.median, zip(*(took[kind] for took in rounds)))) for kind in kinds}
    print(f"{time.strftime('%Y-%m-%d %H:%M')}, {os.cpu_count()} processors, load before {load[0]:.1f}, after {os.getloadavg()[0]:.1f}; {runs} rounds, best and in the middle, {BUCKETS} buckets")
    print(f"{'what':>18} {'commands':>9} {'ms':>8} {'middle':>8} {'us/command':>11} {'cpu-ms':>8} {'cpu-us/command':>15} {'peak-KiB':>9}")
    for (name, size), (wall, cpu, peak) in best.items():
        each = per_command(best, name, size)
        print(f"{name:>18} {commands_of(name, size):>9} {wall * 1e3:>8.1f} {middle[name, size][0] * 1e3:>8.1f} {each[0]:>11.3f} {cpu * 1e3:>8.0f} {each[1]:>15.3f} {peak:>9}")
    report_registers(registers)
    quotients = [
        ("a command's time, largest file to smallest", ("ample", LARGEST), ("ample", SIZES[1]), 0, 1.25, -1),
        ("processor time, to the plain run's", ("ample", LARGEST), ("plain run", LARGEST), 1, 1.5, -1),
        ("commands in a second, four files to one", ("ample", LARGEST), ("four files", LARGEST), 0, None, 1),
        ("commands in a second, four files to four processes", ("four processes", LARGEST), ("four files", LARGEST), 0, None, 1),
        ("time with few frames, to ample", ("few frames", LARGEST), ("ample", LARGEST), 0, 4, -1),
        ("four files' time with few frames, to ample", ("four on few frames", LARGEST), ("four files", LARGEST), 0, 4, -1),
        ("commands in a second, four processes to one", ("ample", LARGEST), ("four processes", LARGEST), 0, None, 1),
        ("commands in a second, plain threads to one", ("plain Rust", LARGEST), ("plain threads", LARGEST), 0, None, 1),
    ]
    missed = 0
    for name, one, other, which, goal, sign in quotients:
        found = statistics.median(per_command(took, *one)[which] / per_command(took, *other)[which] for took in rounds)
        at_best = per_command(best, *one)[which] / per_command(best, *other)[which]
        is_missed = goal is not None and (found - goal) * sign < 0
        missed += is_missed
        wanted = "" if goal is None else f", at {'most' if sign < 0 else 'least'} {goal} wanted{': MISSED' if is_missed else ''}"
        print(f"{name}: {found:.2f} in the middle of the rounds, {at_best:.2f} of the best times{wanted}")
    missed += report_pairs(pairs, *(middle[kind, 0][0] for kind in ("ample", "four empty files")))
    sys.exit(1 if missed else 0)


main(*sys.argv[1:])
