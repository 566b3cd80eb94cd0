"""Plants bugs and lists the tests that catch them: planted.py [--jobs N] [--store] [NAME..].

Each tests/planted/NAME.edit is a bug in a body: a line in words, `file: crates/..`, and pairs of lines `old: TEXT` and
`new: TEXT`, one line each, where the old text stands once in the file. It is planted in a copy of the sources, and the tests
of each crate that has any, and is the changed crate or stands on it, are run there by `rt try --test`, without a proof. Then all
cases of tests/cases are played on the build of `transcripts`.

Prints a line for each bug: its name, and the tests that failed, as crate::tests::NAME or LAYER/FILE: CASE, or CAUGHT BY NOTHING.
`(no end)` stands behind a test that did not end or that ended its program, and behind the crate or the file where more did. Below come the names that tests/planted/caught.txt
has of the bug and that did not catch it, and those that it lacks: they are told and are no failure, since what a test of
several threads meets is not the same in each run. --store writes what was found into that file.

The bugs are tried in so many jobs side by side, one if --jobs is not given. The status is 1 where a bug is caught by
nothing, does not apply or does not compile.
"""
import argparse
import re
import shutil
import subprocess
import sys
import tempfile
from concurrent.futures import ThreadPoolExecutor
from functools import cache
from pathlib import Path

ROOT = Path(__file__).resolve().parent.parent
PLANTED = ROOT / "tests/planted"
LIST = PLANTED / "caught.txt"
COPIED = ("bin", "crates", "crates.txt", "HANDLES", "tests")
NOT_COPIED = shutil.ignore_patterns("out", "proofs", "must-fail", "long-edits")
# Each test has so many seconds, and all of a crate with their build two hours: on a busy machine the longest test takes minutes.
SECONDS, ALL_SECONDS = 600, 7200
NO_END = " (no end)"


class Unfit(Exception):
    """Why a bug could not be tried."""


@cache
def crates():
    """The crates of the repository, each with those that it stands on."""
    lines = (line.split("#")[0].partition(":") for line in (ROOT / "crates.txt").read_text().splitlines())
    listed = {head.split()[0]: words.split() for head, _, words in lines if head.strip()}
    return {name: [it for it in below if it in listed] for name, below in listed.items()}


@cache
def below(name):
    return {name}.union(*(below(it) for it in crates()[name]))


@cache
def has_tests(name):
    return any("#[test]" in it.read_text() for it in (ROOT / "crates" / name).glob("src/**/*.rt"))


def edit_of(name):
    """The file that a bug is planted in, and its pairs of texts."""
    lines = [it.partition(": ")[::2] for it in (PLANTED / f"{name}.edit").read_text().splitlines()]
    files, olds, news = ([text for key, text in lines if key == of] for of in ("file", "old", "new"))
    if len(files) != 1 or not olds or len(olds) != len(news):
        raise Unfit("does not apply: it has not one line file: and pairs of lines old: and new:")
    return files[0], list(zip(olds, news))


def plant(name, copy):
    """Plants the bug in the copy, and gives the crate that it is in."""
    file, pairs = edit_of(name)
    text = (copy / file).read_text()
    for old, new in pairs:
        if text.count(old) != 1:
            raise Unfit(f"does not apply: {file} has {text.count(old)} times {old}")
    by_old = dict(pairs)
    text = re.sub("|".join(map(re.escape, by_old)), lambda it: by_old[it[0]], text)
    (copy / file).write_text(text)
    return file.split("/")[1]


def failed_in(copy, crate):
    """The tests of the crate that fail."""
    words = ["rt", "try", "--test", "--seconds", str(SECONDS)]
    how = {"stdin": subprocess.DEVNULL, "stdout": subprocess.PIPE, "stderr": subprocess.STDOUT, "errors": "replace"}
    with subprocess.Popen(words, cwd=copy / "crates" / crate, **how) as ran:
        try:
            said = ran.communicate(timeout=ALL_SECONDS)[0]
        except subprocess.TimeoutExpired:
            # (it ends what it started)
            ran.terminate()
            ran.communicate()
            return [crate + NO_END]
    # Behind each test that failed stands why, up to the next.
    told = re.split(r"^test (?=\S+ \.\.\. |result: )", said, flags=re.M)[1:]
    if not told or not told[-1].startswith("result: "):
        if ran.returncode in (4, 6):
            return [crate + NO_END]
        raise Unfit(f"does not compile, or the tests of {crate} can't be run: status {ran.returncode}\n{said[-2000:]}")
    failed = [it for it in told if re.match(r"\S+ \.\.\. FAILED", it)]
    return [f"{crate}::{it.split()[0]}" + (NO_END if "no-answer" in it else "") for it in failed]


def failed_cases(copy):
    """The cases that go otherwise."""
    ran = subprocess.run([copy / "tests/transcripts.sh"], stdin=subprocess.DEVNULL, capture_output=True, text=True, errors="replace")
    if not re.search(r"^\d+ cases of \d+ files passed, \d+ failed\n\Z", ran.stdout, re.M):
        raise Unfit(f"does not compile, or no case can be played: status {ran.returncode}\n{(ran.stdout + ran.stderr)[-2000:]}")
    found = re.findall(r"^\S*tests/cases/(\S+)\.txt:\d+: (.*)$", ran.stdout, re.M)
    ended = re.findall(r"^\S*tests/cases/(\S+)\.txt: (?:the run ended with status|it had not ended)", ran.stdout, re.M)
    return [f"{file}: {case}" for file, case in found] + [file + NO_END for file in sorted(set(ended))]


def catchers(name):
    """The names of the tests that catch the bug."""
    with tempfile.TemporaryDirectory(prefix="planted-") as made:
        copy = Path(made).resolve()
        for it in COPIED:
            if (ROOT / it).is_dir():
                shutil.copytree(ROOT / it, copy / it, ignore=NOT_COPIED)
            else:
                shutil.copy(ROOT / it, copy / it)
        changed = plant(name, copy)
        tested = [it for it in sorted(crates()) if has_tests(it) and changed in below(it)]
        return [test for crate in tested for test in failed_in(copy, crate)] + failed_cases(copy)


def attempt(name):
    try:
        return catchers(name), None
    except Unfit as why:
        return [], str(why)


def listed():
    lines = LIST.read_text().splitlines() if LIST.is_file() else []
    return {name: tests.split("; ") for name, tests in (it.split(": ", 1) for it in lines)}


def store(found):
    LIST.write_text("".join(f"{name}: {'; '.join(tests)}\n" for name, tests in sorted(found.items())))


def tell(name, found, why, expected):
    if why:
        print(f"{name}: {why}")
        return
    print(f"{name}: {'; '.join(found) or 'CAUGHT BY NOTHING'}")
    lost = [it for it in expected if it not in found]
    new = [it for it in found if it not in expected]
    for of, tests in (("not by", lost), ("also by", new)):
        if tests:
            print(f"  unlike caught.txt {of}: {'; '.join(tests)}")


def main():
    parser = argparse.ArgumentParser(usage="planted.py [--jobs N] [--store] [NAME..]")
    parser.add_argument("--jobs", type=int, default=1)
    parser.add_argument("--store", action="store_true")
    parser.add_argument("names", nargs="*")
    asked = parser.parse_args()
    there = sorted(it.stem for it in PLANTED.glob("*.edit"))
    for it in asked.names:
        if it not in there:
            parser.error(f"there is no bug {it}")
    names = asked.names or there
    expected, wrong = listed(), 0
    with ThreadPoolExecutor(max(1, asked.jobs)) as pool:
        for name, (found, why) in zip(names, pool.map(attempt, names)):
            tell(name, found, why, expected.get(name, []))
            wrong += not found
            if asked.store and found:
                expected[name] = found
                store({it: tests for it, tests in expected.items() if it in there})
            sys.stdout.flush()
    print(f"{len(names)} bugs, {len(names) - wrong} caught")
    sys.exit(1 if wrong else 0)


if __name__ == "__main__":
    main()
