"""Finds the builds of programs, and makes those that are missing.

Builds are in out/ of the checkout, and in ${XDG_CACHE_HOME:-~/.cache}/fazhitta, where those are made whose checkout can't be
written. A build's name is its kind, the sum of its sources, and the kit or compiler that made it:

    fartable-proved-0123456789abcdef-rattle-kit-13f_logic_dac8208d650f15bf
    farserve-unproved-.., farserve-unproved-checked-.., gateway-..
"""
import contextlib
import fcntl
import os
import re
import shutil
import subprocess
import sys
import threading
import time
from pathlib import Path

from sources import ROOT, Sources, of_program
from unproved import Unbuilt, make

OUT = ROOT / "out"
# How many builds of a kind the user's own folder keeps: it has those of all checkouts.
KEPT = 8
DIGITS = 16


class Missing(Exception):
    """What a build needs is not there: says what to install."""


def folders():
    """Where builds are looked for. New ones are made in the first that can be written."""
    cache = os.environ.get("XDG_CACHE_HOME", "")
    if not os.path.isabs(cache):
        cache = os.path.expanduser("~/.cache")
    return [OUT, Path(cache) / "fazhitta"] if os.path.isabs(cache) else [OUT]


def folder_for_builds():
    for folder in folders():
        with contextlib.suppress(OSError):
            folder.mkdir(parents=True, exist_ok=True)
            if os.access(folder, os.W_OK | os.X_OK):
                return folder
    tried = " nor in ".join(map(str, folders()))
    raise Unbuilt(f"a build can't be written in {tried}; XDG_CACHE_HOME can name another folder")


def names_in(folder):
    with contextlib.suppress(OSError):
        return sorted(os.listdir(folder))
    return []


def slug(line):
    """A line as a part of a name."""
    return re.sub(r"[^\w.-]+", "_", line).strip("_")


class Buildable:
    """What is built of sources: `name`, its `sources`, and the `sum` of these."""

    def __init__(self, name, sources):
        self.name, self.sources, self.sum = name, sources, sources.sum()

    def say(self, text):
        with contextlib.suppress(OSError):
            print(f"{self.name}: {text}", file=sys.stderr, flush=True)

    def find(self, kind, tool=""):
        """The build of a kind and of these sources, by this tool, or by any if none is named; None if there is none."""
        beginning = f"{kind}-{self.sum[:DIGITS]}-{slug(tool)}"
        for folder in folders():
            for name in names_in(folder):
                fits = name == beginning if tool else name.startswith(beginning)
                if fits and not name.endswith(".part") and os.access(folder / name, os.X_OK):
                    return folder / name
        return None

    @contextlib.contextmanager
    def telling_time(self):
        done, began = threading.Event(), time.monotonic()

        def tell():
            while not done.wait(10):
                self.say(f"still at it, {time.monotonic() - began:.0f} seconds so far")

        threading.Thread(target=tell, daemon=True).start()
        try:
            yield
        finally:
            done.set()

    def make_build(self, kind, tool, how, make_it):
        """Makes a build, and gives its path. If it is wanted twice at once, the second waits and takes the first one's."""
        folder = folder_for_builds()
        program = folder / f"{kind}-{self.sum[:DIGITS]}-{slug(tool)}"
        self.say(how)
        lock = os.open(folder / f"{kind}.lock", os.O_RDONLY | os.O_CREAT | os.O_CLOEXEC, 0o644)
        try:
            with self.telling_time():
                fcntl.flock(lock, fcntl.LOCK_EX)
                if not program.exists():
                    self.make(program, make_it)
                    remove_old(folder, kind, program)
        finally:
            os.close(lock)
        return program

    def make(self, program, make_it):
        part = program.with_name(f"{program.name}.part")
        try:
            part.unlink(missing_ok=True)
            make_it(part)
            if self.sources.sum() != self.sum:
                raise Unbuilt("the sources changed meanwhile; start it again")
            part.rename(program)
        finally:
            part.unlink(missing_ok=True)


def remove_old(folder, kind, program):
    """Removes the builds of a kind that are of other sources: in the user's own folder all but some."""
    of_kind = re.compile(rf"{re.escape(kind)}-[0-9a-f]{{{DIGITS}}}(-.*)?")
    old = [folder / it for it in names_in(folder) if of_kind.fullmatch(it) and it != program.name]
    if folder != OUT:
        old = sorted(old, key=lambda it: it.stat().st_mtime, reverse=True)[KEPT - 1:]
    for it in old:
        it.unlink(missing_ok=True)


class Program(Buildable):
    """A program of crates.txt, which the kit builds."""

    def __init__(self, name):
        super().__init__(name, of_program(name))
        self.kit = find_kit()
        self.identity = (self.kit / "KIT-ID").read_text().strip() if self.kit else ""
        own = f"bin/{name}"
        self.prover = f"{own} --proved" if (ROOT / own).exists() else f"bin/build --proved {name}"

    def built(self):
        """The build that a run takes, or None: by this kit, or by any if there is no kit."""
        # (what is built with checks is only taken if the sources are still those of no commit)
        for kind in ("proved", "unproved"):
            found = self.find(f"{self.name}-{kind}", self.identity)
            if found:
                return found
        checked = self.find(f"{self.name}-unproved-checked", self.identity)
        return checked if checked and (not self.kit or self.sources.why_unproved()) else None

    def needs(self):
        """What has to be installed before it can be built, or ""."""
        return "" if self.kit else "the Rattle kit, whose command is rt (install the kit, and have its bin/ in PATH)"

    def check(self):
        if self.needs():
            raise Missing(f"building it needs {self.needs()}")

    def give(self):
        """The build that a run takes, which is made first if there is none."""
        program = self.built() or self.build_unproved()
        self.tell_of(program)
        return program

    def tell_of(self, program):
        """Says what a user of this build has to know."""
        if not self.kit:
            self.say(f"without the command rt in PATH a run takes this build by {maker_of(program)}")
        if "-unproved-" in program.name:
            self.say(f"this build was not proved; {self.prover} proves it")

    def build_unproved(self):
        self.check()
        # Sources that differ from the commit may not have been proved by anybody. So their build keeps the checks that a proof
        # makes needless, of sums, casts and the like: what a proof would refuse stops the program (status 132), and is not
        # undefined. It is slower by about a half.
        why = self.sources.why_unproved()
        kind = f"{self.name}-unproved{'-checked' if why else ''}"
        how = f"building it without proofs{f', with checks, since {why}' if why else ''}; this takes about a minute"
        return self.make_build(kind, self.identity, how, lambda part: self.make_unproved(part, why != ""))

    def make_unproved(self, part, keeps_checks):
        try:
            make(self.kit, ROOT, self.name, part, keeps_checks)
        except Unbuilt as why:
            raise Unbuilt(f"{why}\n{self.name}: so it can't be built without proofs, of these sources or with this kit. "
                          f"`rt try` in crates/{self.name} may say more, and `{self.prover}` proves and builds it") from None

    def give_proved(self):
        self.check()
        kind = f"{self.name}-proved"
        how = "proving and building it; from nothing this takes most of an hour"
        return self.find(kind, self.identity) or self.make_build(kind, self.identity, how, self.make_proved)

    def make_proved(self, part):
        crate = ROOT / "crates" / self.name
        if not os.access(crate, os.W_OK):
            raise Unbuilt(f"proving writes into the checkout, and {crate} can't be written")
        # rt has no command that only builds a program, so this runs it as the gate does.
        words, stdin = crate / "args", crate / "stdin"
        command = ["rt", "run", "--", *(words.read_text().split() if words.is_file() else [])]
        with open(stdin if stdin.is_file() else os.devnull) as given:
            status = subprocess.run(command, cwd=crate, stdin=given, stdout=subprocess.DEVNULL).returncode
        built = crate / "out" / self.name
        if status or not built.is_file():
            raise Unbuilt(f"it could not be proved and built: rt run ended with status {status}")
        shutil.copy(built, part)

    def version(self):
        program = self.built()
        if program is None:
            kind = "none yet; a run builds one without proofs"
        else:
            kind = f"{'not ' if '-unproved-' in program.name else ''}proved, {place_of(program)}"
        kit = self.identity or (f"none in PATH; the build is by {maker_of(program)}" if program else "none in PATH")
        return f"version: {version_of_sources()}\nbuild: {kind}\nkit: {kit}\nsources: {self.sum}"


def version_of_sources():
    return (ROOT / "VERSION").read_text().strip()


def find_kit():
    """The folder of the kit, or None if there is no kit in PATH."""
    rt = shutil.which("rt") or shutil.which("rattle")
    kit = Path(rt).resolve().parent.parent if rt else None
    return kit if kit and (kit / "KIT-ID").is_file() else None


def place_of(program):
    return f"out/{program.name}" if program.parent == OUT else program


def maker_of(program):
    """The kit or compiler of a build, as its name has it."""
    return re.sub(rf".*-[0-9a-f]{{{DIGITS}}}-", "", program.name).replace("_", " ")


class Gateway(Buildable):
    """The part of the server that has its sockets, which rustc builds. Any compiler's build of the sources is taken."""

    def __init__(self):
        super().__init__("gateway", Sources(["gateway"]))

    def built(self):
        return self.find("gateway")

    def needs(self):
        if shutil.which("rustc"):
            return ""
        return "the Rust compiler, 1.82 or later, whose command is rustc (Rust by rustup.rs; Debian 12's package rustc is too old)"

    def build(self):
        line = subprocess.run(["rustc", "-V"], stdin=subprocess.DEVNULL, stdout=subprocess.PIPE, errors="replace").stdout
        return self.make_build("gateway", line.strip() or "rustc", "building it; this takes some seconds", self.compile)

    def compile(self, part):
        words = ["rustc", "-O", "--edition", "2021", "-o", part, ROOT / "gateway/main.rs"]
        if subprocess.run(words, stdin=subprocess.DEVNULL, stdout=subprocess.PIPE).returncode:
            raise Unbuilt("rustc can't build the gateway; it has to be 1.82 or later, as `rustc -V` says")

    def version(self):
        program = self.built()
        return f"gateway: {f'{place_of(program)}, by {maker_of(program)}' if program else 'none yet; a run builds it'}"
