"""Fills a disk with scratch files to its end, and kills runs over it: scratch.py FARRUN LIBRARY DISK.

DISK is an empty file system of 4 MiB, and LIBRARY is kill_unlink.c, built. Each run has as many buckets as its objects
need to lie alone, or seven pairs in one, and far fewer frames, so that nearly all lie on the disk.

- Filled with objects of 1 KB to its end, emptied, and filled with objects of 4 KB: puts are refused as `device` while it is
  full, and no later. All else is replied as a map does, so a refused put changes nothing, and gets and removals go on.
- Stopped in its midst, with objects on the disk, the folder has no names; killed then, the disk is empty at once.
- Killed where it is about to remove a name, at its start and in its midst, it leaves that one name, and the next start
  removes it and goes on as if nothing had been there.
"""
import os
import signal
import subprocess
import sys
import tempfile
import time

from histories import REFUSALS, calls, replayed, split

SETTINGS = ["--lanes", 4, 16384, 16, 4096]
BUCKETS = SETTINGS[2]
# Pairs of 510 bytes: an object of one takes a slot of 1 KB, and an object of seven one of 4 KB.
PREFIX = "k" * 247
SMALL, SMALL_COUNT = 1, 5000
LARGE, LARGE_COUNT = 7, 900


def hashed(text, start=0):
    for byte in text:
        start = (start * 31 + byte) % 2**32
    return start


def groups(count, pairs):
    """So many lists of so many keys of one bucket, each of another bucket."""
    gateway, buckets, found = hashed((255).to_bytes(2, "big") + PREFIX.encode()), {}, []
    number = 0
    while len(found) < count:
        key = f"{PREFIX}{number:08}"
        number += 1
        group = buckets.setdefault(hashed(key[len(PREFIX):].encode(), gateway) % BUCKETS, [])
        if len(group) < pairs:
            group.append(key)
            if len(group) == pairs:
                found.append(group)
    return found


def puts(keys):
    return [f"put {key} {key[-8:]:v>255}" for key in keys]


class Disk:
    """The program over a disk."""

    def __init__(self, program, library, folder):
        self.program, self.library, self.folder = program, library, folder
        self.commands = tempfile.NamedTemporaryFile("w")
        self.wrong = 0

    def expect(self, holds, what):
        if not holds:
            self.wrong += 1
            print(f"WRONG: {what}")

    def used(self):
        """The bytes that the disk has given out."""
        told = os.statvfs(self.folder)
        return (told.f_blocks - told.f_bfree) * told.f_frsize

    def names(self):
        return os.listdir(self.folder)

    def start(self, commands, environment=None):
        self.commands.seek(0)
        self.commands.truncate()
        self.commands.write("".join(f"{it}\n" for it in commands))
        self.commands.flush()
        words = [self.program, "--far", self.folder, *map(str, SETTINGS), self.commands.name]
        return subprocess.Popen(words, stdout=subprocess.PIPE, stderr=subprocess.PIPE, text=True, env=environment)

    def run(self, commands, environment=None):
        """Gives the status of a run to its end, its replies and its contents."""
        process = self.start(commands, environment)
        out, err = process.communicate(timeout=120)
        self.expect(err == "", f"error {err!r}")
        parts = split(out, [commands]) if process.returncode == 0 else None
        return process.returncode, *((parts[0][0], parts[1]) if parts else ([], None))

    def expect_map(self, commands, ran):
        """Whether the run was replied as a map does, but for refusals."""
        status, replies, contents = ran
        made = calls(commands, replies) if len(replies) == len(commands) else None
        held = None if made is None else replayed(made)
        self.expect(status == 0 and held is not None, f"status {status}, or a reply that no map gives")
        self.expect(held is None or contents == [f"{key} {held[key]}" for key in sorted(held)], "other contents")

    def expect_clean(self, what):
        self.expect(self.names() == [], f"{what}: the names {self.names()}")
        self.expect(self.used() == 0, f"{what}: {self.used()} bytes in use")


def fill_and_empty(disk):
    small = [key for group in groups(SMALL_COUNT, SMALL) for key in group]
    large = [key for group in groups(LARGE_COUNT, LARGE) for key in group]
    phases = [
        puts(small), [f"get {key}" for key in small], [f"del {key}" for key in small], [f"get {key}" for key in small],
        puts(large), [f"get {key}" for key in large],
    ]
    commands = [command for phase in phases for command in phase]
    ran = disk.run(commands)
    disk.expect_map(commands, ran)
    refused = [(at, reply) for at, reply in enumerate(ran[1]) if reply in REFUSALS]
    disk.expect({reply for _, reply in refused} == {"device"}, f"refused as {({reply for _, reply in refused})}")
    disk.expect(all(at < len(small) for at, _ in refused), "refused after the disk was full")
    # 4,096 objects of 1 KB fill the disk.
    disk.expect(0 < len(refused) <= SMALL_COUNT - 4000, f"{len(refused)} refused")
    disk.expect_clean("behind a run on a full disk")
    print(f"a full disk: {len(small) - len(refused)} objects of 1 KB, then {len(large) // LARGE} of 4 KB, {len(refused)} refused")


def stop_and_kill(disk):
    small = [key for group in groups(3000, SMALL) for key in group]
    process = disk.start(puts(small) * 20)
    until = time.monotonic() + 60
    while disk.used() < 2**20 and process.poll() is None and time.monotonic() < until:
        time.sleep(0.001)
    process.send_signal(signal.SIGSTOP)
    disk.expect(process.poll() is None and disk.used() >= 2**20, "no run to stop")
    disk.expect(disk.names() == [], f"while it runs: the names {disk.names()}")
    process.kill()
    process.communicate()
    disk.expect(process.returncode == -signal.SIGKILL, f"status {process.returncode}")
    disk.expect_clean("behind a run that was killed")


def kill_at_names(disk):
    small = [key for group in groups(100, SMALL) for key in group]
    commands = puts(small)
    for number in range(1, 20):
        status, _, _ = disk.run(commands, {"LD_PRELOAD": disk.library, "KILLED": str(number)})
        if status != -signal.SIGKILL:
            break
        disk.expect(len(disk.names()) == 1, f"killed at name {number}: the names {disk.names()}")
        ran = disk.run(commands)
        disk.expect_map(commands, ran)
        disk.expect(set(ran[1]) == {"none"}, f"behind a kill at name {number}: replies {set(ran[1])}")
        disk.expect_clean(f"behind a kill at name {number}")
    # Each of four lanes makes a file at its start, and those that get an object of 1 KB another.
    disk.expect(status == 0 and 5 < number < 10, f"status {status} behind {number - 1} kills")
    print(f"{number - 1} runs killed at a name, 4 of them at the start")


def main(program, library, folder):
    disk = Disk(program, library, folder)
    disk.expect_clean("before all")
    for part in (fill_and_empty, stop_and_kill, kill_at_names):
        part(disk)
    sys.exit(1 if disk.wrong else 0)


if __name__ == "__main__":
    main(*map(os.path.abspath, sys.argv[1:]))
