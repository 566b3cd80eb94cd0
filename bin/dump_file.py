"""The file that bin/fardump makes, and its check. docs/FORMATS.md has the format.

It is a list of commands: SELECT of each database that has keys, a SET for each key of it, and at last ECHO with the number of SETs and the SHA-256 of all bytes before.
"""
import contextlib
import fcntl
import hashlib
import os
import re
import select
import stat

import resp

# Bytes that are collected before they are written. A longer string is written by itself.
PIECE = 1 << 20
LONG = 64 << 10
NAME = b"fazhitta"
LAST = re.compile(rb"fazhitta (0|[1-9][0-9]{0,18}) ([0-9a-f]{64})")
FIRST = resp.command(b"SELECT", b"0")


class Failed(Exception):
    """Why there is no dump, or why a file is none."""


def set_head(key, value, deadline):
    """A SET up to its value."""
    return b"*%d\r\n$3\r\nSET\r\n$%d\r\n%b\r\n$%d\r\n" % (3 if deadline is None else 5, len(key), key, len(value))


def set_rest(deadline):
    """A SET from the end of its value on."""
    if deadline is None:
        return resp.END
    text = b"%d" % deadline
    return b"\r\n$4\r\nPXAT\r\n$%d\r\n%b\r\n" % (len(text), text)


def last(count, digest):
    return resp.command(b"ECHO", b"%b %d %b" % (NAME, count, digest.encode()))


class Writer:
    """Writes the commands of a dump by `put`, which takes all the bytes that it is given."""

    def __init__(self, put):
        self.put, self.sum = put, hashlib.sha256()
        self.pieces, self.waiting = [FIRST], len(FIRST)
        self.count = self.bytes = 0

    def flush(self):
        self.write(b"".join(self.pieces))
        self.pieces, self.waiting = [], 0

    def write(self, data):
        self.sum.update(data)
        self.put(data)
        self.bytes += len(data)

    def select(self, database):
        """The keys that come now are of this database. The first one is 0."""
        data = resp.command(b"SELECT", b"%d" % database)
        self.pieces.append(data)
        self.waiting += len(data)

    def set(self, key, value, deadline):
        """Writes a key. A deadline is in milliseconds since 1970, or None."""
        head, rest = set_head(key, value, deadline), set_rest(deadline)
        self.count += 1
        if len(value) > LONG:
            self.flush()
            for data in (head, value, rest):
                self.write(data)
            return
        self.pieces += head, value, rest
        self.waiting += len(head) + len(value) + len(rest)
        if self.waiting >= PIECE:
            self.flush()

    def end(self):
        self.flush()
        self.put(last(self.count, self.sum.hexdigest()))


def put_all(file, data, name):
    """Writes all of the data, whatever part of it the system takes at once."""
    left = memoryview(data)
    while left:
        try:
            left = left[os.write(file, left):]
        except BlockingIOError:
            select.select([], [file], [])
        except BrokenPipeError:
            raise
        except OSError as why:
            raise Failed(f"{name}: {why.strerror}") from None


class PartFile:
    """FILE.part, which becomes FILE by `keep`, and is removed by `close` before that."""

    def __init__(self, path):
        # Of a link, what it leads to is replaced.
        self.path = os.path.realpath(path)
        self.part, self.file = f"{self.path}.part", None
        # (a device, as /dev/null, is not to become a file)
        if any(os.path.exists(it) and not os.path.isfile(it) for it in (path, self.path)):
            raise Failed(f"{path}: it is no regular file; - writes to standard output")

    def open(self):
        try:
            while self.file is None:
                self.file = self.make()
        except OSError as why:
            raise Failed(f"{self.part}: {why.strerror}") from None

    def make(self):
        """Makes the file, which is locked as long as it is written. None where it has to be tried again."""
        try:
            file = os.open(self.part, os.O_WRONLY | os.O_CREAT | os.O_EXCL | os.O_CLOEXEC, 0o600)
        except FileExistsError:
            self.remove_left()
            return None
        fcntl.flock(file, fcntl.LOCK_EX)
        # Between the two calls another start may have taken it for one that was left.
        if os.fstat(file).st_nlink:
            return file
        os.close(file)
        return None

    def remove_left(self):
        """Removes what a killed start left, that is a file that nobody holds."""
        try:
            left = os.open(self.part, os.O_RDONLY | os.O_NOFOLLOW | os.O_NONBLOCK | os.O_CLOEXEC)
        except FileNotFoundError:
            return
        try:
            if not stat.S_ISREG(os.fstat(left).st_mode):
                raise Failed(f"{self.part}: it is no regular file; remove it, or name another FILE")
            fcntl.flock(left, fcntl.LOCK_EX | fcntl.LOCK_NB)
            if os.fstat(left).st_nlink:
                os.unlink(self.part)
        except BlockingIOError:
            raise Failed(f"{self.part}: another fardump writes it") from None
        finally:
            os.close(left)

    def put(self, data):
        put_all(self.file, data, self.part)

    def sync(self):
        try:
            os.fsync(self.file)
        except OSError as why:
            raise Failed(f"{self.part}: {why.strerror}") from None

    def keep(self):
        """Gives the file, whose bytes are on the disk, its name."""
        try:
            os.rename(self.part, self.path)
        except OSError as why:
            raise Failed(f"{self.path}: {why.strerror}") from None
        os.close(self.file)
        self.file = None
        try:
            folder = os.open(os.path.dirname(self.path), os.O_RDONLY | os.O_DIRECTORY | os.O_CLOEXEC)
            try:
                os.fsync(folder)
            finally:
                os.close(folder)
        except OSError as why:
            raise Failed(f"{self.path}: it is whole, but its name may be lost if the power fails now: {why.strerror}") from None

    def close(self):
        """Removes FILE.part, unless it was kept."""
        if self.file is not None:
            # (first the name, as whoever finds it unlocked may take it)
            with contextlib.suppress(OSError):
                os.unlink(self.part)
            os.close(self.file)
            self.file = None


class StandardOutput:
    """Standard output in the place of a file."""

    def open(self):
        pass

    def put(self, data):
        put_all(1, data, "standard output")

    def sync(self):
        pass

    def keep(self):
        pass

    def close(self):
        pass


def read_command(reader):
    """The arguments of the next command, of which there are five at most."""
    count = reader.array(5)
    if isinstance(count, resp.Refusal):
        raise resp.Invalid("an array is expected")
    return [read_argument(reader) for _ in range(count)]


def read_argument(reader):
    line = reader.line()
    if line[:1] != b"$":
        raise resp.Invalid("a string is expected")
    length = resp.number_in(line[1:])
    if length < 0:
        raise resp.Invalid("a string is expected")
    return reader.string(length)


def deadline_in(words):
    """The deadline of a SET's words behind its value."""
    if not words:
        return None
    if len(words) != 2 or words[0] != b"PXAT" or resp.number_in(bytes(words[1])) < 0:
        raise resp.Invalid("it is no SET that fardump writes")
    return int(words[1])


class Check:
    """Reads a dump, and gives the number of its keys if it is whole."""

    def __init__(self, more):
        self.reader, self.sum, self.count = resp.Reader(more), hashlib.sha256(), 0

    def run(self):
        # What was read is written again, and so has to be the same bytes: each number has one spelling.
        begin = 0
        self.read = 0
        try:
            while not self.reader.is_at_end():
                begin = self.read
                words = read_command(self.reader)
                if words[:1] == [b"ECHO"]:
                    return self.judge(words)
                self.take(words)
        except resp.Ended:
            raise Failed(f"it ends within the command at byte {begin}: it was cut off, or a byte has changed") from None
        except resp.Invalid as why:
            raise Failed(f"at byte {begin} is no command that fardump writes: {why}") from None
        raise Failed("its last command is missing, which has the count and the digest: it was cut off" if begin or self.read else "it is empty")

    def take(self, words):
        is_select = words[:1] == [b"SELECT"] and len(words) == 2 and resp.number_in(bytes(words[1])) >= 0
        if is_select and (self.read or words[1] == b"0"):
            pieces = [resp.command(*words)]
        elif self.read and words[:1] == [b"SET"] and len(words) in (3, 5):
            deadline = deadline_in(words[3:])
            pieces = [set_head(words[1], words[2], deadline), words[2], set_rest(deadline)]
            self.count += 1
        else:
            raise resp.Invalid("SELECT 0, then SET, and at last ECHO are expected")
        for piece in pieces:
            self.sum.update(piece)
            self.read += len(piece)

    def judge(self, words):
        found = LAST.fullmatch(words[1]) if len(words) == 2 else None
        if not found:
            raise Failed("its last command has no count and digest: a byte has changed, or it is no dump of fardump")
        if not self.reader.is_at_end():
            raise Failed("there are bytes after its last command")
        if found[2].decode() != self.sum.hexdigest():
            raise Failed("its SHA-256 is not the one in its last command: bytes have changed")
        if int(found[1]) != self.count:
            raise Failed(f"its last command counts {int(found[1])} keys, and it has {self.count}")
        return self.count
