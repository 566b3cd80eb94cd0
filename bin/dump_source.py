"""The server whose keys bin/fardump writes: a connection, and the keys with their values and deadlines.

The keys come by SCAN. For those of a reply a batch of commands asks, within MULTI and EXEC: of each key the deadline, the value, and the
deadline again. In a server of one thread nothing comes between them. In farserve other clients' commands may, so a key whose two deadlines
differ is asked for again.
"""
import re
import select
import socket
import time
from collections import deque

import resp
from resp import Invalid, Refusal, Status

# How many keys a SCAN looks at, how many a batch may have, and how many the first one has.
SCANNED = 512
MOST_KEYS = 1024
FIRST_KEYS = 16
# The bytes that the requests of a batch may have, and how many its replies should have: a farserve of little memory makes none of more than a
# MiB.
MOST_ASKED = 512 << 10
WANTED = 512 << 10
# The most bytes of all keys of a reply to SCAN, and how many of them.
MOST_SCANNED = 512 << 20
MOST_AT_ONCE = 1 << 20
# How often a key is asked for that is changed all the time.
TRIES = 1000
# So many replies to SCAN may follow each other that have no key. Redis has one for each 512 places of its table.
MOST_EMPTY = 10_000_000
# A reply may take as long as the timeout, and a second more for each such number of its bytes.
SLOWEST = 16 << 10
NO_KEY = -2
NO_DEADLINE = -1
# How a reader gives a string: a long one can be changed.
STRINGS = (bytes, bytearray)
TOO_LARGE = b"ERR reply is too large"
# What may be shown of an error, as its text may have keys: its first words, if they are known.
KNOWN = re.compile(rb"ERR far device failed: [a-z/ ]{1,60}|ERR far device gave back damaged bytes|ERR reply is too large|ERR unknown command"
                   rb"|ERR max number of clients reached|ERR too many bytes wait for EXEC|ERR the map is being renewed, try again"
                   rb"|ERR DB index is out of range|ERR '[A-Za-z]{1,20}' is not supported by farserve|OOM command not allowed"
                   rb"|[A-Z][A-Z0-9]{1,19}(?![^ ])")


class Failed(Exception):
    """Why there are no more keys: a text that has no key and no value."""


def shown(text):
    known = KNOWN.match(text)
    return known[0].decode() if known else "an error without a name"


class Connection:
    """A connection, whose reader waits no longer than the timeout."""

    def __init__(self, address, name, timeout):
        self.name, self.timeout = name, timeout
        try:
            self.socket = self.connect(address, timeout)
        except OSError as why:
            # (a name that can't be looked up has no text of the system)
            raise Failed(f"{name}: cannot connect: {why.strerror or why}; is a server there?") from None
        self.reader = resp.Reader(self.receive)
        # The bytes that have come, those of them at the last request, and the seconds that were waited since.
        self.received = self.begin = self.waited = 0

    @staticmethod
    def connect(address, timeout):
        if isinstance(address, tuple):
            made = socket.create_connection(address, timeout)
            made.setsockopt(socket.IPPROTO_TCP, socket.TCP_NODELAY, 1)
            return made
        made = socket.socket(socket.AF_UNIX)
        made.settimeout(timeout)
        made.connect(address)
        return made

    def close(self):
        self.socket.close()

    def send(self, data):
        self.socket.settimeout(self.timeout)
        try:
            self.socket.sendall(data)
        except socket.timeout:
            raise Failed(f"{self.name}: it took no request for {self.timeout} seconds") from None
        except OSError as why:
            raise Failed(f"{self.name}: the connection has ended: {self.last_words() or why.strerror}") from None
        self.begin, self.waited = self.received, 0

    def last_words(self):
        """The error that a server sent before it closed the connection, if there is one."""
        try:
            line = self.reader.line() if select.select([self.socket], [], [], 0)[0] else b""
        except (Failed, Invalid, resp.Ended):
            return ""
        return shown(line[1:]) if line[:1] == b"-" else ""

    def receive(self, most):
        # (the time in which replies are written to somebody slow is none of the server's)
        left, began = self.timeout + (self.received - self.begin) / SLOWEST - self.waited, time.monotonic()
        try:
            # (no time at all would mean not to wait)
            self.socket.settimeout(max(1e-3, min(left, self.timeout)))
            data = self.socket.recv(most)
            self.waited += time.monotonic() - began
        except socket.timeout:
            raise Failed(f"{self.name}: no whole reply within {self.timeout} seconds; --timeout can give it more") from None
        except OSError as why:
            raise Failed(f"{self.name}: the connection has ended: {why.strerror}") from None
        self.received += len(data)
        return data

    def read(self, of, how, *words):
        """What a call of the reader gives, whose faults are told with the command's name."""
        try:
            return how(*words)
        except Invalid as why:
            raise Failed(f"{self.name}: {of}: {why}") from None
        except resp.Ended:
            raise Failed(f"{self.name}: {of}: the server has closed the connection") from None

    def item(self, of):
        """The next item of the reply to a command. An error is given, too."""
        return self.read(of, self.reader.item)

    def array(self, of, most):
        return self.checked(self.read(of, self.reader.array, most), of)

    def skip(self, wanted):
        return self.read("MULTI", self.reader.skip, wanted)

    def checked(self, item, of):
        if isinstance(item, Refusal):
            raise Failed(f"{self.name}: {of}: the server replied {shown(item)}")
        return item

    def ask(self, *arguments):
        """The reply to a command with these arguments, which is no array."""
        self.send(resp.command(*arguments))
        return self.item(arguments[0].decode())

    def log_in(self, password):
        told = self.ask(b"AUTH", password)
        if isinstance(told, Refusal):
            if told.startswith(b"ERR AUTH <password> called without any password"):
                raise Failed(f"{self.name}: the server has no password; leave out --password-file")
            why = "the server refuses the password" if told.startswith((b"WRONGPASS", b"ERR invalid password")) else shown(told)
            raise Failed(f"{self.name}: {why}")

    def select(self, database=0):
        told = self.ask(b"SELECT", b"%d" % database)
        if isinstance(told, Refusal) and told.startswith(b"NOAUTH"):
            raise Failed(f"{self.name}: the server asks for a password; --password-file names a file that has it")
        if self.checked(told, "SELECT") != b"OK":
            raise Failed(f"{self.name}: SELECT: the reply is not OK")

    def databases(self):
        """The numbers of the databases that have keys, and 0 in any case."""
        told = self.checked(self.ask(b"INFO", b"keyspace"), "INFO")
        if type(told) not in STRINGS or not told.lstrip().startswith(b"# Keyspace"):
            raise Failed(f"{self.name}: INFO: the reply does not say which databases there are")
        return sorted({0} | {int(it) for it in re.findall(rb"^db([0-9]{1,9}):keys=", told, re.MULTILINE)})


class Batch:
    """Keys that are asked for at once. One that has no room in the reply to an EXEC is asked for without it."""

    def __init__(self, keys, is_plain):
        self.keys, self.is_plain = keys, is_plain

    def request(self):
        parts = [] if self.is_plain else [b"*1\r\n$5\r\nMULTI\r\n"]
        for key in self.keys:
            name = b"%d\r\n%b\r\n" % (len(key), key)
            deadline = b"*2\r\n$11\r\nPEXPIRETIME\r\n$" + name
            parts += deadline, b"*2\r\n$3\r\nGET\r\n$", name, deadline
        if not self.is_plain:
            parts.append(b"*1\r\n$4\r\nEXEC\r\n")
        return b"".join(parts)


class Source:
    """All keys of a database, with their values and deadlines."""

    def __init__(self, connection):
        self.connection = connection
        # Keys that are to be asked for, and how often those were that have to be again; and how often any had to be.
        self.waiting, self.tries, self.again = deque(), {}, 0
        # Those of them that are to be asked for without EXEC.
        self.alone = deque()
        self.most_keys, self.is_plain = FIRST_KEYS, False
        self.cursor, self.is_scanning, self.empty = b"0", True, 0
        # Keys that are no strings. One that SCAN gave twice counts twice.
        self.others = 0

    def pairs(self):
        """Gives each key with its value and its deadline, which is None where it has none."""
        # One request at a time, so that no more replies wait than one may have: farserve closes a client for which too much waits.
        while self.is_scanning:
            self.scan()
            while self.waiting or self.alone:
                batch = self.next_batch()
                self.connection.send(batch.request())
                yield from self.take_batch(batch)

    def scan(self):
        """Asks for the next keys."""
        self.connection.send(resp.command(b"SCAN", self.cursor, b"COUNT", b"%d" % SCANNED))
        self.take_keys()

    def next_batch(self):
        if self.alone:
            return Batch([self.alone.popleft()], True)
        keys, size = [], 0
        while self.waiting and len(keys) < self.most_keys and (not keys or size < MOST_ASKED):
            keys.append(self.waiting.popleft())
            size += 3 * (len(keys[-1]) + 40)
        return Batch(keys, self.is_plain and self.most_keys == 1)

    def fail(self, text):
        raise Failed(f"{self.connection.name}: {text}")

    def take_keys(self):
        """Takes the reply to a SCAN."""
        connection = self.connection
        if connection.array("SCAN", 2) != 2:
            self.fail("SCAN: the reply is no cursor with keys")
        cursor = connection.item("SCAN")
        if type(cursor) not in STRINGS or not re.fullmatch(rb"[0-9]{1,20}", cursor):
            self.fail("SCAN: the cursor is no number")
        count, size = connection.array("SCAN", MOST_AT_ONCE), 0
        for _ in range(count):
            key = connection.item("SCAN")
            if type(key) not in STRINGS:
                self.fail("SCAN: a key is no string")
            size += len(key)
            if size > MOST_SCANNED:
                self.fail("SCAN: the keys of a reply have more than 512 MiB")
            self.waiting.append(bytes(key))
        self.empty = 0 if count else self.empty + 1
        if self.empty > MOST_EMPTY:
            self.fail(f"SCAN: {MOST_EMPTY} replies had no key")
        self.cursor, self.is_scanning = bytes(cursor), int(cursor) != 0

    def take_batch(self, batch):
        """Takes the replies to a batch, and gives what they say of each key that is there."""
        connection, count = self.connection, len(batch.keys)
        if not batch.is_plain:
            self.take_queued(count)
            if connection.array("EXEC", 3 * count) != 3 * count:
                self.fail("EXEC: there are fewer replies than commands")
        refused = []
        for key in batch.keys:
            before, value, after = connection.item("PEXPIRETIME"), connection.item("GET"), connection.item("PEXPIRETIME")
            if type(value) in STRINGS and type(before) is int and before >= NO_DEADLINE and type(after) is int and before == after:
                if self.tries:
                    self.tries.pop(key, None)
                yield key, value, before if before != NO_DEADLINE else None
            elif any(type(it) is Refusal and it == TOO_LARGE for it in (before, value, after)):
                refused.append(key)
            else:
                self.take_unsettled(key, before, value, after)
        self.adapt(batch, connection.received - connection.begin, refused)

    def take_unsettled(self, key, before, value, after):
        """Takes the replies for a key that has gone, is no string, or was changed meanwhile: it is left out, or asked for again."""
        connection = self.connection
        if type(value) is Refusal and value.startswith(b"WRONGTYPE"):
            self.others += 1
            return
        for item, of in ((before, "PEXPIRETIME"), (value, "GET"), (after, "PEXPIRETIME")):
            connection.checked(item, of)
        if type(before) is not int or type(after) is not int or min(before, after) < NO_KEY:
            self.fail("PEXPIRETIME: the reply is no deadline")
        if value is None:
            self.tries.pop(key, None)
        elif type(value) in STRINGS:
            self.ask_again(key)
        else:
            self.fail("GET: the reply is no value")

    def ask_again(self, key):
        self.again += 1
        self.tries[key] = self.tries.get(key, 0) + 1
        if self.tries[key] == TRIES:
            self.fail(f"a key was changed each time it was read, {TRIES} times; stop the clients that change it")
        self.waiting.append(key)

    def take_queued(self, count):
        """Takes the replies before EXEC's, which say that the commands wait."""
        connection = self.connection
        if connection.skip(b"+OK\r\n" + b"+QUEUED\r\n" * (3 * count)):
            return
        for name in ["MULTI", *["PEXPIRETIME", "GET", "PEXPIRETIME"] * count]:
            told = connection.checked(connection.item(name), name)
            if type(told) is not Status or told != (b"OK" if name == "MULTI" else b"QUEUED"):
                self.fail(f"{name}: the reply is not that it waits for EXEC")

    def adapt(self, batch, size, refused):
        """Chooses how many keys the next batch has, by the size of this one's replies."""
        count = len(batch.keys)
        fit = max(1, min(MOST_KEYS, WANTED * count // max(size, 1)))
        self.most_keys = min(fit, 2 * self.most_keys)
        if refused:
            if batch.is_plain:
                self.fail("GET: the server replied ERR reply is too large, to one key")
            self.most_keys = max(1, count // 2)
            self.is_plain = count == 1
            # The first one may have no room in any reply to an EXEC.
            self.alone.append(refused[0])
            self.waiting.extendleft(reversed(refused[1:]))
        elif self.most_keys > 1:
            self.is_plain = False
