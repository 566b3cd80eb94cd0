"""What gateway_unauthenticated.py tries the gateway with: a worker that asks for a password."""
import contextlib
import time

from gateway_parts import CLOSE, DATA, LET_IN, LET_OUT, Gateway, Worker, frame

PASSWORD = b"open sesame"
NOAUTH = b"-NOAUTH Authentication required.\r\n"
WRONG = b"-WRONGPASS\r\n"
OK = b"+OK\r\n"
MANY = b"-ERR Protocol error: unauthenticated multibulk length\r\n"
LONG = b"-ERR Protocol error: unauthenticated bulk length\r\n"
LINE = b"-ERR Protocol error: too big inline request\r\n"
INVALID = b"-ERR Protocol error: invalid multibulk length\r\n"
# The most arguments, and the most bytes of each and of a line.
ARGUMENTS, BYTES = 10, 16384


def request(*words):
    return b"*%d\r\n" % len(words) + b"".join(b"$%d\r\n%b\r\n" % (len(it), it) for it in words)


AUTH = request(b"AUTH", PASSWORD)
RESET = request(b"RESET")


class Malformed(Exception):
    pass


def line_at(data):
    line, end, rest = data.partition(b"\r\n")
    if not end:
        raise EOFError
    return line, rest


def request_at(data):
    """The words of the request that these bytes begin with, and the rest."""
    if data[:1] != b"*":
        line, end, rest = data.partition(b"\n")
        if not end:
            raise EOFError
        return line.split(), rest
    line, data = line_at(data)
    if not line[1:].removeprefix(b"-").isdigit():
        raise Malformed
    words = []
    for _ in range(int(line[1:])):
        line, data = line_at(data)
        if line[:1] != b"$" or not line[1:].isdigit():
            raise Malformed
        length = int(line[1:])
        if len(data) < length + 2:
            raise EOFError
        words.append(data[:length])
        data = data[length + 2:]
    return words, data


class Guarded(Worker):
    """A worker that asks for a password, and sees that no unauthenticated client passes the limits."""

    def __init__(self, *words, **options):
        super().__init__(*words, **options)
        self.let_in, self.was_in = set(), set()
        self.faults = []
        # Answers to the gateway wait here while it is False.
        self.answers = True
        self.notes_held = []
        self.gathered = b""

    def welcome(self, connection):
        pass

    def take_note(self, text):
        if self.answers:
            super().take_note(text)
        else:
            self.notes_held.append(text)

    def take(self, connection, data):
        if connection not in self.halves:
            self.faults.append("data behind a close")
            return
        rest = self.halves[connection] + data
        if connection not in self.was_in and len(rest) > ARGUMENTS * (BYTES + 20) + BYTES:
            self.faults.append(f"{len(rest)} bytes of an unauthenticated client")
        with contextlib.suppress(EOFError):
            while rest and connection not in self.closing:
                try:
                    words, rest = request_at(rest)
                except Malformed:
                    self.send(frame(DATA, connection, INVALID) + frame(CLOSE, connection))
                    self.closing.add(connection)
                    break
                if words:
                    self.obey_words(connection, *words)
        self.halves[connection] = rest

    def obey_words(self, connection, name, *words):
        if connection not in self.was_in and (len(words) >= ARGUMENTS or any(len(it) > BYTES for it in words)):
            self.faults.append(f"{len(words) + 1} arguments of an unauthenticated client")
        if name == b"AUTH":
            if words == (PASSWORD,):
                self.let_in.add(connection)
                self.was_in.add(connection)
                self.send(frame(LET_IN, connection) + frame(DATA, connection, OK))
            else:
                self.send(frame(DATA, connection, WRONG))
        elif name == b"RESET":
            self.let_in.discard(connection)
            # A worker lets out before it sends the replies that it has gathered.
            self.send(frame(LET_OUT, connection) + frame(DATA, connection, self.gathered + b"+RESET\r\n"))
        elif name == b"QUIT":
            self.send(frame(DATA, connection, OK) + frame(CLOSE, connection))
            self.closing.add(connection)
        elif name == b"SLEEP":
            time.sleep(float(words[0]))
        else:
            told = b":%d\r\n" % sum(map(len, words)) if connection in self.let_in else NOAUTH
            self.send(frame(DATA, connection, told))


@contextlib.contextmanager
def guarded(work, *words, **options):
    with Gateway(work, "--guarded", *words, kind=Guarded, **options) as gateway:
        yield gateway, gateway.workers[0]
        assert all(not it.faults for it in gateway.workers), [it.faults for it in gateway.workers]
