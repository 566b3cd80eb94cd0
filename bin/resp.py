"""Commands and replies of RESP2, the protocol of Redis, as bytes: what bin/fardump sends, reads and writes.

A reader takes bytes from a function, which a server or a file is behind. It keeps no more than one item and a piece, and believes no length:
memory is taken only for bytes that have come.
"""
import re

# The most bytes of a string, as in Redis, and of a line.
MOST_STRING = 512 << 20
MOST_LINE = 64 << 10
# The most bytes that are asked for at once.
PIECE = 256 << 10
END = b"\r\n"
NUMBER = re.compile(rb"-?(?:0|[1-9][0-9]{0,18})")


class Invalid(Exception):
    """Why bytes are not what they should be."""


class Ended(Exception):
    """The bytes have ended within an item."""


class Refusal(bytes):
    """The text of an error, which a server replied."""


class Status(bytes):
    """The text of a reply such as OK."""


def command(*arguments):
    """The bytes of a command, each of whose arguments is bytes."""
    return b"*%d\r\n" % len(arguments) + b"".join(b"$%d\r\n%b\r\n" % (len(it), it) for it in arguments)


def number_in(text):
    """The number that a text is, in the one way to write it."""
    if not NUMBER.fullmatch(text) or text == b"-0":
        raise Invalid("a number is expected")
    return int(text)


class Reader:
    """Reads items. `more(most)` gives the next bytes, at most that many, and none at the end."""

    def __init__(self, more):
        self.more = more
        self.data, self.at = b"", 0

    def fill(self):
        piece = self.more(PIECE)
        if not piece:
            raise Ended
        self.data, self.at = self.data[self.at:] + piece, 0

    def is_at_end(self):
        """Whether no byte is left."""
        if self.at == len(self.data):
            try:
                self.fill()
            except Ended:
                return True
        return False

    def skip(self, wanted):
        """Passes over these bytes, if they are what comes next."""
        while len(self.data) - self.at < len(wanted):
            if not wanted.startswith(self.data[self.at:]):
                return False
            self.fill()
        if not self.data.startswith(wanted, self.at):
            return False
        self.at += len(wanted)
        return True

    def line(self):
        """The next line, without its end."""
        end = self.data.find(END, self.at)
        while end < 0 and len(self.data) - self.at <= MOST_LINE:
            self.fill()
            end = self.data.find(END, self.at)
        if end < 0 or end - self.at > MOST_LINE:
            raise Invalid("a line is longer than 64 KiB")
        line, self.at = self.data[self.at:end], end + 2
        return line

    def string(self, length):
        """A string of so many bytes, and its end."""
        if length > MOST_STRING:
            raise Invalid("a string is longer than 512 MiB")
        end = self.at + length
        if end + 2 <= len(self.data):
            value, closing, self.at = self.data[self.at:end], self.data[end:end + 2], end + 2
        else:
            value = bytearray(self.data[self.at:])
            self.data, self.at = b"", 0
            while len(value) < length + 2:
                piece = self.more(min(PIECE, length + 2 - len(value)))
                if not piece:
                    raise Ended
                value += piece
            closing = bytes(value[length:])
            del value[length:]
        if closing != END:
            raise Invalid("a string is longer than its length")
        return value

    def item(self):
        """The next item, which is no array: an int, bytes, None, a Status, or a Refusal."""
        line = self.line()
        kind = line[:1]
        if kind == b"$":
            length = number_in(line[1:])
            if length >= 0:
                return self.string(length)
            if length == -1:
                return None
        elif kind == b":":
            return number_in(line[1:])
        elif kind == b"-":
            return Refusal(line[1:])
        elif kind == b"+":
            return Status(line[1:])
        raise Invalid("an item of another kind is expected" if kind in (b"*", b"$") else "these bytes are no reply of a Redis server")

    def array(self, most):
        """How many items the next array has, of which there may be so many. Or a Refusal in its place."""
        line = self.line()
        if line[:1] == b"-":
            return Refusal(line[1:])
        if line[:1] != b"*":
            raise Invalid("an array is expected")
        count = number_in(line[1:])
        if not 0 <= count <= most:
            raise Invalid("an array has more items than it may have, or fewer")
        return count
