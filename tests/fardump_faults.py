"""Trials of fardump.py: servers that refuse, fail, or send what no server should, and words that can't be obeyed."""
import socket
import time

from fardump_parts import PROGRAM, Fake, commands_in, fails, fill, is_whole, loaded, ran, usual, words_for

# The key, the value and the password of these servers.
SECRETS = ("secret", "hidden", "password1")


def refused(tried, text, *more, status=1, **answers):
    """A server with these answers: fardump has to say this of it, make no file, and show no key and no value."""
    file = tried.file()
    with Fake(usual(**answers)) as server:
        said = fails(status, text, *server, *more, file)
    assert not any(it in said for it in SECRETS), said
    assert not any(file.parent.iterdir())
    return said


def connections(tried):
    file, path = tried.file(), tried.folder() / "socket"
    word, wrong, empty, carriage = (tried.file() for _ in range(4))
    word.write_bytes(b"password1\nmore")
    wrong.write_bytes(b"password2")
    empty.write_bytes(b"\nmore")
    carriage.write_bytes(b"password1\r\n")
    with socket.create_server(("127.0.0.1", 0)) as free:
        port = free.getsockname()[1]
    fails(1, f"fardump: 127.0.0.1:{port}: cannot connect: Connection refused; is a server there?\n", "--port", port, file)
    fails(1, f"fardump: {path}: cannot connect: No such file or directory", "--unix", path, file)
    fails(1, "fardump: none.invalid:6379: cannot connect: ", "--host", "none.invalid", file)
    fails(1, "cannot connect: ", "--unix", "x" * 200, file)
    fails(2, f"--password-file {path}: No such file or directory", "--password-file", path, file)
    fails(2, f"--password-file {empty}: its first line is empty", "--password-file", empty, file)
    for make in (tried.farserve, tried.redis):
        with make("--password-file", word, "--unix", path) as server:
            client = server.client()
            assert client.ask("AUTH", "password1") == client.ask("SET", "k", "v") == b"+OK\r\n"
            for words in (words_for(server), ["--unix", path], ["--host", "localhost", *words_for(server)]):
                fails(1, "the server asks for a password; --password-file names a file that has it\n", *words, file)
                fails(1, "the server refuses the password\n", "--password-file", wrong, *words, file)
                assert not any(file.parent.iterdir())
                for own in (word, carriage):
                    assert ran("--password-file", own, *words, file) == (0, b"", "")
                    is_whole(file, 1)
                    file.unlink()
    for make in (tried.farserve, tried.redis):
        with make() as server:
            fails(1, "the server has no password; leave out --password-file\n", "--password-file", word, *words_for(server), file)
    assert not any(file.parent.iterdir())


def errors_of_the_server(tried):
    """They end the dump, with the command's name and the known words of the error."""
    def exec_with(before=b":-1\r\n", value=b"$6\r\nhidden\r\n", after=b":-1\r\n"):
        return b"*3\r\n" + before + value + after

    def errors(name, reply, text):
        return refused(tried, f"{name}: the server replied {text}\n", **{name: reply})

    far = b"-ERR far device failed: store has lost the object\r\n"
    for name, told in (("GET", exec_with(value=far)), ("PEXPIRETIME", exec_with(before=far)), ("PEXPIRETIME", exec_with(after=far))):
        refused(tried, f"{name}: the server replied ERR far device failed: store has lost the object\n", EXEC=told)
    refused(tried, "GET: the server replied ERR far device gave back damaged bytes\n", EXEC=exec_with(value=b"-ERR far device gave back damaged bytes\r\n"))
    refused(tried, "GET: the server replied OOM command not allowed\n", EXEC=exec_with(value=b"-OOM command not allowed: out of memory\r\n"))
    errors("SCAN", far, "ERR far device failed: store has lost the object")
    errors("SELECT", b"-ERR max number of clients reached\r\n", "ERR max number of clients reached")
    errors("SELECT", b"-LOADING Redis is loading the dataset in memory\r\n", "LOADING")
    # Texts with keys and values in them.
    errors("PEXPIRETIME", b"-ERR unknown command `PEXPIRETIME`, with args beginning with: `secret`, \r\n", "ERR unknown command")
    errors("PEXPIRETIME", b"-MOVED 1 secret:1\r\n", "MOVED")
    errors("EXEC", b"-EXECABORT secret\r\n", "EXECABORT")
    errors("MULTI", b"-secret hidden\r\n", "an error without a name")
    errors("MULTI", b"-NOPERMsecret hidden\r\n", "an error without a name")
    errors("SCAN", b"-NOPERM this user has no permissions to access the key secret\r\n", "NOPERM")
    errors("EXEC", b"-ERR secret\r\n", "ERR")
    refused(tried, "GET: the server replied ERR reply is too large, to one key\n", EXEC=exec_with(value=b"-ERR reply is too large\r\n"),
            GET=Late(b"+QUEUED\r\n", b"-ERR reply is too large\r\n"), PEXPIRETIME=Late(b"+QUEUED\r\n", b":-1\r\n", 2))


class Late:
    """An answer that is another from some time on."""

    def __init__(self, first, then, times=1):
        self.first, self.then, self.left = first, then, times

    def __call__(self, *_):
        self.left -= 1
        return self.first if self.left >= 0 else self.then


def a_key_that_never_rests(tried):
    deadlines = iter(range(10**9))
    told = refused(tried, "a key was changed each time it was read, 1000 times; stop the clients that change it\n",
                   EXEC=lambda *_: b"*3\r\n:%d\r\n$6\r\nhidden\r\n:%d\r\n" % (next(deadlines), next(deadlines)))
    assert told


def a_key_that_rests_late(tried):
    """Only what has the same deadline twice is taken, and a key that has gone is left out."""
    for last, count in ((b":7\r\n$5\r\nlater\r\n:7\r\n", 1), (b":-2\r\n$-1\r\n:-2\r\n", 0), (b":9\r\n$-1\r\n:-2\r\n", 0)):
        replies = iter([b":5\r\n$6\r\nhidden\r\n:6\r\n", b":-2\r\n$6\r\nhidden\r\n:-2\r\n", b":-1\r\n$6\r\nhidden\r\n:-2\r\n", last])
        file = tried.file()
        with Fake(usual(EXEC=lambda *_: b"*3\r\n" + next(replies))) as server:
            assert ran(*server, file) == (0, b"", "")
        is_whole(file, count)
        sets = commands_in(file.read_bytes())[1:-1]
        assert sets == [[b"SET", b"secret", b"later", b"PXAT", b"7"]][:count], sets


def a_key_that_comes_twice(tried):
    """It is written twice, and counts twice: the count is that of the SETs."""
    pages = iter([b"*2\r\n$1\r\n7\r\n*1\r\n$6\r\nsecret\r\n", b"*2\r\n$1\r\n0\r\n*1\r\n$6\r\nsecret\r\n"])
    file = tried.file()
    with Fake(usual(SCAN=lambda *_: next(pages))) as server:
        assert ran(*server, file) == (0, b"", "")
    is_whole(file, 2)
    with tried.redis() as redis:
        assert loaded(file, redis) == 4
        assert redis.client().number("DBSIZE") == 1


def drips(data):
    for at in range(len(data)):
        time.sleep(0.3)
        yield data[at:at + 1]


def endless(data):
    while True:
        yield data


def hostile_servers(tried):
    """None has it wait for ever, or take memory for bytes that have not come."""
    short = ["--timeout", "1"]
    silent = "no whole reply within 1 seconds; --timeout can give it more\n"
    began = time.monotonic()
    no_bytes = {"SELECT": b"", "SCAN": b"*2\r\n$1\r\n0\r\n*1000\r\n", "MULTI": lambda *_: time.sleep(2), "EXEC": b"*3\r\n:-1\r\n$536870912\r\nhi"}
    for name, reply in no_bytes.items():
        refused(tried, silent, *short, **{name: reply})
    refused(tried, silent, *short, SELECT=lambda *_: drips(b"+OK" + b"K" * 90))
    assert time.monotonic() - began < 30, "it waits too long"
    for name in ("SELECT", "SCAN", "MULTI", "EXEC"):
        refused(tried, f"{name}: the server has closed the connection\n", *short, **{name: lambda *_: None})
    refused(tried, "SELECT: a line is longer than 64 KiB\n", SELECT=lambda *_: endless(b"+" + b"x" * 65_000))
    refused(tried, "GET: a string is longer than 512 MiB\n", EXEC=b"*3\r\n:-1\r\n$536870913\r\n")
    refused(tried, "SCAN: the keys of a reply have more than 512 MiB\n", "--timeout", "300",
            SCAN=lambda *_: endless_keys(b"$8388608\r\n" + b"x" * (8 << 20) + b"\r\n"))
    invalid = {
        "SELECT": {b"HTTP/1.1 400 Bad Request\r\n": "SELECT: these bytes are no reply of a Redis server", b"\r\n": "SELECT: these bytes are no reply",
                   b":1\r\n": "SELECT: the reply is not OK", b"$2\r\nno\r\n": "SELECT: the reply is not OK", b"$x\r\n": "a number is expected",
                   b"$-2\r\n": "an item of another kind", b"$01\r\nx\r\n": "a number is expected", b"$2\r\nOKX\r\n": "a string is longer than its length"},
        "SCAN": {b"*-1\r\n": "an array has more items", b"*3\r\n": "an array has more items", b"*1\r\n": "the reply is no cursor with keys",
                 b"+OK\r\n": "an array is expected", b"*2\r\n:0\r\n*0\r\n": "the cursor is no number", b"*2\r\n$2\r\n-1\r\n*0\r\n": "the cursor is no number",
                 b"*2\r\n$1\r\n0\r\n*2000000\r\n": "an array has more items", b"*2\r\n$1\r\n0\r\n*1\r\n:1\r\n": "a key is no string",
                 b"*2\r\n$1\r\n0\r\n*1\r\n$-1\r\n": "a key is no string", b"*2\r\n*1\r\n": "an item of another kind",
                 b"*2\r\n$1\r\n0\r\n*99999999999999999999\r\n": "a number is expected"},
        "MULTI": {b":1\r\n": "MULTI: the reply is not that it waits for EXEC", b"*1\r\n": "MULTI: an item of another kind"},
        "GET": {b"+OK\r\n": "GET: the reply is not that it waits for EXEC", b"$6\r\nQUEUED\r\n": "GET: the reply is not that it waits for EXEC"},
        "EXEC": {b"*2\r\n": "EXEC: there are fewer replies", b"*4\r\n": "EXEC: an array has more items", b"*-1\r\n": "EXEC: an array has more items",
                 b"*3\r\n+a\r\n$1\r\nx\r\n:1\r\n": "PEXPIRETIME: the reply is no deadline", b"*3\r\n:-3\r\n$1\r\nx\r\n:-3\r\n": "PEXPIRETIME: the reply is no deadline",
                 b"*3\r\n:1\r\n:5\r\n:1\r\n": "GET: the reply is no value", b"*3\r\n:1\r\n+OK\r\n:1\r\n": "GET: the reply is no value",
                 b"*3\r\n:1\r\n*1\r\n": "GET: an item of another kind", b"*3\r\n$1\r\n1\r\n$1\r\n1\r\n$1\r\n1\r\n": "PEXPIRETIME: the reply is no deadline"},
    }
    for name, replies in invalid.items():
        for reply, text in replies.items():
            refused(tried, text, *short, **{name: reply})


def endless_keys(key):
    yield b"*2\r\n$1\r\n0\r\n*1000000\r\n"
    yield from endless(key)


def lost_objects_end_a_dump(tried):
    """A farserve whose store has lost objects: no dump is made that lacks keys."""
    file = tried.file()
    with tried.redis() as store, tried.farserve("--far-resp", f"127.0.0.1:{store.port()}", memory="32m", far=None) as server:
        pairs = {b"key%d" % at: (b"%020000d" % at, None) for at in range(2000)}
        fill(server, pairs)
        assert store.client().number("DBSIZE") > 100
        assert ran(*words_for(server), file) == (0, b"", "")
        is_whole(file, 2000)
        file.unlink()
        assert store.client().ask("FLUSHALL") == b"+OK\r\n"
        said = fails(1, "the server replied ERR far device failed: ", *words_for(server), file)
        assert "key" not in said.replace("keys", ""), said
        assert not any(file.parent.iterdir())
    return said.strip().rpartition(": the server")[0].rpartition(" ")[2]


def words_that_are_wrong(tried):
    file = tried.file()
    wrong = {
        (): "FILE is missing", ("",): "FILE is missing", ("--port", "0", file): "--port: 0: no number from 1 to 65535", ("--port", "x", file): "--port",
        ("--port", "65536", file): "--port", ("--port", "1", "--unix", "/a", file): "--unix can't be used with --host or --port",
        ("--host", "a", "--unix", "/a", file): "--unix can't be used", ("--timeout", "0", file): "--timeout", ("--more", file): "--more",
        (file, file): "unrecognized arguments", ("--check",): "FILE is missing", ("--check", "--port", "1", file): "--check reads a file, and takes no --port",
        ("--check", "--password-file", "x", file): "--check reads a file, and takes no --password-file", ("--pass", "x", file): "--pass",
        ("--port",): "--port", ("--timeout", "٣", file): "--timeout",
    }
    for words, text in wrong.items():
        said = fails(2, text, *words)
        assert said.startswith("usage: fardump "), said
    status, out, said = ran("--help")
    assert status == 0 and not said and all(it in out.decode() for it in ("--host", "--port", "--unix", "--password-file", "--check", "redis-cli --pipe"))
    version = (PROGRAM.parent.parent / "VERSION").read_text()
    assert ran("--version") == (0, f"version: {version}".encode(), "")
    assert not any(file.parent.iterdir())


TRIALS = [connections, errors_of_the_server, a_key_that_never_rests, a_key_that_rests_late, a_key_that_comes_twice, hostile_servers,
          lost_objects_end_a_dump, words_that_are_wrong]
