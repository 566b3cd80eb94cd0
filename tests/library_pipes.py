#!/usr/bin/python3 -BE
"""The program farcalls over named pipes, as its README describes it: packets, requests and replies, hostile input, and its end.

library_pipes.py PROGRAM
"""
import os
import shutil
import struct
import subprocess
import sys
import tempfile
from pathlib import Path

DATA, OPEN, CLOSE, WAKE, HOLDS = 0, 1, 2, 3, 7


def packet(kind, connection, content=b""):
    return struct.pack(">BQI", kind, connection, len(content)) + content


def request(*words):
    return b"*%d\r\n" % len(words) + b"".join(b"$%d\r\n%s\r\n" % (len(word), word) for word in words)


class Session:
    """The other side of a session's pipes."""

    def __init__(self, folder, number):
        self.requests = open(f"{folder}/requests{number}", "wb", buffering=0)
        self.replies = open(f"{folder}/replies{number}", "rb")
        self.connection = 0
        self.send(packet(OPEN, 0))

    def send(self, content):
        while content:
            content = content[self.requests.write(content):]

    def read(self):
        """The next packet: its kind, its connection and its bytes. Those about memory are left out."""
        while True:
            kind, connection, length = struct.unpack(">BQI", self.replies.read(13))
            content = self.replies.read(length)
            if kind != HOLDS:
                return kind, connection, content

    def ask(self, *words, piece=65536):
        asked = request(*words)
        for at in range(0, len(asked), piece):
            self.send(packet(DATA, self.connection, asked[at:at + piece]))
        return self.reply()

    def reply(self):
        told = b""
        while not whole(told):
            kind, connection, content = self.read()
            if kind == DATA:
                assert connection == self.connection, "a packet of another connection"
                told += content
        return told


def whole(told):
    """The length of the reply at the front, or 0 if it is not whole."""
    end = told.find(b"\r\n") + 2
    if end < 2:
        return 0
    if told[:1] == b"*":
        for _ in range(max(int(told[1:end]), 0)):
            some = whole(told[end:])
            if not some:
                return 0
            end += some
        return end
    if told[:1] == b"$" and told[1:2] != b"-":
        end += int(told[1:end]) + 2
        return end if len(told) >= end else 0
    return end


class Run:
    """The program with its pipes, in a folder of its own."""

    def __init__(self, program, *options, sessions=1):
        self.folder = tempfile.mkdtemp()
        for number in range(sessions):
            os.mkfifo(f"{self.folder}/requests{number}")
            os.mkfifo(f"{self.folder}/replies{number}")
        words = [program, "--memory", "33554432", "--pairs", "1000", "--sessions", str(sessions), "--pipes", self.folder, *options]
        self.process = subprocess.Popen(words, stdin=subprocess.DEVNULL, stdout=subprocess.PIPE, stderr=subprocess.PIPE)
        self.sessions = [Session(self.folder, number) for number in range(sessions)]

    def end(self):
        for session in self.sessions:
            session.requests.close()
        out, said = self.process.communicate(timeout=60)
        for session in self.sessions:
            session.replies.close()
        shutil.rmtree(self.folder)
        return self.process.returncode, out + said


def check(what, is_so, told=""):
    if not is_so:
        print(f"library_pipes: not so: {what} {told!r}")
        sys.exit(1)


def answers(run):
    one = run.sessions[0]
    for words, wanted in [
        ([b"GET", b"a"], b"$-1\r\n"), ([b"SET", b"a", b"1"], b":0\r\n"), ([b"PUT", b"a", b"2"], b"$1\r\n1\r\n"), ([b"HAS", b"a"], b":1\r\n"),
        ([b"PUTNEW", b"a", b"3"], b"$1\r\n2\r\n"), ([b"PUTNEW", b"b", b""], b":1\r\n"), ([b"PUTIF", b"a", b"2", b"4"], b":1\r\n"),
        ([b"PUTIF", b"a", b"2", b"5"], b"$1\r\n4\r\n"), ([b"MGET", b"a", b"c", b"b"], b"*3\r\n$1\r\n4\r\n$-1\r\n$0\r\n\r\n"), ([b"LEN"], b":2\r\n"),
        ([b"REMOVEIF", b"a", b"1"], b"$1\r\n4\r\n"), ([b"REMOVEIF", b"a", b"4"], b":1\r\n"), ([b"TAKE", b"b"], b"$0\r\n\r\n"),
        ([b"TAKE", b"b"], b"$-1\r\n"), ([b"REMOVE", b"b"], b":0\r\n"), ([b"MGET"], b"*0\r\n"),
    ]:
        told = one.ask(*words)
        check(words, told == wanted, told)
        told = one.ask(*words[:1] + [b"x"] * 9) if words[0] != b"MGET" else b"-UNKNOWN"
        check("a wrong number of arguments", told.startswith(b"-UNKNOWN"), told)
    check("PAIRS", one.ask(b"PAIRS", b"0").startswith(b"*1\r\n:"))
    for bad in (b"", b"-1", b"x", b"99999999999"):
        check("a bad bucket", one.ask(b"PAIRS", bad).startswith(b"-UNKNOWN"))
    check("a bucket behind the last", one.ask(b"PAIRS", b"4294967295").startswith(b"*1\r\n:"))
    check("STATS", one.ask(b"STATS").startswith(b"*23\r\n"))
    large = os.urandom(3_000_000)
    for piece in (65536, 1000):
        check("a large value", one.ask(b"SET", b"large", large, piece=piece) in (b":0\r\n", b":1\r\n"))
        check("a large value", one.ask(b"GET", b"large", piece=1) == b"$3000000\r\n" + large + b"\r\n")
    check("a long key", one.ask(b"SET", b"k" * 65536, b"").startswith(b"-KEYTOOLONG"))
    check("a long value", one.ask(b"SET", b"k", b"v" * (1 << 24)).startswith(b"-TOOLONG"))
    check("a longer value", one.ask(b"SET", b"k", b"v" * ((1 << 24) + 1)).startswith(b"-VALUETOOLONG"))
    one.send(packet(DATA, 0, request(b"SET", b"p", b"1") + request(b"GET", b"p") + request(b"LEN")))
    told = b""
    while told.count(b"\r\n") < 4:
        told += one.read()[2]
    check("requests in one packet are answered in order", told == b":0\r\n$1\r\n1\r\n:2\r\n", told)


def hostile(program):
    """Bytes that are no request close the connection, and packets that must not come end the session. The program goes on."""
    run = Run(program, sessions=4)
    one, two, three, four = run.sessions
    two.send(packet(DATA, 0, b"*1\r\n!bad\r\n"))
    told = two.read()
    check("a protocol error", told[2].startswith(b"-ERR Protocol error"), told)
    check("a close", two.read()[:2] == (CLOSE, 0))
    two.send(packet(CLOSE, 0) + packet(OPEN, 1))
    two.connection = 1
    check("another connection", two.ask(b"SET", b"a", b"1") == b":0\r\n")
    three.send(b"\xff" * 13)
    check("an unknown packet ends the session", three.replies.read() == b"")
    four.send(packet(OPEN, 7))
    check("a connection out of turn ends the session", four.replies.read() == b"")
    check("others go on", one.ask(b"GET", b"a") == b"$1\r\n1\r\n")
    status, said = run.end()
    check("the program says why", status == 1 and b"a session has ended" in said, (status, said))


def renewals(program):
    """A session that has few version numbers left has all woken; they go on in the next map."""
    run = Run(program, "--names", "20000", "--far", "/var/tmp", sessions=2)
    one, two = run.sessions
    woken = 0
    for number in range(60000):
        one.send(packet(DATA, 0, request(b"SET", b"%d" % (number % 500), b"%d" % number)))
        told = b""
        while not told:
            kind, _, content = one.read()
            if kind == WAKE:
                woken += 1
                for session in run.sessions:
                    session.send(packet(WAKE, 0))
            elif kind == DATA:
                told = content
        check("a set", told in (b":0\r\n", b":1\r\n"), told)
    check("renewals", woken >= 2, woken)
    check("what was set", two.ask(b"GET", b"499") == b"$5\r\n59999\r\n")
    check("the length", two.ask(b"LEN") == b":500\r\n")
    status, said = run.end()
    check("the end", (status, said) == (0, b""), (status, said))


def options(program):
    for words, text in [
        (["--memory", "1000", "--pipes", "x"], b"memory 1000: too little"), (["--memory", "x", "--pipes", "x"], b"memory x: no number"),
        (["--memory", "100000000", "--pipes", "x", "--far", "/nonexistent"], b"folder /nonexistent: no such file or directory"),
        (["--memory", "100000000", "--pipes", "x", "--far", ""], b"the path is empty"),
        (["--memory", "100000000", "--pipes", "x", "--names", "5"], b"names 5: too few"),
        (["--memory", "100000000", "--pipes", "x", "--sessions", "0"], b"sessions"), (["--pipes", "x"], b"--memory"), (["--memory", "1"], b"--pipes"),
        (["--memory", "100000000", "--pipes", "x"] + ["--far", "/tmp"] * 65, b"more than 64 folders"),
    ]:
        ran = subprocess.run([program, *words], stdin=subprocess.DEVNULL, stdout=subprocess.PIPE, stderr=subprocess.STDOUT)
        check(words, ran.returncode == 2 and text in ran.stdout, (ran.returncode, ran.stdout))
    ran = subprocess.run([program, "--memory", "100000000", "--pipes", "/nonexistent"], stdout=subprocess.PIPE, stderr=subprocess.STDOUT)
    check("pipes that are not there", ran.returncode == 1 and b"its pipes can't be opened" in ran.stdout, ran.stdout)


def main(program):
    program = str(Path(program).resolve())
    options(program)
    run = Run(program)
    answers(run)
    status, said = run.end()
    check("the end", (status, said) == (0, b""), (status, said))
    hostile(program)
    renewals(program)
    print("library_pipes: as it should be")


if __name__ == "__main__":
    main(*sys.argv[1:])
