"""Trials of starts.py: standard files that are closed, and files that may not grow."""
import contextlib
import resource
import shlex
import subprocess

from server_parts import OK, PATIENCE, PONG, ROOT, Client, Farserve, bulk, until

FILE_LIMIT = 1 << 16


def shell(command, *words, limit=None):
    """Runs a launcher by a shell: its words, and what the shell has behind them."""
    def prepare():
        if limit:
            resource.setrlimit(resource.RLIMIT_FSIZE, (limit, limit))
    line = " ".join(shlex.quote(str(it)) for it in words)
    return subprocess.run(["sh", "-c", f"exec {line} {command}"], capture_output=True, text=True, timeout=3 * PATIENCE, preexec_fn=prepare)


def fault_of(ran):
    """What standard error has beside the line that says how the program was built."""
    return [it for it in ran.stderr.splitlines() if "this build was not proved" not in it]


def a_closed_input_is_a_failed_read(tried, _):
    """No file that is opened later is read as standard input."""
    file = tried.folder() / "file"
    file.write_text("put other 1\n")
    for name in ("fartable", "farrun"):
        ran = shell("<&-", ROOT / "bin" / name, 4, 2, 4096, "-", file)
        assert (ran.returncode, ran.stdout, fault_of(ran)) == (1, "", ["file 1: read failed"]), (name, ran)
        ran = shell("<&-", ROOT / "bin" / name, 4, 2, 4096, file, "-")
        assert (ran.returncode, ran.stdout, fault_of(ran)) == (1, "", ["file 2: read failed"]), (name, ran)
        ran = shell("<&-", ROOT / "bin" / name, 4, 2, 4096, file)
        assert (ran.returncode, ran.stdout) == (0, "file 1\nnone\ncontents\nother 1\n"), (name, ran)
    for word in ("-", "/dev/stdin"):
        ran = shell("<&-", ROOT / "bin/wordcount", word, file)
        assert ran.returncode == 1 and not ran.stdout and fault_of(ran)[0].startswith(f"wordcount: {word}: "), ran
    ran = shell("<&-", ROOT / "bin/wordcount", file)
    assert (ran.returncode, ran.stdout) == (0, "1 1\n1 other\n1 put\n"), ran


def a_closed_output_is_a_failed_write(tried, _):
    """No scratch file gets what is printed."""
    file = tried.folder() / "file"
    file.write_text("put a 1\n")
    for words in ([ROOT / "bin/fartable"], [ROOT / "bin/farrun", "--far", tried.folder()]):
        ran = shell(">&-", *words, 4, 2, 4096, file)
        assert (ran.returncode, fault_of(ran)) == (1, ["write failed"]), ran
        # (there is nobody to tell why)
        ran = shell(">&- 2>&-", *words, 4, 2, 4096, file)
        assert ran.returncode == 1, ran
        ran = shell("2>&-", *words, 4, 2, 4096, file)
        assert (ran.returncode, ran.stdout) == (0, "file 1\nnone\ncontents\na 1\n"), ran


def a_server_needs_no_standard_files(tried, _):
    path, far = tried.folder() / "socket", tried.folder()
    words = [ROOT / "bin/farserve", "--memory", "64m", "--port", 0, "--unix", path, "--far", far]
    line = " ".join(shlex.quote(str(it)) for it in words)
    with subprocess.Popen(["sh", "-c", f"exec {line} <&- >&- 2>&-"]) as process:
        def answers():
            with contextlib.suppress(OSError, EOFError), Client(str(path)) as client:
                return client.ask("PING") == PONG
        try:
            until(answers, "a server without standard files")
            with Client(str(path)) as client:
                assert client.ask_all([("SET", f"key{at}", b"x" * 100_000) for at in range(1000)]) == [OK] * 1000
                assert client.ask("GET", "key0") == bulk(b"x" * 100_000)
        finally:
            process.terminate()
        assert process.wait(PATIENCE) == 0


def a_file_that_may_not_grow_ends_no_program(tried, _):
    """What can't be written into a scratch file is an error of the call."""
    file, words = tried.folder() / "file", tried.folder() / "words"
    file.write_text("".join(f"put key{at} {'x' * 200}\n" for at in range(4000)))
    words.write_text("".join(f"word{at * 7919 % 20000}\n" for at in range(40000)))
    ran = shell("", ROOT / "bin/farrun", "--far", tried.folder(), 256, 4, 4096, file, limit=FILE_LIMIT)
    assert ran.returncode in (0, 1) and "device" in ran.stdout and len(ran.stdout.splitlines()) >= 4001, (ran.returncode, ran.stderr)
    ran = shell("", ROOT / "bin/wordcount", "--threads", 1, "--buckets", 64, "--frames", 2, "--far", tried.folder(), words, limit=FILE_LIMIT)
    assert ran.returncode == 1 and "wordcount: " in ran.stderr, ran
    printed = tried.folder() / "printed"
    ran = shell(f">{shlex.quote(str(printed))}", ROOT / "bin/fartable", 256, 64, 4096, file, limit=FILE_LIMIT)
    assert (ran.returncode, fault_of(ran)) == (1, ["write failed"]), ran


def a_file_that_may_not_grow_ends_no_server(tried, _):
    before = resource.getrlimit(resource.RLIMIT_FSIZE)
    resource.setrlimit(resource.RLIMIT_FSIZE, (1 << 20, before[1]))
    try:
        server = Farserve(tried.work, memory="32m", far=tried.folder())
    finally:
        resource.setrlimit(resource.RLIMIT_FSIZE, before)
    with server:
        client = server.client()
        asked = {f"key{at}": b"%05d" % at * 4000 for at in range(3000)}
        told = client.ask_all([("SET", key, value) for key, value in asked.items()])
        held = [key for key, reply in zip(asked, told) if reply == OK]
        refused = [it for it in told if it != OK]
        assert held and refused and all(it[:5] in (b"-ERR ", b"-OOM ") for it in refused), set(it[:40] for it in refused)
        wrong = sum(client.ask("GET", key) != bulk(asked[key]) for key in held)
        assert not wrong, f"{wrong} of {len(held)} are not what was set"
        return f"{len(held)} of {len(asked)} held"


TRIALS = [a_closed_input_is_a_failed_read, a_closed_output_is_a_failed_write, a_server_needs_no_standard_files,
          a_file_that_may_not_grow_ends_no_program, a_file_that_may_not_grow_ends_no_server]
