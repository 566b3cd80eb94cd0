"""Trials of server.py by the clients that people have: redis-cli, redis-benchmark and redis-py."""
import re
import subprocess

from server_parts import PATIENCE


def run(*words, given=None):
    ran = subprocess.run([str(it) for it in words], input=given, capture_output=True, timeout=PATIENCE * 3, text=True)
    assert ran.returncode == 0, (words, ran)
    return ran.stdout


def redis_cli_talks(tried, _):
    port = tried.server.port()

    def cli(*words):
        return run("redis-cli", "-p", port, *words)

    assert cli("SET", "greeting", "hello") == "OK\n"
    assert cli("GET", "greeting") == "hello\n"
    assert cli("INCR", "visits") == "1\n"
    assert cli("NOSUCH") == "ERR unknown command 'NOSUCH', with args beginning with: \n\n"
    assert "uptime_in_seconds:" in cli("INFO", "server") and "redis_version:" in cli("INFO")
    session = "SET a 1 EX 100\nTTL a\nMULTI\nINCR a\nGET a\nEXEC\nDEL a\nGET a\nEXISTS a\n"
    told = run("redis-cli", "-p", port, given=session)
    assert told == "OK\n100\nOK\nQUEUED\nQUEUED\n2\n2\n1\n\n0\n", told
    piped = run("redis-cli", "-p", port, "--pipe", given="".join(f"SET piped{at} {at}\r\n" for at in range(1000)))
    assert "errors: 0, replies: 1000" in piped, piped
    assert sorted(cli("--scan", "--pattern", "piped99?").split()) == [f"piped99{at}" for at in range(10)]


def redis_benchmark_runs(tried, _):
    for clients in (1, 50):
        for pipeline in (1, 16):
            told = run("redis-benchmark", "-p", tried.server.port(), "-t", "set,get,incr,mset", "-n", 4000, "-c", clients,
                       "-P", pipeline, "-r", 1000, "--csv")
            rates = [float(it) for it in re.findall(r'^"(?:SET|GET|INCR|MSET \(10 keys\))","([\d.]+)"', told, re.M)]
            assert len(rates) == 4 and min(rates) > 0, told
            assert "rror" not in told, told


def redis_py_talks(tried, _):
    import redis

    with redis.Redis(port=tried.server.port(), socket_timeout=PATIENCE) as client:
        client.flushall()
        assert client.ping() and client.set("a", "1") and client.get("a") == b"1"
        assert client.set("a", "2", nx=True) is None and client.set("b", "3", ex=100, get=True) is None
        assert client.incr("a", 5) == 6 and client.append("a", "7") == 2 and client.getrange("a", 0, 0) == b"6"
        assert client.mset({"c": "4", "d": "5"}) and client.mget("c", "none", "d") == [b"4", None, b"5"]
        assert 99 <= client.ttl("b") <= 100 and client.persist("b") and client.ttl("b") == -1
        assert client.incrbyfloat("e", 0.5) == 0.5 and client.strlen("e") == 3
        assert client.dbsize() == 5 and set(client.scan_iter(match="[cd]")) == {b"c", b"d"}
        assert client.type("a") == b"string" and client.exists("a", "none") == 1 and client.delete("a", "b", "none") == 2
        assert client.client_setname("me") and client.client_getname() == "me" and client.client_id() > 0
        assert client.info("memory")["used_memory"] >= 0 and "maxmemory" in client.config_get("maxmemory*")
        for words in ("LPUSH list 1", "KEYS *", "EVAL return 0", "GET"):
            try:
                told = client.execute_command(*words.split())
                assert tried.is_redis, (words, told)
            except redis.ResponseError:
                pass


def pipelines_are_queued_and_run(tried, _):
    import redis

    with redis.Redis(port=tried.server.port(), socket_timeout=PATIENCE) as client:
        client.delete("a", "b")
        with client.pipeline() as pipe:
            assert pipe.set("a", 1).incr("a").get("a").expire("a", 100).delete("b").execute() == [True, 2, b"2", True, 0]
        with client.pipeline(transaction=False) as pipe:
            assert pipe.set("a", 5).get("a").get("b").execute() == [True, b"5", None]
        with client.pipeline() as pipe:
            told = pipe.set("a", "x").incr("a").set("b", "1").execute(raise_on_error=False)
        assert told[0] and isinstance(told[1], redis.ResponseError) and told[2], told
        for end in (["NOSUCH", "EXEC"], ["GET", "EXEC"], ["DISCARD", "GET a"]):
            words = ["MULTI", "SET a 9", *end]
            with redis.Redis(port=tried.server.port(), single_connection_client=True) as one:
                last = None
                for line in words:
                    try:
                        last = one.execute_command(*line.split())
                    except redis.exceptions.ExecAbortError as fault:
                        last = fault
                    except redis.ResponseError:
                        pass
                assert last == b"x" if words[-1] == "GET a" else isinstance(last, redis.exceptions.ExecAbortError), (words, last)
        assert client.get("a") == b"x"


TRIALS = [redis_cli_talks, redis_benchmark_runs, redis_py_talks, pipelines_are_queued_and_run]
