"""Measures the gateway beside redis-server: gateway.py FOLDER ROUNDS, where FOLDER has the programs; gateway.sh says more."""
import csv
import os
import shlex
import signal
import socket
import subprocess
import sys
import time
from statistics import median

# Connections, requests of a pipeline, requests in all.
CASES = [(1, 1, 30_000), (50, 1, 150_000), (50, 16, 1_000_000)]
QUIET = {"stdin": subprocess.DEVNULL, "stdout": subprocess.DEVNULL, "stderr": subprocess.DEVNULL}


def free_port():
    with socket.create_server(("127.0.0.1", 0)) as held:
        return held.getsockname()[1]


def start_gateway(work, workers):
    under = shlex.split(os.environ.get("GATEWAY_UNDER", ""))
    port = free_port()
    words = []
    started = []
    for number in range(workers):
        pipes = [f"{work}/{kind}{workers}{number}" for kind in ("requests", "replies")]
        for pipe in pipes:
            os.mkfifo(pipe)
        words += ["--worker", *pipes]
        started.append(subprocess.Popen([*under, f"{work}/worker", *pipes], **QUIET))
    gateway = [*under, f"{work}/gateway", "--port", str(port), *words]
    return port, [subprocess.Popen(gateway, **QUIET), *started]


def start_redis(_):
    port = free_port()
    server = ["redis-server", "--port", str(port), "--save", "", "--appendonly", "no"]
    return port, [subprocess.Popen(server, **QUIET)]


def measured(port, clients, pipeline, count):
    """Gives SETs and GETs a second."""
    words = ["-t", "set,get", "-d", "64", "-r", "100000", "-c", clients, "-P", pipeline, "-n", count, "-p", port, "--csv"]
    ran = subprocess.run(["redis-benchmark", *map(str, words)], capture_output=True, check=True, text=True)
    rates = {row[0]: float(row[1]) for row in csv.reader(ran.stdout.splitlines()) if row and row[0] in ("SET", "GET")}
    return rates["SET"], rates["GET"]


def load():
    return f"load {os.getloadavg()[0]:.1f}"


def main():
    work, rounds = sys.argv[1], int(sys.argv[2])
    starts = {"redis-server": start_redis, "one worker": lambda it: start_gateway(it, 1), "two workers": lambda it: start_gateway(it, 2)}
    servers, told = {}, {}
    try:
        for name, start in starts.items():
            servers[name] = start(work)
        time.sleep(1)
        print(load())
        for _ in range(rounds):
            for case in CASES:
                for name, (port, _) in servers.items():
                    told.setdefault((case, name), []).append(measured(port, *case))
    finally:
        for _, started in servers.values():
            for process in started:
                process.send_signal(signal.SIGTERM)
                process.wait()
    print(load())
    print("| connections, pipeline | server | SET, thousands | GET | SET, ratio | GET |\n|---|---|---|---|---|---|")
    for case in CASES:
        for name in starts:
            runs, peers = told[case, name], told[case, "redis-server"]
            cells = [f"{median(it[at] for it in runs) / 1000:.0f}" for at in (0, 1)]
            cells += [f"{median(it[at] / peer[at] for it, peer in zip(runs, peers)):.2f}" for at in (0, 1)]
            print(f"| {case[0]}, {case[1]} | {name} | {' | '.join(cells)} |")


if __name__ == "__main__":
    main()
