"""Tries a release in systems that have no kit and no rustc: release.py FOLDER WORK.

FOLDER is what `bin/release FOLDER` made. Each system is a root that debootstrap makes below WORK, or that is there already:

- bullseye, of 2021, for the archive of the programs: whether they run with the C library that is packed with them;
- bookworm for the Debian package: install, a service's user and files, a client's session, remove, purge;
- and for both, what --version reports, and the sums of the three files.

The status is 1 where a trial fails.
"""
import contextlib
import hashlib
import os
import re
import socket
import subprocess
import sys
import time
import traceback
from pathlib import Path

PATIENCE = 30
TABLE = "file 1\nnone\n1\n1\nnone\nnone\ncontents\nb 2\n"


def run(*words, **more):
    ran = subprocess.run([str(it) for it in words], stdin=subprocess.DEVNULL, capture_output=True, text=True, **more)
    assert ran.returncode == 0, ran
    return ran.stdout


def the_only(folder, pattern):
    found = sorted(folder.glob(pattern))
    assert len(found) == 1, (pattern, found)
    return found[0]


def root_of(work, suite):
    """A small system with Python and without what builds programs."""
    root = work / suite
    if not (root / "usr/bin/python3").exists():
        run("debootstrap", "--variant=minbase", "--include=python3,adduser", suite, root)
    for name in ("rt", "rattle", "rustc", "cc"):
        assert subprocess.run(["chroot", root, "which", name], capture_output=True).returncode, f"{name} is in {root}"
    return root


@contextlib.contextmanager
def mounted(root):
    """The root with /proc and /dev, which every system has."""
    places = [(["-t", "proc", "proc"], root / "proc"), (["--bind", "/dev"], root / "dev")]
    done = []
    try:
        for words, place in places:
            run("mount", *words, place)
            done.append(place)
        yield
    finally:
        for place in reversed(done):
            subprocess.run(["umount", "-l", place])


def inside(root, *words):
    return run("chroot", root, *words, timeout=PATIENCE)


def ask(address, *words):
    """A client's request, and its reply as it is."""
    with socket.create_connection(address, PATIENCE) as client:
        client.sendall(b"".join([b"*%d\r\n" % len(words), *(b"$%d\r\n%s\r\n" % (len(it), it) for it in words)]))
        return client.recv(1 << 16)


@contextlib.contextmanager
def served(root, *words, user=None):
    """A server in the root, and its address."""
    whose = ["--userspec", user] if user else []
    process = subprocess.Popen([str(it) for it in ("chroot", *whose, root, *words)], stdin=subprocess.DEVNULL, stdout=subprocess.PIPE, text=True)
    try:
        ready = process.stdout.readline()
        assert ready.startswith("ready "), ready
        host, _, port = ready.split()[1].rpartition(":")
        yield host, int(port)
    finally:
        process.terminate()
        assert process.wait(PATIENCE) == 0, process.returncode


def a_client_is_served(address, version):
    assert ask(address, b"SET", b"planet", b"Saturn") == b"+OK\r\n"
    assert ask(address, b"GET", b"planet") == b"$6\r\nSaturn\r\n"
    assert f"farserve_version:{version}\r\n".encode() in ask(address, b"INFO", b"server")
    for number in range(3000):
        assert ask(address, b"SET", b"key %d" % number, b"x" * 3000) == b"+OK\r\n", number
    assert ask(address, b"GET", b"planet") == b"$6\r\nSaturn\r\n"


def versions(root, folder, version, kind):
    for name in ("fartable", "farrun", "wordcount", "farserve"):
        said = inside(root, f"{folder}/{name}", "--version")
        assert said.startswith(f"version: {version}\nbuild: {kind}, programs/{name}\nkit: rattle-kit-") and "\nsources: " in said, said
        ran = subprocess.run(["chroot", root, f"{folder}/{name}", "--proved"], capture_output=True, text=True)
        assert ran.returncode == 126 and "a release has no sources to prove" in ran.stderr and not ran.stdout, ran


def a_dump_is_made(root, folder, address, version):
    """By a Python that may be as old as the oldest that is supported."""
    assert inside(root, f"{folder}/fardump", "--version") == f"version: {version}\n"
    assert inside(root, f"{folder}/fardump", "--port", address[1], "/tmp/dump.resp") == ""
    assert inside(root, f"{folder}/fardump", "--check", "/tmp/dump.resp") == "ok 3001 keys\n"
    (root / "tmp/dump.resp").unlink()


def sums_are_right(folder, work, version):
    for line in the_only(folder, "*.sha256").read_text().splitlines():
        digest, name = line.split()
        assert hashlib.sha256((folder / name).read_bytes()).hexdigest() == digest, name
    archive = folder / f"fazhitta-{version}.tar.gz"
    run("tar", "-C", work, "-xf", archive)
    tree = work / f"fazhitta-{version}"
    assert run("sha256sum", "--quiet", "-c", "SUMS", cwd=tree) == ""
    assert (tree / "SUMS").read_text() == run(tree / "bin/make-sums")


def the_archive_runs(folder, work, version, kind):
    root = root_of(work, "bullseye")
    archive = the_only(folder, "*-x86_64-linux*.tar.gz")
    name = archive.name.removesuffix(".tar.gz")
    run("tar", "-C", root / "opt", "-xf", archive)
    with mounted(root):
        versions(root, f"/opt/{name}/bin", version, kind)
        assert inside(root, f"/opt/{name}/bin/fartable", 4, 2, 4096, f"/opt/{name}/examples/first.txt") == TABLE
        assert inside(root, f"/opt/{name}/bin/farrun", "--far", "/tmp", 4, 2, 4096, f"/opt/{name}/examples/first.txt") == TABLE
        assert "farserve [OPTIONS] --memory <SIZE>" in inside(root, f"/opt/{name}/bin/farserve", "--help")
        with served(root, f"/opt/{name}/bin/farserve", "--memory", "32m", "--far", "/var/tmp", "--port", 0) as address:
            a_client_is_served(address, version)
            a_dump_is_made(root, f"/opt/{name}/bin", address, version)
        with served(root, f"/opt/{name}/bin/farserve", "--memory", "32m", "--far", "/var/tmp", "--port", 0, user="nobody:nogroup") as address:
            a_client_is_served(address, version)


def the_package_installs_and_leaves(folder, work, version, kind):
    root = root_of(work, "bookworm")
    package = the_only(folder, "*.deb")
    (root / package.name).write_bytes(package.read_bytes())
    with mounted(root):
        inside(root, "dpkg", "-i", f"/{package.name}")
        try:
            versions(root, "/usr/bin", version, kind)
            assert inside(root, "fartable", 4, 2, 4096, "/usr/share/doc/fazhitta/examples/first.txt") == TABLE
            assert re.match(r"farserve:x:\d+:\d+:.*:/var/lib/farserve:/usr/sbin/nologin$", inside(root, "getent", "passwd", "farserve"))
            unit = (root / "lib/systemd/system/farserve.service").read_text()
            assert "ExecStart=/usr/bin/farserve $FARSERVE_OPTIONS\n" in unit and "EnvironmentFile=/etc/default/farserve\n" in unit and "rustc" not in unit
            # As the service starts it: its user, and its words but for the port.
            words = re.search(r'^FARSERVE_OPTIONS="(.*)"$', (root / "etc/default/farserve").read_text(), re.M)[1].replace("6380", "0").split()
            with served(root, "/usr/bin/farserve", *words, user="farserve:farserve") as address:
                a_client_is_served(address, version)
                a_dump_is_made(root, "/usr/bin", address, version)
            # What an operator changed stays at a removal, and goes at a purge.
            with (root / "etc/default/farserve").open("a") as file:
                file.write("# changed\n")
            inside(root, "dpkg", "-r", "fazhitta")
            assert not (root / "usr/bin/farserve").is_symlink() and not (root / "usr/lib/fazhitta").exists()
            assert (root / "etc/default/farserve").exists()
        finally:
            inside(root, "dpkg", "-P", "fazhitta")
        assert not (root / "etc/default/farserve").exists() and not (root / "var/lib/farserve").exists()
        assert subprocess.run(["chroot", root, "getent", "passwd", "farserve"], capture_output=True).returncode == 2


def main(folder, work):
    folder, work = Path(folder).resolve(), Path(work).resolve()
    version = (Path(__file__).resolve().parent.parent / "VERSION").read_text().strip()
    kind = "not proved" if list(folder.glob("*-unproved*")) else "proved"
    trials = {
        "sums are right": lambda: sums_are_right(folder, work, version),
        "the archive runs on a system of 2021": lambda: the_archive_runs(folder, work, version, kind),
        "the package installs and leaves": lambda: the_package_installs_and_leaves(folder, work, version, kind),
    }
    wrong = 0
    for name, trial in trials.items():
        began = time.monotonic()
        try:
            trial()
            told = "ok"
        except Exception:
            told, wrong = f"FAILED: {traceback.format_exc()[-1500:]}", wrong + 1
        print(f"{name}: {told} ({time.monotonic() - began:.1f} s)", flush=True)
    print(f"{len(trials)} trials of the release, which was {kind}, {wrong} wrong")
    sys.exit(1 if wrong else 0)


if __name__ == "__main__":
    os.umask(0o022)
    main(*sys.argv[1:])
