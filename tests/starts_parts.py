"""What starts.py tries: the launchers of bin/, here and in copies of the checkout, where to build is to copy a build that is here."""
import os
import shutil
import subprocess
import sys
from pathlib import Path

from server_parts import PATIENCE, ROOT

sys.path.insert(0, str(ROOT / "bin"))
import builds

# What a checkout has for its programs.
PARTS = ["bin", "crates", "gateway", "crates.txt", "HANDLES", "VERSION"]
# What only a real build needs.
LEFT_OUT = ["proofs", "specs", "must-fail", "long-edits", "README.md"]
# Commands that launchers need, beside rt and rustc.
COMMANDS = ["sh", "env", "readlink", "cat", "git", "true", "sleep", "cp"]
# Another user, as whom root can start something.
OTHER = 65534
# Put behind bin/unproved.py: a build takes a while, is told of in a file, and is a copy.
INSTANT = """

def make(kit, root, name, program, keeps_checks):
    import time
    with open(os.environ["BUILDS"], "a") as file:
        file.write(f"{name}{' with checks' if keeps_checks else ''}\\n")
    time.sleep(float(os.environ.get("SECONDS", "0.3")))
    shutil.copy(f"{os.environ['BUILT']}/{name}", program)
"""
# In the place of rustc.
COMPILER = """#!/bin/sh
if [ "$1" = -V ]; then
    echo 'rustc 1.0.0 (of starts.py)'
    exit
fi
while [ "$1" != -o ]; do shift; done
echo gateway >>"$BUILDS"
sleep "${SECONDS_OF_RUSTC:-0.3}"
cp "$BUILT/gateway" "$2"
"""


class Skipped(Exception):
    """Why a trial can't be made here."""


class Tried:
    """A folder for the trials, with the builds that are here in its folder built/."""

    def __init__(self, work):
        self.work = Path(work)
        self.made = 0
        self.built = self.work / "built"
        self.built.mkdir()
        for name in ("fartable", "farrun", "wordcount", "farserve"):
            shutil.copy(program(name), self.built / name)
        gateway = builds.Gateway()
        shutil.copy(gateway.built() or gateway.build(), self.built / "gateway")
        self.runtime = self.folder()
        os.environ["XDG_RUNTIME_DIR"] = str(self.runtime)
        # Others than the owner come here too.
        for folder in (self.work, self.built):
            folder.chmod(0o755)

    def folder(self, name=""):
        self.made += 1
        folder = self.work / str(self.made) / name
        folder.mkdir(parents=True)
        return folder

    def copy(self, name="copy", **how):
        return Copy(self, self.folder(name), **how)


def program(name):
    """The program here."""
    ran = subprocess.run([ROOT / "bin/build", name], stdout=subprocess.PIPE, stderr=subprocess.DEVNULL, text=True, check=True)
    return ran.stdout.strip()


class Copy:
    """A copy of the checkout without builds, with commands of its own in the place of PATH.

    Its sources are those here, or with `has_own` or `is_commit` its own, and with `is_whole` all of them.
    """

    def __init__(self, tried, path, has_own=False, is_commit=False, is_whole=False):
        self.path = path
        self.builds = path.parent / "builds"
        self.builds.touch()
        self.builds.chmod(0o666)
        left_out = shutil.ignore_patterns("out", *[] if is_whole else LEFT_OUT)
        for part in PARTS:
            if (ROOT / part).is_file():
                shutil.copy(ROOT / part, path / part)
            elif part == "bin" or has_own or is_commit:
                shutil.copytree(ROOT / part, path / part, ignore=left_out)
            else:
                (path / part).symlink_to(ROOT / part)
        with (path / "bin/unproved.py").open("a") as file:
            file.write(INSTANT)
        self.commands = path.parent / "commands"
        self.commands.mkdir()
        for name in [*COMMANDS, "rt"]:
            (self.commands / name).symlink_to(os.path.realpath(shutil.which(name)))
        (self.commands / "rustc").write_text(COMPILER)
        (self.commands / "rustc").chmod(0o755)
        self.environment = {**os.environ, "PATH": str(self.commands), "BUILDS": str(self.builds), "BUILT": str(tried.built),
                            "XDG_CACHE_HOME": str(path.parent / "cache")}
        if is_commit:
            self.commit()

    def commit(self):
        (self.path / ".gitignore").write_text("out/\n")
        own = ["-c", "user.name=starts", "-c", "user.email=starts@localhost", "-c", "commit.gpgsign=false"]
        for words in (["init", "-q"], ["add", "-A"], [*own, "commit", "-q", "-m", "a copy"]):
            subprocess.run(["git", *words], cwd=self.path, check=True)

    def lacks(self, *names):
        for name in names:
            (self.commands / name).unlink()

    def words(self, name, *words):
        return [str(it) for it in (self.path / "bin" / name, *words)]

    def run(self, name, *words, user=None, stdin=subprocess.DEVNULL):
        """Runs a launcher to its end."""
        how = {"user": user, "group": user, "extra_groups": []} if user else {}
        return subprocess.run(self.words(name, *words), env=self.environment, stdin=stdin, capture_output=True, text=True,
                              timeout=6 * PATIENCE, cwd="/", **how)

    def table(self, user=None):
        """Runs fartable, and gives what it says beside what it prints."""
        ran = self.run("fartable", 4, 2, 4096, ROOT / "examples/first.txt", user=user)
        assert (ran.returncode, ran.stdout) == (0, FIRST), ran
        return ran.stderr

    def start(self, name, *words):
        environment, self_words = self.environment, self.words(name, *words)
        pipes = {"stdin": subprocess.DEVNULL, "stdout": subprocess.PIPE, "stderr": subprocess.PIPE}
        return subprocess.Popen(self_words, env=environment, text=True, start_new_session=True, **pipes)

    def built(self):
        """What was built so far."""
        return sorted(self.builds.read_text().splitlines())

    def own_it(self, user):
        for path in [self.path, *self.path.rglob("*")]:
            os.chown(path, user, user, follow_symlinks=False)

    def lock(self):
        """Takes the leave to write away."""
        for path in [self.path, *self.path.rglob("*")]:
            if not path.is_symlink():
                path.chmod(path.stat().st_mode & ~0o222)


# What fartable prints for examples/first.txt.
FIRST = "file 1\nnone\n1\n1\nnone\nnone\ncontents\nb 2\n"


def user_without_leave():
    """A user who can't write what the owner may not: this one, or another if this is root."""
    if os.geteuid():
        return None
    return another_user()


def another_user():
    if os.geteuid():
        raise Skipped("only root can start something as another user")
    kit = Path(shutil.which("rt")).resolve().parent.parent
    if any(not it.stat().st_mode & 0o001 for it in [kit, *kit.parents]):
        raise Skipped("another user can't read the kit")
    return OTHER
