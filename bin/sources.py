"""The sources of a program: their files, their sum, and whether they are those of a commit."""
import hashlib
import os
import subprocess
from pathlib import Path

from unproved import libraries

ROOT = Path(__file__).resolve().parent.parent
# Of a crate, what a program is proved and built from.
PARTS = ["src", "specs", "proofs"]
# What bin/make-sums wrote in an archive, which has no commit.
SUMS = ROOT / "SUMS"


def content_of(path):
    # (without a buffer, as there are a thousand at each start)
    with open(f"{ROOT}/{path}", "rb", buffering=0) as file:
        return file.readall()


class Sources:
    """Files and folders of files, each by its path from ROOT."""

    def __init__(self, paths):
        self.paths = paths

    def files(self):
        """The paths of all files, in an order of their own."""
        found = []
        for path in self.paths:
            if os.path.isfile(f"{ROOT}/{path}"):
                found.append(path)
            for folder, folders, names in os.walk(f"{ROOT}/{path}"):
                folders.sort()
                within = folder.removeprefix(f"{ROOT}/")
                found += (f"{within}/{it}" for it in sorted(names))
        return found

    def sum(self):
        """A SHA-256 of the files' paths and contents, in hexadecimal digits."""
        total = hashlib.sha256()
        for path in self.files():
            content = content_of(path)
            total.update(f"\0{path}\0{len(content)}\0".encode() + content)
        return total.hexdigest()

    def why_unproved(self):
        """Why nobody may have proved these sources, or "" if they are those of a commit."""
        if (ROOT / ".git").exists():
            return self.why_not_of_commit()
        if SUMS.is_file():
            return self.why_not_of_archive()
        return "there is neither a commit nor a file SUMS to compare the sources with"

    def why_not_of_commit(self):
        # The owner of the checkout may be another user, and nothing is written into it.
        words = ["git", "--no-optional-locks", "-c", f"safe.directory={ROOT}", "status", "--porcelain", "--", *self.paths]
        pipes = {"stdin": subprocess.DEVNULL, "stdout": subprocess.PIPE, "stderr": subprocess.PIPE}
        try:
            ran = subprocess.run(words, cwd=ROOT, errors="replace", **pipes)
        except OSError:
            return "there is no git in PATH to compare the sources with the commit"
        if ran.returncode:
            said = ran.stderr.strip().splitlines() or [f"status {ran.returncode}"]
            return f"git can't compare the sources with the commit ({said[0]})"
        return "the sources differ from the commit" if ran.stdout else ""

    def why_not_of_archive(self):
        lines = (line.split(None, 1) for line in SUMS.read_text().splitlines())
        wanted = {path.lstrip("*"): digest for digest, path in lines if self.has(path.lstrip("*"))}
        found = {it: hashlib.sha256(content_of(it)).hexdigest() for it in self.files()}
        return "" if wanted == found else "the sources differ from the file SUMS"

    def has(self, path):
        return any(path == it or path.startswith(f"{it}/") for it in self.paths)


def of_program(name):
    """The sources of a program of crates.txt."""
    crates = sorted(libraries(ROOT, name))
    return Sources(["crates.txt", "HANDLES", *(f"crates/{crate}/{part}" for crate in crates for part in PARTS)])
