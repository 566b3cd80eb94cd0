"""Runs the stored run of a program of crates.txt on the build of bin/build, as `rt ci` does: stored_run.py NAME

Beside src/ the crate has the words of the run (args, one a line), its input (stdin), the output that is wanted (stdout) and the
status that is wanted (status, 0 if there is no such file). The program runs in a new folder with a copy of the files of data/, and
as nobody if this is run by root. The status is 1 if the output or the status differs, and what differs is printed.
"""
import os
import shutil
import subprocess
import sys
import tempfile
from pathlib import Path

ROOT = Path(__file__).resolve().parent.parent
# Seconds that a run may take.
LIMIT = 120
NOBODY = 65534


def stored(crate, name, otherwise=b""):
    file = crate / name
    return file.read_bytes() if file.is_file() else otherwise


def line_of_difference(one, other):
    at = next((at for at, (a, b) in enumerate(zip(one, other)) if a != b), min(len(one), len(other)))
    return one[:at].count(b"\n") + 1


def fault(program, crate, folder):
    """What is wrong with the run, or ""."""
    words = [program, *stored(crate, "args").decode(errors="surrogateescape").splitlines()]
    wanted, status = stored(crate, "stdout"), int(stored(crate, "status", b"0"))
    environment = {"PATH": "/usr/local/bin:/usr/bin:/bin", "HOME": folder, "TMPDIR": folder, "LANG": "C.UTF-8"}
    user = {"user": NOBODY, "group": NOBODY, "extra_groups": []} if os.geteuid() == 0 else {}
    try:
        how = {"input": stored(crate, "stdin"), "capture_output": True, "timeout": LIMIT, **user}
        ran = subprocess.run(words, cwd=folder, env=environment, **how)
    except subprocess.TimeoutExpired:
        return f"it had not ended after {LIMIT} seconds"
    if ran.returncode != status:
        return f"it ended with status {ran.returncode}, not {status}, and said: {ran.stderr.decode(errors='replace')[-2000:]}"
    if ran.stdout != wanted:
        line = line_of_difference(wanted, ran.stdout)
        there, here = ([*it.splitlines(), b"", b""][line - 1:line] for it in (wanted, ran.stdout))
        return f"it does not print what the file stdout has: they differ first in line {line}, {here} and not {there}"
    return ""


def main(name):
    crate = ROOT / "crates" / name
    build = subprocess.run([ROOT / "bin/build", name], stdin=subprocess.DEVNULL, stdout=subprocess.PIPE, text=True)
    if build.returncode:
        return build.returncode
    with tempfile.TemporaryDirectory() as made:
        program, folder = Path(made, name), Path(made, "data")
        shutil.copy(build.stdout.strip(), program)
        if (crate / "data").is_dir():
            shutil.copytree(crate / "data", folder)
        else:
            folder.mkdir()
        program.chmod(0o755)
        os.chmod(made, 0o711)
        for path in [folder, *folder.rglob("*")] if os.geteuid() == 0 else []:
            os.chown(path, NOBODY, NOBODY)
        wrong = fault(program, crate, folder)
    if wrong:
        print(f"the stored run of {name}: {wrong}")
    return 1 if wrong else 0


if __name__ == "__main__":
    sys.exit(main(*sys.argv[1:]))
