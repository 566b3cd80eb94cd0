"""Trials of starts.py: where builds are found and made, by whom, and of which sources."""
import os
import shutil
import signal
import subprocess

from server_parts import PATIENCE, ROOT, until
from starts_parts import FIRST, another_user, user_without_leave


def two_starts_at_once_make_one_build(tried, _):
    copy = tried.copy()
    both = [copy.start("fartable", 4, 2, 4096, ROOT / "examples/first.txt") for _ in range(2)]
    for process in both:
        out, said = process.communicate(timeout=6 * PATIENCE)
        assert (process.returncode, out) == (0, FIRST), said
    assert copy.built() == ["fartable with checks"], copy.built()
    both = [copy.start("farserve", "--memory", "64m", "--port", 0) for _ in range(2)]
    try:
        ready = [process.stdout.readline() for process in both]
        assert all(it.startswith("ready ") for it in ready), (ready, [it.poll() for it in both])
    finally:
        for process in both:
            process.terminate()
            process.communicate(timeout=PATIENCE)
    assert [it.returncode for it in both] == [0, 0]
    assert copy.built() == ["farserve with checks", "fartable with checks", "gateway"], copy.built()


def a_path_may_have_spaces(tried, is_long):
    copy = tried.copy("a path with spaces", is_commit=True, is_whole=is_long)
    said = copy.table()
    assert "building it without proofs; this" in said and copy.built() == ["fartable"], said
    assert "building" not in copy.table() and copy.built() == ["fartable"]
    process = copy.start("farserve", "--memory", "64m", "--port", 0)
    assert process.stdout.readline().startswith("ready "), process.communicate()
    process.terminate()
    process.communicate(timeout=PATIENCE)
    assert process.returncode == 0
    if is_long:
        shutil.copy(ROOT / "bin/unproved.py", copy.path / "bin/unproved.py")
        shutil.rmtree(copy.path / "out")
        copy.environment["PATH"] = os.environ["PATH"]
        assert "building" in copy.table() and len(copy.built()) == 3, copy.built()


def builds_of_a_checkout_that_cant_be_written_go_to_the_users_folder(tried, _):
    copy, user = tried.copy(is_commit=True), user_without_leave()
    copy.lock()
    home = tried.folder()
    cache = home / "elsewhere"
    if user:
        os.chown(home, user, user)
    for name, folder in (("XDG_CACHE_HOME", cache), ("HOME", home / ".cache")):
        copy.environment = {it: value for it, value in copy.environment.items() if it not in ("XDG_CACHE_HOME", "HOME")}
        copy.environment[name] = str(cache if name == "XDG_CACHE_HOME" else home)
        before = len(copy.built())
        said = copy.table(user)
        assert "building it without proofs; this" in said and "Errno" not in said, said
        assert "building" not in copy.table(user) and len(copy.built()) == before + 1, copy.built()
        assert [it.name for it in (folder / "fazhitta").glob("fartable-unproved-*-*")], list(folder.rglob("*"))
    assert not (copy.path / "out").exists()
    # Where nothing can be written, that is said.
    locked = tried.folder()
    locked.chmod(0o555)
    copy.environment["XDG_CACHE_HOME"] = str(locked)
    ran = copy.run("fartable", 4, 2, 4096, "-", user=user)
    assert ran.returncode == 126 and f"can't be written in {copy.path}/out nor in {locked}/fazhitta" in ran.stderr, ran


def a_checkout_may_be_anothers(tried, _):
    """Its sources are found to be the commit's, and what its owner built is taken."""
    user = another_user()
    copy = tried.copy(is_commit=True)
    cache = tried.folder()
    os.chown(cache, user, user)
    copy.environment.update(XDG_CACHE_HOME=str(cache), HOME=str(cache))
    said = copy.table(user)
    assert "building it without proofs; this" in said, said
    shutil.rmtree(cache / "fazhitta")
    assert "building" in copy.table()
    assert "building" not in copy.table(user) and copy.built() == ["fartable"] * 2, copy.built()
    (copy.path / "crates/fartable/src/main.rt").open("a").write("\n")
    assert "with checks, since the sources differ from the commit" in copy.table(user)


def an_archive_has_sums_in_the_place_of_a_commit(tried, _):
    copy = tried.copy(has_own=True)
    # It may lie in a folder of another commit's.
    subprocess.run(["git", "init", "-q"], cwd=copy.path.parent, check=True)
    main = copy.path / "crates/fartable/src/main.rt"
    assert "with checks, since there is neither a commit nor a file SUMS" in copy.table()
    sums = subprocess.run(copy.words("make-sums"), stdout=subprocess.PIPE, check=True).stdout
    (copy.path / "SUMS").write_bytes(sums)
    checked = subprocess.run(["sha256sum", "--quiet", "-c", "SUMS"], cwd=copy.path, capture_output=True, text=True)
    assert checked.returncode == 0 and len(sums.splitlines()) > 300, checked
    assert "building it without proofs; this" in copy.table()
    assert "building" not in copy.table()
    text = main.read_text()
    main.write_text(text + "\n")
    assert "with checks, since the sources differ from the file SUMS" in copy.table()
    main.write_text(text)
    more = main.with_name("more.rt")
    more.touch()
    assert "with checks, since the sources differ from the file SUMS" in copy.table()
    more.unlink()
    (copy.path / "crates/far_driver/src/lib.rt").unlink()
    assert "with checks, since the sources differ from the file SUMS" in copy.table()
    assert copy.built() == ["fartable", *["fartable with checks"] * 4], copy.built()


def what_is_missing_is_said_before_a_build(tried, _):
    copy = tried.copy()
    words = "--memory", "64m", "--port", 0
    copy.lacks("rustc")
    ran = copy.run("farserve", *words)
    assert ran.returncode == 127 and len(ran.stderr.splitlines()) == 1 and "rustc" in ran.stderr and "rt (" not in ran.stderr, ran
    copy.lacks("rt")
    ran = copy.run("farserve", *words)
    assert ran.returncode == 127 and len(ran.stderr.splitlines()) == 1 and "rustc" in ran.stderr and "rt (" in ran.stderr, ran
    for name in ("fartable", "farrun", "wordcount"):
        ran = copy.run(name, 4, 2, 4096, "-")
        assert ran.returncode == 127 and len(ran.stderr.splitlines()) == 1 and "command is rt (install" in ran.stderr, ran
    assert copy.built() == []


def what_is_built_needs_neither_kit_nor_compiler(tried, _):
    copy = tried.copy(has_own=True)
    kit = copy.run("fartable", "--version").stdout.splitlines()[2].removeprefix("kit: ")
    for is_there in (False, True):
        process = copy.start("farserve", "--memory", "64m", "--port", 0)
        assert process.stdout.readline().startswith("ready "), process.communicate()
        process.terminate()
        said = process.communicate(timeout=PATIENCE)[1]
        assert process.returncode == 0 and (f"takes this build by {kit}" in said) == is_there, said
        if not is_there:
            copy.table()
            copy.lacks("rt", "rustc")
    assert f"takes this build by {kit}" in copy.table()
    assert f"kit: none in PATH; the build is by {kit}" in copy.run("fartable", "--version").stdout
    assert copy.built() == ["farserve with checks", "fartable with checks", "gateway"], copy.built()
    # Of other sources it is not taken.
    (copy.path / "crates/fartable/src/main.rt").open("a").write("\n")
    assert copy.run("fartable", 4, 2, 4096, "-").returncode == 127


def an_interrupted_build_leaves_nothing(tried, _):
    copy = tried.copy()
    copy.environment.update(SECONDS="60")
    for name, words in (("farserve", ["--memory", "64m"]), ("fartable", [4, 2, 4096, "-"])):
        process = copy.start(name, *words)
        until(lambda: f"{name} with checks" in copy.built(), "a build")
        os.killpg(process.pid, signal.SIGINT)
        said = process.communicate(timeout=6 * PATIENCE)[1]
        # (a shell ends by the signal itself, which shells tell as 130)
        assert process.returncode in (130, -signal.SIGINT) and "Traceback" not in said, (process.returncode, said)
        if name == "farserve":
            assert process.returncode == 130, process.returncode
        assert not [it for it in os.listdir(copy.path / "out") if it.endswith(".part")]
    assert not os.listdir(tried.runtime), "a folder of pipes is left"


TRIALS = [two_starts_at_once_make_one_build, a_path_may_have_spaces, builds_of_a_checkout_that_cant_be_written_go_to_the_users_folder,
          a_checkout_may_be_anothers, an_archive_has_sums_in_the_place_of_a_commit, what_is_missing_is_said_before_a_build,
          what_is_built_needs_neither_kit_nor_compiler, an_interrupted_build_leaves_nothing]
