"""Trials of starts.py: what is answered before anything is built, and that it is what the programs answer."""
import re
import subprocess

import starts_parts  # has bin/ looked through for modules
from server_parts import ROOT, Farserve

import options

WITH_OPTIONS = ["farrun", "wordcount", "farserve"]


def told_by(tried, name, *words):
    """What the program itself answers."""
    ran = subprocess.run([tried.built / name, *words], stdin=subprocess.DEVNULL, capture_output=True, text=True)
    return ran.returncode, ran.stdout, ran.stderr


def told(ran):
    return ran.returncode, ran.stdout, ran.stderr


def words_are_answered_before_anything_is_built(tried, _):
    """As the program answers them; neither the kit nor rustc is needed."""
    copy = tried.copy()
    copy.lacks("rt", "rustc")
    for name in WITH_OPTIONS:
        file = f"bin/help/{name}.txt"
        help_text = told_by(tried, name, "--help")
        assert help_text == (0, (ROOT / file).read_text(), ""), f"{file} is old: $(bin/build {name}) --help >{file}"
        for word in ("--help", "-h"):
            assert told(copy.run(name, word)) == help_text, (name, word)
        for word in ("--zzz", "-x", "--zzz=3", "-xyz"):
            assert told(copy.run(name, word)) == told_by(tried, name, word), (name, word)
        # What is no option of these programs is theirs to judge, once they are built.
        ran = copy.run(name, "word", "--", "--zzz")
        assert ran.returncode == 127 and "needs the Rattle kit" in ran.stderr, ran
        ran = copy.run(name, "--version")
        assert ran.returncode == 0 and "\nbuild: none yet" in ran.stdout and not ran.stderr, ran
    usage = (ROOT / "bin/help/fartable.txt").read_text()
    assert told_by(tried, "fartable") == (2, "", usage), "bin/help/fartable.txt is old: $(bin/build fartable) 2>bin/help/fartable.txt"
    assert told(copy.run("fartable", "--help")) == (0, usage, "")
    assert told(copy.run("fartable", "--zzz")) == told_by(tried, "fartable", "--zzz") == (2, "", usage)
    assert "\nbuild: none yet" in copy.run("fartable", "--version").stdout
    # Behind --proved the words are the program's too.
    assert told(copy.run("farserve", "--proved", "--zzz")) == told_by(tried, "farserve", "--zzz")
    assert copy.built() == []


def each_option_is_known(tried, _):
    """Also one that the help leaves out is no unknown one; and its value is not judged."""
    for name in WITH_OPTIONS:
        source = (ROOT / f"crates/{name}/src/command_line.rt").read_text()
        # Options are made by these helpers, in each crate's command_line.rt, or by Arg::new.
        names = set(re.findall(r'\b(?:number|text|pipe|Arg::new)\(\s*alloc,\s*"([\w-]+)"', source)) - {"pipes", "files"}
        assert len(names) >= 4, (name, names)
        for option in sorted(names):
            try:
                options.judge(name, [f"--{option}", "--zzz"])
                options.judge(name, [f"--{option}=--zzz", "word"])
            except options.Answered as answered:
                where = f"bin/help/{name}.txt ($(bin/build {name}) --help >bin/help/{name}.txt), or HIDDEN of bin/options.py"
                raise AssertionError(f"{name} --{option} is missing in {where}: {answered}") from None


def words_are_the_programs_once_it_is_built(tried, _):
    for name in WITH_OPTIONS:
        for words in (["--help"], ["--zzz"], ["-x"]):
            ran = subprocess.run([ROOT / "bin" / name, *words], stdin=subprocess.DEVNULL, capture_output=True, text=True)
            own = [it for it in ran.stderr.splitlines(keepends=True) if "this build was not proved" not in it]
            assert (ran.returncode, ran.stdout, "".join(own)) == told_by(tried, name, *words), (name, words, ran)


def the_version_is_one(tried, _):
    """VERSION, what each program reports, INFO's, and the head of the changelog."""
    version = (ROOT / "VERSION").read_text().strip()
    head = re.search(r"^## (\S+)", (ROOT / "CHANGELOG.md").read_text(), re.M)[1]
    assert head == version, f"CHANGELOG.md begins with {head}, and VERSION says {version}"
    for name in ("fartable", *WITH_OPTIONS):
        ran = subprocess.run([ROOT / "bin" / name, "--version"], stdin=subprocess.DEVNULL, capture_output=True, text=True)
        assert ran.returncode == 0 and ran.stdout.startswith(f"version: {version}\nbuild: "), (name, ran)
    work = tried.folder("version")
    with Farserve(work) as server:
        info = server.client().value("INFO", "server")
        assert f"farserve_version:{version}\r\n".encode() in info, info


TRIALS = [the_version_is_one, words_are_answered_before_anything_is_built, each_option_is_known, words_are_the_programs_once_it_is_built]
