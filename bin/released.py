"""The programs of a release, which are beside bin/ in programs/ with the C library that they were built with.

A checkout has no such folder: it builds its programs (builds.py).
"""
from pathlib import Path

PROGRAMS = Path(__file__).resolve().parent.parent / "programs"


def is_release():
    return PROGRAMS.is_dir()


def words_of(name):
    """The words that start a program with its own C library."""
    return [PROGRAMS / "ld.so", "--library-path", PROGRAMS, PROGRAMS / name]


def version_of(name):
    return (PROGRAMS / f"{name}.build").read_text()
