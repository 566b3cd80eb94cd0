"""Chooses the trials of a script: with --half, which quick.py gives, every second one."""


def taken(trials, words):
    """With --half among the words these are the first trial, the third, and so on. The names of the others are printed."""
    if "--half" not in words:
        return trials
    print("left out:", " ".join(it.__name__ for it in trials[1::2]), flush=True)
    return trials[::2]
