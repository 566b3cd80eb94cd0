"""Runs the program on files, and looks for a history that its replies and contents come from.

A history has the commands of each file that ask the map and were not refused, in the file's order, in any order between
files. At its place each is replied what the map of all before it says, and the contents are the map of the whole.
"""
import itertools
import os
import subprocess
import tempfile

REFUSALS = {"memory", "too long", "names spent", "limbo full", "device", "damaged", "full", "held already"}
ASKS_TABLE = {"show", "release", "evict", "where"}
VALUELESS = {"show": {"nothing held"}, "release": {"released", "nothing held"}, "evict": {"evicted", "nothing"} | REFUSALS}


def asked(held, words):
    """Does what a command asks to the map, and gives the reply."""
    verb, key, *values = words
    reply = held.get(key, "none")
    if verb == "del":
        held.pop(key, None)
    elif verb == "put" or (verb == "putnew" and key not in held) or (verb == "putif" and held.get(key) == values[0]):
        held[key] = values[-1]
    return reply


def split(out, files):
    """Gives the replies of each file and the contents, none where they are missing; or None where the output has another form."""
    lines = out.split("\n")
    if lines.pop() != "":
        return None
    replies = []
    for number, file in enumerate(files, 1):
        if lines[:1] != [f"file {number}"] or len(lines) < 1 + len(file):
            return None
        replies.append(lines[1:1 + len(file)])
        lines = lines[1 + len(file):]
    if not lines:
        return replies, None
    return (replies, lines[1:]) if lines[0] == "contents" else None


def is_of_table(command, reply):
    """Whether the reply to a command that asks the table has one of its forms."""
    verb = command.split()[0]
    if verb == "where":
        place, _, name = reply.partition(" ")
        return reply in REFUSALS or (place in {"empty", "local", "far"} and name.isdigit())
    return reply in VALUELESS[verb] or verb == "show"


def calls(file, replies):
    """Gives the file's calls with their replies; or None where a command that asks the table has a reply of no form of it."""
    made = []
    for command, reply in zip(file, replies):
        if command.split()[0] in ASKS_TABLE:
            if not is_of_table(command, reply):
                return None
        elif reply not in REFUSALS:
            made.append((tuple(command.split()), reply))
    return made


def replayed(order):
    """Gives the map behind calls in this order, or None where one is replied something else."""
    held = {}
    return held if all(asked(held, words) == reply for words, reply in order) else None


def may_be_next(at, places, times):
    """Whether no other file's next call had ended before this file's began."""
    began = times[at][places[at]][0]
    return all(place == len(calls) or calls[place][1] >= began for place, calls in zip(places, times))


def is_found(made, contents, ask=asked, times=None):
    """Whether there is a history of these calls with these contents, None for any.

    `ask` does a call to the map. `times` has when each call began and ended, where a call that ended before another one of
    another file began is to stand before it.
    """
    seen = set()
    stack = [((0,) * len(made), {})]
    while stack:
        places, held = stack.pop()
        if all(place == len(file) for place, file in zip(places, made)):
            if contents is None or [f"{key} {held[key]}" for key in sorted(held)] == contents:
                return True
            continue
        for at, (place, file) in enumerate(zip(places, made)):
            if place == len(file) or (times and not may_be_next(at, places, times)):
                continue
            words, reply = file[place]
            after = dict(held)
            if ask(after, words) == reply:
                step = (*places[:at], place + 1, *places[at + 1:])
                key = step, tuple(sorted(after.items()))
                if key not in seen:
                    seen.add(key)
                    stack.append((step, after))
    return False


def is_one_after_another(made, contents):
    """Whether the files may have run one after another."""
    for order in itertools.permutations(made):
        held = replayed(itertools.chain(*order))
        if held is not None and [f"{key} {held[key]}" for key in sorted(held)] == contents:
            return True
    return False


def run(program, settings, files, environment=None):
    """Runs the program on files of these commands, and gives its status, output and error text."""
    with tempfile.TemporaryDirectory() as folder:
        names = []
        for number, file in enumerate(files, 1):
            names.append(os.path.join(folder, str(number)))
            with open(names[-1], "w") as out:
                out.write("".join(f"{command}\n" for command in file))
        ran = subprocess.run([program, *map(str, settings), *names], capture_output=True, timeout=60, env=environment)
    return ran.returncode, *(it.decode("ascii", "replace") for it in (ran.stdout, ran.stderr))


def judge(files, status, out, err):
    """Gives the calls of the files and the contents of a run that ended well; or what is wrong."""
    if (status, err) != (0, ""):
        return None, f"status {status}, error {err!r}"
    parts = split(out, files)
    if parts is None or parts[1] is None:
        return None, f"output {out!r}"
    replies, contents = parts
    made = [calls(file, lines) for file, lines in zip(files, replies)]
    if None in made:
        return None, f"a reply of no form: {out!r}"
    if not is_found(made, contents):
        return None, f"no history: {out!r}"
    return (made, contents, replies), None
