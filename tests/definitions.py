"""Counts what a reader has to read to know what the server promises: definitions.py [--list].

The promise is the clause `served` of `run_server`. What its names mean stands in the modules of crates/NAME/specs/, and what these
name in turn. This counts the definitions that can be reached from there, and their lines without comments and empty ones, for each
part of the promise:

- *wire*: which bytes of the pipes are which requests and replies (`resp` and `request_loop`);
- *meaning*: which replies requests have, in one history (`far_server`, `server_commands`, `stored_keys`);
- *commands*: how each command is spelled, and what it does with a key's value (`commands` and `key_commands`).

It leaves out what a reader of the table knows already: what can be reached from the clauses `finished` and `closed` of `hash_table`. The
standard library is left out, and the structs and enums of the code too. The status is 1 if a part has more lines than MOST. --list prints each
definition with its lines.
"""
import re
import sys
from pathlib import Path

ROOT = Path(__file__).resolve().parent.parent
SERVED = ("far_server/src/run.rt", ("served",))
KNOWN = [(str(it.relative_to(ROOT / "crates")), ("finished", "closed")) for it in sorted(ROOT.glob("crates/hash_table/src/*.rt"))]
PARTS = {"wire": ("resp", "request_loop"), "meaning": ("far_server", "server_commands", "stored_keys"), "commands": ("commands", "key_commands")}
MOST = {"wire": 330, "meaning": 523, "commands": 520}
USE = re.compile(r"(?m)^(?:ghost )?use Rattle\.([\w.]+?)(?:\.\{([^}]*)\}| as (\w+))?;?$")
NAME = re.compile(r"(?m)^ *(?:abbrev )?(?:pub )?(?:abbrev )?(?:pub )?(?:record|data)? *([\w◌]+)\b.*?:")
BEGIN = re.compile(r"^( *)(?:abbrev pub|pub abbrev|abbrev|pub record|pub data|record|data|pub) (?!mod\b)([\w◌«»]+)")


def bare(text, mark):
    return re.sub(rf"(?m){mark}.*$", "", text)


class Module:
    """A module of specs: which names it takes from which modules, and its definitions with their lines."""

    def __init__(self, text):
        self.names, self.definitions = names_of(text), {}
        current, depth = None, 0
        for line in bare(text, "--").split("\n"):
            if not line.strip() or line.startswith(("use ", "module ")) or line.strip().startswith("module _"):
                current = None if line.strip() else current
                continue
            begins = BEGIN.match(line)
            # (what is indented further belongs to a record or a definition, and not to the module)
            if begins and (current is None or len(begins[1]) <= depth):
                current, depth = begins[2], len(begins[1])
                self.definitions[current] = []
            if current:
                self.definitions[current].append(line)


def names_of(text):
    """The names that a text may use, each with its module and its name there: a module itself has none."""
    found = {}
    for module, names, other in USE.findall(text):
        if names:
            for name in names.split(","):
                first, _, second = name.strip().partition(" as ")
                found[second or first] = module, first
        else:
            found[other or module.rpartition(".")[2]] = module, None
    return found


def modules():
    return {f"{it.parent.parent.name}.specs.{it.stem}": Module(it.read_text()) for it in ROOT.glob("crates/*/specs/*.antt")}


def roots(path, clauses):
    """What these clauses of a file name."""
    text = bare((ROOT / "crates" / path).read_text(), "//")
    names = names_of(text)
    for clause in clauses:
        for body in re.findall(rf"(?m)ensures {clause} \{{(.*)\}}$", text):
            yield from (names[word] for word in set(re.findall(r"[\w◌]+", body)) if word in names)


def reached(all_modules, first):
    seen, left = set(), list(first)
    while left:
        module, name = left.pop()
        if (module, name) in seen or module not in all_modules or name not in all_modules[module].definitions:
            continue
        seen.add((module, name))
        here = all_modules[module]
        for word in set(re.findall(r"[\w◌]+", "\n".join(here.definitions[name]))):
            if word in here.definitions:
                left.append((module, word))
            if word in here.names and here.names[word][1]:
                left.append(here.names[word])
    return seen


def main(words):
    all_modules = modules()
    known = reached(all_modules, [it for file in KNOWN for it in roots(*file)])
    served = reached(all_modules, roots(*SERVED)) - known
    status = 0
    if not known or not served:
        print("definitions.py: a clause was not found")
        return 1
    for part, crates in PARTS.items():
        of_part = sorted(it for it in served if it[0].split(".")[0] in crates)
        lines = sum(len(all_modules[module].definitions[name]) for module, name in of_part)
        is_over = lines > MOST[part]
        print(f"{part}: {len(of_part)} definitions in {lines} lines, {MOST[part]} at most{': too many' if is_over else ''}")
        status |= is_over
        if "--list" in words:
            for module, name in of_part:
                print(f"    {len(all_modules[module].definitions[name]):3} {module}.{name}")
    others = [it for it in served if not any(it[0].split(".")[0] in crates for crates in PARTS.values())]
    print(f"elsewhere: {len(others)} definitions in {sum(len(all_modules[module].definitions[name]) for module, name in others)} lines")
    return status


sys.exit(main(sys.argv[1:]))
