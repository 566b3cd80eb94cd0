"""Tries that opaque facts are made only where docs/GUARANTEES.md says: facts.py, or facts.py --planted.

An opaque fact states that one certain function did something, for example that a lane's write was Ok. One lemma proves it, and the kit lets
no crate keep a lemma to itself. If another proof cited the lemma, each clause with the fact would state nothing. So this reads the table of
the page, with the columns fact, function, lemma and the proofs that cite it (below crates/), and looks through specs/, proofs/ and src/ of
all crates:

- a fact is opaque: its definition is no abbreviation, and only the lemmas of its row unfold it, each once;
- no file is below the file that defines it, because the kit lets such a file unfold it too;
- a lemma is cited in the proofs of its row and nowhere else, by no path and under no other name. `any proof` in the row leaves it free;
- what a file of specs/ unfolds is a fact of the table.

Each failure is a line, and the status is 1 if there is one. With --planted, faults are planted in the texts that were read, one after
another, and the status is 1 if one of them is not found.
"""
import re
import sys
from pathlib import Path

ROOT = Path(__file__).resolve().parent.parent
PAGE = "docs/GUARANTEES.md"
HEAD = ["Fact", "Only this makes it", "Its lemma", "Cited in"]
ANY = "any proof"


class Row:
    def __init__(self, cells):
        code = [re.findall(r"`([^`]+)`", it) for it in cells]
        self.facts, self.lemmas, self.proofs, self.is_free = code[0], code[2], set(code[3]), ANY in cells[3]


def rows():
    found, inside = [], False
    for line in (ROOT / PAGE).read_text().splitlines():
        cells = [it.strip() for it in line.strip().strip("|").split("|")]
        inside = line.startswith("|") and (inside or cells == HEAD)
        if inside and cells != HEAD and not line.startswith("|---"):
            found.append(Row(cells))
    return found


def bare(text):
    """The text without its comments."""
    return re.sub(r"(?m)(--|//).*$", "", text)


def sources():
    return {str(it.relative_to(ROOT / "crates")): bare(it.read_text()) for part in ("src/**/*.rt", "specs/**/*.antt", "proofs/**/*.antt")
            for it in sorted(ROOT.glob(f"crates/*/{part}"))}


def homes(files, fact):
    """The files that define the fact as an opaque one."""
    return [path for path, text in files.items() if f"pub {fact} :" in text and re.search(rf"(?m)^pub {fact} :", text)]


def module_of(home):
    crate, path = home.split("/specs/")
    return f"Rattle.{crate}.specs.{path.removesuffix('.antt').replace('/', '.')}"


def is_cited(text, module, lemma):
    """Whether the file takes the lemma from its module, or the whole module, or names the lemma, if no other thing has that name."""
    if lemma.startswith("was_") and lemma in text and re.search(rf"\b{lemma}\b", text):
        return True
    uses = re.findall(rf"\b{re.escape(module)}\b(\.\{{[^}}]*\}}|\.\w+)?", text) if module in text else []
    return any(not use or re.search(rf"\b{lemma}\b", use) for use in uses)


def faults(files, table):
    lemmas = {}
    for fact, lemma in [both for row in table for both in zip(row.facts, row.lemmas, strict=True)]:
        lemmas.setdefault(fact, []).append(lemma)
    for fact, allowed in lemmas.items():
        found = homes(files, fact)
        if len(found) != 1:
            yield f"{fact} is defined as an opaque fact in {len(found)} files"
            continue
        home = found[0]
        unfolds = re.findall(rf"(?m)^unfolding .*\b{fact}\b.*\n(\w+) ", files[home])
        if unfolds != allowed:
            yield f"{home}: {fact} is unfolded for {unfolds}, and not for {allowed}"
        below = home.removesuffix(".antt") + "/"
        for path, text in files.items():
            if path.startswith(below):
                yield f"{path}: it is below {home}, so that it could unfold {fact}"
            if path != home and fact in text and re.search(rf"\bunfolding\b.*\b{fact}\b", text):
                yield f"{path}: {fact} is unfolded"
    for row in [it for it in table if not it.is_free]:
        for fact, lemma in zip(row.facts, row.lemmas, strict=True):
            home = (homes(files, fact) or [""])[0]
            cited = {path for path, text in files.items() if home and path != home and is_cited(text, module_of(home), lemma)}
            if home and cited != row.proofs:
                yield f"{lemma} is cited in {sorted(cited)}, and not in {sorted(row.proofs)}"
    for path, text in files.items():
        for names in re.findall(r"(?m)^unfolding (.*)$", text) if "/specs/" in path and "unfolding" in text else []:
            yield from (f"{path}: {it} is unfolded, and {PAGE} does not list it" for it in re.findall(r"\w+", names) if it not in lemmas)


def plants(files, table):
    """A file, a text, and what it becomes, for each fault that has to be found."""
    for row in [it for it in table if not it.is_free]:
        fact, lemma = row.facts[0], row.lemmas[0]
        home = homes(files, fact)[0]
        module = module_of(home)
        proof = next(path for path in files if "/proofs/" in path and path not in row.proofs)
        source = next(path for path in files if path.endswith(".rt"))
        yield proof, "", f"use {module}.{{{lemma}}}\n"
        yield proof, "", f"use {module} as facts\n"
        yield source, "", f"#[tactic(auto, using({module}.{lemma}))]\n"
        yield home, f"pub {fact} :", f"abbrev pub {fact} :"
        yield home, f"unfolding {fact}\n{lemma} ", f"unfolding {fact}\nanother x = x\nunfolding {fact}\n{lemma} "
        yield home.removesuffix(".antt") + "/Below.antt", "", "another = tt\n"


def missed(files, table):
    """The planted faults that are not found, and how many were planted."""
    told, count = [], 0
    for path, old, new in plants(files, table):
        text = files.get(path, "")
        after = text.replace(old, new, 1) if old else new + text
        count += 1
        if after == text or not any(faults({**files, path: after}, table)):
            told.append(f"not found: {path} with {new!r}")
    return told, count


def main():
    files, table = sources(), rows()
    wrong = list(faults(files, table)) if table else [f"{PAGE} has no table of opaque facts"]
    if sys.argv[1:] == ["--planted"] and not wrong:
        wrong, count = missed(files, table)
        what = "planted faults"
    else:
        count, what = sum(len(it.facts) for it in table), "opaque facts"
    print("".join(f"{it}\n" for it in wrong) + f"{count} {what}, {len(wrong)} wrong")
    sys.exit(1 if wrong else 0)


if __name__ == "__main__":
    main()
