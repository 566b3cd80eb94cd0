"""Tries the first line of each edit, that its old texts occur once, and that the table of docs/GUARANTEES.md has it: edits.py [--write].

An edit, crates/NAME/must-fail/*.edit or crates/NAME/long-edits/*.edit, begins with a line that the prover's tools don't read:

    # WHAT A USER WOULD SUFFER: `CLAUSE` of `FUNCTION`.

It has at most 30 words a sentence. `CLAUSE` is the clause that the planted bug breaks, or, if that has no name, the definition that it
cites. Each name in backticks has to be in the crate's src/ or specs/, as any word: that the clause is the right one, nothing tries. Several
are joined by `, ` or ` and `.

The table stands at the end of docs/GUARANTEES.md, behind the line of MARK. --write makes it of these lines. Without it, each line
that is wrong, and a table that is another one, is told, and the status is 1 where there is something.
"""
import re
import sys
from collections import defaultdict
from pathlib import Path

ROOT = Path(__file__).resolve().parent.parent
PAGE = ROOT / "docs/GUARANTEES.md"
MARK = "<!-- `tests/edits.py --write` makes what follows. -->\n"
FOLDERS = ("must-fail", "long-edits")
NAMES = r"`[^`]+`(?: of `[^`]+`)?"
LINE = re.compile(rf"# (?P<suffered>[^`:]+): (?P<clauses>{NAMES}(?:(?:, | and ){NAMES})*)\.")
MOST_WORDS = 30


def declared(crate):
    files = [it for part in ("src", "specs") for it in (crate / part).rglob("*") if it.is_file()]
    return set(re.findall(r"\w+", " ".join(it.read_text() for it in files)))


def faults_of(line, names):
    parts = LINE.fullmatch(line)
    if not parts:
        yield "its first line is not `# WHAT A USER WOULD SUFFER: `CLAUSE` of `FUNCTION`.`"
        return
    for name in re.findall(r"`([^`]+)`", parts["clauses"]):
        yield from (f"no {word} in the crate" for word in re.findall(r"\w+", name) if word not in names)
    for sentence in re.split(r"(?<=[.?!]) ", parts["suffered"]):
        if len(sentence.split()) > MOST_WORDS:
            yield f"a sentence of {len(sentence.split())} words"


def misplaced(edit):
    """What is wrong with an edit's old texts: each has to occur once in the file before it."""
    source = ""
    for line in edit.read_text().split("\n"):
        word, _, rest = line.partition(": ")
        if word == "file":
            path = edit.parent.parent / rest
            source = path.read_text() if path.is_file() else ""
        elif word == "old" and source.count(rest) != 1:
            yield f"its old text occurs {source.count(rest)} times: {rest.strip()}"


def read():
    """The edits' first lines by crate, and what is wrong with them."""
    lines, wrong = defaultdict(dict), []
    for edit in sorted(ROOT.glob("crates/*/*/*.edit")):
        crate = edit.parent.parent
        if edit.parent.name in FOLDERS:
            lines[crate][edit] = edit.read_text().split("\n")[0]
    for crate, edits in lines.items():
        names = declared(crate)
        for edit, line in edits.items():
            wrong += [f"{edit.relative_to(ROOT)}: {it}" for it in (*faults_of(line, names), *misplaced(edit))]
    return lines, wrong


def table(lines):
    for crate, edits in lines.items():
        yield f"\n### The edits of {crate.name}\n\nEdit | What a user would suffer | Refused by\n---|---|---\n"
        for edit, line in edits.items():
            parts = LINE.fullmatch(line)
            where = f"[{edit.stem}](../{edit.relative_to(ROOT)})"
            yield f"{where} | {parts['suffered'].replace('|', chr(92) + '|')} | {parts['clauses']}\n"


def main(*words):
    lines, wrong = read()
    if not wrong:
        page, mark, behind = PAGE.read_text().partition(MARK)
        made = "".join(table(lines))
        if words == ("--write",) and mark:
            PAGE.write_text(page + mark + made)
        elif behind != made:
            wrong.append(f"{PAGE.relative_to(ROOT)}: its table is not what the edits say; `tests/edits.py --write` makes it")
    count = sum(len(edits) for edits in lines.values())
    print("".join(f"{it}\n" for it in wrong) + f"{count} edits, {len(wrong)} wrong")
    return 1 if wrong or not count else 0


if __name__ == "__main__":
    sys.exit(main(*sys.argv[1:]))
