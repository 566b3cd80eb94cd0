"""Tries the links of the docs, what they name in backticks, how long their sentences are, and how modules are named: docs.py.

In README.md, CONTRIBUTING.md, CHANGELOG.md, docs/ and the READMEs of the crates, the tests, the gateway and the examples, but for what stands
between lines of ```:

- the file of a relative link is there, and where it names a place, so is the heading;
- a path in backticks is there: from the top, from crates/, from the page's folder, or from a crate's folder or its src/, in
  a crate's README from that crate's. One with NAME, MODULE or FUNCTION in it, or of what is built, is passed over;
- of `name()` there is a function, and of `Type::name` or `crate::name` a declaration in a source that has the type, or in the
  crate's sources. A name of std or of another crate is passed over;
- no module is named by a participle, as `telling` is: a module is named by a noun for what it holds;
- no sentence has more than 35 words, outside tables and code. It ends at `.`, `?`, `!` or `:` before a blank or a line's end, or with
  its list item. A text in backticks is one word.

Each failure is a line `FILE:LINE: ..`, and the status is 1 where there is one.
"""
import re
import sys
from functools import cache
from pathlib import Path

ROOT = Path(__file__).resolve().parent.parent
PAGES = ("README.md", "CONTRIBUTING.md", "CHANGELOG.md", "docs/*.md", "crates/README.md", "crates/*/README.md", "gateway/README.md",
         "examples/*/README.md", "tests/*/README.md", "tests/*/*/README.md")
FOLDERS = {"src", "specs", "proofs", "must-fail", "long-edits", *(it.name for it in [*ROOT.iterdir(), *ROOT.glob("crates/*")])}
FILE = re.compile(r"\.(rt|antt|md|sh|py|c|rs|txt|edit|svg)$")
MOST_WORDS = 35
PARTICIPLE = re.compile(r"\w+ing|\w+[^e]ed|broken|given|held|kept|known|left|lent|lost|made|sent|shown|shut|taken|told|written")
# Nouns that end as participles do.
NOUNS = {"greeting", "listing", "naming", "opening", "setting", "spelling", "string", "encoding"}
PASSED_OVER = re.compile(r"NAME|MODULE|FUNCTION|(^|/)out(/|$)")
# A declaration, a variant or a field on a line of its own, or a name that is taken from elsewhere.
DECLARED = (r"\b(?:fn|mod|struct|enum|trait|type|const|static|def|abbrev|theorem|structure|inductive)\s+{0}\b"
            r"|^\s*{0}\b\s*(?:[,({{:]|$)|\buse\b[^;]*\b{0}\b")


@cache
def sources():
    files = [it for part in ("src/**/*.rt", "specs/**/*.antt", "proofs/**/*.antt") for it in ROOT.glob(f"crates/*/{part}")]
    return {it: it.read_text() for it in files}


def is_declared(name, files):
    pattern = re.compile(DECLARED.format(name), re.M)
    return any(name in sources()[it] and pattern.search(sources()[it]) for it in files)


@cache
def is_name(path):
    """Whether the function, or the last of a path of names, is declared where the names before it say."""
    *front, name = path.split("::")
    crates = [it for it in front if (ROOT / "crates" / it).is_dir()]
    types = [it for it in front if it[0].isupper()]
    files = [it for it in sources() if not crates or it.parts[len(ROOT.parts) + 1] in crates]
    for of in types:
        files = [it for it in files if of in sources()[it] and re.search(rf"\b{of}\b", sources()[it])]
    return is_declared(name, files)


def is_path(text, page):
    of_crate = page.parent.parent == ROOT / "crates"
    crates = [page.parent] if of_crate else ROOT.glob("crates/*")
    bases = [ROOT, ROOT / "crates", page.parent, *(base for it in crates for base in (it, it / "src"))]
    return any(next(base.glob(text), None) for base in bases if base.is_dir())


def headings(page):
    titles = (re.sub(r"[^\w\- ]", "", it.lower()) for it in re.findall(r"^#+ +(.*)$", page.read_text(), re.M))
    return {it.replace(" ", "-") for it in titles}


def fault_of_link(link, page):
    file, _, place = link.partition("#")
    target = (page.parent / file) if file else page
    if not target.exists():
        return f"no file {file}"
    if place and target.suffix == ".md" and place not in headings(target):
        return f"no heading {link}"
    return None


def fault_of_code(code, page):
    word = code.split()[0] if code.split() else ""
    looks = re.fullmatch(r"[\w.*-]+(/[\w.*-]+)*/?", word) and (word.split("/")[0] in FOLDERS or FILE.search(word))
    if "/" in word and looks and not PASSED_OVER.search(word) and not is_path(word.rstrip("/"), page):
        return f"no path {word}"
    name = re.fullmatch(r"((?:\w+::)*\w+)(\([^()]*\)| \{[^{}]*\})?", code)
    if name and ("::" in name[1] or code.endswith("()")) and not is_foreign(name[1]) and not is_name(name[1]):
        return f"no declaration of {name[1]}"
    return None


@cache
def is_foreign(path):
    """Whether the first of the names is std's, or of a crate that stands elsewhere."""
    first = path.split("::")[0]
    used = re.findall(r"\w+", (ROOT / "crates.txt").read_text())
    return first in {"std", "core"} or first in used and not (ROOT / "crates" / first).is_dir()


def faults(page):
    fenced = False
    for number, line in enumerate(page.read_text().splitlines(), 1):
        if line.lstrip().startswith("```"):
            fenced = not fenced
        elif not fenced:
            told = [fault_of_code(code, page) for code in re.findall(r"`([^`]+)`", line)]
            links = re.findall(r"\]\(([^)\s]+)\)", re.sub(r"`[^`]+`", "", line))
            told += [fault_of_link(it, page) for it in links if not re.match(r"\w+:", it)]
            yield from (f"{page.relative_to(ROOT)}:{number}: {it}" for it in told if it)


def paragraphs(page):
    """The prose of a page, each paragraph and list item with the number of the line that it begins at."""
    fenced, text, begin = False, [], 0
    for number, line in enumerate([*page.read_text().splitlines(), ""], 1):
        fence = line.lstrip().startswith("```")
        fenced ^= fence
        ends = fence or fenced or not line.strip() or line.lstrip().startswith(("|", "#", "![")) or " | " in line
        item = re.match(r"\s*([-*]|\d+\.)\s+", line)
        if text and (ends or item):
            yield begin, " ".join(text)
            text = []
        if not ends:
            begin = begin if text else number
            text.append(line[item.end():] if item else line)


def long_sentences(page):
    for number, paragraph in paragraphs(page):
        prose = re.sub(r"`[^`]*`", "x", re.sub(r"\]\([^)\s]*\)", "]", paragraph))
        for sentence in re.split(r"(?<=[.?!:])[)*_]*\s+", prose):
            count = len(sentence.split())
            if count > MOST_WORDS:
                yield f"{page.relative_to(ROOT)}:{number}: a sentence of {count} words: {' '.join(sentence.split()[:8])} .."


def participles():
    """The modules of our crates and of the gateway that are named by a participle."""
    for path in sorted([*ROOT.glob("crates/*/src/**/*.rt"), *ROOT.glob("gateway/**/*.rs")]):
        if PARTICIPLE.fullmatch(path.stem) and path.stem not in NOUNS:
            yield f"{path.relative_to(ROOT)}: a module is named by a noun, and not by a participle"


def main():
    pages = [page for pattern in PAGES for page in sorted(ROOT.glob(pattern))]
    wrong = [*participles(), *(it for page in pages for it in [*faults(page), *long_sentences(page)])]
    print("".join(f"{it}\n" for it in wrong) + f"{len(pages)} pages, {len(wrong)} wrong")
    sys.exit(1 if wrong else 0)


if __name__ == "__main__":
    main()
