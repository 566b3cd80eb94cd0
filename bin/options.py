"""What a program answers to its words before it is built, from bin/help/NAME.txt: its help, and which options it does not have.

Such a file has what the program itself prints for --help, and is written again by:

    $(bin/build NAME) --help >bin/help/NAME.txt

Only the names of options are judged. Their values, and whether one is missing, are the program's to judge.
"""
import re
import sys
from pathlib import Path

HELP = Path(__file__).resolve().parent / "help"
OPTION = re.compile(r"^ +(?:-(\w), )?--([\w-]+)( <)?", re.M)
# Options that the help leaves out; each has a value.
HIDDEN = {"farserve": ["--names"]}


class Answered(Exception):
    """The words were answered: a status, and what to print for it, on standard output if it is 0, else on standard error."""

    def tell(self):
        """Prints it, and gives the status."""
        status, text = self.args
        try:
            print(text, end="", file=sys.stderr if status else sys.stdout, flush=True)
        except OSError:
            return status or 1
        return status


def judge(name, words):
    """Answers if the words ask for help, or have an option that the program does not have."""
    help_text = (HELP / f"{name}.txt").read_text()
    options = dict.fromkeys(HIDDEN.get(name, []), True)
    for short, long, value in OPTION.findall(help_text):
        options[f"--{long}"] = bool(value)
        if short:
            options[f"-{short}"] = bool(value)
    words = iter(words)
    for word in words:
        if word == "--":
            return
        option, _, value = word.partition("=")
        if not option.startswith("-") or option == "-":
            continue
        if not option.startswith("--"):
            option, value = option[:2], option[2:]
        if option not in options:
            raise Answered(2, refusal(help_text, option))
        if option in ("--help", "-h"):
            raise Answered(0, help_text)
        if options[option] and not value and "=" not in word:
            # Its value, whatever it is.
            next(words, None)


def refusal(help_text, option):
    tip = f"  tip: to pass '{option}' as a value, use '-- {option}'\n\n" if "\nArguments:\n" in help_text else ""
    usage = re.search(r"^Usage: .*$", help_text, re.M)[0]
    return f"error: unexpected argument '{option}' found\n\n{tip}{usage}\n\nFor more information, try '--help'.\n"


def judge_first(name, words):
    """The same of a program that has no options: of its words the first one."""
    usage = (HELP / f"{name}.txt").read_text()
    if words[:1] in (["--help"], ["-h"]):
        raise Answered(0, usage)
    if words and words[0].startswith("-"):
        raise Answered(2, usage)
