#!/usr/bin/python3
"""Puts what the causes of error lines mean into the manual pages.

    docs/causes.py PROGRAM [--check]

PROGRAM is the driver, as crates/driver_program/out/driver_program: its --help lists the causes by status, and its
--help CAUSE says what each means. A section for them begins with the comment .\\" causes: KIND, perhaps with names of
causes behind it, and ends with .\\" end of causes. KIND is the word with which error lines begin, as usage or input.
The spool and the finisher tell the same meanings, and their pages name the causes.

With --check nothing is written, and the status is 1 if a file would change.
"""
import re
import subprocess
import sys
import textwrap
from pathlib import Path

TOP = Path(__file__).resolve().parent.parent
FILES = sorted((TOP / "packaging/man").iterdir())
STATUSES = {"usage": 1, "profile": 2, "input": 3, "job": 8}
WIDTH = 120


def main(words):
    is_check = words[1:] == ["--check"]
    if len(words) != 1 and not is_check:
        sys.exit("usage: docs/causes.py PROGRAM [--check]")
    changed = [file for file in FILES if update(file, words[0], is_check)]
    if is_check and changed:
        sys.exit("\n".join(f"{file.relative_to(TOP)} does not say what the program says" for file in changed))


def ask(program, *words):
    try:
        return subprocess.run([program, "--help", *words], check=True, capture_output=True, text=True).stdout
    except (OSError, subprocess.CalledProcessError) as error:
        sys.exit(f"causes.py: the program does not tell its causes: {error}")


def update(file, program, is_check):
    """Whether a file changes."""
    old = file.read_text()
    pattern = re.compile(r'^\.\\" causes: (.*?)\n.*?^\.\\" end of causes', re.MULTILINE | re.DOTALL)
    new = pattern.sub(lambda found: section(program, found[1]), old)
    if new != old and not is_check:
        file.write_text(new)
    return new != old


def section(program, what):
    kind, *names = what.split()
    found = [entry for name in names or names_of(program, kind) for entry in entries(program, name, kind)]
    return f'.\\" causes: {what}\n{manual(found)}\n.\\" end of causes'


def names_of(program, kind):
    """The causes of a status, in the order of the program's help."""
    listing = ask(program).partition("says what a cause means")[2]
    found = re.search(rf"^{STATUSES[kind]}  (.*\n(?:   .*\n)*)", listing, re.MULTILINE)
    return found[1].split()


def entries(program, name, kind):
    """The error lines of a kind with this cause, each with its meaning."""
    for part in ask(program, name).split("\n\n"):
        line, _, meaning = part.partition("\n")
        if line.startswith(f"{kind}:"):
            yield line, " ".join(meaning.split())


def manual(found):
    items = []
    for line, meaning in found:
        items += [f'.It Li "{line}"', *(part for sentence in sentences(meaning) for part in lines_of(sentence))]
    return "\n".join([".Bl -tag -width Ds", *items, ".El"])


def sentences(text):
    return re.split(r"(?<=[.]) (?=[A-Z])", text.replace("\\", "\\e"))


def lines_of(sentence):
    return textwrap.wrap(sentence, WIDTH, break_on_hyphens=False)


if __name__ == "__main__":
    main(sys.argv[1:])
