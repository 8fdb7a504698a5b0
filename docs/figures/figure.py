"""What the scripts of this folder share: how their words are read, and how they end."""
import os
import sys
from pathlib import Path


class Refused(Exception):
    """What is wrong with a word or a file, in a sentence."""


def number(word, least=0):
    if not (word.isascii() and word.isdecimal()) or int(word) < least:
        raise Refused(f"'{word}' is no whole number from {least} on")
    return int(word)


def run(main, usage, is_count):
    """Runs a script with its words, if there are as many as it takes. What goes wrong is told in a sentence."""
    name, words = Path(sys.argv[0]).name, sys.argv[1:]
    if not is_count(len(words)):
        sys.exit(usage.strip())
    if sys.stdout is None:
        sys.exit(f"{name}: standard output is closed")
    try:
        main(words)
        sys.stdout.flush()
    except Refused as refused:
        sys.exit(f"{name}: {refused}")
    except BrokenPipeError:
        # what is left to write goes nowhere, so that the end of the script does not fail too
        os.dup2(os.open(os.devnull, os.O_WRONLY), sys.stdout.fileno())
        sys.exit(f"{name}: standard output was closed by its reader")
    except OSError as error:
        sys.exit(f"{name}: {error.filename}: {error.strerror}" if error.filename else f"{name}: {error}")
