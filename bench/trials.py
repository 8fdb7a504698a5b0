"""What the trials of this folder share: the program, small streams of pages, and the count of what passed."""
import os
import subprocess
import sys
import tempfile
from pathlib import Path

from make_page import header

TOP = Path(__file__).resolve().parent.parent
PROGRAM = TOP / "crates/driver_program/out/driver_program"
FINISHER = TOP / "crates/finish_program/out/finish_program"
SAMPLE = (TOP / "pages/sample.pwg").read_bytes()


class Results:
    def __init__(self):
        self.passed, self.failed = 0, 0

    def tell(self, name, faults, note=""):
        """Counts a trial, which passed where no fault is true. Faults are pairs of a fault and its words."""
        words = [text for fault, text in faults if fault]
        if words:
            self.failed += 1
        else:
            self.passed += 1
        said = "; ".join(words) or note
        print(f"{'FAIL' if words else 'ok':5}{name}{': ' if said else ''}{said}", flush=True)

    def end(self):
        """Prints the count, and ends the script."""
        print(f"{self.passed} passed, {self.failed} failed")
        sys.exit(1 if self.failed else 0)


def program_of(words, built=PROGRAM):
    """The program that the command line of a script names, or the one that was built in this tree."""
    program = Path(words[0]).resolve() if words else built
    if not program.exists():
        sys.exit(f"There is no {program} yet. Build it by: cd crates/{built.name} && rt run -- --version")
    return program


def build_faults(folder):
    """The library of faults, compiled."""
    library = Path(folder, "faults.so")
    words = ["cc", "-shared", "-fPIC", "-O2", "-o", library, TOP / "bench/faults.c"]
    subprocess.run([str(word) for word in words], check=True)
    return library


def with_faults(library, **faults):
    """The environment of a program that meets these faults."""
    return dict(os.environ, LD_PRELOAD=str(library), **{name: str(value) for name, value in faults.items()})


def grey_lines(width, height, seed):
    """Lines of grey without runs, each coded as literals: a line takes as many bytes as any other."""
    for line in range(height):
        pixels = bytes((x * 37 + line * 101 + seed * 53) % 251 for x in range(width))
        yield b"\0" + b"".join(literal(pixels[start:start + 128]) for start in range(0, width, 128))


def literal(pixels):
    return bytes([257 - len(pixels) if len(pixels) > 1 else 0]) + pixels


def grey_page(width, height, seed, dpi=360):
    """A page, without the word that begins a stream."""
    return header("gray", width, height, dpi) + b"".join(grey_lines(width, height, seed))


def stream(*pages):
    return b"RaS2" + b"".join(pages)


def temporary():
    return tempfile.TemporaryDirectory(prefix="jinthbao-")
