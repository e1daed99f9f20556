"""Builds a program of crates/ that is there to be measured."""

import pathlib
import subprocess

CRATES = pathlib.Path(__file__).resolve().parent.parent / "crates"


def built(program, words):
    """The program, proved and built; the words are those of a short run."""
    subprocess.run(["rt", "run", "--", *words], cwd=CRATES / program, check=True, capture_output=True)
    return str(CRATES / program / "out" / program)
