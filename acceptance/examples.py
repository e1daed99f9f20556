"""Plays the console examples of a document, and compares what they print: examples.py PROGRAM DOCUMENT.

They are played one after the other in an empty folder that has the samples, in which `tshls` is the program.
"""

import os
import pathlib
import re
import subprocess
import sys
import tempfile


def examples(text):
    """Of each block its commands, each with what it prints."""
    for block in re.findall(r"^```console\n(.*?)^```$", text, re.M | re.S):
        yield re.findall(r"^\$ ((?:.*\\\n)*.*\n)((?:(?!\$ ).*\n)*)", block, re.M)


def played(commands, folder, environment):
    """What each command printed, on both outputs."""
    script = "".join(f"{command}printf '\\0'\n" for command, _ in commands)
    run = subprocess.run(["bash", "-c", script], cwd=folder, env=environment, stdout=subprocess.PIPE, stderr=subprocess.STDOUT)
    return run.stdout.decode().split("\0")[:-1]


def main():
    program, document = map(pathlib.Path, sys.argv[1:3])
    count = 0
    with tempfile.TemporaryDirectory() as folder:
        folder = pathlib.Path(folder)
        (folder / "bin").mkdir()
        (folder / "bin" / "tshls").symlink_to(program.resolve())
        (folder / "samples").symlink_to(document.resolve().parent.parent / "samples")
        environment = os.environ | {"PATH": f"{folder / 'bin'}:{os.environ['PATH']}"}
        for commands in examples(document.read_text("utf-8")):
            for (command, wanted), printed in zip(commands, played(commands, folder, environment), strict=True):
                count += 1
                if printed != wanted:
                    sys.exit(f"{command.strip()} prints {printed!r} in place of {wanted!r}")
    if not count:
        sys.exit("no example")


main()
