"""Plays seed after seed, each in a folder of its own, and prints what came up: SCRIPT PROGRAM LIBRARY COUNT [SEED]."""

import collections
import os
import pathlib
import sys
import tempfile


def played(play, program, library, seed):
    """Plays a seed, and prints what was wrong."""
    parent = "/dev/shm" if os.access("/dev/shm", os.W_OK) else None
    with tempfile.TemporaryDirectory(dir=parent) as base:
        done = play(program, library, seed, pathlib.Path(base)).play()
    for wrong in done.wrong:
        print(f"seed {seed}: {wrong}", flush=True)
    return done


def play_all(play):
    """Plays COUNT seeds, SEED the first of them, and ends with status 1 where one isn't as wanted."""
    program, library, count = os.path.realpath(sys.argv[1]), os.path.realpath(sys.argv[2]), int(sys.argv[3])
    begin = int(sys.argv[4]) if len(sys.argv) > 4 else 1
    told, wrong = collections.Counter(), 0
    for seed in range(begin, begin + count):
        done = played(play, program, library, seed)
        told += done.told
        wrong += bool(done.wrong)
    counts = ", ".join(f"{what} {number}" for what, number in sorted(told.items()))
    print(f"{count} seeds, {counts}: {f'{wrong} seeds not as wanted' if wrong else 'as wanted'}")
    sys.exit(wrong > 0)
