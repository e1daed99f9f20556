"""Times a command: its wall and processor seconds and its peak memory, the best of some runs."""

import contextlib
import os
import pathlib
import subprocess
import time
from typing import NamedTuple

KEY = "000102030405060708090a0b0c0d0e0f"


class Figures(NamedTuple):
    wall: float
    processor: float
    memory: int


def timed(command, stream=os.devnull, statuses=(0,), extra=None):
    """One run from the stream to nowhere, with extra variables of the environment. Memory is in bytes."""
    with open(stream, "rb") as source, open(os.devnull, "r+b") as nowhere:
        begin = time.perf_counter()
        process = subprocess.Popen(command, stdin=source, stdout=nowhere, stderr=nowhere, env=os.environ | (extra or {}))
        _, status, usage = os.wait4(process.pid, 0)
        wall = time.perf_counter() - begin
    process.returncode = os.waitstatus_to_exitcode(status)
    if process.returncode not in statuses:
        raise SystemExit(f"{command[:2]} ended with status {process.returncode}")
    return Figures(wall, usage.ru_utime + usage.ru_stime, usage.ru_maxrss * 1024)


def best(runs):
    """The least times, and the most memory."""
    return Figures(min(run.wall for run in runs), min(run.processor for run in runs), max(run.memory for run in runs))


def best_of(rounds, command, *how, **more):
    return best([timed(command, *how, **more) for _ in range(rounds)])


def calling_share(command):
    """What part of the processor time of a run its calling thread takes, as looked up each millisecond until it has ended."""
    with open(os.devnull, "r+b") as nowhere:
        process = subprocess.Popen(command, stdin=nowhere, stdout=nowhere, stderr=nowhere)
        own, ended = 0, 0
        while not ended:
            with contextlib.suppress(OSError, IndexError):
                own = int(pathlib.Path(f"/proc/{process.pid}/task/{process.pid}/schedstat").read_text().split()[0]) or own
            time.sleep(0.001)
            ended, status, usage = os.wait4(process.pid, os.WNOHANG)
    process.returncode = os.waitstatus_to_exitcode(status)
    return own / 1e9 / (usage.ru_utime + usage.ru_stime)


def is_linear(what, small, large):
    """Prints how much longer 8 times as much takes, and whether that is at most 10 times."""
    growth = large.wall / small.wall
    print(f"8 times the {what} {growth:.1f} times the time; at most 10: {'yes' if growth <= 10 else 'no'}")
    return growth <= 10
