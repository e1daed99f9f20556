#!/usr/bin/env python3
"""stalls.py PROGRAM: one of three inputs is silent for longer than --stall, or has a fault, while the others go on.

Its fault is told once, and soon: a stall when the seconds are over, counted from its last bytes, and a fault of its stream when the
bytes have come that show it, while the other two are still open. They come out as from files, and nothing is listed of the one that
its bytes don't close. Prints how late a fault was told at the worst.
"""

import contextlib
import itertools
import os
import pathlib
import subprocess
import sys
import tempfile
import threading
import time

from silence import CUTS, NAMES, TABLES, Input, Late, ended, entries, files_of, packed, turns
from standard_stream import every, stream
from tables import SIZE

STALL = 2
# No fault may be told later than this. An idle machine takes some milliseconds.
SECONDS = 3


class Run:
    """A run of `pack` over three FIFOs, and what it tells on standard error."""

    def __init__(self, program, inputs, out, words):
        self.inputs, self.lines = inputs, []
        command = [program, "pack", "--out", out, *CUTS, *words, *entries([it.path for it in inputs])]
        self.process = subprocess.Popen(command, stdout=subprocess.DEVNULL, stderr=subprocess.PIPE, text=True)
        self.reader = threading.Thread(target=self.read)
        self.reader.start()

    def read(self):
        for line in self.process.stderr:
            self.lines.append(line)

    def has_told(self, line):
        """This line and no other, and the run goes on."""
        if self.lines != [line + "\n"] or self.process.poll() is not None:
            raise Late(f"{line} alone, before the end: {self.lines}")

    def stop(self):
        self.process.kill()
        self.process.wait()
        self.reader.join()


def told(run, line, others, seconds=SECONDS):
    """How late the line is told, while the others get a packet at times."""
    begin = time.monotonic()
    while not run.lines and time.monotonic() - begin < seconds:
        for it in others:
            it.write(1)
        time.sleep(STALL / 16)
    late = time.monotonic() - begin
    run.has_told(line)
    return late


def stalls(run, one, others):
    """The input falls silent: its fault comes in time, and not before."""
    late = told(run, f"tshls: Read {run.inputs.index(one)}", others, STALL + SECONDS)
    if late < STALL / 2:
        raise Late(f"a stall of {STALL} s: told after {late:.2f} s")
    yield late - STALL
    yield from ended(others)


def from_the_start(run, one, others):
    for it in (one, *others):
        it.open()
    yield from stalls(run, one, others)


def never_opened(run, one, others):
    for it in others:
        it.open()
    yield from stalls(run, one, others)


def in_the_middle(run, one, others):
    for it in (one, *others):
        it.open()
    yield from turns([one, *others], 0.5)
    yield from stalls(run, one, others)


def with_a_long_segment(run, one, others):
    for it in (one, *others):
        it.open()
    yield from turns([one, *others], 0.3)
    due = one.at // SIZE - TABLES
    with contextlib.suppress(BrokenPipeError):
        os.write(one.pipe, stream(*every(90_000 * 9, 3)))
    yield told(run, f"tshls: LongSegment {run.inputs.index(one)} {due}", others)
    yield from ended(others)


def with_short_pauses(run, one, others):
    """Never silent for too long, but for longer in all: no fault."""
    for it in (one, *others):
        it.open()
    for tenth in range(1, 6):
        yield from turns([one, *others], tenth / 10)
        time.sleep(STALL * 0.3)
    yield from ended([one, *others])


def play(program, streams, folder, one, scenario):
    """The most that anything was late, the files in the end, the fault that was told, and the status."""
    out = folder / "live"
    out.mkdir()
    inputs = [Input(name, data, folder, out) for name, data in zip(NAMES, streams)]
    run = Run(program, inputs, out, ("--stall", str(STALL), "--ahead", "1"))
    try:
        late = max(scenario(run, inputs[one], inputs[:one] + inputs[one + 1 :]))
        status = run.process.wait(timeout=30)
        run.reader.join()
        return late, files_of(out), run.lines, status
    finally:
        run.stop()


def wrong(files, wanted, lines, status, one, has_fault):
    """What isn't as it has to be in the end."""
    if (status, len(lines)) != ((1, 1) if has_fault else (0, 0)):
        return f"status {status}, told {lines}"
    others = [name for name in wanted if name.split(".")[0] not in (NAMES[one], "master") or not has_fault]
    differ = [name for name in others if files.get(name) != wanted[name]]
    if differ:
        return f"{sorted(differ)} aren't as from files"
    if has_fault and b"ENDLIST" in files.get(f"{NAMES[one]}.m3u8", b""):
        return f"{NAMES[one]} has an end"
    return None


def main():
    program = os.path.realpath(sys.argv[1])
    streams = [stream(*every(90_000, count)) for count in (59, 60, 61)]
    worst = 0
    scenarios = (from_the_start, never_opened, in_the_middle, with_a_long_segment, with_short_pauses, never_opened)
    for one, scenario in zip(itertools.cycle(range(3)), scenarios):
        with tempfile.TemporaryDirectory() as name:
            folder = pathlib.Path(name)
            wanted = packed(program, streams, folder)
            try:
                late, files, lines, status = play(program, streams, folder, one, scenario)
            except Late as what:
                sys.exit(f"{scenario.__name__}, {NAMES[one]}: not in time: {what}")
            fault = wrong(files, wanted, lines, status, one, scenario != with_short_pauses)
            if fault:
                sys.exit(f"{scenario.__name__}, {NAMES[one]}: {fault}")
            worst = max(worst, late)
    print(f"told {worst * 1000:.0f} ms late at the worst")


main()
