#!/usr/bin/env python3
"""silence.py PROGRAM: one of three inputs falls silent, or is much faster, or comes before the next, or has a fault.

Each time three streams of one-second segments go into FIFOs, packet by packet, and each segment has to be listed soon after the
packets that close it, whatever the other inputs do; an input that has ended gets its ENDLIST while another is still silent. In the
end the folder has to hold just what the same streams give as files. Prints how late a segment was listed at the worst.
"""

import contextlib
import os
import pathlib
import shutil
import subprocess
import sys
import tempfile
import time

from standard_stream import every, stream
from tables import SIZE

KEY = "000102030405060708090a0b0c0d0e0f"
NAMES = ("a", "b", "c")
CUTS = ("--target", "1", "--segment", "1", "--window", "10000", "--workers", "2")
# How many packets go before the first frame, and how many behind a segment's last one show that it is over and where the next is.
TABLES, BEHIND = 2, 3
# No segment may be listed later than this, and as much more for each twenty that are closed at once. An idle machine takes some
# milliseconds.
SECONDS = 3


class Late(Exception):
    """What didn't come in time."""


def wait_for(what, holds, seconds=SECONDS):
    begin = time.monotonic()
    while not holds():
        if time.monotonic() - begin > seconds:
            raise Late(what)
        time.sleep(0.002)
    return time.monotonic() - begin


class Input:
    """A stream that is written to a FIFO, and what its playlist has to list by then."""

    def __init__(self, name, data, folder, out):
        self.name, self.data, self.at = name, data, 0
        self.path, self.playlist = folder / f"{name}.fifo", out / f"{name}.m3u8"
        self.pipe = None
        os.mkfifo(self.path)

    def open(self):
        self.pipe = os.open(self.path, os.O_WRONLY)

    def text(self):
        with contextlib.suppress(FileNotFoundError):
            return self.playlist.read_text()
        return ""

    def write(self, packets):
        """Writes so many packets more; answers how late what they closed was listed."""
        end = min(self.at + packets * SIZE, len(self.data))
        while self.at < end:
            self.at += os.write(self.pipe, self.data[self.at : end])
        due = self.at // SIZE - TABLES - BEHIND
        seconds = SECONDS * (1 + packets / 20)
        return wait_for(f"segment {due} of {self.name}", lambda: self.text().count("#EXTINF:") >= due, seconds)

    def has_more(self):
        return self.at < len(self.data)

    def close(self):
        os.close(self.pipe)
        return wait_for(f"the end of {self.name}", lambda: self.text().endswith("#EXT-X-ENDLIST\n"))


def turns(inputs, until=1.0):
    """A packet of each, over and over, until so much of each is written."""
    while any(it.at < until * len(it.data) // SIZE * SIZE for it in inputs):
        for it in inputs:
            if it.at < until * len(it.data):
                yield it.write(1)


def ended(inputs):
    yield from turns(inputs)
    for it in inputs:
        yield it.close()


def from_the_start(silent, others):
    yield from ended(others)
    yield from ended([silent])


def in_the_middle(silent, others):
    yield from turns([silent, *others], 0.5)
    yield from ended(others)
    yield from ended([silent])


def for_a_while(silent, others):
    yield from turns([silent, *others], 0.3)
    yield from turns(others, 0.7)
    yield from ended([silent, *others])


def at_its_end(silent, others):
    yield from turns([silent])
    yield from ended(others)
    yield silent.close()


def ten_times_as_fast(fast, others):
    while fast.has_more():
        yield fast.write(10)
        for it in others:
            yield it.write(1)
    yield from ended([fast, *others])


def one_after_another(first, others):
    for it in (first, *others):
        yield it.write(len(it.data) // SIZE)
    for it in (first, *others):
        yield it.close()


def entries(paths):
    return [f"{name}:avc1.42c01e:320x180:{KEY}:{path}" for name, path in zip(NAMES, paths)]


def files_of(out):
    return {file.name: file.read_bytes() for file in sorted(out.iterdir())}


def packed(program, streams, folder):
    """The files that the streams give as files."""
    out = folder / "from_files"
    out.mkdir()
    paths = [folder / f"{name}.ts" for name in NAMES]
    for path, data in zip(paths, streams):
        path.write_bytes(data)
    subprocess.run([program, "pack", "--out", out, *CUTS, *entries(paths)], stdout=subprocess.DEVNULL, check=True)
    return files_of(out)


def play(program, streams, folder, one, scenario):
    """The most that anything was late, and the files in the end."""
    out = folder / "live"
    out.mkdir()
    inputs = [Input(name, data, folder, out) for name, data in zip(NAMES, streams)]
    command = [program, "pack", "--out", out, *CUTS, *entries([it.path for it in inputs])]
    process = subprocess.Popen(command, stdout=subprocess.DEVNULL)
    try:
        for it in inputs:
            it.open()
        late = max(scenario(inputs[one], inputs[:one] + inputs[one + 1 :]))
        if process.wait(timeout=30) != 0:
            raise Late(f"an end with status 0: it is {process.returncode}")
        return late, files_of(out)
    finally:
        process.kill()
        process.wait()


def main():
    program = os.path.realpath(sys.argv[1])
    streams = [stream(*every(90_000, count)) for count in (30, 45, 60)]
    worst = 0
    for scenario in (from_the_start, in_the_middle, for_a_while, at_its_end, ten_times_as_fast, one_after_another):
        for one in range(3):
            with tempfile.TemporaryDirectory() as name:
                folder = pathlib.Path(name)
                wanted = packed(program, streams, folder)
                try:
                    late, files = play(program, streams, folder, one, scenario)
                except Late as what:
                    sys.exit(f"{scenario.__name__}, {NAMES[one]}: not in time: {what}")
                if files != wanted:
                    differ = [it for it in files.keys() | wanted.keys() if files.get(it) != wanted.get(it)]
                    sys.exit(f"{scenario.__name__}, {NAMES[one]}: {sorted(differ)} aren't as from files")
                worst = max(worst, late)
                shutil.rmtree(folder / "live")
    print(f"listed {worst * 1000:.0f} ms late at the worst")


if __name__ == "__main__":
    main()
