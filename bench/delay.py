#!/usr/bin/env python3
"""bench/delay.py PROGRAM [SECONDS]: how far behind a live stream `pack` lists its segments.

Streams of SECONDS (40 where none is given), with a key frame each second, are written to FIFOs at their own rate, what is due
each 40 ms at once, and packed in segments of 2 s with the four workers that there are by default. A segment's delay is the
time from the moment when its last packet was written to the one when the media playlist lists it. It is measured for one
rendition and for three, with `--batch 1` and without, each of which takes as long as the stream. Segments that are listed
only when the input has ended are left out, and counted.
"""

import contextlib
import os
import pathlib
import shutil
import statistics
import subprocess
import sys
import tempfile
import time

from measuring import KEY

sys.path.append(str(pathlib.Path(__file__).resolve().parent.parent / "acceptance"))
import segments
import wanted

SECONDS = 40
TICK, LOOK = 0.04, 0.002
RATES = {"high": 3_000_000, "mid": 1_000_000, "low": 400_000}
CUTS = ["--target=2", "--segment=2", "--window=10000"]


class Live:
    """A stream that is written at its own rate, and what is known of its segments."""

    def __init__(self, name, file, seconds):
        self.name, self.data = name, file.read_bytes()
        self.rate = len(self.data) / seconds
        self.ends = list(ends_of_segments(self.data))
        self.at, self.written, self.listed = 0, [], []
        self.pipe = None

    def write(self, passed):
        """What is due after so many seconds."""
        due = min(int(passed * self.rate), len(self.data))
        while self.at < due:
            self.at += os.write(self.pipe, self.data[self.at : min(due, self.at + 65536)])
        while len(self.written) < len(self.ends) and self.ends[len(self.written)] <= self.at:
            self.written.append(time.monotonic())
        return self.at == len(self.data)

    def look(self, folder):
        """Notes the segments that the playlist has now and hadn't before."""
        with contextlib.suppress(FileNotFoundError):
            count = (folder / f"{self.name}.m3u8").read_text().count("\n#EXTINF:")
            self.listed += [time.monotonic()] * (count - len(self.listed))


def ends_of_segments(data):
    """Where the last packet of each segment ends that another one follows."""
    options = wanted.read_options(["--codecs=c", "--size=1x1", f"--keys={KEY}", *CUTS])
    at = 0
    for segment in list(segments.segments(data, options))[:-1]:
        at = data.index(segment.packets[-1].data, at) + segments.SIZE
        yield at


def encode(folder, seconds):
    """A file for each rate, filled up to it with null packets."""
    source = f"testsrc2=size=320x180:rate=25:duration={seconds},noise=alls=40:allf=t"
    command = ["ffmpeg", "-nostdin", "-v", "error", "-y", "-f", "lavfi", "-i", source]
    for name, rate in RATES.items():
        kilobits = f"{rate * 7 // 10000}k"
        command += ["-map", "0", "-c:v", "libx264", "-preset", "ultrafast", "-g", "25", "-keyint_min", "25", "-sc_threshold", "0"]
        command += ["-b:v", kilobits, "-maxrate", kilobits, "-bufsize", kilobits, "-muxrate", str(rate), str(folder / f"{name}.ts")]
    subprocess.run(command, check=True)


def run(program, folder, names, options, seconds):
    """Packs the streams of these names while they are written; each as it was seen."""
    out = folder / "packed"
    out.mkdir()
    lives = [Live(name, folder / f"{name}.ts", seconds) for name in names]
    entries = []
    for name in names:
        os.mkfifo(folder / name)
        entries.append(f"{name}:avc1.42c01e:320x180:{KEY}:{folder / name}")
    process = subprocess.Popen([program, "pack", "--out", out, *CUTS, *options, *entries], stdout=subprocess.DEVNULL)
    for live in lives:
        live.pipe = os.open(folder / live.name, os.O_WRONLY)
    write_and_watch(lives, out)
    for live in lives:
        os.close(live.pipe)
        (folder / live.name).unlink()
    if process.wait() != 0:
        sys.exit(f"the program ended with status {process.returncode}")
    shutil.rmtree(out)
    return lives


def write_and_watch(lives, out):
    begin = due = time.monotonic()
    has_ended = False
    while not has_ended:
        if time.monotonic() >= due:
            has_ended = all([live.write(due - begin) for live in lives])
            due += TICK
        for live in lives:
            live.look(out)
        time.sleep(LOOK)


def main():
    program, seconds = os.path.realpath(sys.argv[1]), int(sys.argv[2]) if len(sys.argv) > 2 else SECONDS
    with tempfile.TemporaryDirectory() as name:
        folder = pathlib.Path(name)
        encode(folder, seconds)
        for names in (["high"], ["high", "mid", "low"]):
            for options in (["--batch=1"], []):
                lives = run(program, folder, names, options, seconds)
                delays = [listed - written for live in lives for listed, written in zip(live.listed, live.written)]
                late = sum(len(live.ends) - len(live.listed) for live in lives)
                what = f"{len(names)} rendition{'s' * (len(names) > 1)}, {options[0] if options else 'no --batch'}"
                found = f"median {statistics.median(delays):.3f} s, worst {max(delays):.3f} s"
                print(f"{what}: {found}, of {len(delays)} segments; {late} more when the input had ended", flush=True)


main()
