#!/usr/bin/env python3
"""bench/syncing.py PROGRAM FOLDER [SEGMENTS]: what --sync costs on the disk of FOLDER.

Packs so many segments of 2 s and 1.5 MB (100 where none is given), with --sync and without in turn, three times each, and prints
the time of a segment, beside a program that writes and syncs as much: four files a segment, each synced as it is written, and
the folder five times.
"""

import os
import pathlib
import shutil
import statistics
import subprocess
import sys
import tempfile
import time

from measuring import KEY, timed

ROUNDS = 3
SIZE = 1_500_000


def stream(file, segments):
    """A stream of a live rate, with a key frame every two seconds."""
    picture = f"testsrc2=size=1280x720:rate=25:duration={2 * segments},noise=alls=30:allf=t"
    rate = [f"{part}=6M" for part in ("-b:v", "-minrate", "-maxrate")] + ["-bufsize=6M"]
    words = ["ffmpeg", "-nostdin", "-v", "error", "-y", "-f", "lavfi", "-i", picture, "-c:v", "libx264", "-preset", "ultrafast"]
    words += [part for it in rate for part in it.split("=")] + ["-g", "50", "-keyint_min", "50", "-sc_threshold", "0", "-f", "mpegts"]
    subprocess.run([*words, str(file)], check=True)


def pack(program, folder, file, *options):
    out = folder / "packed"
    shutil.rmtree(out, ignore_errors=True)
    out.mkdir()
    entry = f"v:avc1.64001f:1280x720:{KEY}:{file}"
    return timed([program, "pack", "--out", str(out), "--target", "2", "--batch", "1", *options, entry]).wall


def write_and_sync(folder, segments):
    """As many files and syncs, one after another."""
    begin = time.perf_counter()
    at = os.open(folder, os.O_RDONLY)
    for number in range(segments):
        for name, size in ((f"{number}.ts", SIZE), ("media", 1000), ("frames", 1000), ("master", 500)):
            with open(folder / name, "wb") as file:
                file.write(bytes(size))
                file.flush()
                os.fsync(file.fileno())
        for _ in range(5):
            os.fsync(at)
    os.close(at)
    return time.perf_counter() - begin


def main():
    program, segments = os.path.realpath(sys.argv[1]), int(sys.argv[3]) if len(sys.argv) > 3 else 100
    with tempfile.TemporaryDirectory(dir=sys.argv[2]) as name:
        folder = pathlib.Path(name)
        file = folder / "in.ts"
        stream(file, segments)
        runs = {"without --sync": [], "with --sync": [], "as many files and syncs": []}
        for _ in range(ROUNDS):
            runs["without --sync"].append(pack(program, folder, file))
            runs["with --sync"].append(pack(program, folder, file, "--sync"))
            runs["as many files and syncs"].append(write_and_sync(folder, segments))
        print(f"{segments} segments, {file.stat().st_size / 1e6:.0f} MB, medians of {ROUNDS}")
        for what, seconds in runs.items():
            print(f"    {what}: {1000 * statistics.median(seconds) / segments:.1f} ms a segment")


main()
