#!/usr/bin/env python3
"""soak.py PROGRAM FOLDER [HOURS]: a live ladder of three for 30 hours of stream, past the wrap of time stamps, as fast as it goes.

Each input comes through a FIFO, in pieces that stop at times. What is left has to be what the same streams leave as files, and the
memory of the packager at the end about what it was after a tenth of the run. Prints both, and how long it took.
"""

import filecmp
import pathlib
import random
import subprocess
import sys
import threading
import time

from standard_stream import every, stream

KEY = "000102030405060708090a0b0c0d0e0f"
NAMES = "abc"
STEP = 2 * 90_000
OPTIONS = ("--target", "6", "--window", "6")


def entries(paths):
    return [f"{name}:c:1x1:{KEY}:{path}" for name, path in zip(NAMES, paths)]


def feed(path, data, seed):
    chance = random.Random(seed)
    with open(path, "wb", buffering=0) as fifo:
        at = 0
        while at < len(data):
            size = chance.randint(1, 60_000)
            fifo.write(data[at : at + size])
            at += size
            if chance.random() < 0.02:
                time.sleep(chance.uniform(0, 0.02))


def memory(process):
    """Resident KiB, 0 once it has ended."""
    try:
        for line in pathlib.Path(f"/proc/{process.pid}/status").read_text().splitlines():
            if line.startswith("VmRSS:"):
                return int(line.split()[1])
    except OSError:
        pass
    return 0


def watched(command, out, count):
    """Runs it, and returns its memory after a tenth of the segments, and the most behind that."""
    process = subprocess.Popen(command, stdout=subprocess.DEVNULL)
    early = late = 0
    while process.poll() is None:
        if early:
            late = max(late, memory(process))
        elif (out / f"a.{count // 10}.ts").exists():
            early = memory(process)
        time.sleep(0.05)
    if process.returncode:
        sys.exit(f"status {process.returncode}")
    return early, late


def main():
    program, folder = sys.argv[1], pathlib.Path(sys.argv[2])
    hours = float(sys.argv[3]) if len(sys.argv) > 3 else 30
    frames = int(hours * 1800)
    data = stream(*every(STEP, frames, 90_000))
    for name in ("live", "files"):
        (folder / name).mkdir()
    paths = [folder / f"{name}.ts" for name in NAMES]
    for path in paths:
        path.write_bytes(data)
    subprocess.run([program, "pack", "--out", folder / "files", *OPTIONS, *entries(paths)], check=True, stdout=subprocess.DEVNULL)
    for path in paths:
        path.unlink()
        subprocess.run(["mkfifo", path], check=True)
    writers = [threading.Thread(target=feed, args=(path, data, seed)) for seed, path in enumerate(paths)]
    begin = time.monotonic()
    for writer in writers:
        writer.start()
    early, late = watched([program, "pack", "--out", folder / "live", *OPTIONS, *entries(paths)], folder / "live", frames // 3)
    for writer in writers:
        writer.join()
    names = sorted(path.name for path in (folder / "files").iterdir())
    if names != sorted(path.name for path in (folder / "live").iterdir()):
        sys.exit("other files")
    _, differ, lost = filecmp.cmpfiles(folder / "files", folder / "live", names, shallow=False)
    if differ or lost:
        sys.exit(f"differ: {(differ + lost)[:3]}")
    print(f"{len(names)} files in {time.monotonic() - begin:.0f} s, {early} KiB after a tenth, at most {late} behind that")
    if late > 1.25 * early:
        sys.exit("memory grows")


if __name__ == "__main__":
    main()
