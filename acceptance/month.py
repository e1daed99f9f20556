#!/usr/bin/env python3
"""month.py PROGRAM FOLDER [DAYS]: a channel's month, as fast as it goes: 30 days of a ladder of two, or as many as are given, two at least.

Segments of 6 s under four keys in turn come through FIFOs; they are removed in time, and metrics are written. Halfway the packager is
killed, and the next one goes on. For each day of stream it prints the memory, the open files and the processor time of the packager,
and how many files the folder has: of a run of six days or more, neither memory nor files may grow from the third day on. At the end
each segment has been listed once, in sequence, what is listed opens, metrics count what was listed, and the folder has nothing else.
"""

import os
import pathlib
import re
import signal
import subprocess
import sys
import threading
import time

from standard_stream import every, stream

KEYS = [bytes([n]) * 16 for n in range(4)]
NAMES = "ab"
DAY = 14_400
TICKS = 6 * 90_000
OPTIONS = ["--target", "6", "--window", "6", "--period", "600", "--salt", "ab" * 16, "--ahead", "1", "--remove", "--resume"]
# What the folder has of a rendition besides its key files: what is listed, what a player may still want, two playlists.
MOST_FILES = 2 * 6 + 8 + 2
# How much more the second half of a run may have than the first. The pages of the rings between threads are touched one by one.
GROWTH = 1.25


def feed(path, days, left):
    """Writes so many days to a FIFO, from one day on, until its reader is gone."""
    try:
        with open(path, "wb", buffering=0) as fifo:
            for day in days:
                data = stream(*every(TICKS // 3, 3 * DAY, 90_000 + day * DAY * TICKS))
                at = 0
                while at < len(data):
                    at += fifo.write(data[at : at + 65536])
                left[path] = day + 1
    except BrokenPipeError:
        pass


def number(text, tag):
    return int(re.search(f"^{tag}:?([0-9]+)", text, re.M)[1])


def listed(playlist):
    """The numbers of the first segment that a playlist lists, and of the one behind the last."""
    text = playlist.read_text()
    first = number(text, "#EXT-X-MEDIA-SEQUENCE")
    return first, first + text.count("\n#EXTINF:")


def metric(text, name, rendition=None):
    label = f'\\{{.*rendition="{rendition}".*\\}}' if rendition else ""
    return int(float(re.search(f"^{name}{label} ([0-9.e+]+)$", text, re.M)[1]))


class Channel:
    def __init__(self, program, folder):
        self.program, self.folder, self.hls = program, folder, folder / "hls"
        self.hls.mkdir()
        for name in NAMES:
            os.mkfifo(folder / f"{name}.ts")
            for at, key in enumerate(KEYS):
                (self.hls / f"{name}.{at}.key").write_bytes(key)

    def entry(self, name):
        keys = "+".join(f"@{self.hls}/{name}.{at}.key" for at in range(len(KEYS)))
        return f"{name}:avc1.4d401e:320x180:{keys}:{self.folder}/{name}.ts"

    def begin(self, days):
        self.left = {}
        command = [self.program, "pack", "--out", self.hls, "--metrics", self.folder / "tshls.prom", *OPTIONS, *map(self.entry, NAMES)]
        self.process = subprocess.Popen(command, stdout=subprocess.DEVNULL)
        self.feeding = [threading.Thread(target=feed, args=(f"{self.folder}/{name}.ts", days, self.left), daemon=True) for name in NAMES]
        for it in self.feeding:
            it.start()

    def look(self):
        """Its memory in KiB, its open files, its processor time in seconds, and the files of the folder."""
        status = pathlib.Path(f"/proc/{self.process.pid}/status").read_text()
        spent = pathlib.Path(f"/proc/{self.process.pid}/stat").read_text().rpartition(")")[2].split()
        seconds = (int(spent[11]) + int(spent[12])) / os.sysconf("SC_CLK_TCK")
        open_files = len(os.listdir(f"/proc/{self.process.pid}/fd"))
        return number(status, "VmRSS:\\s*"), open_files, seconds, len(os.listdir(self.hls))

    def follow(self, days):
        """Prints what each day takes, until the last has been written, and returns the rows."""
        rows, before = [], 0.0
        for day in days:
            while min((self.left.get(f"{self.folder}/{name}.ts", 0) for name in NAMES)) <= day:
                if self.process.poll() is not None:
                    sys.exit(f"the packager ended with status {self.process.returncode} on day {day + 1}")
                time.sleep(0.01)
            memory, open_files, seconds, files = self.look()
            rows.append({"memory": memory, "files": open_files + files})
            print(f"day {day + 1}: {memory} KiB, {open_files} open files, {seconds - before:.2f} s of processors, {files} files", flush=True)
            before = seconds
        return rows

    def kill(self):
        self.process.send_signal(signal.SIGKILL)
        self.process.wait()
        self.join()

    def end(self):
        self.join()
        if self.process.wait():
            sys.exit(f"the packager ended with status {self.process.returncode}")

    def join(self):
        for it in self.feeding:
            it.join()


def grown(days):
    """What grew from the third day on, the last days against the first ones."""
    days = days[2:]
    if len(days) < 4:
        return []
    half = len(days) // 2
    return [f"{it} grow" for it in ("memory", "files") if max(day[it] for day in days[half:]) > GROWTH * max(day[it] for day in days[:half])]


def check(channel, begun):
    """What is there at the end of a run that began behind these segments."""
    wrong, told = [], (channel.folder / "tshls.prom").read_text()
    files = set(os.listdir(channel.hls)) - {"master.m3u8"} - {f"{name}.{at}.key" for name in NAMES for at in range(len(KEYS))}
    kept = 0
    for name in NAMES:
        first, behind = listed(channel.hls / f"{name}.m3u8")
        there = sorted(int(it.split(".")[1]) for it in files if re.fullmatch(f"{name}\\.[0-9]+\\.ts", it))
        kept += len(there)
        if behind - begun[name] != metric(told, "tshls_segments_total", name):
            wrong.append(f"{name}: {behind} behind {begun[name]}, and {metric(told, 'tshls_segments_total', name)} told")
        if there != list(range(there[0], behind)) or there[0] > first or len(there) + 2 > MOST_FILES:
            wrong.append(f"{name}: {len(there)} segments from {there[0]} on, where {first} to {behind - 1} are listed")
        files -= {f"{name}.m3u8", f"{name}.iframes.m3u8", *(f"{name}.{it}.ts" for it in there)}
        keys = "+".join(key.hex() for key in KEYS)
        ran = subprocess.run([channel.program, "check", "--keys", keys, channel.hls / f"{name}.m3u8"], stdout=subprocess.PIPE, text=True)
        if ran.returncode or not ran.stdout.startswith(f"ok {behind - first} "):
            wrong.append(f"{name}: {ran.stdout.strip()}")
    return wrong + [f"{it} is left" for it in sorted(files)]


def live(channel, days):
    """Lets it live for so many days, and returns what was wrong."""
    half, wrong, began = (days + 1) // 2, [], time.monotonic()
    channel.begin(range(half + 1))
    wrong += grown(channel.follow(range(half)))
    channel.kill()
    before = {name: listed(channel.hls / f"{name}.m3u8")[1] for name in NAMES}
    print(f"killed behind {', '.join(f'{name}.{before[name] - 1}' for name in NAMES)}", flush=True)
    channel.begin(range(half, days))
    wrong += grown(channel.follow(range(half, days)))
    channel.end()
    # a kill may cut off a block whose playlists the next run completes
    completed = {name: before[name] + (listed(channel.hls / f"{name}.m3u8")[1] - before[name] - (days - half) * DAY) for name in NAMES}
    if any(completed[name] - before[name] not in (0, 1) for name in NAMES):
        wrong.append(f"{before} before, {completed} completed")
    wrong += check(channel, completed)
    print(f"{days} days of two renditions in {time.monotonic() - began:.0f} s")
    return wrong


def main():
    if len(sys.argv) < 3:
        sys.exit(__doc__)
    program, folder = pathlib.Path(sys.argv[1]).resolve(), pathlib.Path(sys.argv[2])
    days = int(sys.argv[3]) if len(sys.argv) > 3 else 30
    if days < 2:
        sys.exit("two days at least: the packager is killed between them")
    channel = Channel(program, folder)
    try:
        wrong = live(channel, days)
    finally:
        channel.process.kill()
    if wrong:
        sys.exit("\n".join(wrong))


if __name__ == "__main__":
    main()
