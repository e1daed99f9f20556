#!/usr/bin/env python3
"""removals.py PROGRAM LIBRARY FOLDER [HOURS]: a live ladder of two whose old segments go, an hour of stream as fast as it comes.

Runs that go on behind one another: the first one keeps all, the others have --remove. LIBRARY (log_moves.c) tells each file that
was renamed or removed, in order, and behind each of them the folder is looked at: no segment is missing that a playlist of segments
or of I-frames lists, none went before its own duration and that of the longest playlist that listed it had passed since it left
(RFC 8216, 6.2.2), and no more is kept than the rule needs. Time stamps pass their wrap.
"""

import os
import pathlib
import re
import resource
import subprocess
import sys

from standard_stream import every, stream

KEY = "000102030405060708090a0b0c0d0e0f"
NAMES = "ab"
STEP = 2 * 90_000
WRAP = 1 << 33
OPTIONS = ["--target", "6", "--window"]
RUNS = (["6"], ["6", "--resume", "--remove"], ["9", "--resume", "--remove"], ["6", "--resume", "--remove"])


def cut_off(frames, begin):
    """A stream of key frames, whose last segment would last too long: so its playlists don't end."""
    times = [time % WRAP for time in every(STEP, frames, begin)]
    return stream(*times, (times[-1] + 8 * 90_000) % WRAP)


def pack(program, library, folder, more):
    """Packs the same stream as both renditions, and returns the moves of the run, each with the file that it placed."""
    moves = folder / "moves"
    for old in folder.glob("moves*"):
        old.unlink()
    env = {**os.environ, "LD_PRELOAD": library, "FOLDER": str(folder / "out"), "MOVES": str(moves)}
    entries = [f"{name}:c:1x1:{KEY}:{folder / 'in.ts'}" for name in NAMES]
    done = subprocess.run([program, "pack", "--out", folder / "out", *OPTIONS, *more, *entries], env=env, capture_output=True)
    if done.returncode != 1 or not all(re.fullmatch(r"tshls: LongSegment \d \d+", line) for line in done.stderr.decode().splitlines()):
        sys.exit(f"{more}: status {done.returncode}, {done.stderr.decode()}")
    for line in moves.read_text().splitlines():
        what, name, number = line.split()
        yield what, name, folder / f"moves.{number}"


class Watch:
    """A rendition, move by move, in the microseconds of its stream."""

    def __init__(self, name):
        self.name, self.there, self.listed, self.now, self.wrong = name, set(), range(0), 0, []
        self.framed = set()  # the segments that the I-frame playlist lists
        # for each segment how long it is, how long the longest playlist was that listed it, and when it left
        self.lasts, self.longest, self.left, self.kept = {}, {}, {}, 0

    def lists(self, text):
        """A playlist is in place."""
        first = int(re.search(r"^#EXT-X-MEDIA-SEQUENCE:(\d+)$", text, re.M)[1])
        lasts = [round(float(it) * 1_000_000) for it in re.findall(r"^#EXTINF:([\d.]+),$", text, re.M)]
        numbers = range(first, first + len(lasts))
        if numbers.stop > self.listed.stop:
            self.now += lasts[-1]
        self.lasts.update(zip(numbers, lasts))
        for number in numbers:
            self.longest[number] = max(self.longest.get(number, 0), sum(lasts))
        for number in range(self.listed.start, first):
            self.left[number] = self.now
        self.listed = numbers

    def went(self, number):
        """A segment was removed."""
        self.there.discard(number)
        if number in self.listed or number in self.framed:
            self.wrong.append(f"{self.name}.{number} went, and it is listed")
            return
        since, least = self.now - self.left[number], self.lasts[number] + self.longest[number]
        if since < least:
            self.wrong.append(f"{self.name}.{number} went {since} us after it left, and not {least}")

    def look(self):
        self.wrong += [f"{self.name}.{number} is listed, and isn't there" for number in {*self.listed, *self.framed} - self.there]

    def move(self, what, rest, file):
        if what == "rename" and rest == "m3u8":
            self.lists(file.read_text())
            self.look()
        elif what == "rename" and rest == "iframes.m3u8":
            self.framed = {int(it) for it in re.findall(rf"^{self.name}\.(\d+)\.ts$", file.read_text(), re.M)}
            self.look()
        elif rest.endswith(".ts") and rest[:-3].isdigit():
            number = int(rest[:-3])
            if what == "rename":
                self.there.add(number)
            else:
                self.went(number)
                self.look()


def main():
    program, library, folder = os.path.realpath(sys.argv[1]), os.path.realpath(sys.argv[2]), pathlib.Path(sys.argv[3])
    hours = float(sys.argv[4]) if len(sys.argv) > 4 else 1
    frames = int(hours * 1800)
    (folder / "out").mkdir()
    watches = [Watch(name) for name in NAMES]
    for number, more in enumerate(RUNS):
        begin = WRAP - STEP * frames // 2 if number == 1 else 0
        (folder / "in.ts").write_bytes(cut_off(frames // (4 if number != 1 else 1), begin))
        moves = list(pack(program, library, folder, more))
        for watch in watches:
            removed = 0
            for what, name, file in moves:
                if name.startswith(f"{watch.name}."):
                    watch.move(what, name[2:], file)
                    removed += what == "unlink" and name.endswith(".ts")
            real = {int(it.name[2:-3]) for it in (folder / "out").glob(f"{watch.name}.*.ts")}
            if real != watch.there:
                watch.wrong.append(f"other segments are there than were moved: {sorted(real ^ watch.there)[:5]}")
            kept, longest, row = sum(map(watch.lasts.get, watch.there)), max(watch.longest.values()), max(watch.lasts.values())
            if number and kept > 3 * longest + 4 * row:
                watch.wrong.append(f"run {number}: {kept} us are kept, where a playlist lasts {longest} at the most")
            if not watch.framed:
                watch.wrong.append("no I-frame playlist was seen")
            if not number and removed:
                watch.wrong.append(f"{removed} segments went without --remove")
            if number and not removed:
                watch.wrong.append(f"run {number}: no segment went")
            if watch.wrong:
                sys.exit("; ".join(watch.wrong[:3]))
        print(f"run {number}: {len(watches[0].lasts)} segments so far, {len(watches[0].there)} are there")
    print(f"at most {resource.getrusage(resource.RUSAGE_CHILDREN).ru_maxrss} KiB")


if __name__ == "__main__":
    main()
