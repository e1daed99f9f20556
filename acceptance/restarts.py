"""Kills `pack --resume` and runs it again in the same folder: restarts.py PROGRAM LIBRARY COUNT [SEED].

So many seeds are played, from SEED on, which is 1 where none is given. Each is a random ladder whose runs are killed, at a random
one of their calls on the folder (LIBRARY is stop_at_call.c), and resumed with other input, other workers and at times another
window, up to RUNS times; the last run isn't killed. After each run what lies in the folder is compared with the rules as they
are written: all playlists byte for byte, over all rows of all runs; each segment that was ever in place is the one of its
number, so that no key and vector sealed two texts; and what doesn't go on is refused, with the folder as it was.
"""

import collections
import os
import random
import subprocess

import fuzz_wanted
import playlists
import seeds
import segments
import wanted
from fuzz_cut_short import read, text
from fuzz_ladders import random_ladder, random_pool
from fuzz_streams import stream

RUNS = 10


def rows_of(data, options, first):
    """The rows and the sealed bytes of a run that begins at a number. A fault of the stream ends them."""
    rows, bytes_sealed = [], []
    try:
        for row, one in wanted.sealed_rows(data, options, first):
            rows.append(row)
            bytes_sealed.append(one)
    except segments.Fault:
        pass
    return rows, bytes_sealed


def drawn(seed):
    """A random ladder whose runs come to their end, and the generator that drew it."""
    for tried in range(1000):
        chance = random.Random(1000 * seed + tried)
        ladder = random_ladder(chance)
        for entry in ladder.entries:
            entry.kind = "file"
        if not fuzz_wanted.refusal_of_pack(ladder) and all(rows_of(entry.data, fuzz_wanted.options_of(ladder, entry), 0)[0] for entry in ladder.entries):
            return ladder, chance
    raise ValueError(f"no ladder of seed {seed} packs")


class Rendition:
    """A rendition over all of its runs: the rows that players see, and the bytes of their segments."""

    def __init__(self, entry):
        self.entry, self.rows, self.bytes, self.behind, self.ended = entry, [], [], 0, False
        # The first row that is listed, the options of the run that last wrote a playlist, and how many rows there were when it began.
        self.first, self.wrote, self.began = 0, None, 0
        self.before = {playlists.media: {}, playlists.iframes: {}}

    def breaks(self):
        return self.behind + sum(row.discontinuity for row in self.rows)

    def begin(self, ladder, most):
        """The next run begins: what it is to make of the input that its entry has now. Whether it begins its list anew."""
        self.options = fuzz_wanted.options_of(ladder, self.entry)
        if not self.rows:
            self.behind = 0 if most is None else most + 1
        self.options.known, self.options.behind = self.first, self.behind
        anew = self.rows and self.breaks() < most
        if anew:
            self.options.known, self.options.behind = len(self.rows), self.behind + most - self.breaks()
        self.new, self.new_bytes = rows_of(self.entry.data, self.options, len(self.rows))
        return bool(anew)

    def end(self, folder):
        """The run is over: how many segments it came to, one that a kill left unlisted among them. What is wrong."""
        name, all_rows, all_bytes, old = self.entry.name, self.rows + self.new, self.bytes + self.new_bytes, len(self.rows)
        wrong = [
            f"{file.name} isn't the segment"
            for number, file in numbered(folder, name)
            if number >= len(all_rows) or read(file) != all_bytes[number]
        ]
        media, frames = read(folder / f"{name}.m3u8"), read(folder / f"{name}.iframes.m3u8")
        listed = self.count(media, playlists.media, all_rows, old)
        own = self.count(frames, playlists.iframes, all_rows, old)
        if listed is None or own is None or own not in (listed - 1, listed):
            return wrong + [f"the playlists of {name} are of {listed} and {own} segments, behind {old}"]
        self.ended = media is not None and media.endswith(b"#EXT-X-ENDLIST\n")
        count = own + (folder / f"{name}.{own}.ts").is_file()
        self.rows, self.bytes = all_rows[:count], all_bytes[:count]
        if count > old:
            self.first, self.wrote = playlists.first_listed(self.rows, self.options), self.options
            self.began, self.behind = old, self.options.behind
        lost = [row.number for row in self.rows[self.first :] if not (folder / f"{name}.{row.number}.ts").is_file()]
        return wrong + [f"segment {number} of {name} isn't there" for number in lost]

    def count(self, found, make, rows, old):
        """Of how many rows a playlist is; None where it is of none. The run before wrote it, if this one placed none yet."""
        if found is None or found in self.before[make]:
            return self.before[make].get(found, 0)
        for count in range(max(1, old), len(rows) + 1):
            for ended in (False, True):
                if found == text(make(rows[:count], self.options, ended)):
                    return count
        return None

    def keep(self):
        """What its playlists may be until the next run has written its own: of all rows, or of all but one that a kill left unlisted."""
        last = len(self.rows)
        counts = range(max(self.began + 1, last - 1), last + 1) if self.rows else ()
        for make, before in self.before.items():
            # the one before the first row of a run is of the run before
            older = {it: count for it, count in before.items() if last - 1 == self.began == count}
            self.before[make] = older | {text(make(self.rows[:count], self.wrote, False)): count for count in counts}


def numbered(folder, name):
    """The segments of a rendition that are in place."""
    for file in folder.iterdir():
        front, _, back = file.name.removesuffix(".ts").rpartition(".")
        if front == name and file.name.endswith(".ts") and back.isdigit():
            yield int(back), file


def refusal(renditions, event):
    """What is told of a ladder that doesn't go on; None where it does."""
    for r, one in enumerate(renditions):
        if one.ended:
            return f"Ended {r}"
    for r, one in enumerate(renditions if event else ()):
        for other in renditions[:r]:
            if bool(one.rows) != bool(other.rows) or one.rows and one.breaks() != other.breaks():
                return f"Uneven {r}"
    return None


class Restarts:
    """A ladder that is killed and resumed."""

    def __init__(self, program, library, seed, base):
        self.program, self.library, self.base = program, library, base
        self.folder, self.wrong, self.told = base / "out", [], collections.Counter()
        self.folder.mkdir()
        self.ladder, self.chance = drawn(seed)
        self.renditions = [Rendition(entry) for entry in self.ladder.entries]

    def words(self):
        for number, one in enumerate(self.renditions):
            (self.base / f"{number}.ts").write_bytes(one.entry.data)
        texts = [one.entry.text(self.base / f"{number}.ts") for number, one in enumerate(self.renditions)]
        syncs = ["--sync"] * (self.chance.random() < 0.2)
        return ["pack", "--resume", f"--out={self.folder}", *self.ladder.words(), *self.ladder.pool_words(), *syncs, *texts]

    def run(self, at):
        """Runs it, killed at a call if one is told: status and standard error."""
        env = {**os.environ, "LD_PRELOAD": self.library, "FOLDER": str(self.folder), "MADE": str(self.base / "made"), "HOW": "kill", "AT": str(at)}
        done = subprocess.run([self.program, *self.words()], env=env, capture_output=True, timeout=60)
        return done.returncode, done.stderr.decode()

    def draw(self):
        """Other input for the next run, other workers, and at times another window."""
        for one in self.renditions:
            one.entry.data = stream(self.chance, self.ladder.shape)
        self.ladder.pool = random_pool(self.chance)
        while not fuzz_wanted.are_in_range(self.ladder.pool):
            self.ladder.pool = random_pool(self.chance)
        if self.chance.random() < 0.3:
            self.ladder.numbers["window"] = self.chance.choice((1, 2, 3, 5, 9))

    def refused(self, why, at):
        """The run is refused, and no segment is changed."""
        before = {file.name: file.read_bytes() for file in self.folder.iterdir() if not file.name.startswith(".")}
        status, error = self.run(0)
        after = {file.name: file.read_bytes() for file in self.folder.iterdir() if not file.name.startswith(".")}
        if (status, error) != (1, f"tshls: {why}\n"):
            self.wrong.append(f"run {at}: status {status}, {error!r} in place of {why}")
        elif any(after.get(name) != bytes_then for name, bytes_then in before.items() if name.endswith(".ts")):
            self.wrong.append(f"run {at}: a refused run changed segments")
        self.told[why.split()[0]] += 1

    def play(self):
        last = self.chance.randint(1, RUNS)
        for number in range(last + 1):
            most = max((one.breaks() for one in self.renditions if one.rows), default=None)
            if number:
                self.draw()
                for one in self.renditions:
                    one.keep()
                why = refusal(self.renditions, self.ladder.event)
                if why:
                    self.refused(why, number)
                    return self
            self.told["anew"] += sum([one.begin(self.ladder, most) for one in self.renditions])
            at = 0 if number == last else self.chance.randint(1, 24 * sum(len(one.new) for one in self.renditions) + 8)
            status, error = self.run(at)
            self.told["killed" if status == -9 else "ended"] += 1
            if status != -9 and status not in (0, 1):
                self.wrong.append(f"run {number}: status {status}, {error!r}")
            for one in self.renditions:
                self.wrong += [f"run {number} of {last}, killed at call {at}: {wrong}" for wrong in one.end(self.folder)]
            if status == 0:
                self.look_at_master()
            if self.wrong or status != -9:
                return self
        return self

    def look_at_master(self):
        """A run came to its end: the master playlist has the rates of all known rows."""
        packed = [(one.rows, one.options) for one in self.renditions]
        if read(self.folder / "master.m3u8") != text(playlists.master(packed)):
            self.wrong.append("the master playlist is another")


seeds.play_all(Restarts)
