"""Stops a program at each of its calls on a folder: stops.py PROGRAM LIBRARY COUNT [SEED].

So many seeds are played, from SEED on, which is 1 where none is given. Each is a random ladder that packs well. `pack` is run
with LIBRARY (stop_at_call.c) before it, and at one call after another it is killed, or the disk fills, or the folder is moved
away. Each time what lies in the folder is compared with the rules as they are written: whole files alone, each as it was to be
at some moment, and what is listed is there. A ladder with many calls is stopped at MOST of them.
"""

import collections
import os
import random
import subprocess

import fuzz_cut_short
import fuzz_wanted
import seeds
import tables
from fuzz_ladders import random_ladder

MOST = 8
HOWS = ("kill", "kill", "fill", "move")


def good_ladder(seed, wanted):
    """A random ladder that packs well, into the folder `wanted`; its rows and options, and the generator that drew it."""
    for tried in range(1000):
        chance = random.Random(1000 * seed + tried)
        ladder = random_ladder(chance)
        for entry in ladder.entries:
            entry.kind = "file"
        if fuzz_wanted.refusal_of_pack(ladder):
            continue
        answer, renditions = fuzz_wanted.pack(ladder, wanted)
        tables.crc.cache_clear()
        tables.read_pmt.cache_clear()
        if answer.status == 0 and renditions:
            return ladder, renditions, chance
        for file in wanted.iterdir():
            file.unlink()
    raise ValueError(f"no ladder of seed {seed} packs well")


class Stops:
    """A ladder that is packed again and again, and stopped."""

    def __init__(self, program, library, seed, base):
        self.program, self.library, self.base = program, library, base
        self.wanted, self.runs, self.wrong, self.told = base / "wanted", 0, [], collections.Counter()
        self.wanted.mkdir()
        ladder, self.renditions, self.chance = good_ladder(seed, self.wanted)
        self.words = [*ladder.words(), *ladder.pool_words(), *["--sync"] * (self.chance.random() < 0.5)]
        for number, entry in enumerate(ladder.entries):
            (base / f"{number}.ts").write_bytes(entry.data)
            self.words.append(entry.text(base / f"{number}.ts"))

    def run(self, **how):
        """Runs `pack` into a folder of its own: the folder, the status and standard error."""
        self.runs += 1
        folder = self.base / f"run{self.runs}"
        folder.mkdir()
        env = {**os.environ, "LD_PRELOAD": self.library, "FOLDER": str(folder), **how}
        done = subprocess.run([self.program, "pack", f"--out={folder}", *self.words], env=env, capture_output=True, timeout=60)
        moved = folder.with_name(folder.name + ".moved")
        return moved if moved.exists() else folder, done.returncode, done.stderr.decode()

    def calls(self):
        folder, status, error = self.run(MADE=str(self.base / "made"))
        if status or fuzz_cut_short.faults(folder, self.wanted, self.renditions):
            self.wrong.append(f"not stopped: status {status}, {error}")
        return int((self.base / "made").read_text())

    def stop(self, how, at):
        folder, status, error = self.run(HOW=how, AT=str(at))
        right = status == -9 if how == "kill" else (status, error) in ((1, "tshls: Outlet\n"), (0, ""))
        wrong = [] if right else [f"status {status}, {error}"]
        wrong += fuzz_cut_short.faults(folder, self.wanted, self.renditions)
        self.wrong += [f"{how} at call {at}: {it}" for it in wrong]
        self.told[how] += 1
        self.told["some files"] += any(not name.startswith(".") for name in os.listdir(folder))

    def play(self):
        calls = self.calls()
        for at in sorted(self.chance.sample(range(1, calls + 1), min(MOST, calls))):
            self.stop(self.chance.choice(HOWS), at)
        return self


seeds.play_all(Stops)
