"""Runs a program on random ladders, and compares what it does with the rules as they are written: fuzz.py PROGRAM COUNT [SEED [pauses]].

So many seeds are played, from SEED on, which is 1 where none is given: `one` of each stream, `pack` of all of them, and `check`
of what lies in the folder then; at times `pack` is run again and killed, or a file is refused. Streams come through pipes in
random pieces. With `pauses` behind SEED all streams of `pack` come through FIFOs, whose writers pause at random. Where something
differs, the inputs are kept.
"""

import collections
import os
import pathlib
import random
import shlex
import shutil
import subprocess
import sys
import tempfile
import time

import fuzz_check
import fuzz_cut_short
import fuzz_pipes
import fuzz_wanted
import tables
from fuzz_ladders import random_ladder

SECONDS = 60
# The latest moment to kill a run, in seconds.
LATEST = 0.02


def difference(found, right):
    """From where on the bytes differ; None stands for no file."""
    if found is None or right is None:
        return "isn't there" if found is None else "is there"
    at = next((i for i, (a, b) in enumerate(zip(found, right)) if a != b), min(len(found), len(right)))
    return f"from byte {at} on {found[at : at + 60]} in place of {right[at : at + 60]}"


def has_all(folder, wanted):
    return set(os.listdir(folder)) == set(os.listdir(wanted))


class Game:
    """A seed: its ladder, a folder for what is made of it, and what differs."""

    def __init__(self, program, seed, folder, has_pauses):
        self.program, self.seed, self.folder, self.has_pauses = program, seed, folder, has_pauses
        self.chance = random.Random(seed)
        self.ladder = random_ladder(self.chance)
        self.told, self.differences = collections.Counter(), []
        self.segments = self.most = 0

    def differs(self, what, words):
        self.differences.append(f"{what}: {shlex.join(map(str, words))}")

    def judge(self, words, answer, stdin=subprocess.DEVNULL, limit=()):
        """Runs the program, behind the words of a command that limits it, and compares its answer."""
        self.told[f"{words[0]} {answer.tells()}"] += 1
        # Where files are limited the signal that tells it stays ignored, as Python has it.
        how = {"stdin": stdin, "stdout": subprocess.PIPE, "stderr": subprocess.PIPE, "restore_signals": not limit}
        with subprocess.Popen([*limit, self.program, *words], **how) as process:
            if stdin != subprocess.DEVNULL:
                os.close(stdin)
            try:
                output, fault = process.communicate(timeout=SECONDS)
            except subprocess.TimeoutExpired:
                process.kill()
                self.differs(f"no end in {SECONDS} seconds", words)
                return
        if process.returncode != answer.status:
            self.differs(f"status {process.returncode} in place of {answer.status}", words)
        if not answer.is_told(fault.decode(errors="replace")):
            self.differs(f"standard error {fault[:200]} in place of {answer.fault!r}", words)
        if output != answer.output:
            self.differs(f"standard output {difference(output, answer.output)}", words)

    def play_one(self, entry):
        read_end, feeder = fuzz_pipes.pipe_of(self.chance, entry.data)
        self.judge(["one", *self.ladder.words(), *entry.words()], fuzz_wanted.one(self.ladder, entry), read_end)
        feeder.join()

    def lay(self, number, entry):
        """Where the stream of an entry is, and the thread that feeds it where it is a FIFO."""
        path = self.folder / f"{number}.ts"
        if entry.kind == "file" and not self.has_pauses:
            path.write_bytes(entry.data)
        elif entry.kind == "folder":
            path.mkdir(exist_ok=True)
        elif entry.kind in ("file", "fifo"):
            return path, fuzz_pipes.fifo_of(path, self.chance, entry.data, self.has_pauses)
        return path, None

    def pack_words(self, folder):
        """The words of `pack`, with its streams laid down, and the FIFOs among them with their feeders."""
        laid = [self.lay(number, entry) for number, entry in enumerate(self.ladder.entries)]
        texts = [entry.text(path) for entry, (path, _) in zip(self.ladder.entries, laid)]
        fifos = [(path, feeder) for path, feeder in laid if feeder]
        return ["pack", f"--out={folder}", *self.ladder.words(), *self.ladder.pool_words(), *texts], fifos

    def play_pack(self):
        packed, wanted = self.folder / "packed", self.folder / "wanted"
        packed.mkdir()
        wanted.mkdir()
        answer, renditions = fuzz_wanted.pack(self.ladder, wanted)
        words, fifos = self.pack_words(packed)
        self.judge(words, answer)
        fuzz_pipes.end(fifos)
        self.compare(packed, wanted, words)
        if renditions and self.chance.random() < 0.3:
            self.chance.choice((self.play_killed, self.play_refused))(wanted, renditions, answer.fault)
        for rows, options in renditions:
            self.segments += len(rows)
            self.most = max(self.most, len(rows))
            if not self.differences:
                self.judge(*fuzz_check.asked(self.chance, packed, rows, options))

    def play_killed(self, wanted, renditions, _told):
        killed = self.folder / "killed"
        killed.mkdir()
        words, fifos = self.pack_words(killed)
        process = subprocess.Popen([self.program, *words], stdout=subprocess.DEVNULL, stderr=subprocess.DEVNULL)
        time.sleep(self.chance.random() * LATEST)
        process.kill()
        process.wait()
        fuzz_pipes.end(fifos)
        self.told[f"killed with {'all' if has_all(killed, wanted) else 'some' if os.listdir(killed) else 'no'} files"] += 1
        for wrong in fuzz_cut_short.faults(killed, wanted, renditions):
            self.differs(f"killed, {wrong}", words)

    def play_refused(self, wanted, renditions, told):
        """The files may not be as long as one of the segments. Before that faults of streams may have been told."""
        refused = self.folder / "refused"
        refused.mkdir()
        words, fifos = self.pack_words(refused)
        longest = self.chance.choice([row.size for rows, _ in renditions for row in rows]) - 1
        answer = fuzz_wanted.refusal(1, "Outlet")._replace(before=told)
        self.judge(words, answer, limit=("prlimit", f"--fsize={longest}"))
        fuzz_pipes.end(fifos)
        begun = [f"{name} is there" for name in os.listdir(refused) if name.startswith(".")]
        for wrong in begun + fuzz_cut_short.faults(refused, wanted, renditions):
            self.differs(f"refused, {wrong}", words)

    def compare(self, packed, wanted, words):
        for name in sorted({*os.listdir(packed), *os.listdir(wanted)}):
            found, right = ((folder / name).read_bytes() if (folder / name).is_file() else None for folder in (packed, wanted))
            if found != right:
                self.differs(f"{name} {difference(found, right)}", words)

    def play(self):
        for entry in self.ladder.entries:
            self.play_one(entry)
        self.play_pack()
        tables.crc.cache_clear()
        tables.read_pmt.cache_clear()

    def keep(self):
        """A folder with the streams, and with what was packed and what was wanted."""
        kept = pathlib.Path(tempfile.mkdtemp(prefix=f"tshls_fuzz_{self.seed}_"))
        for number, entry in enumerate(self.ladder.entries):
            (kept / f"{number}.in").write_bytes(entry.data)
        for name in ("packed", "killed", "refused", "wanted"):
            if (self.folder / name).exists():
                shutil.copytree(self.folder / name, kept / name)
        return kept


def played(program, seed, has_pauses):
    base = "/dev/shm" if os.access("/dev/shm", os.W_OK) else None
    with tempfile.TemporaryDirectory(dir=base) as folder:
        game = Game(program, seed, pathlib.Path(folder), has_pauses)
        game.play()
        if game.differences:
            again = f"{sys.argv[0]} {program} 1 {seed}" + " pauses" * has_pauses
            print(f"seed {seed}, again by {again}, inputs in {game.keep()}", *game.differences, sep="\n  ", flush=True)
    return game


def main():
    program, count = os.path.realpath(sys.argv[1]), int(sys.argv[2])
    begin = int(sys.argv[3]) if len(sys.argv) > 3 else 1
    told, wrong, segments, listing = collections.Counter(), 0, 0, 0
    for seed in range(begin, begin + count):
        game = played(program, seed, sys.argv[4:] == ["pauses"])
        told += game.told
        wrong += bool(game.differences)
        segments += game.segments
        listing += game.most >= 2
    print(", ".join(f"{what} {number}" for what, number in sorted(told.items())))
    faults = sum(number for what, number in told.items() if not what.split()[1].islower())
    state = f"{wrong} of them not as wanted" if wrong else "as wanted"
    print(f"{count} seeds, {listing} of two segments or more, {faults} faults told, {segments} segments: {state}")
    sys.exit(wrong > 0)


main()
