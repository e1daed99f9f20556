#!/usr/bin/env python3
"""metrics.py PROGRAM LIBRARY FOLDER: the file of --metrics, while runs go on and behind them.

It is read every 50 ms and has to be whole each time, as the text format has it; no counter falls; and in the end it says what the
summary says. A file that can't be written is told once, and one that takes long to be written holds up no segment (LIBRARY is
slow_file.c). The last texts are left in FOLDER.
"""

import contextlib
import os
import pathlib
import re
import subprocess
import sys
import tempfile
import threading
import time

from standard_stream import every, stream
from tables import SIZE

KEY = "000102030405060708090a0b0c0d0e0f"
CUTS = ("--target", "1", "--segment", "1", "--window", "10000", "--workers", "2")
# The metrics, and whether they are counters.
METRICS = {
    "tshls_start_time_seconds": False,
    "tshls_waiting_segments": False,
    "tshls_removed_segments_total": True,
    "tshls_segments_total": True,
    "tshls_stream_seconds_total": True,
    "tshls_segment_bytes_total": True,
    "tshls_peak_bitrate": False,
    "tshls_average_bitrate": False,
    "tshls_read_ahead_bytes": False,
    "tshls_input_silent_seconds": False,
    "tshls_quiet_seconds": False,
    "tshls_ended": False,
    "tshls_fault": False,
}
SAMPLE = re.compile(r'([a-z_]+)(?:\{((?:[a-z]+="(?:[^"\\\n]|\\[\\"n])*",?)*)\})? (\d+(?:\.\d{6})?)')
LABEL = re.compile(r'([a-z]+)="((?:[^"\\]|\\.)*)"')
ESCAPES = {"\\\\": "\\", '\\"': '"', "\\n": "\n"}
TOLD = "tshls: Metrics\n"
# How long a slow file takes, and how late a segment may be listed meanwhile.
SLOW, LATE = 6, 3


class Wrong(Exception):
    """What isn't as it has to be."""


def hold(what, holds):
    if not holds:
        raise Wrong(what)


def samples_of(text):
    """{metric: {rendition: (value, fault)}} of a text, which has to be whole."""
    hold(f"the text is torn: {text[-80:]!r}", text.endswith("\n"))
    lines, found, place = text.split("\n")[:-1], {}, 0
    for metric, is_counter in METRICS.items():
        hold(f"no help of {metric}", place + 1 < len(lines) and lines[place].startswith(f"# HELP {metric} "))
        kind = "counter" if is_counter else "gauge"
        hold(f"{metric}: {lines[place + 1]}", lines[place + 1] == f"# TYPE {metric} {kind}")
        place += 2
        found[metric] = {}
        while place < len(lines) and not lines[place].startswith("#"):
            sample = SAMPLE.fullmatch(lines[place])
            hold(f"no sample of {metric}: {lines[place]}", sample and sample[1] == metric)
            labels = {name: re.sub(r"\\.", lambda e: ESCAPES[e[0]], value) for name, value in LABEL.findall(sample[2] or "")}
            found[metric][labels.get("rendition")] = (float(sample[3]), labels.get("fault"))
            place += 1
    hold(f"more than the metrics: {lines[place:]}", place == len(lines))
    return found


def summary_of(text):
    """{rendition: (segments, seconds, peak, average)} of what standard output got."""
    rows = [line.rsplit(" ", 4) for line in text.splitlines()]
    return {name: tuple(map(float, numbers)) for name, *numbers in rows}


def says_the_summary(found, printed):
    wanted = summary_of(printed)
    four = ("tshls_segments_total", "tshls_stream_seconds_total", "tshls_peak_bitrate", "tshls_average_bitrate")
    told = {name: tuple(found[metric][name][0] for metric in four) for name in found[four[0]]}
    hold(f"the file says {told}, the summary {wanted}", told == wanted)
    hold("not all have ended", all(value == (1, None) for value in found["tshls_ended"].values()))
    hold("a fault is told", not found["tshls_fault"])
    for metric in ("tshls_waiting_segments", "tshls_read_ahead_bytes", "tshls_input_silent_seconds"):
        hold(f"{metric}: {found[metric]}", all(value == (0, None) for value in found[metric].values()))


class Reader(threading.Thread):
    """Reads the file every 50 ms until it's told to stop."""

    def __init__(self, path):
        super().__init__()
        self.path, self.over, self.looks, self.why = path, threading.Event(), 0, None
        self.texts = set()

    def run(self):
        before = None
        while not self.over.wait(0.05):
            try:
                text = self.path.read_text()
                found = samples_of(text)
                for metric in (metric for metric, is_counter in METRICS.items() if is_counter):
                    for name, (value, _) in found[metric].items() if before else ():
                        hold(f"{metric} of {name} falls", before[metric][name][0] <= value)
                before, self.looks = found, self.looks + 1
                self.texts.add(text)
            except FileNotFoundError:
                hold("the file is gone", before is None)
            except Wrong as why:
                self.why = why
                return

    def stop(self):
        self.over.set()
        self.join()
        if self.why:
            raise self.why


class Input:
    """A stream that is written to a FIFO, and what its playlist has to list by then."""

    def __init__(self, name, data, folder, out):
        self.name, self.data, self.at, self.late = name, data, 0, 0
        self.path, self.playlist = folder / f"{name}.fifo", out / f"{name}.m3u8"
        os.mkfifo(self.path)

    def open(self):
        self.pipe = os.open(self.path, os.O_WRONLY)

    def listed(self):
        with contextlib.suppress(FileNotFoundError):
            return self.playlist.read_text().count("#EXTINF:")
        return 0

    def write(self):
        """Writes a packet more, and waits until what it closed is listed."""
        self.at += os.write(self.pipe, self.data[self.at : self.at + SIZE])
        due, begin = self.at // SIZE - 5, time.monotonic()
        while self.listed() < due:
            hold(f"segment {due} of {self.name} isn't listed", time.monotonic() - begin < 30)
            time.sleep(0.002)
        self.late = max(self.late, time.monotonic() - begin)


def packed(program, folder, entries, *more, library=None, slow=None, metrics):
    out = folder / "out"
    out.mkdir()
    cuts = CUTS[:-4] + CUTS[-2:] if "--window" in more else CUTS
    words = [program, "pack", "--out", out, "--metrics", metrics, *cuts, *more, *entries]
    environment = {**os.environ, "LD_PRELOAD": library, "SLOW": str(slow), "FOLDER": str(metrics.parent)} if library else None
    return out, subprocess.Popen(words, stdout=subprocess.PIPE, stderr=subprocess.PIPE, text=True, env=environment)


def live(program, folder, seconds, library=None):
    """Two live inputs for so long: how late a segment was listed, what the file said, how often it was read, and the last."""
    kept = folder / "metrics"
    kept.mkdir()
    path = kept / "run.prom"
    names = ("a", "b")
    inputs = [Input(name, stream(*every(90_000, seconds * 5)), folder, folder / "out") for name in names]
    entries = [f"{it.name}:avc1.42c01e:320x180:{KEY}:{it.path}" for it in inputs]
    _, process = packed(program, folder, entries, library=library, slow=SLOW, metrics=path)
    reader = Reader(path)
    try:
        for it in inputs:
            it.open()
        reader.start()
        end = time.monotonic() + seconds
        while time.monotonic() < end and all(it.at < len(it.data) for it in inputs):
            for it in inputs:
                it.write()
            time.sleep(0.2)
        for it in inputs:
            os.close(it.pipe)
        printed, told = process.communicate(timeout=60)
    finally:
        process.kill()
        process.wait()
        if reader.is_alive():
            reader.over.set()
    reader.stop()
    hold(f"status {process.returncode}, {told!r}", process.returncode == 0 and told == "")
    hold(f"left beside the file: {os.listdir(kept)}", os.listdir(kept) == ["run.prom"])
    says_the_summary(samples_of(path.read_text()), printed)
    return max(it.late for it in inputs), reader, path.read_text()


def is_read_while_it_runs(program, folder, last):
    _, reader, text = live(program, folder, 12)
    hold(f"{len(reader.texts)} texts in {reader.looks} looks", len(reader.texts) >= 3 and reader.looks > 100)
    (last / "live.prom").write_text(text)


def is_slow(program, folder, library):
    late, reader, _ = live(program, folder, 8, library)
    hold(f"a segment was listed {late:.1f} s late", late < LATE)


def tells_of_32(program, folder, last):
    names = ['v"q\\b', "ü %d", *(f"r{i}" for i in range(30))]
    data = folder / "in.ts"
    data.write_bytes(stream(*every(90_000, 4)))
    path = folder / "all.prom"
    entries = [f"{name}:avc1.42c01e:320x180:{i:032x}:{data}" for i, name in enumerate(names)]
    _, process = packed(program, folder, entries, metrics=path)
    printed, told = process.communicate(timeout=60)
    hold(f"status {process.returncode}, {told!r}", process.returncode == 0 and told == "")
    found = samples_of(path.read_text())
    hold(f"{found['tshls_ended'].keys()}", list(found["tshls_ended"]) == names)
    says_the_summary(found, printed)
    (last / "all.prom").write_text(path.read_text())


def tells_a_fault(program, folder, last):
    good, bad = folder / "good.ts", folder / "bad.ts"
    good.write_bytes(stream(*every(90_000, 4)))
    bad.write_bytes(b"")
    path = folder / "fault.prom"
    entries = [f"{name}:avc1.42c01e:320x180:{KEY}:{data}" for name, data in (("a", good), ("b", bad))]
    _, process = packed(program, folder, entries, metrics=path)
    _, told = process.communicate(timeout=60)
    hold(f"status {process.returncode}, {told!r}", process.returncode == 1 and told == "tshls: NoProgram 1\n")
    found = samples_of(path.read_text())
    hold(f"{found['tshls_ended']}", found["tshls_ended"] == {"a": (1, None), "b": (0, None)})
    hold(f"{found['tshls_fault']}", found["tshls_fault"] == {"b": (1, "NoProgram")})
    (last / "fault.prom").write_text(path.read_text())


def tells_who_is_silent(program, folder):
    """Of three inputs one is live, one falls silent and comes back, and one has a fault; each is told while the run goes on."""
    path = folder / "run.prom"
    names = ("a", "b")
    inputs = [Input(name, stream(*every(90_000, 200)), folder, folder / "out") for name in names]
    bad = folder / "bad.ts"
    bad.write_bytes(b"")
    entries = [f"{it.name}:avc1.42c01e:320x180:{KEY}:{it.path}" for it in inputs] + [f"c:avc1.42c01e:320x180:{KEY}:{bad}"]
    _, process = packed(program, folder, entries, metrics=path)
    live, silent = inputs
    # how long b was silent at the most while a wasn't, whether c's fault was told meanwhile, and whether b was heard again
    longest, faulted, heard, begin = 0, False, False, time.monotonic()
    try:
        for it in inputs:
            it.open()
            for _ in range(10):
                it.write()
        while not heard:
            hold(f"b was silent for {longest} s, c has a fault: {faulted}", time.monotonic() - begin < 60)
            live.write()
            if longest >= 4 and faulted:
                silent.write()
            time.sleep(0.2)
            found = samples_of(path.read_text())
            times = {name: value for name, (value, _) in found["tshls_input_silent_seconds"].items()}
            if times["a"] < 2:
                longest = max(longest, times["b"])
            faulted |= found["tshls_fault"] == {"c": (1, "NoProgram")}
            heard = longest >= 4 and faulted and times["b"] < 2
        for it in inputs:
            os.close(it.pipe)
        _, told = process.communicate(timeout=60)
    finally:
        process.kill()
        process.wait()
    hold(f"status {process.returncode}, {told!r}", process.returncode == 1 and told == "tshls: NoProgram 2\n")
    found = samples_of(path.read_text())
    hold(f"{found['tshls_fault']}", found["tshls_fault"] == {"c": (1, "NoProgram")})
    hold(f"{found['tshls_ended']}", found["tshls_ended"] == {"a": (1, None), "b": (1, None), "c": (0, None)})


def tells_what_is_removed(program, folder):
    data, path = folder / "in.ts", folder / "run.prom"
    data.write_bytes(stream(*every(90_000, 40)))
    entries = [f"{name}:avc1.42c01e:320x180:{key * 16}:{data}" for name, key in (("a", "01"), ("b", "02"))]
    out, process = packed(program, folder, entries, "--remove", "--window", "3", metrics=path)
    printed, told = process.communicate(timeout=60)
    hold(f"status {process.returncode}, {told!r}", process.returncode == 0 and told == "")
    found = samples_of(path.read_text())
    says_the_summary(found, printed)
    left = len(list(out.glob("*.ts")))
    made = sum(value for value, _ in found["tshls_segments_total"].values())
    removed = found["tshls_removed_segments_total"][None][0]
    hold(f"of {made} segments {left} are left, and {removed} were removed", removed > 40 and made - removed == left)


def is_told_once(program, folder, metrics, more=()):
    data = folder / "in.ts"
    data.write_bytes(stream(*every(90_000, 4)))
    entries = [f"a:avc1.42c01e:320x180:{KEY}:{data}"]
    out, process = packed(program, folder, entries, *more, metrics=metrics)
    printed, told = process.communicate(timeout=60)
    hold(f"status {process.returncode}, {told!r}", process.returncode == 0 and told == TOLD)
    hold(f"the summary is {printed!r}", printed.startswith("a 4 "))
    hold(f"{sorted(os.listdir(out))}", not [name for name in os.listdir(out) if name.startswith(".")])


def is_no_folder(program, folder):
    is_told_once(program, folder, folder / "absent" / "run.prom")


def is_a_folder(program, folder):
    (folder / "run.prom").mkdir()
    is_told_once(program, folder, folder / "run.prom")
    hold("it was replaced", (folder / "run.prom").is_dir())


def is_a_fifo(program, folder):
    os.mkfifo(folder / "run.prom")
    is_told_once(program, folder, folder / "run.prom")
    hold("it was replaced", (folder / "run.prom").is_fifo())


def main():
    program, library, last = os.path.realpath(sys.argv[1]), os.path.realpath(sys.argv[2]), pathlib.Path(sys.argv[3])
    checks = (
        (is_read_while_it_runs, last),
        (is_slow, library),
        (tells_of_32, last),
        (tells_a_fault, last),
        (tells_who_is_silent,),
        (tells_what_is_removed,),
        (is_no_folder,),
        (is_a_folder,),
        (is_a_fifo,),
    )
    for check, *more in checks:
        with tempfile.TemporaryDirectory() as name:
            try:
                check(program, pathlib.Path(name), *more)
            except Wrong as why:
                sys.exit(f"{check.__name__}: {why}")
    print(f"{len(checks)} checks")


main()
