#!/usr/bin/env python3
"""bench/stations.py PROGRAM [SECONDS]: how fast `pack` packs streams as stations send them, of SECONDS seconds (60), into a folder
in memory, by 1 and 4 workers, in rounds as they are and in longer ones, beside ffmpeg's own packager with a key file.

One stream has 12 Mbit/s and segments of 3 MB, the other 30 Mbit/s and segments of 22 MB. Their pictures are noise, so that the
rates are real. Each figure is the best of three, run in turn.
"""

import pathlib
import subprocess
import sys
import tempfile

from many_threads import entry, ffmpeg, with_workers
from measuring import KEY, best, timed

ROUNDS = 3
WORKERS = (1, 4)
LONG_ROUNDS = ("--batch", "16")
# The rate in Mbit/s, and how many seconds are between two key frames, which is how long a segment lasts.
STREAMS = ((12, 2), (30, 6))


def made(folder, rate, gop, seconds):
    """A stream of so many Mbit/s, padded to just that rate, with a key frame at each so many seconds."""
    file = folder / f"{rate}.ts"
    picture = f"testsrc2=size=1920x1080:rate=25:duration={seconds},noise=alls=40:allf=t"
    command = ["ffmpeg", "-nostdin", "-v", "error", "-y", "-f", "lavfi", "-i", picture, "-c:v", "libx264", "-preset", "ultrafast"]
    command += ["-pix_fmt", "yuv420p", "-g", str(25 * gop), "-keyint_min", str(25 * gop), "-sc_threshold", "0"]
    command += ["-b:v", f"{rate}M", "-minrate", f"{rate}M", "-maxrate", f"{rate}M", "-bufsize", f"{rate}M"]
    subprocess.run([*command, "-x264-params", "nal-hrd=cbr", "-f", "mpegts", str(file)], check=True)
    return file


def measure(program, folder, rate, gop, seconds):
    stream = made(folder, rate, gop, seconds)
    size = stream.stat().st_size
    runs = {"ffmpeg": ffmpeg(folder, [stream], gop)}
    for workers in WORKERS:
        for options in ((), LONG_ROUNDS):
            words = with_workers(program, folder, [entry("v", stream)], workers, *options, target=gop + 1, segment=gop)
            runs[" ".join((f"pack, {workers} workers", *options))] = words
    rounds = []
    for _ in range(ROUNDS):
        rounds.append({what: timed(words) for what, words in runs.items()})
    figures = {what: best([it[what] for it in rounds]) for what in runs}
    other = figures["ffmpeg"]
    print(f"{rate} Mbit/s, {size / 1e6:.0f} MB, segments of {size * gop / seconds / 1e6:.1f} MB")
    for what, run in figures.items():
        print(
            f"    {what}: {run.wall:.3f} s, {run.wall / other.wall:.2f} of ffmpeg's time, "
            f"{run.processor / other.processor:.2f} of its processor time, {run.memory / 1e6:.0f} MB of memory"
        )


def main():
    if len(sys.argv) not in (2, 3):
        sys.exit("usage: bench/stations.py PROGRAM [SECONDS]")
    program = str(pathlib.Path(sys.argv[1]).resolve())
    seconds = int(sys.argv[2]) if len(sys.argv) > 2 else 60
    memory = "/dev/shm" if pathlib.Path("/dev/shm").is_dir() else None
    for rate, gop in STREAMS:
        with tempfile.TemporaryDirectory(dir=memory) as name:
            folder = pathlib.Path(name)
            (folder / "key").write_bytes(bytes.fromhex(KEY))
            (folder / "key_info").write_text(f"key\n{folder / 'key'}\n")
            measure(program, folder, rate, gop, seconds)


main()
