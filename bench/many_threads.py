"""How fast `pack` packs one large stream, a ladder of three, and a stream of a live rate, by 1, 2 and 4 workers, in rounds as they
are and in longer ones, beside ffmpeg's own packager with a key file and beside `one`; what it takes of memory on 10 and on
1,000 segments; and how a longer input grows.

The large stream is the sample, looped by ffmpeg so that its times go on: 0.5 Mbit/s, so its segments are small. The stream of a
live rate has 6 Mbit/s. What the calling thread takes is a run whose tables are broken, so that it is only read, and one without
key frames, so that it is cut into nothing.
"""

import functools
import pathlib
import shutil
import subprocess

from growth import SECONDS, peak_memory
from main_job import looped, streams
from measuring import KEY, best_of, calling_share, is_linear

ROUNDS = 3
best = functools.partial(best_of, ROUNDS)
WORKERS = (1, 2, 4)
LONG_ROUNDS = ("--batch", "16")


def entry(name, stream):
    return f"{name}:avc1.4d401e:320x180:{KEY}:{stream}"


def pack(program, folder, entries, *options, target=8, segment=6):
    out = folder / "packed"
    shutil.rmtree(out, ignore_errors=True)
    out.mkdir()
    cuts = ["--target", str(target), "--segment", str(segment)]
    return [program, "pack", "--out", str(out), *cuts, *options, *entries]


def ffmpeg(folder, streams, segment=6):
    """One process that packs all streams, each into a playlist of its own."""
    command = ["ffmpeg", "-nostdin", "-v", "error", "-y"]
    for stream in streams:
        command += ["-i", str(stream)]
    for number in range(len(streams)):
        command += ["-map", str(number), "-c", "copy", "-f", "hls", "-hls_time", str(segment), "-hls_list_size", "5"]
        command += ["-hls_key_info_file", str(folder / "key_info"), str(folder / f"ffmpeg{number}.m3u8")]
    return command


def ratios(what, size, other, runs):
    print(f"{what}, {size / 1e6:.1f} MB: ffmpeg {other.wall:.3f} s, {other.processor:.3f} s of processor")
    for workers, run in runs.items():
        print(
            f"    pack, {workers} workers: {run.wall:.3f} s, {run.wall / other.wall:.2f} of ffmpeg's time, "
            f"{run.processor / other.processor:.2f} of its processor time, {size / run.wall / 1e6:.0f} MB/s"
        )


def with_workers(program, folder, entries, workers, *options, **cuts):
    return pack(program, folder, entries, "--workers", str(workers), *options, **cuts)


def runs_of(program, folder, entries, *options):
    return {workers: best(with_workers(program, folder, entries, workers, *options)) for workers in WORKERS}


def live_rate(folder, megabytes):
    """A stream of so many megabytes at 6 Mbit/s, with a key frame in each two seconds."""
    file = folder / "live_rate.ts"
    picture = f"testsrc2=size=1280x720:rate=25:duration={megabytes * 8 / 6}"
    command = ["ffmpeg", "-nostdin", "-v", "error", "-y", "-f", "lavfi", "-i", picture, "-c:v", "libx264", "-preset", "ultrafast"]
    command += ["-g", "50", "-b:v", "6M", "-minrate", "6M", "-maxrate", "6M", "-bufsize", "6M", "-x264-params", "nal-hrd=cbr"]
    subprocess.run([*command, "-f", "mpegts", str(file)], check=True)
    return file


def both_ways(what, program, folder, streams):
    """Prints the figures with rounds as they are and with longer ones; answers those of the first."""
    size = sum(stream.stat().st_size for stream in streams)
    entries = [entry(name, stream) for name, stream in zip("abc", streams)]
    other = best(ffmpeg(folder, streams))
    runs = runs_of(program, folder, entries)
    ratios(what, size, other, runs)
    ratios(f"{what}, {' '.join(LONG_ROUNDS)}", size, other, runs_of(program, folder, entries, *LONG_ROUNDS))
    return runs


def measure(program, sample, folder, megabytes):
    """Prints the figures; answers whether 8 times the input takes at most 10 times the time."""
    folder = pathlib.Path(folder)
    small, large, unread, uncut = streams(sample, folder, megabytes)

    runs = both_ways("one stream", program, folder, [large])
    shares = (calling_share(with_workers(program, folder, [entry("v", large)], workers)) for workers in WORKERS)
    print(f"    the calling thread takes {', '.join(f'{share:.2f}' for share in shares)} of pack's processor time")
    one = best([program, "one", "--codecs", "avc1.4d401e", "--size", "320x180", "--keys", KEY, "--target", "8", "--segment", "6"], large)
    print(f"    one takes {one.wall / runs[1].wall:.1f} times the time of pack with 1 worker, {one.wall / runs[4].wall:.1f} of that with 4")
    for name, stream in (("reading and tables", unread), ("cuts besides", uncut)):
        command = pack(program, folder, [entry("v", stream)])
        print(f"    {name}: {best_of(ROUNDS, command, statuses=(1,)).wall:.3f} s")

    both_ways("a ladder of three", program, folder, [large, large, large])
    both_ways("one stream of 6 Mbit/s", program, folder, [live_rate(folder, megabytes)])

    memory = {}
    for segments in (10, 1000):
        file = folder / f"{segments}.ts"
        looped(sample, file, sample.stat().st_size * segments / SECONDS / 1e6)
        memory[segments] = peak_memory(pack(program, folder, [entry("v", file)], target=2, segment=1), "/dev/null")
        shutil.rmtree(folder / "packed")
        file.unlink()
    few, many = memory[10], memory[1000]
    print(f"pack: peak memory {few / 1e6:.1f} MB on 10 segments, {many / 1e6:.1f} MB on 1,000: {(many - few) / 990:.0f} bytes a segment")

    return is_linear("input takes", best(pack(program, folder, [entry("v", small)])), runs[4])
