"""How fast `check` reads back what `one` packed, beside openssl without its AES instructions on the same bytes, and how much
memory it takes.

The playlist lists all segments of the sample, looped by ffmpeg so that its times go on.
"""

import functools
import pathlib
import subprocess
import sys

from main_job import looped
from measuring import KEY, best_of, is_linear

UNFOLD = pathlib.Path(__file__).resolve().parent.parent / "acceptance" / "unfold.py"
best = functools.partial(best_of, 3)


def packed(program, sample, folder, megabytes):
    """A folder with the sample's playlist and segments, and one file of all their bytes."""
    folder.mkdir()
    stream = folder / "stream.ts"
    looped(sample, stream, megabytes)
    one = [program, "one", "--codecs", "avc1.4d401e", "--size", "320x180", "--keys", KEY, "--target", "8", "--segment", "6"]
    with open(stream, "rb") as source, open(folder / "lines", "wb") as lines:
        subprocess.run(one + ["--window", "10000"], stdin=source, stdout=lines, check=True)
    with open(folder / "lines", "rb") as lines:
        subprocess.run([sys.executable, str(UNFOLD), str(folder / "hls"), "v", KEY], stdin=lines, check=True)
    (folder / "lines").unlink()
    segments = sorted((folder / "hls").glob("v.*.ts"))
    (folder / "sealed").write_bytes(b"".join(segment.read_bytes() for segment in segments))
    return folder / "hls" / "v.m3u8", folder / "sealed"


def measure(program, sample, folder, megabytes, mask):
    """Prints the figures; answers whether 8 times the segments take at most 10 times the time."""
    folder = pathlib.Path(folder)
    small, _ = packed(program, sample, folder / "few", megabytes / 8)
    large, sealed = packed(program, sample, folder / "many", megabytes)
    check = [program, "check", "--keys", KEY]
    openssl = ["openssl", "enc", "-d", "-nopad", "-aes-128-cbc", "-K", KEY, "-iv", "0" * 32, "-in", str(sealed)]
    few, many, by_openssl = best(check + [str(small)]), best(check + [str(large)]), best(openssl, extra=mask)

    size = sealed.stat().st_size
    rate, memory = size / many.wall / 1e6, many.memory / size
    print(f"check {size / 1e6:.1f} MB: {many.wall:.2f} s, {rate:.1f} MB/s, peak memory {memory:.1f} times the segments")
    print(f"    openssl masked opens the same bytes {many.wall / by_openssl.wall:.1f} times as fast")
    return is_linear("segments take", few, many)
