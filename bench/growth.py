"""What a long run takes: the memory of `one` on 10 and on 1,000 segments, and its time and memory on streams of I-frames
alone, one in each packet.

Memory is read from the process while it runs: what its parent had at the time of the fork isn't in it.
"""

import functools
import os
import pathlib
import re
import subprocess
import sys
import time

sys.path.append(str(pathlib.Path(__file__).resolve().parent.parent / "acceptance"))

from main_job import looped
from measuring import KEY, best_of, is_linear
from standard_stream import every, stream

best = functools.partial(best_of, 3)
SECONDS = 3
FRAMES = 64_000


def peak_memory(command, file):
    """The most bytes that were resident, as last read before the process ended."""
    peak = 0
    with open(file, "rb") as source, open(os.devnull, "wb") as nowhere:
        process = subprocess.Popen(command, stdin=source, stdout=nowhere, stderr=nowhere)
        while process.poll() is None:
            status = pathlib.Path(f"/proc/{process.pid}/status")
            found = re.search(r"^VmHWM:\s*(\d+) kB$", status.read_text() if status.exists() else "", re.M)
            peak = int(found[1]) * 1024 if found else peak
            time.sleep(0.002)
    if process.returncode != 0:
        sys.exit(f"{command[:2]} ended with status {process.returncode}")
    return peak


def measure(program, sample, folder):
    """Prints the figures; answers whether 8 times the I-frames take at most 10 times the time."""
    folder = pathlib.Path(folder)
    one = [program, "one", "--codecs", "avc1.4d401e", "--size", "320x180", "--keys", KEY]
    memory = {}
    for segments in (10, 1000):
        file = folder / f"{segments}.ts"
        looped(sample, file, sample.stat().st_size * segments / SECONDS / 1e6)
        memory[segments] = peak_memory(one + ["--target", "2", "--segment", "1"], file)
    few, many = memory[10], memory[1000]
    print(f"one: peak memory {few / 1e6:.1f} MB on 10 segments, {many / 1e6:.1f} MB on 1,000: {(many - few) / 990:.0f} bytes a segment")

    took = []
    for frames in (FRAMES, 8 * FRAMES):
        file = folder / f"{frames}.ts"
        file.write_bytes(stream(*every(1, frames)))
        took.append(best(one + ["--target", "10"], file))
        memory = peak_memory(one + ["--target", "10"], file)
        print(f"one, {frames} I-frames in as many packets: {took[-1].wall:.2f} s, {memory / frames:.0f} bytes of peak memory each")
    return is_linear("I-frames take", *took)
