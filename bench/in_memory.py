"""Packs a stream of 150 MB that a program makes in memory, on one thread and by 1, 2 and 4 workers, into nothing: what many
threads make of the same run, with no file, pipe or system in it."""

from building import built
from measuring import best_of, calling_share

WORDS = ("serial", "1", "2", "4")


def measure():
    program = built("bench_memory_streams", ("plans",))
    made = best_of(5, [program, "stream"])
    runs = {word: best_of(5, [program, word]) for word in WORDS}
    serial = runs["serial"]
    for word, run in runs.items():
        wall, processor = run.wall - made.wall, run.processor - made.processor
        print(
            f"packing in memory, {word if word == 'serial' else word + ' workers'}: {wall:.3f} s, "
            f"{wall / (serial.wall - made.wall):.2f} of the time of one thread, "
            f"{processor / (serial.processor - made.processor):.2f} of its processor time"
        )
    shares = ", ".join(f"{calling_share([program, word]):.2f}" for word in WORDS[1:])
    print(f"    with the making of the stream the calling thread takes {shares} of the processor time")
