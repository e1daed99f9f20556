"""Cuts 800,000 packets by plans and by spools: time and peak memory, where all that is cut is let go and where it is kept."""

from building import built
from growth import peak_memory
from measuring import best_of

PACKETS = 800_000


def measure():
    program = built("bench_memory_streams", ("plans",))
    for word in ("plans", "spools", "all_plans", "all_in_a_spool"):
        took = best_of(5, [program, word])
        memory = peak_memory([program, word], "/dev/null")
        print(f"cutting {PACKETS} packets, {word}: {took.wall:.2f} s, {memory / 1e6:.1f} MB of peak memory; the packets are {PACKETS * 188 / 1e6:.1f} MB")
