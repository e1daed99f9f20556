"""Views a second of 1 and of 4 viewers beside a publisher, on a board and on one snapshot under a lock."""

from building import built
from measuring import best, timed

LOOKS = {0: 10_000_000, 1000: 1_000_000}
ROUNDS = 5


def measure():
    """Prints the figures: each pair is run in turn, the best of some rounds."""
    program = built("bench_view_board", ("board", "1", "0", "1"))
    for size, looks in LOOKS.items():
        for viewers in (1, 4):
            rounds = [[timed([program, word, str(viewers), str(size), str(looks)]) for word in ("board", "mutex")] for _ in range(ROUNDS)]
            board, mutex = (looks * viewers / best(runs).wall / 1e6 for runs in zip(*rounds))
            print(
                f"viewing {size} bytes, {viewers} viewer{'s'[: viewers > 1]} beside a publisher: "
                f"{board:.1f} million views a second, {mutex:.1f} under one lock, {board / mutex:.1f} times as many"
            )
