"""Standard input's packets, joined, by the reader's rule as it is written (ISO/IEC 13818-1, 2.4.3).

A position is a lock point when a packet fits there, its byte is 0x47, and each of the bytes one and two
packets further is 0x47 or lies beyond the end. The first packet is at the least lock point. The next is right
behind a packet where one fits there and begins 0x47, else at the least lock point from there on.
"""

import sys

SIZE = 188
SYNC = 0x47


def fits(data, at):
    return at + SIZE <= len(data)


def is_lock_point(data, at):
    return (
        fits(data, at)
        and data[at] == SYNC
        and all(ahead >= len(data) or data[ahead] == SYNC for ahead in (at + SIZE, at + 2 * SIZE))
    )


def least_lock_point(data, start):
    return next((at for at in range(start, len(data)) if is_lock_point(data, at)), None)


def packets(data):
    at = least_lock_point(data, 0)
    while at is not None:
        yield data[at : at + SIZE]
        behind = at + SIZE
        if fits(data, behind) and data[behind] == SYNC:
            at = behind
        else:
            at = least_lock_point(data, behind)


if __name__ == "__main__":
    sys.stdout.buffer.write(b"".join(packets(sys.stdin.buffer.read())))
