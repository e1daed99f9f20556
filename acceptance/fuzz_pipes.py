"""Streams in random pieces through pipes, each fed by a thread of its own."""

import contextlib
import fcntl
import os
import threading
import time


def pieces(chance, data):
    """The data in random pieces, of which a read of a pipe gets at most one."""
    sizes, result = chance.choice(((4096,), (188,), (1, 187, 188, 189, 3), (1, 2, 7), (1000, 90), (4000, 1))), []
    while data:
        size = chance.choice(sizes) if len(result) < 100 else 4096
        result.append(data[:size])
        data = data[size:]
    return result


def pauses_of(chance, parts):
    """How long the writer pauses before each piece: up to 20 ms, before few of them."""
    return [chance.uniform(0, 0.02) * (chance.random() < 0.04) for _ in parts]


def feed(descriptor, parts, pauses):
    """Writes the pieces to a pipe, which keeps them apart where the system can, until its reader is gone."""
    with contextlib.suppress(OSError):
        fcntl.fcntl(descriptor, fcntl.F_SETFL, os.O_DIRECT)
    try:
        for part, pause in zip(parts, pauses):
            if pause:
                time.sleep(pause)
            os.write(descriptor, part)
    except BrokenPipeError:
        pass
    finally:
        os.close(descriptor)


def feed_fifo(path, parts, pauses):
    feed(os.open(path, os.O_WRONLY), parts, pauses)


def started(target, *arguments):
    feeder = threading.Thread(target=target, args=arguments)
    feeder.start()
    return feeder


def pipe_of(chance, data):
    """The end of a pipe to read the data from, and the thread that feeds it."""
    read_end, write_end = os.pipe()
    parts = pieces(chance, data)
    return read_end, started(feed, write_end, parts, [0] * len(parts))


def fifo_of(path, chance, data, has_pauses):
    """The thread that feeds a FIFO, which is made where it isn't there."""
    if not path.exists():
        os.mkfifo(path)
    parts = pieces(chance, data)
    return started(feed_fifo, path, parts, pauses_of(chance, parts) if has_pauses else [0] * len(parts))


def end(fifos):
    """Waits for the feeders; one whose FIFO nobody has opened is let go."""
    for path, feeder in fifos:
        while feeder.is_alive():
            os.close(os.open(path, os.O_RDONLY | os.O_NONBLOCK))
            feeder.join(0.01)
