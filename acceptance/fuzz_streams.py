"""Random transport streams: mostly good ones, which are cut into several segments, and a damage now and then."""

from fuzz_packets import ROOM, Mux, damage, garbage_of, with_byte
from fuzz_tables import NULL, Tables, put_tables

TURN = 1 << 33


class Shape:
    """What the streams of a ladder have in common: its program, the ticks from key frame to key frame, how many of these."""

    def __init__(self, program, step, groups, gap):
        self.program, self.step, self.groups, self.gap = program, step, groups, gap


def pes(chance, time):
    """The beginning of a PES packet of video; the bits that aren't looked at are as they come."""
    time %= TURN
    stamp = bytes((time >> 29 & 0x0E, time >> 22 & 0xFF, time >> 14 & 0xFE, time >> 7 & 0xFF, time << 1 & 0xFE))
    free = bytes(chance.getrandbits(8) & mask for mask in (0xF1, 0, 1, 0, 1))
    stamp = bytes(a | b for a, b in zip(stamp, free))
    with_both = chance.random() < 0.3
    flags = bytes((0x80 | chance.getrandbits(6), 0xC0 if with_both else 0x80, 10 if with_both else 5))
    return b"\0\0\1" + bytes((0xE0 | chance.randrange(16), 0, 0)) + flags + stamp + bytes(5 * with_both)


# Bytes of the beginning of a PES packet, by their places, with which it isn't a stamped one of video, or just is.
ODD_BYTES = ((0, 1), (2, 2), (3, 0xC0), (3, 0xF0), (6, 0), (6, 0x40), (6, 0xC0), (7, 0), (7, 0x40), (8, 0), (8, 4), (8, 255))


def put_frame(mux, tables, time, is_key):
    """A frame of video, whose start at times isn't as it should be."""
    chance, front = mux.chance, pes(mux.chance, time)
    if chance.random() < mux.ill:
        front = with_byte(front, *chance.choice(ODD_BYTES))
        is_key = is_key and chance.random() < 0.6
    room = ROOM - 2 * is_key if chance.random() < 0.7 else chance.randint(13, ROOM - 2)
    mux.add(tables.video, (front + chance.randbytes(ROOM))[:room], True, is_key)
    for _ in range(chance.choice((0, 0, 0, 1, 2))):
        mux.add(tables.video, chance.randbytes(chance.choice((0, 1, 100, ROOM, ROOM))))


def put_others(mux, tables):
    """Packets of other PIDs."""
    chance = mux.chance
    for pid in [pid for _, pid in tables.others] + [NULL, tables.pcr, 0x1234]:
        if pid != tables.video and chance.random() < 0.15:
            mux.add(pid, chance.randbytes(chance.choice((0, 30, ROOM))), chance.random() < 0.3, chance.random() < 0.3)


def step_of(chance, shape):
    """A jump of time: over the gap or not, forwards or back, about where it isn't known which."""
    edges = shape.gap - 1, shape.gap, shape.gap + 1, (1 << 32) - 1, 1 << 32
    length = chance.choice((*edges, shape.gap + 90000, shape.step, 2 * shape.step, 1 << 31))
    return chance.choice((length, length, -length))


def good_packets(chance, shape, ill):
    """The packets of a stream; `ill` is how often what it has is broken or odd."""
    mux, tables = Mux(chance, ill), Tables(chance, shape.program)
    time = chance.choice((0, chance.randrange(TURN), TURN - chance.randrange(1, 5 * shape.step)))
    frames, halves = chance.randint(1, 4), chance.choices(((2,), (1, 2), (1, 2, 3), (2, 4)), (80, 8, 6, 6))[0]
    for group in range(shape.groups):
        if group and chance.random() < ill / 3:
            tables.change()
        if group < 2 or chance.random() < 0.3:
            put_tables(mux, tables)
        if group and chance.random() < ill / 3:
            time += step_of(chance, shape)
        step = shape.step * chance.choice(halves) // 2
        for frame in range(frames):
            put_frame(mux, tables, time + step * frame // frames, frame == 0)
            put_others(mux, tables)
        time += step
    return mux.packets


def without_starts(packets):
    """No packet tells random access."""
    return [p[:5] + bytes((p[5] & 0xBF,)) + p[6:] if p[3] & 0x20 and p[4] else p for p in packets]


def without_tables(packets):
    return [packet for packet in packets if packet[1] & 0x1F or packet[2]]


def stream(chance, shape):
    way = chance.random()
    if way < 0.03:
        return chance.choice((b"", garbage_of(chance, 2000), b"\x47" * 1000, bytes(400)))
    packets = good_packets(chance, shape, ill=0 if way < 0.6 else chance.choice((0.02, 0.1, 0.3)))
    if way < 0.08:
        packets = chance.choice((without_starts, without_tables))(packets)
    if way > 0.75:
        for _ in range(chance.choice((1, 1, 2, 5))):
            damage(chance, packets)
    data = b"".join(packets)
    if 0.6 < way < 0.65:
        return data[: chance.randrange(len(data) + 1)]
    return data
