"""Random program tables, good and bad ones, in packets."""

from fuzz_packets import ROOM
from tables import LONGEST, VIDEO_TYPES, crc

NULL = 0x1FFF


def section(table_id, number, body, version=0, front=0xB0, current=1, parts=b"\0\0", behind=b""):
    content = number.to_bytes(2, "big") + bytes((0xC0 | version << 1 | current,)) + parts + body + behind
    data = bytes((table_id, front | len(content) + 4 >> 8, len(content) + 4 & 0xFF)) + content
    return data + crc(data).to_bytes(4, "big")


class Tables:
    """The tables of a program, which may change on the way."""

    def __init__(self, chance, program):
        self.chance, self.program, self.version = chance, program, 0
        self.stream_id = chance.randrange(1 << 16)
        pids = chance.sample(range(0x20, NULL), 5)
        self.pmt_pid, self.video, self.pcr = pids[:3]
        self.others = [(kind, pid) for kind, pid in zip((0x0F, 0x81, 0x1B), pids[3:]) if chance.random() < 0.6]
        self.kind = chance.choice(VIDEO_TYPES)
        self.pcr = chance.choice((self.video, self.pcr, NULL))
        longest = LONGEST - 18 - 5 * len(self.others)
        self.notes = chance.choice((0, 0, 0, 0, 10, 200, 200, 700, longest, longest + (chance.random() < 0.3)))

    def pat(self, **how):
        other = self.program % 65535 + 1
        before, behind = ([], [(0, 0x10)], [(other, 0x1FFE)]), ([], [(other, 0x1FFD)])
        entries = self.chance.choices(before, (60, 36, 4))[0] + [(self.program, self.pmt_pid)] + self.chance.choice(behind)
        body = b"".join(n.to_bytes(2, "big") + (0xE000 | pid).to_bytes(2, "big") for n, pid in entries)
        return section(0, self.stream_id, body, self.version, **how)

    def pmt(self, of_another=0, **how):
        body = (0xE000 | self.pcr).to_bytes(2, "big") + (0xF000 | self.notes).to_bytes(2, "big") + bytes(self.notes)
        for kind, pid in self.others + [(self.kind, self.video)]:
            body += bytes((kind, 0xE0 | pid >> 8, pid & 0xFF, 0xF0, 0))
        return section(2, self.program ^ of_another, body, self.version, **how)

    def change(self):
        self.version = (self.version + 1) % 32
        what = self.chance.randrange(6)
        if what == 0:
            self.others = self.others[:1]
        elif what == 1:
            self.video = self.chance.randrange(0x20, NULL)
        elif what == 2:
            self.pmt_pid = self.chance.randrange(0x20, NULL)
        elif what == 3:
            self.stream_id ^= 1
        elif what == 4:
            self.notes = self.chance.choice((0, 5, 300))


def damaged(chance, data):
    """A section that isn't taken."""
    what = chance.randrange(4)
    if what == 0:
        at = chance.randrange(len(data))
        return data[:at] + bytes((data[at] ^ 1 << chance.randrange(8),)) + data[at + 1 :]
    if what == 1:
        return data[: chance.randrange(2, len(data))]
    if what == 2:
        return data[:1] + chance.choice((b"\xb3\xfd", b"\xb3\xfe", b"\xbf\xff")) + data[3:]
    return data[:-1] + bytes((data[-1] ^ 1,))


def bad_frame(chance, pid):
    """How a section is told that isn't one of a good table of one section that is current and of the program."""
    frames = [{"current": 0}, {"front": 0x30}, {"parts": b"\0\1"}, {"parts": b"\1\1"}, {"behind": b"\x1b"}, {"behind": bytes(5)}]
    return chance.choice(frames + [{"of_another": 1}] * 2 * (pid != 0))


def put_section(mux, pid, data):
    """The section behind its pointer field; at times behind the end of another, or with others behind it."""
    chance = mux.chance
    way = chance.random()
    if chance.random() < mux.ill / 3:
        put_behind_length(mux, pid, data)
    elif way < 0.8:
        fill = -(len(data) + 1) % ROOM if chance.random() < 0.8 else 0
        mux.carry(pid, b"\0" + data + b"\xff" * fill, begins=True)
    elif way < 0.9 and len(data) < 90:
        mux.add(pid, (b"\0" + data + data + b"\xff").ljust(ROOM, b"\xff"), starts=True)
    else:
        end = chance.randrange(1, min(len(data), ROOM - 1))
        mux.carry(pid, b"\0" + data[:-end], begins=True)
        mux.add(pid, (bytes((end,)) + data[-end:]).ljust(ROOM, b"\xff"), starts=True)


def put_behind_length(mux, pid, data):
    """The section behind the end of another, of which only the length comes, which is as great as may be or too great."""
    begin, at = bytes((0x42, 0xB3, mux.chance.choice((0xFD, 0xFE)))), mux.chance.randint(1, 2)
    mux.add(pid, b"\0" + begin[:at], starts=True)
    mux.carry(pid, bytes((3 - at,)) + begin[at:] + data, begins=True)


def put_tables(mux, tables):
    """PAT and PMT, which at times come through one another."""
    chance, parts = mux.chance, []
    packets, mux.packets = mux.packets, []
    for pid, make in ((0, tables.pat), (tables.pmt_pid, tables.pmt)):
        if chance.random() < mux.ill:
            put_section(mux, pid, make(**bad_frame(chance, pid)) if chance.random() < 0.6 else damaged(chance, make()))
        else:
            put_section(mux, pid, make())
        parts.append(mux.packets)
        mux.packets = []
    mux.packets = packets + (mixed(chance, *parts) if chance.random() < 0.2 else sum(parts, []))


def mixed(chance, some, others):
    """Both lists in one, each in its order."""
    places = sorted(chance.sample(range(len(some) + len(others)), len(some)))
    result = list(others)
    for place, packet in zip(places, some):
        result.insert(place, packet)
    return result
