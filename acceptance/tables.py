"""Program tables as they are written (ISO/IEC 13818-1, 2.4.3 and 2.4.4): fields, sections, tables in force, heads."""

from dataclasses import dataclass
from functools import cache

SIZE = 188
VIDEO_TYPES = (0x01, 0x02, 0x10, 0x1B, 0x24)
LONGEST = 1021


@dataclass(frozen=True)
class Packet:
    pid: int
    starts: bool
    scrambled: bool
    counter: int
    random_access: bool
    payload: bytes


def fields(data):
    """The fields of 188 bytes; None where the packet is dropped."""
    control = data[3] >> 4 & 3
    length = data[4]
    if data[0] != 0x47 or data[1] & 0x80 or control == 0:
        return None
    if control == 2 and length > 183 or control == 3 and length > 182:
        return None
    return Packet(
        pid=(data[1] & 0x1F) << 8 | data[2],
        starts=bool(data[1] & 0x40),
        scrambled=bool(data[3] & 0xC0),
        counter=data[3] & 15,
        random_access=control > 1 and length > 0 and bool(data[5] & 0x40),
        payload={1: data[4:], 2: b"", 3: data[5 + length :]}[control],
    )


class Sections:
    """Gathers the sections of one PID."""

    def __init__(self):
        self.begun = None
        self.counter = None

    def push(self, packet):
        """The sections that this packet of the PID completes."""
        before, self.counter = self.counter, packet.counter
        if before == packet.counter:
            return []
        if before is not None and (before + 1) % 16 != packet.counter:
            self.begun = None
        if not packet.starts:
            return self.gather(packet.payload)[0]
        behind = 1 + packet.payload[0]
        if behind > len(packet.payload):
            self.begun = None
            return []
        found, _, too_long = self.gather(packet.payload[1:behind])
        self.begun = None
        while not too_long and behind < len(packet.payload) and packet.payload[behind] != 0xFF:
            self.begun = b""
            more, taken, too_long = self.gather(packet.payload[behind:])
            found += more
            behind += taken
        return found

    def gather(self, data):
        """Gives bytes to the section begun: those completed, how many bytes it took, and whether it was too long."""
        if self.begun is None:
            return [], len(data), False
        had = len(self.begun)
        whole = self.begun + data
        self.begun = whole
        if len(whole) < 3:
            return [], len(data), False
        length = (whole[1] & 15) << 8 | whole[2]
        if length > LONGEST:
            self.begun = None
            return [], len(data), True
        if len(whole) < 3 + length:
            return [], len(data), False
        self.begun = None
        return [whole[: 3 + length]], 3 + length - had, False


@cache
def crc(data):
    register = 0xFFFFFFFF
    for byte in data:
        register ^= byte << 24
        for _ in range(8):
            register = (register << 1 ^ (0x04C11DB7 if register >> 31 else 0)) & 0xFFFFFFFF
    return register


def number(data):
    return int.from_bytes(data, "big")


def is_frame(section, table_id, shortest):
    """What a good PAT and a good PMT have in common."""
    return (
        len(section) >= shortest
        and section[0] == table_id
        and section[1] & 0x80
        and crc(section) == 0
        and section[5] & 1
        and section[6] == section[7] == 0
        and 3 + (number(section[1:3]) & 0xFFF) == len(section)
    )


@dataclass(frozen=True)
class Pat:
    stream_id: int
    entries: tuple

    def choice(self, program):
        """The stream id, the program and its PMT's PID that are chosen where this program is asked for, or none is."""
        wanted = [(p, pid) for p, pid in self.entries if (p != 0 if program is None else p == program)]
        return (self.stream_id, *wanted[0]) if wanted else None


def read_pat(section):
    if not is_frame(section, 0, 12) or (len(section) - 12) % 4:
        return None
    entries = (section[at : at + 4] for at in range(8, len(section) - 4, 4))
    return Pat(number(section[3:5]), tuple((number(e[:2]), number(e[2:]) & 0x1FFF) for e in entries))


@dataclass(frozen=True)
class Pmt:
    program: int
    pcr_pid: int
    entries: tuple

    def video(self):
        return next((pid for kind, pid in self.entries if kind in VIDEO_TYPES), None)

    def carries(self, pid):
        return pid == self.pcr_pid or any(pid == other for _, other in self.entries)


@cache
def read_pmt(section):
    if not is_frame(section, 2, 16):
        return None
    at, end = 12 + (number(section[10:12]) & 0xFFF), len(section) - 4
    entries = []
    while at + 5 <= end:
        entries.append((section[at], number(section[at + 1 : at + 3]) & 0x1FFF))
        at += 5 + (number(section[at + 3 : at + 5]) & 0xFFF)
    if at != end:
        return None
    return Pmt(number(section[3:5]), number(section[8:10]) & 0x1FFF, tuple(entries))


@dataclass(frozen=True)
class Tables:
    stream_id: int
    program: int
    pmt_pid: int
    section: bytes

    def pmt(self):
        return read_pmt(self.section)

    def accepts(self, packet):
        return self.pmt().carries(packet.pid) and packet.pid not in (0, 0x1FFF, self.pmt_pid)


class Watch:
    """The tables in force before the next packet."""

    def __init__(self, program):
        self.program = program
        self.pats, self.pmts = Sections(), None
        self.choice = self.tables = None

    def push(self, packet):
        if packet is None or packet.scrambled or not packet.payload:
            return
        if self.choice and packet.pid == self.choice[2]:
            for section in self.pmts.push(packet):
                pmt = read_pmt(section)
                if pmt and pmt.program == self.choice[1]:
                    self.tables = Tables(*self.choice, section)
        if packet.pid == 0:
            before = self.choice
            for section in self.pats.push(packet):
                pat = read_pat(section)
                self.choice = pat and pat.choice(self.program) or self.choice
            if self.choice and (before is None or before[2] != self.choice[2]):
                self.pmts = Sections()


def table_packets(pid, section, counter):
    """A section in packets with payload only, filled up with FF."""
    data = b"\0" + section
    for i, at in enumerate(range(0, len(data), SIZE - 4)):
        start = 0x40 if i == 0 else 0
        front = bytes([0x47, start | pid >> 8, pid & 0xFF, 0x10 | (counter + i) % 16])
        yield front + data[at : at + SIZE - 4].ljust(SIZE - 4, b"\xff")


def head(tables, pat_counter, pmt_counter):
    """The packets that bring the tables to a segment (RFC 8216, 3.2), joined."""
    pat = bytes.fromhex("00B00D") + tables.stream_id.to_bytes(2, "big") + bytes.fromhex("C10000")
    pat += tables.program.to_bytes(2, "big") + (0xE000 | tables.pmt_pid).to_bytes(2, "big")
    pat += crc(pat).to_bytes(4, "big")
    return b"".join((*table_packets(0, pat, pat_counter), *table_packets(tables.pmt_pid, tables.section, pmt_counter)))
