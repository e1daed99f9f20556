"""Random packets, and damages of them."""

from tables import SIZE

ROOM = SIZE - 4


def with_byte(packet, place, byte):
    return packet[:place] + bytes((byte & 0xFF,)) + packet[place + 1 :]


class Mux:
    """Makes packets; the counters of each PID run on. `ill` is how often something is broken or odd."""

    def __init__(self, chance, ill):
        self.chance, self.ill, self.packets, self.counters = chance, ill, [], {}

    def add(self, pid, payload, starts=False, random_access=False):
        """One packet. An adaptation field takes the room that the payload leaves."""
        counter = self.counters.get(pid, self.chance.randrange(16))
        field = self.adaptation(ROOM - len(payload), random_access)
        control = 2 * bool(field) + bool(payload)
        front = bytes((0x47, starts << 6 | pid >> 8, pid & 0xFF, control << 4 | counter % 16))
        self.packets.append(front + field + payload)
        self.counters[pid] = (counter + bool(payload)) % 16

    def adaptation(self, room, random_access):
        if room < 2:
            return bytes(room)
        flags = self.chance.choice((0, 0, 0x10, 0x20, 0x80, 0x3F)) | random_access << 6
        return bytes((room - 1, flags)) + self.chance.randbytes(room - 2)

    def carry(self, pid, payload, begins):
        """A payload over so many packets as it takes, at times short ones; `begins` is whether a section does in the first."""
        size = ROOM if self.chance.random() < 0.7 else self.chance.randint(1, ROOM)
        pieces = [payload[at : at + size] for at in range(0, len(payload), size)]
        for i, piece in enumerate(pieces):
            if self.chance.random() < self.ill / 3:
                self.interrupt(pid)
            self.add(pid, piece, starts=begins and i == 0)

    def interrupt(self, pid):
        """A repeat, a counter that comes again or is left out, or a scrambled packet, whose counter doesn't count."""
        way = self.chance.randrange(5)
        if way == 0 and self.packets:
            self.packets.append(self.packets[-1])
        elif way < 3:
            self.counters[pid] = (self.counters.get(pid, 0) + self.chance.choice((1, 15))) % 16
        else:
            self.add(pid, self.chance.randbytes(ROOM))
            self.packets[-1] = with_byte(self.packets[-1], 3, self.packets[-1][3] | 0x80)
            self.counters[pid] -= way == 3


def garbage_of(chance, length):
    """Bytes that are no packets; in half of it sync bytes are frequent."""
    return bytes(chance.choices(b"\x47\0\x80", k=length)) if chance.random() < 0.5 else chance.randbytes(length)


def damage(chance, packets):
    """One damage of a packet, or of what stands around it."""
    at = chance.randrange(len(packets))
    packet = packets[at]
    if len(packet) < SIZE:
        return
    place, garbage = chance.randrange(SIZE), garbage_of(chance, chance.choice((1, 77, SIZE, 400)))
    packets[at] = chance.choice(
        (
            b"",
            packet + packet,
            packet + garbage,
            b"\x47" + garbage + packet,
            packet[:place] + packet[place + chance.choice((1, 2, 40)) :],
            packet[:place] + chance.choice((b"\x47", b"\0", garbage)) + packet[place:],
            with_byte(packet, place, packet[place] ^ 1 << chance.randrange(8)),
            with_byte(packet, 1, packet[1] | 0x80),
            with_byte(packet, 3, packet[3] ^ 0x40 * chance.randrange(1, 4)),
            with_byte(packet, 3, packet[3] & 0xCF | 0x10 * chance.randrange(4)),
            with_byte(packet, 3, packet[3] & 0xF0 | packet[3] + chance.choice((1, 2, 15)) & 15),
            with_byte(packet, 4, chance.choice((0, 1, 182, 183, 183, 184, 255))),
        )
    )
