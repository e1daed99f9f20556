"""The segments of a stream, by the rule as it is written: time stamps, cuts, heads, faults."""

from dataclasses import dataclass, field

import packets
from tables import SIZE, Tables, Watch, fields, head

TURN = 1 << 33


class Fault(Exception):
    """Why a stream isn't packed to its end: a name, and the number of a segment where one is told."""


def pts(packet):
    """The 33-bit time stamp of a payload that begins as a PES packet of video; None where there is none (2.4.3.6)."""
    payload = packet.payload
    if packet.scrambled or len(payload) < 14 or payload[:3] != b"\0\0\1" or payload[3] >> 4 != 0xE:
        return None
    if payload[6] >> 6 != 2 or payload[7] >> 6 < 2 or payload[8] < 5:
        return None
    a, b, c, d, e = payload[9:14]
    return (a >> 1 & 7) << 30 | b << 22 | c >> 1 << 15 | d << 7 | e >> 1


@dataclass
class Accepted:
    """An accepted packet. Its time, in ticks, and its epoch stand where it is a stamped video start."""

    data: bytes
    tables: Tables
    starts: bool
    random_access: bool
    time: int | None = None
    epoch: int | None = None
    counted: bool = False


def accepted_packets(data, program):
    """The accepted packets, and whether tables were ever in force."""
    watch, result = Watch(program), []
    for raw in packets.packets(data):
        packet, tables = fields(raw), watch.tables
        if packet and tables and tables.accepts(packet):
            starts = packet.pid == tables.pmt().video() and bool(packet.payload) and packet.starts
            one = Accepted(raw, tables, starts, packet.random_access)
            one.time = pts(packet) if starts else None
            result.append(one)
        watch.push(packet)
    return result, watch.tables is not None


def stamp(accepted, gap):
    """Unwraps the times, counts the epochs, and finds the counted points."""
    last, epoch, above = None, 0, {}
    for one in accepted:
        if one.time is None:
            continue
        if last is not None:
            step = (one.time - last + TURN // 2) % TURN - TURN // 2
            one.time = last + step
            epoch += abs(step) > gap
        last, one.epoch = one.time, epoch
        if one.random_access:
            one.counted = epoch not in above or one.time > above[epoch]
            above[epoch] = max(one.time, above.get(epoch, one.time))


def micros(ticks):
    return (200 * ticks + 9) // 18


def seconds_rounded(duration):
    return (duration + 500000) // 1000000


@dataclass
class Segment:
    number: int
    packets: list
    discontinuity: bool
    pmt_counter: int
    ticks: int = 0
    frames: list = field(default_factory=list)

    def first(self):
        return self.packets[0]

    def head(self):
        return head(self.first().tables, self.number % 16, self.pmt_counter)

    def body(self):
        return b"".join(packet.data for packet in self.packets)

    def close(self, following, frame):
        """Sets the ticks and the I-frames: offset and length in the body, microseconds."""
        start, epoch = self.first().time, self.first().epoch
        if following is not None and following.epoch == epoch:
            self.ticks = following.time - start
        else:
            self.ticks = max(p.time for p in self.packets if p.epoch == epoch) - start + frame
        counted = [i for i, packet in enumerate(self.packets) if packet.counted]
        times = [self.packets[i].time - start for i in counted] + [self.ticks]
        for i, begins, ends in zip(counted, times, times[1:]):
            behind = next((j for j in range(i + 1, len(self.packets)) if self.packets[j].starts), len(self.packets))
            self.frames.append((i * SIZE, (behind - i) * SIZE, micros(ends) - micros(begins)))


def is_cut(before, point, least):
    return point.counted and (
        point.time - before.time >= least or point.epoch != before.epoch or point.tables != before.tables
    )


def output_packets(data, options):
    """The accepted packets from the first cut on."""
    accepted, had_tables = accepted_packets(data, options.program)
    stamp(accepted, options.gap)
    begin = next((i for i, packet in enumerate(accepted) if packet.counted), None)
    if begin is None:
        raise Fault("NoStart" if had_tables else "NoProgram")
    return accepted[begin:]


def segments(data, options):
    """The segments in order; at a fault that of the stream, behind those that come before it."""
    current = Segment(0, [], False, 0)
    for packet in output_packets(data, options):
        if current.packets and is_cut(current.first(), packet, options.segment):
            yield closed(current, packet, options)
            current = behind(current, packet)
        if len(current.packets) == options.most:
            raise Fault("BigSegment", current.number)
        current.packets.append(packet)
    yield closed(current, None, options)


def closed(segment, following, options):
    segment.close(following, options.frame)
    if seconds_rounded(micros(segment.ticks)) > options.target:
        raise Fault("LongSegment", segment.number)
    return segment


def behind(segment, point):
    first = segment.first()
    changed = point.epoch != first.epoch or point.tables != first.tables
    pmt_packets = len(segment.head()) // SIZE - 1
    return Segment(segment.number + 1, [], changed, (segment.pmt_counter + pmt_packets) % 16)
