"""Writes worked inputs, of packets made by hand, into a folder: standard_stream.py FOLDER."""

import pathlib
import sys

from tables import SIZE, table_packets

STREAM_ID, PROGRAM, PMT_PID, VIDEO_PID = 1, 1, 0x1000, 0x100
PAT_SECTION = bytes.fromhex("00B00D0001C100000001F0002AB104B2")
PMT_SECTION = bytes.fromhex("02B0120001C10000E100F0001BE100F00015BD4D56")
PMT_WITH_AUDIO = bytes.fromhex("02B0170001C10000E100F0001BE100F0000FE101F0002F44B99B")
PAT = b"".join(table_packets(0, PAT_SECTION, 0))
PMT = b"".join(table_packets(PMT_PID, PMT_SECTION, 0))
SECOND_PMT = b"".join(table_packets(PMT_PID, PMT_WITH_AUDIO, 1))


def stamped(time):
    """The beginning of a PES packet of video with this time stamp, in ticks."""
    stamp = bytes(
        (
            0x21 | time >> 29 & 0x0E,
            time >> 22 & 0xFF,
            time >> 14 & 0xFE | 1,
            time >> 7 & 0xFF,
            time << 1 & 0xFE | 1,
        )
    )
    return bytes.fromhex("000001E00000808005") + stamp


def stream(*parts):
    """PAT, PMT and then the parts: a time begins a key frame, a time as text another frame, bytes stand for themselves."""
    packets, counter = [PAT, PMT], 0
    for part in parts:
        if isinstance(part, bytes):
            packets.append(part)
            continue
        key_frame = isinstance(part, int)
        front = bytes((0x47, 0x41, 0x00, (0x30 if key_frame else 0x10) | counter % 16))
        front += bytes((1, 0x40)) if key_frame else b""
        packets.append((front + stamped(int(part))).ljust(SIZE, b"\xff"))
        counter += 1
    return b"".join(packets)


def every(step, count, begin=0):
    return [begin + step * i for i in range(count)]


def without(data, at):
    return data[:at] + data[at + 1 :]


def inputs():
    standard = stream(0, "270000", 540000, "810000")
    yield "standard", standard
    yield "noise_before", bytes.fromhex("0047000102") + standard
    yield "last_byte_missing", standard[:-1]
    yield "byte_missing", without(stream(0, "180000", "360000", 540000, "810000"), 4 * SIZE - 1)
    yield "bad_crc", standard.replace(PAT_SECTION, PAT_SECTION[:-1] + b"\xb3", 1)
    yield "tables_alone", stream()
    yield "empty", b""
    yield "wrap", stream(8589934000, 539408)
    yield "eight_seconds", stream(0, 720000)
    yield "rounds_up", stream(0, 585000)
    yield "rounds_down", stream(0, 584999)
    yield "new_epoch", stream(0, "270000", "324270000", 324540000)
    yield "seven_segments", stream(*every(540000, 7), "3776400")
    yield "epoch_in_seven_segments", stream(0, "536400", *every(540000, 6, 9000000), "12236400")
    yield "five_segments", stream(*every(540000, 5))
    yield "two_iframes", stream(0, 180000, 540000)
    yield "new_tables", stream(0, "270000", SECOND_PMT, 300000)
    yield "one_key_frame", stream(0)
    yield "no_key_frame", stream("0", "270000")


def main():
    folder = pathlib.Path(sys.argv[1])
    folder.mkdir()
    for name, data in inputs():
        (folder / f"{name}.ts").write_bytes(data)


if __name__ == "__main__":
    main()
