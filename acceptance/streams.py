"""Writes the inputs of the checks, made from a sample stream, into a folder: streams.py SAMPLE FOLDER."""

import pathlib
import random
import sys

SIZE = 188
SYNC = b"\x47"


def noise(length):
    """Fixed bytes with a lone 0x47 at the front and at every 23rd place; no other byte is one."""
    other = [byte for byte in range(256) if byte != SYNC[0]]
    return bytes(SYNC[0] if i % 23 == 0 else other[i * 101 % 255] for i in range(length))


def with_sync_at(data, *places):
    changed = bytearray(data)
    for place in places:
        changed[place] = SYNC[0]
    return bytes(changed)


def blank(length):
    return bytes(length)


def stirred(seed):
    """Packets, broken packets and garbage in which 0x47 is frequent."""
    chance = random.Random(seed)

    def garbage(length):
        return bytes(SYNC[0] if chance.random() < 0.3 else chance.getrandbits(8) for _ in range(length))

    stream = b""
    for _ in range(12):
        packet = SYNC + garbage(SIZE - 1)
        stream += chance.choice(
            (
                packet,
                packet * 2,
                packet + SYNC + blank(SIZE - 1),
                packet[: int(chance.random() * SIZE)],
                garbage(int(chance.random() * 400)),
            )
        )
    return stream


def streams(sample):
    packet = [sample[i : i + SIZE] for i in range(0, 12 * SIZE, SIZE)]
    plain = [SYNC + bytes([0x80 + i]) * (SIZE - 1) for i in range(8)]
    middle = len(sample) // 2
    some = b"".join(packet)

    yield "empty", b""
    yield "a_byte_short_of_a_packet", packet[0][:-1]
    yield "one_packet", packet[0]
    yield "whole_blocks", b"".join(packet[:4])
    yield "no_sync_byte", blank(1000)
    yield "only_sync_bytes", SYNC * 1000

    yield "sample", sample
    yield "noise_before", noise(100) + sample
    yield "tail_cut_off", sample[:-50]
    yield "byte_lost", sample[:middle] + sample[middle + 1 :]
    yield "byte_added", sample[:middle] + SYNC + sample[middle:]
    yield "sync_byte_lost", some[: 5 * SIZE] + b"\0" + some[5 * SIZE + 1 :]
    yield "noise_between", some[: 5 * SIZE] + noise(77) + some[5 * SIZE :]
    yield "packet_of_noise_between", some[: 5 * SIZE] + blank(SIZE) + some[5 * SIZE :]

    lead = blank(50) + b"".join(plain)
    yield "lone_sync_is_no_lock", with_sync_at(lead, 0)
    yield "two_syncs_are_no_lock", with_sync_at(lead, 0, SIZE)
    yield "first_and_third_sync_are_no_lock", with_sync_at(lead, 0, 2 * SIZE)
    yield "three_syncs_are_a_lock", with_sync_at(lead, 0, SIZE, 2 * SIZE)
    yield "the_least_lock_is_taken", with_sync_at(lead, 10, 10 + SIZE, 10 + 2 * SIZE, 20, 20 + SIZE, 20 + 2 * SIZE)

    yield "lock_on_the_last_packet", blank(300) + packet[0]
    yield "lock_on_the_last_two_packets", blank(300) + b"".join(packet[:2])
    yield "lock_with_less_than_a_packet_behind", blank(300) + packet[0] + SYNC + blank(100)
    yield "no_lock_with_other_bytes_behind", blank(300) + packet[0] + blank(100)
    yield "no_lock_where_no_packet_fits", blank(300) + packet[0][:-1]
    yield "no_lock_on_two_packets_before_others", blank(30) + b"".join(plain[:2]) + blank(400)
    yield "a_packet_behind_another_needs_no_lock", b"".join(plain[:4]) + blank(500)
    yield "a_last_packet_needs_only_its_sync", b"".join(plain[:3]) + SYNC + b"\x55" * (SIZE - 1)
    yield "less_than_a_packet_at_the_end", b"".join(plain[:3]) + SYNC + blank(SIZE - 2)
    yield "sync_bytes_inside_a_packet_are_skipped", (
        b"".join(plain[:3]) + with_sync_at(blank(SIZE), 0, 1, 100) + SYNC * 3 + b"".join(plain[:3])
    )


def main():
    source, folder = (pathlib.Path(word) for word in sys.argv[1:])
    sample = source.read_bytes()
    for name, data in streams(sample):
        (folder / f"{name}.in").write_bytes(data)
    for seed in range(40):
        (folder / f"stirred_{seed:02}.stirred").write_bytes(stirred(seed))
    (folder / "repeated.big").write_bytes(sample * (20_000_000 // len(sample) + 1))


main()
