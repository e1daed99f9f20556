"""Standard input's accepted packets from the first cut on, joined: accepted.py OPTIONS, those of `tshls one`."""

import sys

import segments
import wanted


def main():
    options = wanted.read_options(sys.argv[1:])
    data = sys.stdin.buffer.read()
    sys.stdout.buffer.write(b"".join(packet.data for packet in segments.output_packets(data, options)))


main()
