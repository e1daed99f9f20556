"""Repeated packets, which a stream may have (ISO/IEC 13818-1, 2.4.3.3).

`make PID`: standard input's packets, each one of the PID that has payload twice. `drop`: each packet that is the one
before of its PID again left out.
"""

import sys

from tables import SIZE, fields


def packets(data):
    for at in range(0, len(data), SIZE):
        yield data[at : at + SIZE]


def made(data, pid):
    for packet in packets(data):
        yield packet
        if fields(packet).pid == pid and fields(packet).payload:
            yield packet


def dropped(data):
    last = {}
    for packet in packets(data):
        pid = fields(packet).pid
        if last.get(pid) != packet:
            yield packet
        last[pid] = packet


data = sys.stdin.buffer.read()
sys.stdout.buffer.write(b"".join(made(data, int(sys.argv[2], 0)) if sys.argv[1] == "make" else dropped(data)))
