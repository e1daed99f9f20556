"""What the program is to answer on a ladder, by the rules as they are written."""

import re
from typing import NamedTuple

import ladder as ladders
import libcrypto
import playlists
import segments
import wanted
from tables import SIZE, Tables, fields, head, number, read_pat, read_pmt

# Each segment is sealed by openssl's library in place of its command.
wanted.sealed = libcrypto.sealed

RANGES = {
    "window": (1, 10000),
    "frame": (1, 900000),
    "gap": (1, (1 << 32) - 1),
    "most": (1, 1000000),
    "program": (1, 65535),
    "workers": (1, 64),
    "queue": (1, 256),
    "batch": (1, 256),
    "stall": (1, 86400),
    "ahead": (1, 65536),
}


class Answer(NamedTuple):
    status: int
    # A line for each fault. Those of streams come as they stand, so in any order.
    fault: str
    output: bytes = b""
    # Lines of streams that may have been told before a fault stopped the run.
    before: str = ""

    def tells(self):
        """The name of its first fault, or that there is none."""
        return self.fault.split()[1] if self.fault else "none"

    def is_told(self, text):
        """Whether standard error tells these faults, each once."""
        told, faults = text.splitlines(True), self.fault.splitlines(True)
        stopped = told[: -len(faults)] if self.before else []
        are_known = set(stopped) <= set(self.before.splitlines(True))
        return are_known and len(set(told)) == len(told) and sorted(told[len(stopped) :]) == sorted(faults)


def refusal(status, *words):
    return Answer(status, " ".join(map(str, ("tshls:", *words))) + "\n")


def is_key(text):
    return re.fullmatch("[0-9a-fA-F]{32}", text) is not None


def is_size(text):
    sides = re.fullmatch(r"\+?([0-9]+)x\+?([0-9]+)", text)
    return sides is not None and all(int(side) < 1 << 64 for side in sides.groups())


def are_in_range(numbers):
    target = numbers.get("target", 6)
    ranges = RANGES | {"target": (1, 3600), "segment": (1, target)}
    return all(ranges[name][0] <= value <= ranges[name][1] for name, value in numbers.items() if name in ranges)


def is_allowed(entry):
    name, codecs = entry.name.encode(), entry.codecs.encode()
    is_name = 1 <= len(name) <= 64 and name != b"master" and not re.search(rb"[\0-\x1f\x7f/.:]", name)
    has_sides = all(1 <= int(side) <= 16384 for side in entry.size.split("x"))
    return is_name and re.fullmatch(rb"[ !#-~]{1,128}", codecs) is not None and has_sides


def settings_refusal(ladder, numbers, entries):
    """What is told of settings that can be read."""
    if ladder.salt is not None and not is_key(ladder.salt):
        return refusal(2, "BadVector")
    if numbers.get("period") == 0:
        return refusal(1, "ZeroPeriod")
    if not are_in_range(numbers) or not all(map(is_allowed, entries)) or len({entry.name for entry in entries}) < len(entries):
        return refusal(1, "Settings")
    return None


def refusal_of_one(ladder, entry):
    if not all(map(is_key, entry.keys)):
        return refusal(2, "BadKey")
    if not is_size(entry.size):
        return refusal(2, "BadSize")
    return settings_refusal(ladder, ladder.numbers, [entry])


def refusal_of_pack(ladder):
    for number, entry in enumerate(ladder.entries, 1):
        if not is_size(entry.size) or not all(map(is_key, entry.keys)):
            return refusal(2, "BadEntry", number)
    refused = settings_refusal(ladder, ladder.numbers | ladder.pool, ladder.entries)
    if not refused and any(entry.kind == "absent" for entry in ladder.entries):
        return refusal(1, "Unread")
    return refused


def options_of(ladder, entry):
    return wanted.read_options(ladder.words() + entry.words())


def one(ladder, entry):
    """The answer of `one` on the stream of an entry."""
    refused = refusal_of_one(ladder, entry)
    if refused:
        return refused
    lines, status, fault = [], 0, ""
    try:
        for line in wanted.lines(entry.data, options_of(ladder, entry)):
            lines.append(line + "\n")
    except segments.Fault as told:
        name, *numbers = told.args
        status, fault, *_ = refusal(1, name, 0, *numbers)
    return Answer(status, fault, "".join(lines).encode())


def pack(ladder, folder):
    """The answer of `pack`, whose files are written to the folder; and the rows and options of each rendition."""
    refused = refusal_of_pack(ladder)
    if refused:
        return refused, []
    packed, faults = [], []
    for number, entry in enumerate(ladder.entries):
        options = options_of(ladder, entry)
        if entry.kind == "folder":
            rows, fault = [], f"tshls: Read {number}"
        else:
            rows, fault = ladders.pack(folder, number, options, entry.data)
        faults += [fault] * bool(fault)
        packed += [(rows, options)] * bool(rows)
    if packed:
        ladders.write_text(folder / "master.m3u8", playlists.master(packed))
    if faults:
        return Answer(1, "".join(fault + "\n" for fault in faults)), packed
    by_name = sorted(packed, key=lambda rendition: rendition[1].name.encode())
    return Answer(0, "", "".join(ladders.summary_line(*rendition) + "\n" for rendition in by_name).encode()), packed


def head_length(plain):
    """How long the head of a segment is; None where it has none."""
    first = fields(plain[:SIZE]) if len(plain) >= SIZE else None
    pat = first and len(first.payload) > 16 and read_pat(first.payload[1:17])
    if not pat or len(pat.entries) != 1:
        return None
    program, pmt_pid = pat.entries[0]
    section, counter = b"", None
    for at in range(SIZE, len(plain) - SIZE + 1, SIZE):
        packet = plain[at : at + SIZE]
        counter = packet[3] & 15 if counter is None else counter
        section += packet[4:] if section else packet[5:]
        length = 3 + (number(section[1:3]) & 0xFFF)
        if len(section) >= length:
            tables = Tables(pat.stream_id, program, pmt_pid, section[:length])
            made = head(tables, plain[3] & 15, counter)
            return len(made) if read_pmt(section[:length]) and plain.startswith(made) else None
    return None


def check(rows, options, folder, keys):
    """The answer of `check` on these rows, with the segments in the folder."""
    files = [folder / f"{options.name}.{row.number}.ts" for row in rows]
    if not all(file.is_file() for file in files):
        return refusal(1, "Unread")
    for place, row in enumerate(rows):
        if row.key >= len(keys):
            return refusal(1, "Missing", place)
    plains = []
    for row, file in zip(rows, files):
        plains.append(libcrypto.opened(file.read_bytes(), keys[row.key], playlists.vector(row.number, options.salt)))
    if None in plains:
        return refusal(1, "Closed", plains.index(None))
    heads = [head_length(plain) for plain in plains]
    if None in heads:
        return refusal(1, "NoHead", heads.index(None))
    return Answer(0, "", f"ok {len(rows)} {sum(map(len, plains)) - sum(heads)}\n".encode())
