"""The playlists of a rendition's segments, by the rule as it is written (RFC 8216, 4.3): lists of lines."""

from fractions import Fraction
from math import ceil
from urllib.parse import quote


def escaped(name):
    return quote(name, safe="")


def seconds(duration):
    return f"{duration // 1000000}.{duration % 1000000:06}"


def vector(number, salt):
    """The number in 16 bytes, xor the salt where there is one."""
    return bytes(a ^ b for a, b in zip(number.to_bytes(16, "big"), salt or bytes(16)))


def vector_line(name, row, options):
    iv = vector(row.number, options.salt).hex().upper()
    return f'#EXT-X-KEY:METHOD=AES-128,URI="{name}.{row.key}.key",IV=0x{iv}'


class Row:
    """What playlists tell of a segment: its sealed size, its duration in microseconds and those of its I-frames."""

    def __init__(self, number, size, duration, key, discontinuity, frames):
        self.number, self.size, self.duration = number, size, duration
        self.key, self.discontinuity, self.frames = key, discontinuity, frames


def first_listed(rows, options):
    """The greatest row from which on enough is left, as many as the window and three targets; an event keeps all.

    A run that goes on knows no row before those that were listed when it began.
    """
    if options.event:
        return 0
    enough = 3 * options.target * 1000000
    return max(
        j
        for j in range(options.known, len(rows) + 1)
        if j == options.known or len(rows) - j >= options.window and sum(row.duration for row in rows[j:]) >= enough
    )


def top(options, sequence, discontinuities):
    return [
        "#EXTM3U",
        "#EXT-X-VERSION:4",
        f"#EXT-X-TARGETDURATION:{options.target}",
        f"#EXT-X-MEDIA-SEQUENCE:{sequence}",
        f"#EXT-X-DISCONTINUITY-SEQUENCE:{options.behind + discontinuities}",
    ] + ["#EXT-X-PLAYLIST-TYPE:EVENT"] * options.event


def media(rows, options, ended):
    first, name = first_listed(rows, options), escaped(options.name)
    lines = top(options, first, sum(row.discontinuity for row in rows[:first]))
    key = None
    for row in rows[first:]:
        if row.discontinuity:
            lines.append("#EXT-X-DISCONTINUITY")
        if options.salt:
            lines.append(vector_line(name, row, options))
        elif row.key != key:
            key = row.key
            lines.append(f'#EXT-X-KEY:METHOD=AES-128,URI="{name}.{key}.key"')
        lines += [f"#EXTINF:{seconds(row.duration)},", f"{name}.{row.number}.ts"]
    return lines + ["#EXT-X-ENDLIST"] * ended


def iframes(rows, options, ended):
    first, name = first_listed(rows, options), escaped(options.name)
    removed = rows[:first]
    lines = top(options, sum(len(row.frames) for row in removed), sum(row.discontinuity for row in removed))
    lines.append("#EXT-X-I-FRAMES-ONLY")
    for row in rows[first:]:
        if row.discontinuity:
            lines.append("#EXT-X-DISCONTINUITY")
        lines.append(vector_line(name, row, options))
        for offset, length, duration in row.frames:
            lines += [f"#EXTINF:{seconds(duration)},", f"#EXT-X-BYTERANGE:{length}@{offset}", f"{name}.{row.number}.ts"]
    return lines + ["#EXT-X-ENDLIST"] * ended


def rate(run):
    return Fraction(8000000 * sum(size for size, _ in run), sum(duration for _, duration in run))


def runs_in_range(pieces, target):
    """All runs that last from half to one and a half of the target, as their rates."""
    for begin in range(len(pieces)):
        size = duration = 0
        for more, longer in pieces[begin:]:
            size, duration = size + more, duration + longer
            if 2 * duration > 3 * target * 1000000:
                break
            if 2 * duration >= target * 1000000:
                yield Fraction(8000000 * size, duration)


def bandwidths(pieces, target):
    """The peak and the average of (size, microseconds) pieces, in bits a second (RFC 8216, 4.1)."""
    peak = max(runs_in_range(pieces, target), default=None) or max(rate([piece]) for piece in pieces)
    return ceil(peak), ceil(rate(pieces))


def master(variants):
    """Of (rows, options) pairs: the streams of all, and behind them those of their I-frames. Rates are those of known rows."""
    streams, frames = [], []
    for rows, options in variants:
        rows = rows[options.known :]
        name = escaped(options.name)
        shown = f'CODECS="{options.codecs}",RESOLUTION={options.size}'
        whole = bandwidths([(row.size, row.duration) for row in rows], options.target)
        own = bandwidths([(length, duration) for row in rows for _, length, duration in row.frames], options.target)
        streams += ["#EXT-X-STREAM-INF:BANDWIDTH={},AVERAGE-BANDWIDTH={},{}".format(*whole, shown), f"{name}.m3u8"]
        frames.append(
            "#EXT-X-I-FRAME-STREAM-INF:BANDWIDTH={},AVERAGE-BANDWIDTH={},{},URI=\"{}.iframes.m3u8\"".format(
                *own, shown, name
            )
        )
    return ["#EXTM3U", "#EXT-X-VERSION:4", *streams, *frames]
