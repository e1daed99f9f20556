"""What `tshls one` is to print of standard input under the same options, by the rules as they are written.

The segments are sealed by openssl. A fault of the stream is told on standard error, with status 1.
"""

import argparse
import subprocess
import sys

import playlists
import segments


def read_options(words):
    parser = argparse.ArgumentParser()
    for name in ("codecs", "size", "keys"):
        parser.add_argument(f"--{name}", required=True)
    parser.add_argument("--name", default="v")
    for name, value in (("target", 6), ("window", 5), ("frame", 3600), ("gap", 900000), ("most", 1000000), ("period", 1)):
        parser.add_argument(f"--{name}", type=int, default=value)
    for name in ("segment", "program"):
        parser.add_argument(f"--{name}", type=int)
    parser.add_argument("--salt", type=bytes.fromhex)
    parser.add_argument("--event", action="store_true")
    options = parser.parse_args([word for word in words if word != "one"])
    options.keys = options.keys.split("+")
    options.size = "x".join(str(int(side)) for side in options.size.split("x"))
    options.segment = 90000 * (options.target if options.segment is None else options.segment)
    # The run is the first one: no row is known before its own, and it begins behind no discontinuity.
    options.known, options.behind = 0, 0
    return options


def sealed(plain, key, vector):
    command = ["openssl", "enc", "-aes-128-cbc", "-K", key, "-iv", vector.hex()]
    return subprocess.run(command, input=plain, stdout=subprocess.PIPE, check=True).stdout


def text_lines(kind, uri, lines):
    return [f"{kind} {uri} {len(lines)}", *lines]


def both_lists(rows, options, ended):
    name = playlists.escaped(options.name)
    return [
        *text_lines("media", f"{name}.m3u8", playlists.media(rows, options, ended)),
        *text_lines("frames", f"{name}.iframes.m3u8", playlists.iframes(rows, options, ended)),
    ]


def sealed_rows(data, options, first=0):
    """The row and the sealed bytes of each segment, from this number on. At a fault of the stream it is raised behind those that
    come before it. The first one behind those of an earlier run is a discontinuity."""
    for segment in segments.segments(data, options):
        number = first + segment.number
        key = number // options.period % len(options.keys)
        head = segment.head()
        bytes_sealed = sealed(head + segment.body(), options.keys[key], playlists.vector(number, options.salt))
        frames = [(len(head) + offset, length, duration) for offset, length, duration in segment.frames]
        duration = segments.micros(segment.ticks)
        breaks = segment.discontinuity or number == first > 0
        row = playlists.Row(number, len(bytes_sealed), duration, key, breaks, frames)
        yield row, bytes_sealed


def lines(data, options):
    """The lines in order. At a fault of the stream it is raised behind the lines that come before it."""
    rows = []
    for row, bytes_sealed in sealed_rows(data, options):
        rows.append(row)
        uri = f"{playlists.escaped(options.name)}.{row.number}.ts"
        yield from (f"segment {uri} {len(bytes_sealed)}", bytes_sealed.hex())
        yield from both_lists(rows, options, False)
        yield from text_lines("master", "master.m3u8", playlists.master([(rows, options)]))
    yield from both_lists(rows, options, True)


def main():
    options = read_options(sys.argv[1:])
    try:
        for line in lines(sys.stdin.buffer.read(), options):
            sys.stdout.buffer.write(line.encode() + b"\n")
    except segments.Fault as fault:
        name, *numbers = fault.args
        sys.exit(" ".join(map(str, ["tshls:", name, 0, *numbers])))


if __name__ == "__main__":
    main()
