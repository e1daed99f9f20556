"""Cuts a playlist at its discontinuities, and prints the files of the parts: stretches.py PLAYLIST.

A client that can't change its decoders there, as ffmpeg can't, plays one part after another.
"""

import pathlib
import re
import sys


def main():
    playlist = pathlib.Path(sys.argv[1])
    text = playlist.read_text().removesuffix("#EXT-X-ENDLIST\n")
    entries_at = re.search(r"^#EXT-X-(DISCONTINUITY|KEY:.*)$", text, re.M).start()
    top, entries = text[:entries_at], text[entries_at:]
    sequence = int(re.search(r"MEDIA-SEQUENCE:(\d+)", top)[1])
    key = ""
    for i, part in enumerate(entries.split("#EXT-X-DISCONTINUITY\n")):
        keys = re.findall(r"^#EXT-X-KEY:.*\n", part, re.M)
        front = re.sub(r"MEDIA-SEQUENCE:\d+", f"MEDIA-SEQUENCE:{sequence}", top)
        file = playlist.with_suffix(f".{i}.m3u8")
        file.write_text(f"{front}{'' if part.startswith('#EXT-X-KEY') else key}{part}#EXT-X-ENDLIST\n")
        print(file)
        key = (keys or [key])[-1]
        sequence += part.count("#EXTINF")


main()
