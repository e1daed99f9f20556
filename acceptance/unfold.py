"""Turns the lines of `tshls one` on standard input into a folder of files: unfold.py FOLDER NAME KEY[+KEY..].

A file that comes again is replaced, so the folder has the last playlists. The key files stand beside them.
"""

import pathlib
import sys
from urllib.parse import unquote


def unfold(lines, folder):
    for line in lines:
        kind, uri, count = line.split()
        file = folder / unquote(uri)
        if kind == "segment":
            data = bytes.fromhex(next(lines))
            if len(data) != int(count):
                sys.exit(f"{uri} has {len(data)} bytes and not {count}")
            file.write_bytes(data)
        else:
            file.write_text("".join(next(lines) for _ in range(int(count))), encoding="utf-8", newline="")


def main():
    folder, name, keys = pathlib.Path(sys.argv[1]), sys.argv[2], sys.argv[3].split("+")
    folder.mkdir(parents=True, exist_ok=True)
    unfold(iter(sys.stdin), folder)
    for index, key in enumerate(keys):
        (folder / f"{name}.{index}.key").write_bytes(bytes.fromhex(key))


main()
