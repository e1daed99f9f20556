"""Reads a folder that is being written, until standard input ends: watching.py FOLDER KEY NAME..

Whatever it reads has to be whole: each playlist is one, lists segments that are there and that open under their listed key and
vector, and begins no earlier than the one before. Prints how many times it looked, and how many segments it opened.
"""

import pathlib
import re
import select
import subprocess
import sys

SIZE = 188


def numbered(text, tag):
    return int(re.search(rf"^#EXT-X-{tag}:(\d+)$", text, re.M)[1])


class Watcher:
    def __init__(self, folder, key, names):
        self.folder, self.key = folder, key
        self.sequences = dict.fromkeys(names, 0)
        self.opened, self.looks = set(), 0

    def look(self):
        self.looks += 1
        for name in self.sequences:
            file = self.folder / f"{name}.m3u8"
            if file.exists():
                self.read_playlist(name, file.read_text())

    def read_playlist(self, name, text):
        lines = text.split("\n")
        if lines[0] != "#EXTM3U" or lines[-1] != "" or not lines[-2].startswith((f"{name}.", "#EXT-X-ENDLIST")):
            sys.exit(f"half a playlist: {text!r}")
        sequence = numbered(text, "MEDIA-SEQUENCE")
        if sequence < self.sequences[name]:
            sys.exit(f"{name} falls from {self.sequences[name]} to {sequence}")
        self.sequences[name] = sequence
        for number, line in enumerate((line for line in lines if line and line[0] != "#"), sequence):
            if line != f"{name}.{number}.ts":
                sys.exit(f"{name} lists {line} as number {number}")
            if line not in self.opened:
                self.open_segment(line, number)

    def open_segment(self, line, number):
        sealed = (self.folder / line).read_bytes()
        command = ["openssl", "enc", "-d", "-aes-128-cbc", "-K", self.key, "-iv", f"{number:032x}"]
        plain = subprocess.run(command, input=sealed, stdout=subprocess.PIPE, check=True).stdout
        if len(plain) % SIZE or set(plain[::SIZE]) != {0x47}:
            sys.exit(f"{line} doesn't open to packets")
        self.opened.add(line)


def main():
    watcher = Watcher(pathlib.Path(sys.argv[1]), sys.argv[2], sys.argv[3:])
    while not select.select([sys.stdin], [], [], 0.002)[0]:
        watcher.look()
    watcher.look()
    print(watcher.looks, len(watcher.opened))


main()
