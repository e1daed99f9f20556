"""A strict client of a channel: origin.py URL UNTIL [FOLDER].

Polls the master playlist and each media playlist that it lists, fetches each new segment and its key at once, and opens it, until
the file UNTIL is there. A listed file that isn't there, a sequence number that falls, an entry that changes under its number, or a
segment that doesn't open ends it with status 1. At the end it prints for each rendition: NAME SEGMENTS DISCONTINUITIES. What each
segment holds is kept in FOLDER as NAME.NUMBER.DISCONTINUITIES.ts, with how many discontinuities stand in front of it.
"""

import os
import re
import sys
import time
import urllib.error
import urllib.request
from urllib.parse import unquote, urljoin

import libcrypto
from tables import SIZE


def fetched(url):
    try:
        with urllib.request.urlopen(url, timeout=10) as answer:
            return answer.read()
    except urllib.error.HTTPError as error:
        sys.exit(f"{url}: {error.code}")


class Rendition:
    """A rendition as a player sees it."""

    def __init__(self, url, folder):
        self.folder, self.name = folder, unquote(url.rpartition("/")[2]).removesuffix(".m3u8")
        self.url, self.entries, self.sequence, self.breaks, self.seen, self.key_bytes = url, {}, 0, 0, 0, {}
        self.broken = 0

    def look(self):
        sequence = breaks = before = 0
        number, discontinuity, key = None, False, None
        for line in fetched(self.url).decode().splitlines():
            if line.startswith("#EXT-X-MEDIA-SEQUENCE:"):
                number = sequence = int(line[22:])
            elif line.startswith("#EXT-X-DISCONTINUITY-SEQUENCE:"):
                breaks = before = int(line[30:])
            elif line == "#EXT-X-DISCONTINUITY":
                discontinuity = True
            elif line.startswith("#EXT-X-KEY:"):
                key = re.search('URI="([^"]*)"(?:,IV=0x([0-9A-F]{32}))?', line).groups()
            elif line and not line.startswith("#"):
                before += discontinuity
                self.entry(number, (line, discontinuity), key, before)
                number, discontinuity = number + 1, False
        if sequence < self.sequence or breaks < self.breaks:
            sys.exit(f"{self.url}: a sequence number falls, {self.sequence} to {sequence} or {self.breaks} to {breaks}")
        self.sequence, self.breaks = sequence, breaks

    def entry(self, number, entry, key, before):
        if number in self.entries:
            if self.entries[number] != entry:
                sys.exit(f"{self.url}: entry {number} was {self.entries[number]} and is {entry}")
            return
        self.entries[number] = entry
        self.broken += entry[1]
        uri, vector = key
        if uri not in self.key_bytes:
            self.key_bytes[uri] = fetched(urljoin(self.url, uri))
        plain = libcrypto.opened(fetched(urljoin(self.url, entry[0])), self.key_bytes[uri].hex(), bytes.fromhex(vector or f"{number:032x}"))
        if not plain or len(plain) % SIZE or any(plain[at] != 0x47 for at in range(0, len(plain), SIZE)):
            sys.exit(f"{self.url}: entry {number} doesn't open")
        self.seen += 1
        if self.folder:
            path = f"{self.folder}/{self.name}.{number}.{before}.ts"
            with open(path + ".new", "wb") as file:
                file.write(plain)
            os.replace(path + ".new", path)


def main():
    url, until, *folder = sys.argv[1:]
    renditions, over = {}, False
    while not over:
        over = os.path.exists(until)  # and then once more, so that all that others saw before is seen
        master = fetched(url).decode()
        for uri in re.findall(r"^[^#\n].*$", master, re.M):
            renditions.setdefault(uri, Rendition(urljoin(url, uri), *folder or [""])).look()
        time.sleep(0.2)
    for uri, one in renditions.items():
        print(unquote(uri).removesuffix(".m3u8"), one.seen, one.broken)


main()
