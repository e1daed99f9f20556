"""Opens a rendition's segments as a client does, and joins them: opened.py FOLDER NAME [with_heads].

Without that word only what stands behind the tables that a segment begins with is joined.
Each segment is opened by openssl with the key that the media playlist names and with the vector of the key's line; where
that has none, with its media sequence number (RFC 8216, 5.2).
"""

import pathlib
import re
import subprocess
import sys
from urllib.parse import unquote

from tables import SIZE, fields, read_pat


def entries(text):
    """The vector in hex digits, the key file and the segment file of each entry."""
    number = int(re.search(r"^#EXT-X-MEDIA-SEQUENCE:(\d+)$", text, re.M)[1])
    key = iv = None
    for line in text.splitlines():
        named = re.fullmatch(r'#EXT-X-KEY:METHOD=AES-128,URI="([^"]*)"(?:,IV=0x([0-9A-F]{32}))?', line)
        if named:
            key, iv = unquote(named[1]), named[2]
        elif not line.startswith("#"):
            yield iv or f"{number:032x}", key, unquote(line)
            number += 1


def opened(sealed, key, vector):
    command = ["openssl", "enc", "-d", "-aes-128-cbc", "-K", key.hex(), "-iv", vector]
    return subprocess.run(command, input=sealed, stdout=subprocess.PIPE, check=True).stdout


def without_head(plain, file):
    """What stands behind the PAT packet and the PMT packets that a segment begins with."""
    packets = [plain[at : at + SIZE] for at in range(0, len(plain), SIZE)]
    pat = fields(packets[0])
    pmt_pid = read_pat(pat.payload[1:17]).entries[0][1] if pat.pid == 0 else None
    head = 1
    while head < len(packets) and fields(packets[head]).pid == pmt_pid:
        head += 1
    if head == 1 or len(plain) % SIZE:
        sys.exit(f"{file} has no head, or no whole packets")
    return b"".join(packets[head:])


def main():
    folder, name, with_heads = pathlib.Path(sys.argv[1]), sys.argv[2], sys.argv[3:] == ["with_heads"]
    for vector, key, file in entries((folder / f"{name}.m3u8").read_text()):
        plain = opened((folder / file).read_bytes(), (folder / key).read_bytes(), vector)
        body = without_head(plain, file)
        sys.stdout.buffer.write(plain if with_heads else body)


main()
