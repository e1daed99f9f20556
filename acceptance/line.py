"""`write`: standard input's bytes as one line of lower-case hex. `read`: such a line, and nothing else, as its bytes."""

import re
import sys

data = sys.stdin.buffer.read()
if sys.argv[1] == "write":
    sys.stdout.buffer.write(data.hex().encode() + b"\n")
elif re.fullmatch(rb"(?:[0-9a-f]{2})*\n", data):
    sys.stdout.buffer.write(bytes.fromhex(data.decode()))
else:
    sys.exit(f"not one line of lower-case hex: {len(data)} bytes, {data[:40]!r} .. {data[-10:]!r}")
