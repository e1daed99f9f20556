"""Writes a file to standard output in pieces, apart in time, so that a reader gets them one by one: pieces.py FILE [SIZE..].

The sizes take turns; where none are given the pieces are uneven.
"""

import itertools
import os
import sys
import time

with open(sys.argv[1], "rb") as file:
    for size in itertools.cycle([int(word) for word in sys.argv[2:]] or (1, 187, 188, 189, 3, 376, 377, 2048)):
        piece = file.read(size)
        if not piece:
            break
        while piece:
            piece = piece[os.write(1, piece) :]
        time.sleep(0.001)
