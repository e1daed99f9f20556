"""What may lie in the folder of a run of `pack` that was cut short: killed at some moment, or refused a file."""

import itertools
import re

import playlists


def text(lines):
    return "".join(line + "\n" for line in lines).encode()


def read(file):
    return file.read_bytes() if file.is_file() else None


def count_of(found, make, rows, options):
    """Of how many rows a playlist is; None where it is of no number of them."""
    for count in range(1, len(rows) + 1):
        if found in (text(make(rows[:count], options, False)), text(make(rows[:count], options, True))):
            return count
    return None


def faults_of_rendition(folder, wanted, rows, options):
    """What is wrong with its files; and of how many rows its segments are then in the master playlist."""
    name, wrong = options.name, []
    for file in folder.iterdir():
        if re.fullmatch(re.escape(name) + r"\.[0-9]+\.ts", file.name) and read(file) != read(wanted / file.name):
            wrong.append(f"{file.name} isn't the segment")
    media, frames = read(folder / f"{name}.m3u8"), read(folder / f"{name}.iframes.m3u8")
    count = 0 if media is None else count_of(media, playlists.media, rows, options)
    own = 0 if frames is None else count_of(frames, playlists.iframes, rows, options)
    if count is None or own is None or own not in (count - 1, count):
        return wrong + [f"the playlists of {name} are of {count} and {own} segments"], (0,)
    listed = rows[playlists.first_listed(rows[:count], options) : count]
    wrong += [f"segment {row.number} of {name} isn't there" for row in listed if not (folder / f"{name}.{row.number}.ts").is_file()]
    return wrong, {own, max(own - 1, 0)}


def faults(folder, wanted, renditions):
    """What is wrong with a folder: each file is as it was to be at some moment, and what is listed is there."""
    strange = [file.name for file in folder.iterdir() if not file.name.startswith(".") and not (wanted / file.name).exists()]
    wrong, counts = [f"{name} is there" for name in strange], []
    for rows, options in renditions:
        told, may_be = faults_of_rendition(folder, wanted, rows, options)
        wrong += told
        counts.append(may_be)
    master = read(folder / "master.m3u8")
    if not wrong and not any(is_master(master, renditions, some) for some in itertools.product(*counts)):
        wrong.append("the master playlist is none of these segments")
    return wrong


def is_master(found, renditions, counts):
    packed = [(rows[:count], options) for (rows, options), count in zip(renditions, counts) if count]
    return found == text(playlists.master(packed)) if packed else found is None
