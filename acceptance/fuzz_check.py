"""What `check` is asked of a packed rendition: as it lies there, with other keys, or damaged."""

import fuzz_wanted
import playlists
from fuzz_ladders import hex_digits


def swapped(chance, folder, files):
    """Two segments exchanged."""
    one, other = chance.choice(files), chance.choice(files)
    first, second = one.read_bytes(), other.read_bytes()
    one.write_bytes(second)
    other.write_bytes(first)


def damage_segment(chance, folder, rows, name):
    files = [folder / f"{name}.{row.number}.ts" for row in rows]
    file = chance.choice(files)
    data, way = file.read_bytes(), chance.randrange(5)
    if way == 0:
        swapped(chance, folder, files)
    elif way == 1:
        file.unlink()
    elif way == 2:
        file.write_bytes(data[: -chance.choice((1, 16, 188 * 16, len(data)))])
    else:
        at = chance.choice((chance.randrange(len(data)), chance.randrange(min(400, len(data))), len(data) - chance.randint(1, 40)))
        file.write_bytes(data[:at] + bytes((data[at] ^ 1 << chance.randrange(8),)) + data[at + 1 :])


def other_keys(chance, keys):
    """Fewer, more, another, or in another order."""
    return chance.choice((keys[:-1] or keys, keys[:-1] or keys, keys + [hex_digits(chance)], [hex_digits(chance)] + keys[1:], keys[::-1]))


def damaged_text(chance, lines, rows):
    """Other lines, the rows that they list, and the number of the line that is refused, or 0."""
    at, way = chance.randrange(len(lines)), chance.randrange(4)
    if way == 0:
        return lines[:at] + [lines[at][:-1] + chance.choice((" ", "\r", "0x")) + "\n"] + lines[at + 1 :], rows, at + 1
    if way == 1:
        return lines[:-1] + [lines[-1][:-1]], rows, len(lines)
    count = sum(not line.startswith("#") for line in lines[:at])
    is_whole = at > 0 and (not lines[at - 1].startswith("#") or lines[at - 1] == "#EXT-X-ENDLIST\n")
    return lines[:at], rows[:count], 0 if is_whole else at + 1


def asked(chance, folder, rows, options):
    """The words of `check` and its answer. What lies in the folder may be damaged on the way."""
    rows, keys = rows[playlists.first_listed(rows, options) :], options.keys
    playlist, refused, way = folder / f"{options.name}.m3u8", 0, chance.random()
    if way < 0.2:
        keys = other_keys(chance, keys)
    elif way < 0.5:
        damage_segment(chance, folder, rows, options.name)
    elif way < 0.6:
        playlist, refused = folder / f"{options.name}.iframes.m3u8", 7 if options.event else 6
    elif way < 0.75:
        lines = playlist.read_text("utf-8").splitlines(keepends=True)
        lines, rows, refused = damaged_text(chance, lines, rows)
        playlist.write_bytes("".join(lines).encode())
    words = ["check", f"--keys={'+'.join(keys)}", str(playlist)]
    if refused:
        return words, fuzz_wanted.refusal(1, "NotProfile", refused)
    return words, fuzz_wanted.check(rows, options, folder, keys)
