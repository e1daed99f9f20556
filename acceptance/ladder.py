"""The files that `tshls pack` is to leave of a ladder, by the rules as they are written: ladder.py FOLDER OPTIONS.. ENTRIES..

Prints the summary. The faults of the renditions' streams are told on standard error, a line each, with status 1.
"""

import pathlib
import sys

import playlists
import segments
import wanted


def split_words(words):
    """The options and the entries. A word behind `--NAME` is its value, but behind `--event`."""
    options, entries, is_value = [], [], False
    for word in words:
        if is_value or word.startswith("--"):
            options.append(word)
            is_value = not is_value and word != "--event"
        else:
            entries.append(word)
    return options, entries


def rendition(options, entry):
    name, codecs, size, keys, path = entry.split(":", 4)
    told = wanted.read_options([*options, "--name", name, "--codecs", codecs, "--size", size, "--keys", keys])
    return told, pathlib.Path(path).read_bytes()


def write_text(file, lines):
    file.write_bytes("".join(line + "\n" for line in lines).encode())


def pack(folder, number, options, data):
    """The rows of a rendition, and its fault where it has one."""
    rows, fault = [], None
    try:
        for row, sealed in wanted.sealed_rows(data, options):
            rows.append(row)
            (folder / f"{options.name}.{row.number}.ts").write_bytes(sealed)
    except segments.Fault as told:
        name, *numbers = told.args
        fault = " ".join(map(str, ["tshls:", name, number, *numbers]))
    if rows:
        write_text(folder / f"{options.name}.m3u8", playlists.media(rows, options, not fault))
        write_text(folder / f"{options.name}.iframes.m3u8", playlists.iframes(rows, options, not fault))
    return rows, fault


def summary_line(rows, options):
    peak, average = playlists.bandwidths([(row.size, row.duration) for row in rows], options.target)
    return f"{options.name} {len(rows)} {playlists.seconds(sum(row.duration for row in rows))} {peak} {average}"


def main():
    folder = pathlib.Path(sys.argv[1])
    folder.mkdir(parents=True)
    options, entries = split_words(sys.argv[2:])
    variants, faults = [], []
    for number, entry in enumerate(entries):
        told, data = rendition(options, entry)
        rows, fault = pack(folder, number, told, data)
        faults += [fault] * bool(fault)
        if rows:
            variants.append((rows, told))
    if variants:
        write_text(folder / "master.m3u8", playlists.master(variants))
    if faults:
        sys.exit("\n".join(faults))
    for rows, told in sorted(variants, key=lambda variant: variant[1].name.encode()):
        print(summary_line(rows, told))


if __name__ == "__main__":
    main()
