"""How fast `one` packs, beside ffmpeg's own packager with a key file, and beside cat.

The stream is the sample, looped by ffmpeg so that its times go on. What a stage takes is a difference of runs that go
less far: a stream whose tables are broken is only read, one without key frames is cut into nothing, and `seal` seals
and writes digits without any of it.
"""

import functools
import pathlib
import subprocess

from measuring import KEY, best_of, is_linear

SIZE = 188
best = functools.partial(best_of, 3)


def looped(sample, file, megabytes):
    loops = max(1, round(megabytes * 1_000_000 / sample.stat().st_size)) - 1
    command = ["ffmpeg", "-nostdin", "-v", "error", "-y", "-stream_loop", str(loops), "-i", str(sample)]
    subprocess.run(command + ["-map", "0", "-c", "copy", "-f", "mpegts", str(file)], check=True)


def changed(stream, file, change):
    """The same packets, each changed in place."""
    data = bytearray(stream.read_bytes())
    for at in range(0, len(data), SIZE):
        change(data, at)
    file.write_bytes(data)


def break_table(data, at):
    if data[at + 1] & 0x1F == 0 and data[at + 2] == 0:
        data[at + 5 + 15] ^= 1


def clear_random_access(data, at):
    if data[at + 3] & 0x20 and data[at + 4]:
        data[at + 5] &= ~0x40


def streams(sample, folder, megabytes):
    """An eighth, the whole, the whole with broken tables and without key frames; ffmpeg's key file stands beside them."""
    small, large, unread, uncut = (folder / name for name in ("small.ts", "large.ts", "unread.ts", "uncut.ts"))
    looped(sample, small, megabytes / 8)
    looped(sample, large, megabytes)
    changed(large, unread, break_table)
    changed(large, uncut, clear_random_access)
    (folder / "key").write_bytes(bytes.fromhex(KEY))
    (folder / "key_info").write_text(f"key\n{folder / 'key'}\n{'0' * 32}\n")
    return small, large, unread, uncut


def measure(program, sample, folder, megabytes):
    """Prints the figures; answers whether 8 times the input takes at most 10 times the time."""
    folder = pathlib.Path(folder)
    small, large, unread, uncut = streams(sample, folder, megabytes)

    one = [program, "one", "--codecs", "avc1.4d401e", "--size", "320x180", "--keys", KEY, "--target", "8", "--segment", "6"]
    ffmpeg = ["ffmpeg", "-nostdin", "-v", "error", "-y", "-i", str(large), "-map", "0", "-c", "copy", "-f", "hls"]
    ffmpeg += ["-hls_time", "6", "-hls_list_size", "5", "-hls_key_info_file", str(folder / "key_info")]
    ffmpeg.append(str(folder / "ffmpeg.m3u8"))

    packed, packed_small = best(one, large), best(one, small)
    others = {"ffmpeg -c copy -f hls": best(ffmpeg, large), "cat": best(["cat"], large)}
    read, cut = best(one, unread, (1,)).processor, best(one, uncut, (1,)).processor
    sealed = best([program, "seal", "--key", KEY, "--seq", "0"], large).processor

    size = large.stat().st_size
    print(f"one {size / 1e6:.1f} MB: {packed.wall:.2f} s, {packed.processor:.2f} s of processor, {size / packed.wall / 1e6:.1f} MB/s")
    for name, other in others.items():
        faster, lighter = packed.wall / other.wall, packed.processor / other.processor
        print(f"    {name}: {faster:.1f} times as fast, with 1/{lighter:.1f} of the processor time")
    stages = {
        "reading packets and tables": read,
        "stamps and cuts": cut - read,
        "sealing and hex digits": sealed - read,
        "bodies, heads, texts and the rest": packed.processor - cut - (sealed - read),
    }
    for name, seconds in stages.items():
        print(f"    {name}: {seconds:.2f} s, {100 * seconds / packed.processor:.0f} %")
    return is_linear("input takes", packed_small, packed)
