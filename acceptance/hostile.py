"""Hands a program damaged input of each kind that it reads: hostile.py PROGRAM COUNT [SEED [KIND]]; with s behind COUNT, for so many
seconds; with a kind, of that alone.

The kinds are `stream`, playlists and segments for `check`, the folder of a channel for `pack --resume` (`resume`), key files (`key`),
and the `words` of entries and options. Each is good input, damaged at random. Whatever it is given, the program has to end by itself
with status 0, 1 or 2, in time, within its memory, and tell a fault by its name, a line each; and `check` has to count no more than is
there. What went wrong is told with its seed, and its folder is kept.
"""

import collections
import os
import pathlib
import random
import re
import resource
import shutil
import subprocess
import sys
import tempfile
import time

SAMPLE = pathlib.Path(__file__).parent.parent / "samples" / "three_key_frames_h264_aac.ts"
KEYS = ("000102030405060708090a0b0c0d0e0f", "10013223544576679889baabdccdfeef")
# No packets, sealed under the keys.
SEALED = bytes.fromhex("69c4e0d86a7b0430d8cdb78070b4c55a")
# A run of small input takes a fraction of a second; a busy machine may take longer.
SECONDS = 60
# Of what a run takes: the program itself, four workers' stacks, and what is read ahead of two inputs.
MEMORY = 96 << 20
FAULT = re.compile(rb"(  .*|tshls: [A-Z][A-Za-z]*( [0-9]+)*)\n")
INTERESTING = (0, 1, 2**31 - 1, 2**31, 2**32 - 2, 2**32 - 1, 2**32, 2**33 - 1, 2**33, 2**63, 2**64 - 1, 2**64, 10**40)


class Bad(Exception):
    """What the program may not do."""


def run(program, words, stdin=b""):
    """Runs the program; returns its status and what it wrote. A run that is killed, slow or large is Bad."""
    with tempfile.TemporaryFile() as given, tempfile.TemporaryFile() as out, tempfile.TemporaryFile() as err:
        given.write(stdin)
        given.seek(0)
        began = time.monotonic()
        child = subprocess.Popen(["timeout", "-s", "KILL", str(SECONDS), program, *words], stdin=given, stdout=out, stderr=err)
        _, status, used = os.wait4(child.pid, 0)
        child.returncode = status
        out.seek(0)
        err.seek(0)
        written, told = out.read(), err.read()
    spent = time.monotonic() - began
    code = os.waitstatus_to_exitcode(status)
    if code not in (0, 1, 2):
        raise Bad(f"status {code} after {spent:.1f} s: {told[-200:]}")
    if used.ru_maxrss << 10 > MEMORY:
        raise Bad(f"{used.ru_maxrss} KiB of memory")
    if (code == 0) != (told == b"") or (told and code == 1 and FAULT.sub(b"", told) != b""):
        raise Bad(f"status {code}, and told {told[:200]}")
    return code, written, told


def some_number(chance):
    return str(chance.choice((chance.choice(INTERESTING), chance.randrange(40), -1))).encode()


def damaged(chance, data, most=4):
    """Bytes that were changed, dropped, put in twice or exchanged at a few places, and numbers that became others."""
    data = bytearray(data)
    for _ in range(chance.randint(1, most)):
        at, way = chance.randrange(len(data) + 1), chance.randrange(8)
        size = chance.choice((1, 1, 2, 4, 16, 188, 188 * 3, 4096))
        if way == 0 and data:
            data[at % len(data)] ^= 1 << chance.randrange(8)
        elif way == 1:
            data[at : at + size] = b""
        elif way == 2:
            data[at:at] = chance.randbytes(size)
        elif way == 3:
            data[at:at] = data[at : at + size]
        elif way == 4:
            data[at : at + size] = bytes(chance.choice((0, 255, 0x47, 10))) * size if chance.random() < 0.3 else chance.randbytes(size)
        elif way == 5:
            del data[at:]
        elif way == 6:
            number = chance.choice([*re.finditer(rb"[0-9]+", data[:20000])] or [None])
            if number:
                data[number.start() : number.end()] = some_number(chance)
        else:
            lines = bytes(data).splitlines(keepends=True)
            if len(lines) > 1:
                one, other = chance.randrange(len(lines)), chance.randrange(len(lines))
                lines[one : one + 1] = chance.choice(([], [lines[one]] * 2, [lines[other]], [lines[one].replace(b"\n", b"\r\n")]))
                data = bytearray(b"".join(lines))
    return bytes(data)


def damage_packets(chance, data):
    """A stream of which whole packets are lost, exchanged or repeated, or fields of packets are others."""
    packets = [bytearray(data[at : at + 188]) for at in range(0, len(data), 188)]
    for _ in range(chance.randint(1, 12)):
        at = chance.randrange(len(packets))
        way = chance.randrange(5)
        if way == 0:
            del packets[at : at + chance.choice((1, 5, 40))]
        elif way == 1:
            packets[at:at] = [bytearray(packets[chance.randrange(len(packets))]) for _ in range(chance.choice((1, 7)))]
        elif way == 2:
            packets[at][chance.randrange(4)] ^= 1 << chance.randrange(8)
        elif way == 3:
            packets[at][chance.randrange(4, 40)] = chance.randrange(256)
        else:
            chance.shuffle(packets) if chance.random() < 0.05 else packets.reverse() if chance.random() < 0.05 else None
        packets = packets or [bytearray(188)]
    return b"".join(packets)


class Channel:
    """A channel of two renditions that was packed once: what its folder holds is damaged again and again."""

    def __init__(self, program, folder):
        self.program, self.folder, self.sample = program, folder, SAMPLE.read_bytes()
        folder.mkdir()
        for name, key in zip("vw", KEYS):
            (folder / f"{name}.0.key").write_bytes(bytes.fromhex(key))
        code, _, told = run(program, self.words(folder, SAMPLE))
        if code != 0:
            raise SystemExit(f"the channel isn't packed: {told}")
        self.unended = {it.name: it.read_bytes().replace(b"#EXT-X-ENDLIST\n", b"") for it in folder.iterdir()}

    @staticmethod
    def words(folder, path, *more):
        entries = (f"{name}:avc1.4d401e,mp4a.40.2:320x180:{KEYS['vw'.index(name)]}:{path}" for name in "vw")
        return ["pack", "--out", str(folder), "--target", "1", *more, *entries]

    def copied(self, to):
        to.mkdir()
        for name, data in self.unended.items():
            (to / name).write_bytes(data)
        return to


def try_check(channel, chance, room):
    folder = channel.copied(room / "read")
    name = chance.choice("vw")
    for it in chance.sample(sorted(channel.unended), chance.randint(0, 3)) + [f"{name}.m3u8"]:
        if chance.random() < 0.8:
            (folder / it).write_bytes(damaged(chance, channel.unended[it]))
    keys = "+".join(chance.choice(KEYS) for _ in range(chance.choice((1, 1, 1, 2, 5)))) if chance.random() < 0.3 else KEYS["vw".index(name)]
    code, written, told = run(channel.program, ["check", "--keys", keys, str(folder / f"{name}.m3u8")])
    if code == 0:
        most = sum(it.stat().st_size for it in folder.glob("*.ts"))
        numbers = [int(it) for it in re.findall(rb"[0-9]+", written)]
        if any(it > most for it in numbers):
            raise Bad(f"check counts {written}, more than is there")
    return "check", code, told


def try_resume(channel, chance, room):
    folder = channel.copied(room / "resumed")
    names = sorted(it for it in channel.unended if not it.endswith(".key"))
    for it in chance.sample(names, chance.randint(1, 4)):
        way = chance.randrange(6)
        if way == 0:
            (folder / it).unlink()
        elif way == 1:
            (folder / it).rename(folder / f".{it}.part")
        elif way == 2:
            (folder / chance.choice(names)).write_bytes(channel.unended[it])
        elif way == 3:
            number = chance.choice(INTERESTING[:-1])
            (folder / f"v.{number}.ts").write_bytes(channel.unended[it])
        else:
            (folder / it).write_bytes(damaged(chance, channel.unended[it]))
    if chance.random() < 0.2:
        (folder / chance.choice((f".v.{chance.choice(INTERESTING)}.ts.part", "x" * 255, ".part", "v..ts", "w.00.ts", "v.1.ts.part"))).write_bytes(b"")
    if chance.random() < 0.05:
        (folder / "v.7.ts").mkdir(exist_ok=True) if not (folder / "v.7.ts").exists() else None
    more = ["--resume"] + chance.choice(([], ["--remove"], ["--window", "3"], ["--event"], ["--salt", KEYS[0]]))
    code, _, told = run(channel.program, channel.words(folder, SAMPLE, *more))
    return "pack --resume", code, told


def try_stream(channel, chance, room):
    stream = damage_packets(chance, channel.sample) if chance.random() < 0.7 else damaged(chance, channel.sample, 30)
    path = room / "stream.ts"
    path.write_bytes(stream)
    if chance.random() < 0.5:
        words = ["one", "--codecs", "avc1.4d401e,mp4a.40.2", "--size", "320x180", "--keys", "+".join(KEYS), "--target", "1"]
        if chance.random() < 0.3:
            words += [chance.choice(("--segment", "--most", "--frame", "--gap", "--program", "--window")), some_number(chance).decode()]
        code, _, told = run(channel.program, words, stream)
        return "one", code, told
    folder = room / "packed"
    folder.mkdir()
    more = chance.choice(([], ["--workers", "4"], ["--batch", "1"], ["--ahead", "1"], ["--remove"], ["--sync"], ["--event"]))
    code, _, told = run(channel.program, channel.words(folder, path, *more))
    return "pack", code, told


def some_word(chance):
    """Text without NUL, since no word of a command line has one."""
    kind = chance.randrange(4)
    if kind == 0:
        return "".join(chr(chance.choice((chance.randrange(1, 128), chance.randrange(160, 0x2000)))) for _ in range(chance.choice((1, 3, 64, 65, 300))))
    if kind == 1:
        return chance.choice(("..", ".", "/", "a/b", "../v", "-", "--", "@", "@/dev/zero", "@/", "%2e", "master", "v\u202e", "é" * 32, "é" * 33, "\x7f", '"', ",", "\n"))
    return some_number(chance).decode() if kind == 2 else chance.choice(KEYS)[: chance.randrange(33)]


def try_words(channel, chance, room):
    folder = room / "worded"
    folder.mkdir()
    parts = ["v", "avc1.4d401e,mp4a.40.2", "320x180", KEYS[0], str(SAMPLE)]
    for _ in range(chance.randint(1, 2)):
        parts[chance.randrange(4)] = some_word(chance)
    if chance.random() < 0.2:
        parts.insert(chance.randrange(6), some_word(chance))
    words = ["pack", "--out", str(folder), "--target", "1", ":".join(parts)]
    if chance.random() < 0.5:
        option = chance.choice(("--target", "--segment", "--most", "--frame", "--gap", "--window", "--queue", "--workers", "--batch", "--ahead", "--stall", "--salt", "--period"))
        words[1:1] = [option, some_word(chance)]
    code, _, told = run(channel.program, words)
    outside = [it.name for it in room.iterdir() if it.name != "worded"]
    if outside:
        raise Bad(f"files beside the folder: {outside}")
    return "words", code, told


def try_key_file(channel, chance, room):
    key = bytes.fromhex(KEYS[0])
    text = chance.choice((key, KEYS[0].encode(), KEYS[0].encode() + b"\n", chance.randbytes(chance.choice((0, 1, 15, 16, 17, 32, 33, 34, 35, 4096)))))
    path = room / "a.key"
    path.write_bytes(damaged(chance, text) if chance.random() < 0.5 else text)
    command = chance.choice(("seal", "open"))
    data = chance.choice((channel.sample[: chance.randrange(4000)], chance.randbytes(chance.randrange(600)), SEALED, b""))
    data = damaged(chance, data.hex().encode()) if chance.random() < 0.5 else data
    code, written, told = run(channel.program, [command, "--key", f"@{path}", "--iv", KEYS[1]], data)
    if command == "open" and len(written) > len(data) + 1:
        raise Bad(f"open writes {len(written)} bytes of {len(data)}")
    return command, code, told


# Of each kind how it is played, and how often beside the others.
KINDS = {"check": (try_check, 4), "resume": (try_resume, 4), "stream": (try_stream, 3), "words": (try_words, 3), "key": (try_key_file, 1)}


def play(channel, seed, room, kinds):
    chance = random.Random(seed)
    kind = chance.choices([it for it, _ in kinds], [it for _, it in kinds])[0]
    return kind(channel, chance, room)


def main():
    program, count = os.path.realpath(sys.argv[1]), sys.argv[2]
    first = int(sys.argv[3]) if len(sys.argv) > 3 else 1
    kinds = [KINDS[it] for it in sys.argv[4:5] or KINDS]
    until = time.monotonic() + int(count[:-1]) if count.endswith("s") else None
    # A core file of each killed run would fill the disk.
    resource.setrlimit(resource.RLIMIT_CORE, (0, 0))
    told, bad, played = collections.Counter(), 0, 0
    with tempfile.TemporaryDirectory(prefix="hostile-") as top:
        channel = Channel(program, pathlib.Path(top) / "channel")
        while time.monotonic() < until if until else played < int(count):
            room = pathlib.Path(tempfile.mkdtemp(prefix=f"hostile-{first + played}-"))
            try:
                command, code, err = play(channel, first + played, room, kinds)
                name = err.split(b"\n")[0].split(b" ")[1].decode() if code == 1 and b" " in err else {0: "well", 2: "usage"}.get(code, "?")
                told[f"{command} {name}"] += 1
                shutil.rmtree(room)
            except Bad as why:
                print(f"seed {first + played}: {why}; what it was given lies in {room}")
                bad += 1
            played += 1
    print(", ".join(f"{name} {number}" for name, number in sorted(told.items())))
    print(f"{played} inputs, {bad} bad")
    return 1 if bad else 0


if __name__ == "__main__":
    sys.exit(main())
