"""What players showed, against what was listed.

players.py reached SECONDS RECORDED SERVED PLAYER=FILE..
    Waits until each player shows what came behind the newest discontinuity that is recorded now. Status 1: one doesn't come there
    within these seconds; the line says which.
players.py follow LOST RECORDED SERVED PLAYER=FILE..
    Follows the frames of each player. From its first frame on it has to show each frame of its rendition, once, in order. Next to a
    discontinuity up to LOST frames may be missing or damaged, or what the player itself drops there. A line a player is printed:
    PLAYER, how many frames, and how many discontinuities it got past. Status 1: the line says what it did in place of that.

RECORDED is the folder in which origin.py keeps what each segment holds, SERVED the server's list of what was asked for. Each FILE
tells a player's frames in the form that is the player's own; chromium's, by browser.py, tells their number alone.
"""

import glob
import json
import os
import re
import shutil
import subprocess
import sys
import tempfile
import time

# The rendition that each plays, and what its frames are known by: the bytes that were sent, the picture, or the checksum of one. And how
# many frames it drops next to a discontinuity, since it is made so: mpv those that it hasn't shown yet when it resets its clock.
PLAYED = {"ffmpeg": ("sd", "sent", 0), "mpv": ("hd", "sum", 100), "gstreamer": ("hd", "picture", 0), "streamlink": ("hd", "sent", 0)}

BUFFERED = 10  # seconds that a browser may have fetched and not shown


def told(*command):
    return subprocess.run(command, stdin=subprocess.DEVNULL, stdout=subprocess.PIPE, stderr=subprocess.DEVNULL, check=False).stdout.decode()


def column(text, number):
    return [line.replace(",", " ").split()[number] for line in text.splitlines() if line and not line.startswith("#")]


class Stretch:
    """The segments of a rendition between two discontinuities, and their frames as ffmpeg finds them in what was sealed."""

    def __init__(self, name, breaks, paths):
        self.name, self.breaks = name, breaks
        with tempfile.TemporaryDirectory() as folder:
            with open(f"{folder}/plain", "wb") as file:
                for path in paths:
                    with open(path, "rb") as segment:
                        shutil.copyfileobj(segment, file)
            plain = ("-map", "0:v", "-vsync", "passthrough", "-pix_fmt", "yuv420p", "-c:v", "rawvideo", "-f")
            told("ffmpeg", "-nostdin", "-v", "quiet", "-i", f"{folder}/plain", "-map", "0:v", "-c", "copy", "-f", "framemd5", f"{folder}/sent",
                 *plain, "framemd5", f"{folder}/picture", *plain, "framecrc", f"{folder}/sum")
            self.frames = {kind: column(open(f"{folder}/{kind}", encoding="ascii").read(), 5) for kind in ("sent", "picture", "sum")}
        self.frames["sum"] = [f"{int(it, 16):08X}" for it in self.frames["sum"]]


def recorded(folder, name, least=0):
    """Returns the stretches of a rendition in order, those from the discontinuity `least` on."""
    stretches = {}
    for path in glob.glob(f"{glob.escape(folder)}/{name}.*.ts"):
        _, number, breaks, _ = os.path.basename(path).rsplit(".", 3)
        stretches.setdefault(int(breaks), []).append((int(number), path))
    return [Stretch(name, breaks, [path for _, path in sorted(them)]) for breaks, them in sorted(stretches.items()) if breaks >= least]


def newest(folder):
    """Returns the number of the newest discontinuity that is recorded."""
    return max(int(path.rsplit(".", 2)[1]) for name in ("hd", "sd") for path in glob.glob(f"{glob.escape(folder)}/{name}.*.ts"))


def shown(player, path):
    """Returns what a player has shown so far, frame by frame."""
    if not os.path.exists(path):
        return []
    if player == "streamlink":  # its last frame may be cut off
        return column(told("ffmpeg", "-nostdin", "-v", "quiet", "-i", path, "-map", "0:v", "-c", "copy", "-f", "framemd5", "-"), 5)[:-1]
    with open(path, encoding="utf-8", errors="replace") as file:
        text = file.read()
    text = text[:text.rfind("\n") + 1]
    if player == "mpv":
        return re.findall(r"showinfo\S* n: *\d+ .* checksum:([0-9A-F]{8}) ", text)
    if player == "gstreamer":
        return re.findall(r"^\d+:\d+:\d+\.\d+ ([0-9a-f]{32})$", text, re.M)
    return column(text, 5)


class Fault(Exception):
    """What a player did with a frame."""


def follows(frames, stretches, kind, lost):
    """Follows a player's frames through the stretches, and returns the first and the last one that it was in."""
    places = [(stretch, at) for stretch in stretches for at in range(len(stretch.frames[kind]))]
    listed = [stretch.frames[kind][at] for stretch, at in places]
    where = {frame: place for place, frame in enumerate(listed)}
    edges = [place for place in range(1, len(places)) if places[place][0] is not places[place - 1][0]]

    def named(place):
        stretch, at = places[min(place, len(places) - 1)]
        return f"frame {at} behind discontinuity {stretch.breaks} of {stretch.name}"

    def is_excused(first, end):
        """Whether all of these are within so many frames of one discontinuity."""
        return any(edge - lost <= first and end <= edge + lost for edge in edges)

    while frames and frames[0] not in where and lost:  # a player may show what comes before its first key frame damaged
        frames = frames[1:]
    next_place = None
    damaged = 0
    for frame in frames:
        if next_place is not None and next_place < len(listed) and listed[next_place] == frame:
            next_place += 1
            damaged = 0
            continue
        place = where.get(frame)
        if place is None:
            damaged += 1
            if next_place is None or damaged > lost or not is_excused(next_place, next_place):
                raise Fault(f"shows a frame that isn't in its rendition, where {named(next_place or 0)} comes next")
            continue
        if next_place is not None and place < next_place:
            raise Fault(f"shows {named(place)} again, behind {named(next_place - 1)}")
        if next_place is not None and not is_excused(next_place, place):
            raise Fault(f"leaves out {place - next_place} frames from {named(next_place)} on")
        next_place = place + 1
        damaged = 0
    if next_place is None:
        raise Fault("shows nothing")
    first = next(places[where[frame]][0] for frame in frames if frame in where)
    return first, places[next_place - 1][0]


def looks(path):
    """Returns what browser.py saw, look by look."""
    if not os.path.exists(path):
        return []
    with open(path, encoding="utf-8") as file:
        return [json.loads(line) for line in file if line.endswith("\n")]


def browsed(path, served, names):
    """Returns how many seconds a browser has played since it fetched one of these segments, or since it loaded the channel anew behind
    that; None where it has fetched none."""
    with open(served, encoding="utf-8") as file:
        asked = [line.split(" ", 3) for line in file if line.endswith("\n")]
    times = [float(when) for when, status, uri, agent in asked if "Chrome" in agent and status in ("200", "206") and uri[1:] in names]
    after = [look for look in looks(path) if times and look["at"] >= times[0]]
    if not after:
        return None
    played = after[-1]["seconds"] - after[0]["seconds"]
    anew = [look["seconds"] for look in after if look["loads"] > after[0]["loads"]]
    return max(played, BUFFERED + after[-1]["seconds"] - anew[0] - 1) if anew else played


def has_reached(player, path, folder, served, breaks):
    """Whether a player shows what came behind so many discontinuities."""
    if player == "chromium":
        paths = [os.path.basename(it).rsplit(".", 3) for name in ("hd", "sd") for it in glob.glob(f"{glob.escape(folder)}/{name}.*.ts")]
        played = browsed(path, served, {f"{name}.{number}.ts" for name, number, it, _ in paths if int(it) >= breaks})
        return played is not None and played >= BUFFERED
    name, kind, _ = PLAYED[player]
    frames = shown(player, path)
    wanted = {frame for it in recorded(folder, name, breaks) for frame in it.frames[kind]}
    return any(frame in wanted for frame in frames[-50:])


def reached(seconds, folder, served, players):
    end, breaks = time.monotonic() + float(seconds), newest(folder)
    while players:
        players = [it for it in players if not has_reached(*it, folder, served, breaks)]
        if players and time.monotonic() > end:
            sys.exit(f"{players[0][0]} doesn't get past discontinuity {breaks}")
        time.sleep(1)


def follow(lost, folder, players):
    status, read = 0, {}
    for player, path in players:
        if player == "chromium":
            first, *_, last = looks(path)
            print(player, last["frames"], "frames, loaded anew", last["loads"])
            if last["seconds"] < (last["at"] - first["at"]) / 6:
                print(player, "played", last["seconds"], "of", round(last["at"] - first["at"]), "seconds")
                status = 1
            continue
        name, kind, drops = PLAYED[player]
        if name not in read:
            read[name] = recorded(folder, name)
        frames = shown(player, path)
        try:
            first, last = follows(frames, read[name], kind, max(int(lost), drops))
            print(player, len(frames), "frames, discontinuities", last.breaks - first.breaks)
        except Fault as fault:
            print(player, fault)
            status = 1
    return status


def main():
    command, number, folder, served, *files = sys.argv[1:]
    players = [file.split("=", 1) for file in files]
    sys.exit(reached(number, folder, served, players) if command == "reached" else follow(number, folder, players))


main()
