"""Watches a page that plays a video, in a headless Chromium: browser.py URL UNTIL FILE.

It speaks the DevTools protocol over the browser's pipe. Every half second FILE gets a line of JSON: the time, the frames that the
video showed, how many of them were dropped, the seconds that it moved on, how often the page had to load it anew, and the last error
that the player told. It goes on until the file UNTIL is there, and ends with status 1 if the browser does before.
"""

import fcntl
import json
import os
import select
import shutil
import subprocess
import sys
import tempfile
import time

CHROMIUM = ["chromium", "--headless", "--no-sandbox", "--disable-gpu", "--disable-dev-shm-usage", "--mute-audio", "--no-first-run",
            "--autoplay-policy=no-user-gesture-required", "--remote-debugging-pipe"]
STATE = """(() => {
    const video = document.querySelector('video'), quality = video.getVideoPlaybackQuality()
    return { time: video.currentTime, frames: quality.totalVideoFrames, dropped: quality.droppedVideoFrames,
        loads: Number(video.dataset.loads ?? 0) }
})()"""


class Browser:
    """A browser, and its pipe: messages of JSON, each with a NUL behind it."""

    def __init__(self, folder):
        # above the numbers 3 and 4, where the browser wants its ends
        pipes = [os.pipe(), os.pipe()]
        high = [fcntl.fcntl(end, fcntl.F_DUPFD_CLOEXEC, 32) for pair in pipes for end in pair]
        for pair in pipes:
            for end in pair:
                os.close(end)
        theirs_in, self.ours_out, self.ours_in, theirs_out = high

        def places():
            os.dup2(theirs_in, 3)
            os.dup2(theirs_out, 4)

        self.process = subprocess.Popen([*CHROMIUM, f"--user-data-dir={folder}", "about:blank"], preexec_fn=places, close_fds=False,
                                        stdin=subprocess.DEVNULL, stdout=subprocess.DEVNULL, stderr=subprocess.DEVNULL, env={**os.environ, "HOME": folder})
        os.close(theirs_in)
        os.close(theirs_out)
        self.number, self.rest, self.error = 0, b"", ""

    def message(self, end):
        while b"\0" not in self.rest:
            if not select.select([self.ours_in], [], [], max(0, end - time.monotonic()))[0]:
                sys.exit("the browser doesn't answer")
            more = os.read(self.ours_in, 1 << 16)
            if not more:
                sys.exit("the browser ended")
            self.rest += more
        message, _, self.rest = self.rest.partition(b"\0")
        return json.loads(message)

    def asks(self, method, session=None, **parameters):
        self.number += 1
        message = {"id": self.number, "method": method, "params": parameters}
        if session:
            message["sessionId"] = session
        os.write(self.ours_out, json.dumps(message).encode() + b"\0")
        end = time.monotonic() + 60
        while True:
            answer = self.message(end)
            if answer.get("id") == self.number:
                return answer.get("result", {})
            if answer.get("method") == "Media.playerErrorsRaised":
                self.error = json.dumps(answer["params"]["errors"])


class Watched:
    """What was seen in all, though a page that loads its video anew counts from 0 again."""

    def __init__(self):
        self.frames = self.dropped = self.seconds = self.loads = 0
        self.last = {"time": 0, "frames": 0, "dropped": 0}

    def looks(self, state):
        for count in ("frames", "dropped"):
            step = state[count] - self.last[count]
            setattr(self, count, getattr(self, count) + (step if step >= 0 else state[count]))
        # a video that begins anew may jump, and that is no playing
        step = state["time"] - self.last["time"]
        if 0 < step < 5 and state["loads"] == self.loads:
            self.seconds += step
        self.loads, self.last = state["loads"], state


def watches(browser, url, until, path):
    target = browser.asks("Target.createTarget", url="about:blank")["targetId"]
    session = browser.asks("Target.attachToTarget", targetId=target, flatten=True)["sessionId"]
    browser.asks("Media.enable", session)
    browser.asks("Page.navigate", session, url=url)
    watched = Watched()
    while not os.path.exists(until):
        time.sleep(0.5)
        state = browser.asks("Runtime.evaluate", session, expression=STATE, returnByValue=True).get("result", {}).get("value")
        if state is None:  # the page isn't there yet
            continue
        watched.looks(state)
        with open(path, "a", encoding="utf-8") as file:
            file.write(json.dumps({"at": round(time.time(), 3), "frames": watched.frames, "dropped": watched.dropped,
                                   "seconds": round(watched.seconds, 2), "loads": watched.loads, "error": browser.error}) + "\n")


def main():
    url, until, path = sys.argv[1:]
    folder = tempfile.mkdtemp(dir=os.path.dirname(path))
    browser = Browser(folder)
    try:
        watches(browser, url, until, path)
    finally:
        browser.process.terminate()
        try:
            browser.process.wait(10)
        except subprocess.TimeoutExpired:
            browser.process.kill()
            browser.process.wait()
        shutil.rmtree(folder, ignore_errors=True)


main()
