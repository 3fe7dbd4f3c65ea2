"""A Chromium without a window, led over its debugging pipe: pages, keys, presses. Python's own modules alone."""

import json
import os
import select
import shutil
import subprocess
import tempfile
import time

NAMES = ("chromium-headless-shell", "chromium", "chromium-browser", "google-chrome")


def find():
    """The path of a Chromium, or None."""
    return next((path for path in map(shutil.which, NAMES) if path), None)


class Failed(Exception):
    """The browser refused a call, threw in the page, or didn't answer in time."""


class Browser:
    """One Chromium with one page. `faults` has what the page threw, `asked` every address that it asked for."""

    def __init__(self, path=None, wide=1280, high=900):
        self.folder = tempfile.mkdtemp(prefix="aim-view-")
        to_browser, self.to = os.pipe()
        self.of, from_browser = os.pipe()

        def places():
            # The pipe's ends are wanted at 3 and 4. They are moved out of the way first.
            ends = os.dup(to_browser), os.dup(from_browser)
            high_ends = [os.dup(end) for end in ends]
            os.dup2(high_ends[0], 3, inheritable=True)
            os.dup2(high_ends[1], 4, inheritable=True)

        words = [path or find(), "--headless", "--no-sandbox", "--disable-gpu", "--no-first-run",
                 "--disable-extensions", "--disable-background-networking", "--disable-dev-shm-usage",
                 "--remote-debugging-pipe", f"--user-data-dir={self.folder}", "about:blank"]
        self.process = subprocess.Popen(words, preexec_fn=places, close_fds=False, stdin=subprocess.DEVNULL,
                                        stdout=subprocess.DEVNULL, stderr=subprocess.DEVNULL)
        os.close(to_browser)
        os.close(from_browser)
        self.left, self.count, self.session = b"", 0, None
        self.faults, self.asked, self.dialogs = [], [], []
        page = next(each for each in self.call("Target.getTargets")["targetInfos"] if each["type"] == "page")
        self.session = self.call("Target.attachToTarget", targetId=page["targetId"], flatten=True)["sessionId"]
        for part in ("Page", "Runtime", "Network", "DOM"):
            self.call(f"{part}.enable")
        self.call("Emulation.setScrollbarsHidden", hidden=True)
        self.size(wide, high)

    def read(self, until):
        """The next message, or a fault where none comes in time."""
        while b"\0" not in self.left:
            ready, _, _ = select.select([self.of], [], [], max(0, until - time.monotonic()))
            if not ready:
                raise Failed("the browser doesn't answer")
            piece = os.read(self.of, 1 << 20)
            if not piece:
                raise Failed("the browser ended")
            self.left += piece
        line, _, self.left = self.left.partition(b"\0")
        return json.loads(line)

    def call(self, method, seconds=600, **words):
        """What the browser answers to a call."""
        self.count += 1
        message = {"id": self.count, "method": method, "params": words}
        if self.session:
            message["sessionId"] = self.session
        data = json.dumps(message).encode() + b"\0"
        while data:
            data = data[os.write(self.to, data):]
        until = time.monotonic() + seconds
        while True:
            answer = self.read(until)
            if answer.get("id") == self.count:
                if "error" in answer:
                    raise Failed(f"{method}: {answer['error']['message']}")
                return answer["result"]
            self.note(answer)

    def note(self, event):
        if event.get("method") == "Runtime.exceptionThrown":
            details = event["params"]["exceptionDetails"]
            self.faults.append(details.get("exception", {}).get("description", details["text"]))
        elif event.get("method") == "Network.requestWillBeSent":
            self.asked.append(event["params"]["request"]["url"])

    def size(self, wide, high, ratio=1, phone=False):
        self.call("Emulation.setDeviceMetricsOverride", width=wide, height=high, deviceScaleFactor=ratio, mobile=phone)

    def scheme(self, dark):
        features = [{"name": "prefers-color-scheme", "value": "dark" if dark else "light"}]
        self.call("Emulation.setEmulatedMedia", features=features)

    def open(self, path, after=""):
        """Opens a file and waits until its page is ready."""
        self.call("Page.navigate", url="about:blank")
        self.call("Page.navigate", url="file://" + os.path.abspath(path) + after)
        until = time.monotonic() + 600
        while self.run("document.readyState") != "complete" or self.run("typeof ready") != "object":
            if time.monotonic() > until:
                raise Failed("the page doesn't get ready")
            time.sleep(0.02)
        self.run("ready.then(() => 0)")
        self.settle()

    def run(self, code, seconds=600):
        """The value of JavaScript in the page; a promise is waited for."""
        answer = self.call("Runtime.evaluate", seconds, expression=code, awaitPromise=True, returnByValue=True)
        if "exceptionDetails" in answer:
            details = answer["exceptionDetails"]
            raise Failed(details.get("exception", {}).get("description", details["text"]))
        return answer["result"].get("value")

    def settle(self):
        """Waits until what was asked to be drawn is drawn."""
        self.run("new Promise(go => requestAnimationFrame(() => requestAnimationFrame(() => go(0))))")

    def press(self, x, y):
        """A press of the mouse at a place of the window."""
        for kind in ("mousePressed", "mouseReleased"):
            self.call("Input.dispatchMouseEvent", type=kind, x=x, y=y, button="left", clickCount=1,
                      buttons=1 if kind == "mousePressed" else 0)
        self.settle()

    def drag(self, start, end):
        """The mouse goes from a place of the window to another one with its button down."""
        places = [start, [(one + other) / 2 for one, other in zip(start, end)], end, end]
        for kind, (x, y) in zip(("mousePressed", "mouseMoved", "mouseMoved", "mouseReleased"), places):
            self.call("Input.dispatchMouseEvent", type=kind, x=x, y=y, button="left", clickCount=1,
                      buttons=0 if kind == "mouseReleased" else 1)
            self.settle()

    def press_in(self, selector):
        """A press in the middle of an element."""
        box = self.run(f"(() => {{ const found = document.querySelector({json.dumps(selector)}); "
                       "found.scrollIntoView({ block: 'nearest' }); const { x, y, width, height } = "
                       "found.getBoundingClientRect(); return [x, y, width, height]; })()")
        self.press(box[0] + box[2] / 2, box[1] + box[3] / 2)

    def key(self, key, shift=False):
        """A key, by the name that pages see."""
        codes = {"Enter": 13, "Escape": 27, "Tab": 9, "ArrowLeft": 37, "ArrowUp": 38, "ArrowRight": 39, "ArrowDown": 40,
                 "Home": 36, "End": 35, " ": 32}
        words = {"key": key, "modifiers": 8 if shift else 0}
        words["windowsVirtualKeyCode"] = codes.get(key, ord(key.upper()) if len(key) == 1 else 0)
        if len(key) == 1 or key == "Enter":
            words["text"] = "\r" if key == "Enter" else key
        self.call("Input.dispatchKeyEvent", type="keyDown", **words)
        words.pop("text", None)
        self.call("Input.dispatchKeyEvent", type="keyUp", **words)
        self.settle()

    def choose_files(self, paths):
        """Gives files to the page's picker, as a user who chose them."""
        root = self.call("DOM.getDocument")["root"]["nodeId"]
        node = self.call("DOM.querySelector", nodeId=root, selector="#files")["nodeId"]
        self.call("DOM.setFileInputFiles", files=[os.path.abspath(path) for path in paths], nodeId=node)

    def close(self):
        try:
            self.session = None
            self.call("Browser.close", 5)
        except (Failed, OSError):
            pass
        try:
            self.process.wait(5)
        except subprocess.TimeoutExpired:
            self.process.kill()
            self.process.wait()
        os.close(self.to)
        os.close(self.of)
        shutil.rmtree(self.folder, ignore_errors=True)
