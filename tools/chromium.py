"""Drives Chromium over its debugging pipe: one page, no network, no package beyond Python's own."""
import base64
import json
import os
import select
import shutil
import subprocess
import time

PATIENCE = 60


def find():
    """Chromium's path, or None."""
    return next((path for path in map(shutil.which, ("chromium", "chromium-browser", "google-chrome")) if path), None)


class Failed(Exception):
    """What a page threw, or a browser that doesn't answer."""


class Chromium:
    """A browser without a window, with a profile in this folder, and one page in it."""

    def __init__(self, folder):
        self.down, down = os.pipe()[::-1]
        up, self.up = os.pipe()[::-1]
        self.waiting, self.number, self.events, self.session = b"", 0, [], None
        keep = max(down, up, self.down, self.up) + 1

        def place():
            # The browser reads from 3 and writes to 4; either may be taken by the other's pipe.
            os.dup2(down, keep)
            os.dup2(up, keep + 1)
            os.dup2(keep, 3)
            os.dup2(keep + 1, 4)

        # A page that goes to two hundred places in ten seconds isn't let go on, unless the protection from that is off.
        words = [find(), "--headless", "--no-sandbox", "--disable-ipc-flooding-protection", "--disable-gpu", "--disable-dev-shm-usage", "--no-first-run", "--disable-background-networking",
                 "--hide-scrollbars", f"--user-data-dir={folder}/profile", "--remote-debugging-pipe", "about:blank"]
        self.process = subprocess.Popen(words, preexec_fn=place, close_fds=False, stdin=subprocess.DEVNULL, stdout=subprocess.DEVNULL, stderr=subprocess.DEVNULL)
        os.close(down)
        os.close(up)

    def __enter__(self):
        target = self.ask("Target.createTarget", url="about:blank")["targetId"]
        self.session = self.ask("Target.attachToTarget", targetId=target, flatten=True)["sessionId"]
        for domain in "Page", "Runtime", "Log", "Network", "DOM", "Accessibility":
            self.ask(f"{domain}.enable")
        return self

    def __exit__(self, *_):
        self.session = None
        try:
            self.ask("Browser.close")
            self.process.wait(10)
        except (Failed, OSError, subprocess.TimeoutExpired):
            self.process.kill()
            self.process.wait()
        os.close(self.down)
        os.close(self.up)

    def receive(self):
        """The next message."""
        end = time.monotonic() + PATIENCE
        while b"\0" not in self.waiting:
            if not select.select([self.up], [], [], max(end - time.monotonic(), 0))[0]:
                raise Failed("the browser doesn't answer")
            came = os.read(self.up, 1 << 20)
            if not came:
                raise Failed("the browser ended")
            self.waiting += came
        message, self.waiting = self.waiting.split(b"\0", 1)
        return json.loads(message)

    def ask(self, method, **words):
        """What the browser answers to a command. Events that come meanwhile are kept."""
        self.number += 1
        message = {"id": self.number, "method": method, "params": words, **({"sessionId": self.session} if self.session else {})}
        os.write(self.down, json.dumps(message).encode() + b"\0")
        while True:
            came = self.receive()
            if came.get("id") == self.number:
                if "error" in came:
                    raise Failed(f"{method}: {came['error']['message']}")
                return came["result"]
            self.events.append(came)

    def run(self, script):
        """The value of an expression in the page, when it is there."""
        came = self.ask("Runtime.evaluate", expression=script, awaitPromise=True, returnByValue=True, userGesture=True)
        if "exceptionDetails" in came:
            details = came["exceptionDetails"]
            raise Failed(details.get("exception", {}).get("description") or details["text"])
        return came["result"].get("value")

    def until(self, script):
        """Waits until an expression holds."""
        end = time.monotonic() + PATIENCE
        while not self.run(script):
            if time.monotonic() > end:
                raise Failed(f"this doesn't come: {script}")
            time.sleep(0.02)

    def open(self, address):
        self.ask("Page.navigate", url=address)

    def press(self, key, **more):
        codes = {"Tab": 9, "ArrowLeft": 37, "ArrowRight": 39, "Home": 36, "End": 35, "Enter": 13, "ArrowDown": 40}
        for kind in "rawKeyDown", "keyUp":
            self.ask("Input.dispatchKeyEvent", type=kind, key=key, code=key, windowsVirtualKeyCode=codes[key], **more)

    def shape(self, width, height, scheme="light"):
        """The size of the window and the scheme of colours."""
        self.ask("Emulation.setDeviceMetricsOverride", width=width, height=height, deviceScaleFactor=1, mobile=width < 500)
        self.ask("Emulation.setEmulatedMedia", features=[{"name": "prefers-color-scheme", "value": scheme}])

    def picture(self, path, clip=None):
        """The whole page, or what is in a box of it: x, y, width, height."""
        more = {"clip": {**dict(zip(("x", "y", "width", "height"), clip)), "scale": 1}} if clip else {}
        came = self.ask("Page.captureScreenshot", format="png", captureBeyondViewport=True, **more)
        with open(path, "wb") as file:
            file.write(base64.b64decode(came["data"]))

    def complaints(self):
        """Errors and warnings on the console, policies that were broken, exceptions that nobody caught; and requests for anything but files."""
        said = []
        for event in self.events:
            words, method = event.get("params", {}), event.get("method")
            if method == "Runtime.exceptionThrown":
                said.append(words["exceptionDetails"].get("exception", {}).get("description", "an exception"))
            elif method == "Runtime.consoleAPICalled" and words["type"] in ("error", "warning", "assert"):
                said.append(f"console: {words['args'][0].get('value')}")
            elif method == "Log.entryAdded" and words["entry"]["level"] in ("error", "warning"):
                said.append(f"log: {words['entry']['text']}")
            elif method == "Network.requestWillBeSent" and not words["request"]["url"].startswith(("file:", "data:", "blob:")):
                said.append(f"a request for {words['request']['url']}")
        return said
