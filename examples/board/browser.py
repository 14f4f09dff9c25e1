"""Chromium without a window, spoken to by its DevTools protocol over two pipes. Used by `test`."""

import base64
import json
import os
import select
import shlex
import signal
import subprocess
import time

PATIENCE = 60
FLAGS = ["--headless=new", "--remote-debugging-pipe", "--disable-gpu", "--disable-dev-shm-usage", "--no-first-run", "--disable-sync",
         "--disable-background-networking", "--disable-component-update", "--disable-default-apps", "--disable-extensions",
         "--hide-scrollbars", "--force-color-profile=srgb"]


class Gone(RuntimeError):
    """The browser refuses: what it is asked about isn't there, or is there no more."""


class Browser:
    """A browser with one page. What the page asks for, and what it complains of, is kept."""

    def __init__(self, program, folder):
        self.count, self.held, self.requests, self.complaints, self.session = 0, b"", [], [], None
        to_browser, self.send_to = os.pipe()
        self.read_from, from_browser = os.pipe()
        words = [program, *FLAGS, *(["--no-sandbox"] if os.getuid() == 0 else []), f"--user-data-dir={folder}/profile", "about:blank"]
        # The browser reads at 3 and writes at 4.
        start = f"exec {shlex.join(words)} 3<&{to_browser} 4>&{from_browser}"
        self.log = os.path.join(folder, "browser.log")
        with open(self.log, "wb") as log:
            self.process = subprocess.Popen(["bash", "-c", start], stdin=subprocess.DEVNULL, stdout=log, stderr=log, start_new_session=True,
                                            pass_fds=(to_browser, from_browser), env={**os.environ, "HOME": folder, "TZ": "UTC"})
        os.close(to_browser)
        os.close(from_browser)
        target = self("Target.createTarget", url="about:blank")["targetId"]
        self.session = self("Target.attachToTarget", targetId=target, flatten=True)["sessionId"]
        for domain in ("Page", "Runtime", "Network", "Log"):
            self(f"{domain}.enable")

    def __call__(self, method, **words):
        """Does what a method of the protocol does, and gives its answer."""
        self.count += 1
        message = {"id": self.count, "method": method, "params": words}
        if self.session:
            message["sessionId"] = self.session
        os.write(self.send_to, json.dumps(message).encode() + b"\0")
        while True:
            answer = self.next_message()
            if answer.get("id") == self.count:
                if "error" in answer:
                    raise Gone(f"{method}: {answer['error']}")
                return answer["result"]
            self.note(answer)

    def next_message(self):
        while b"\0" not in self.held:
            if not select.select([self.read_from], [], [], PATIENCE)[0]:
                raise RuntimeError("the browser says nothing")
            data = os.read(self.read_from, 1 << 20)
            if not data:
                raise RuntimeError(f"the browser has ended: {self.last_words()}")
            self.held += data
        message, _, self.held = self.held.partition(b"\0")
        return json.loads(message)

    def last_words(self):
        with open(self.log, errors="replace") as log:
            return log.read()[-1000:].strip()

    def note(self, event):
        words = event.get("params", {})
        if event.get("method") == "Network.requestWillBeSent":
            self.requests.append(words["request"]["url"])
        elif event.get("method") == "Runtime.exceptionThrown":
            self.complaints.append(json.dumps(words["exceptionDetails"])[:600])
        elif event.get("method") == "Runtime.consoleAPICalled":
            self.complaints.append(json.dumps(words["args"])[:600])
        elif event.get("method") == "Log.entryAdded":
            self.complaints.append(f"{words['entry']['text']} {words['entry'].get('url', '')}")

    def value(self, expression):
        """The value of an expression in the page."""
        answer = self("Runtime.evaluate", expression=expression, returnByValue=True, awaitPromise=True)
        if "exceptionDetails" in answer:
            raise RuntimeError(json.dumps(answer["exceptionDetails"]))
        return answer["result"].get("value")

    def holds(self, expression):
        """Whether an expression holds in the page. In a page that is being left nothing does."""
        try:
            return self.value(f"Boolean({expression})")
        except Gone:
            return False

    def until(self, expression):
        """Waits until an expression holds in the page."""
        end = time.monotonic() + PATIENCE
        while not self.holds(expression):
            if time.monotonic() > end:
                raise RuntimeError(f"{expression} took too long. Complaints: {self.complaints}")
            time.sleep(0.03)

    def size(self, width, height, phone=False):
        self("Emulation.setDeviceMetricsOverride", width=width, height=height, deviceScaleFactor=1, mobile=phone)

    def press(self, key, text=""):
        code = {"Tab": 9, "Enter": 13, "PageUp": 33, "PageDown": 34, "End": 35, "Home": 36,
                "ArrowLeft": 37, "ArrowUp": 38, "ArrowRight": 39, "ArrowDown": 40}.get(key, 0)
        for kind in ("keyDown", "keyUp"):
            self("Input.dispatchKeyEvent", type=kind, key=key, code=key, windowsVirtualKeyCode=code, text=text if kind == "keyDown" else "")

    def move(self, x, y):
        self("Input.dispatchMouseEvent", type="mouseMoved", x=x, y=y)

    def picture(self, path, width=None, height=None):
        clip = {"clip": {"x": 0, "y": 0, "width": width, "height": height, "scale": 1}} if width else {}
        data = self("Page.captureScreenshot", format="png", captureBeyondViewport=bool(width), **clip)["data"]
        with open(path, "wb") as file:
            file.write(base64.b64decode(data))

    def end(self):
        if self.process.poll() is None:
            try:
                self.session = None
                self("Browser.close")
                self.process.wait(10)
            except (RuntimeError, OSError, subprocess.TimeoutExpired):
                pass
        try:
            os.killpg(self.process.pid, signal.SIGKILL)  # what it has left
        except ProcessLookupError:
            pass
        self.process.wait()
        os.close(self.send_to)
        os.close(self.read_from)
