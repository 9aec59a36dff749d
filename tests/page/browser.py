"""Drives a Chromium without a window through its DevTools protocol, over a pair of pipes: JSON texts that end with a zero byte."""

import base64
import json
import os
import select
import shutil
import subprocess
import tempfile
import time

PROGRAM = shutil.which("chromium") or shutil.which("chromium-browser") or shutil.which("google-chrome")
SECONDS = 20  # that an answer may take


class Browser:
    """One browser with one page, until it is closed."""

    def __init__(self):
        self.folder = tempfile.TemporaryDirectory(ignore_cleanup_errors=True)
        theirs_in, self.to_it = os.pipe()
        self.from_it, theirs_out = os.pipe()
        # The browser reads from descriptor 3 and writes to 4; the shell puts the pipes there.
        plumbing = 'exec "$@" 3<&%d 4>&%d' % (theirs_in, theirs_out)
        words = [PROGRAM, "--headless", "--no-sandbox", "--disable-gpu", "--hide-scrollbars", "--remote-debugging-pipe",
                 "--user-data-dir=" + self.folder.name, "about:blank"]
        self.process = subprocess.Popen(["bash", "-c", plumbing, "browser", *words], pass_fds=(theirs_in, theirs_out),
                                        stdout=subprocess.DEVNULL, stderr=subprocess.DEVNULL)
        os.close(theirs_in)
        os.close(theirs_out)
        self.unread, self.count, self.session = b"", 0, None
        self.problems = []  # what the page's scripts threw, and what the browser says against the page
        target = self.send("Target.createTarget", url="about:blank")["targetId"]
        self.session = self.send("Target.attachToTarget", targetId=target, flatten=True)["sessionId"]
        for domain in ("Page", "Runtime", "Log"):
            self.send(domain + ".enable")

    def close(self):
        self.session = None
        try:
            self.send("Browser.close")
            self.process.wait(SECONDS)
        except (OSError, subprocess.TimeoutExpired):  # it is gone, or it hangs
            self.process.kill()
            self.process.wait()
        os.close(self.to_it)
        os.close(self.from_it)
        self.folder.cleanup()

    # -- The protocol

    def send(self, method, **parameters):
        """Carries out a method and gives its result."""
        self.count += 1
        asked = {"id": self.count, "method": method, "params": parameters}
        if self.session:
            asked["sessionId"] = self.session
        text = json.dumps(asked).encode() + b"\0"
        while text:
            text = text[os.write(self.to_it, text):]
        answer = self.wait(lambda it: it.get("id") == self.count)
        if "error" in answer:
            raise RuntimeError("%s: %s" % (method, answer["error"]["message"]))
        return answer["result"]

    def wait(self, is_wanted):
        end = time.monotonic() + SECONDS
        while True:
            while b"\0" in self.unread:
                text, self.unread = self.unread.split(b"\0", 1)
                message = json.loads(text)
                if message.get("method") in ("Runtime.exceptionThrown", "Log.entryAdded"):
                    self.problems.append(message["params"])
                if is_wanted(message):
                    return message
            ready = select.select([self.from_it], [], [], max(0, end - time.monotonic()))[0]
            if not ready:
                raise TimeoutError("the browser didn't answer in %d s" % SECONDS)
            chunk = os.read(self.from_it, 1 << 20)
            if not chunk:
                raise ConnectionError("the browser is gone")
            self.unread += chunk

    # -- What a user does

    def open(self, path, fragment=""):
        self.send("Page.navigate", url="about:blank")
        self.send("Page.navigate", url=path.resolve().as_uri() + fragment)
        self.wait(lambda it: it.get("method") == "Page.loadEventFired")

    def resize(self, width, height):
        self.send("Emulation.setDeviceMetricsOverride", width=width, height=height, deviceScaleFactor=1, mobile=False)
        self.settle()

    def media(self, medium="", **features):
        """A medium (print), and features such as prefers_color_scheme="dark"."""
        pairs = [{"name": name.replace("_", "-"), "value": value} for name, value in features.items()]
        self.send("Emulation.setEmulatedMedia", media=medium, features=pairs)
        self.settle()

    def key(self, key, shift=False):
        typed = {"text": key} if len(key) == 1 else {}
        self.send("Input.dispatchKeyEvent", type="keyDown", key=key, modifiers=8 if shift else 0, **typed)
        self.send("Input.dispatchKeyEvent", type="keyUp", key=key, modifiers=8 if shift else 0)
        self.settle()

    def mouse(self, kind, x, y, **more):
        self.send("Input.dispatchMouseEvent", type=kind, x=x, y=y, **more)

    def click(self, x, y, shift=False):
        for kind in ("mouseMoved", "mousePressed", "mouseReleased"):
            pressed = {} if kind == "mouseMoved" else {"button": "left", "clickCount": 1}
            self.mouse(kind, x, y, modifiers=8 if shift else 0, **pressed)
        self.settle()

    def settle(self):
        """Waits until the page has been drawn anew."""
        self.run("new Promise(done => requestAnimationFrame(() => requestAnimationFrame(() => done(1))))")

    # -- What is seen

    def run(self, expression):
        """The value of a JavaScript expression."""
        answer = self.send("Runtime.evaluate", expression=expression, returnByValue=True, awaitPromise=True)
        if "exceptionDetails" in answer:
            raise RuntimeError(answer["exceptionDetails"]["exception"].get("description", expression))
        return answer["result"].get("value")

    def picture(self, path):
        path.write_bytes(base64.b64decode(self.send("Page.captureScreenshot", format="png")["data"]))

    def pdf(self, path):
        path.write_bytes(base64.b64decode(self.send("Page.printToPDF", printBackground=False)["data"]))
