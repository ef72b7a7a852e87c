"""A browser without a window, driven over its pipe (Chromium's DevTools protocol): pages are opened, keys pressed, texts read."""
import base64
import json
import os
import shutil
import subprocess
import tempfile

NAMES = ["chromium", "chromium-browser", "google-chrome"]
KEYS = {"ArrowRight": 39, "ArrowLeft": 37, "Home": 36, "End": 35}


def found():
    """The path of a browser, or None."""
    return next(filter(None, map(shutil.which, NAMES)), None)


class Browser:
    """One tab. It fetches nothing: it has no network."""

    def __init__(self, path):
        self.folder = tempfile.mkdtemp()
        to_read, self.to_write = os.pipe()
        self.to_hear, to_say = os.pipe()
        # the browser reads from 3 and writes to 4; high numbers first, so that neither is overwritten
        high = [os.dup2(fd, 60 + i) for i, fd in enumerate((to_read, to_say))]
        words = ["--headless", "--no-sandbox", "--disable-gpu", "--disable-dev-shm-usage", "--remote-debugging-pipe"]
        words += ["--user-data-dir=" + self.folder, "--no-first-run", "--host-resolver-rules=MAP * ~NOTFOUND", "about:blank"]
        shell = 'exec "$@" 3<&60 4>&61'
        self.process = subprocess.Popen(
            ["bash", "-c", shell, "sh", path] + words, pass_fds=high, stdout=subprocess.DEVNULL, stderr=subprocess.DEVNULL
        )
        for fd in [to_read, to_say] + high:
            os.close(fd)
        self.said, self.count, self.session = b"", 0, None
        targets = self.ask("Target.getTargets")["targetInfos"]
        target = next(target["targetId"] for target in targets if target["type"] == "page")
        self.session = self.ask("Target.attachToTarget", targetId=target, flatten=True)["sessionId"]
        self.ask("Page.enable")
        self.ask("Runtime.enable")

    def message(self):
        while b"\0" not in self.said:
            piece = os.read(self.to_hear, 1 << 16)
            if not piece:
                raise RuntimeError("the browser has ended")
            self.said += piece
        one, _, self.said = self.said.partition(b"\0")
        return json.loads(one)

    def ask(self, method, **params):
        """The answer to a command; events that come before it are passed to `hear`."""
        self.count += 1
        asked = {"id": self.count, "method": method, "params": params}
        if self.session:
            asked["sessionId"] = self.session
        os.write(self.to_write, json.dumps(asked).encode() + b"\0")
        while True:
            answer = self.message()
            if answer.get("id") == self.count:
                if "error" in answer:
                    raise RuntimeError("%s: %s" % (method, answer["error"]["message"]))
                return answer["result"]
            self.hear(answer)

    faults = ()

    def hear(self, event):
        if event["method"] == "Runtime.exceptionThrown":
            details = event["params"]["exceptionDetails"]
            self.faults += (details.get("exception", {}).get("description", details["text"]),)
        if event["method"] == "Page.loadEventFired":
            self.is_loaded = True

    def open(self, url, width=1000, height=800, is_dark=False, zoom=1):
        """A page in a window of this size."""
        self.ask("Emulation.setDeviceMetricsOverride", width=width, height=height, deviceScaleFactor=zoom, mobile=False)
        scheme = [{"name": "prefers-color-scheme", "value": "dark" if is_dark else "light"}]
        self.ask("Emulation.setEmulatedMedia", features=scheme)
        # by way of an empty page, since an address that differs in its last part alone loads nothing
        for address in ("about:blank", url):
            self.is_loaded, self.faults = False, ()
            self.ask("Page.navigate", url=address)
            while not self.is_loaded:
                self.hear(self.message())

    def press(self, key):
        for kind in ("keyDown", "keyUp"):
            self.ask("Input.dispatchKeyEvent", type=kind, key=key, code=key, windowsVirtualKeyCode=KEYS[key])

    def value(self, expression):
        """What an expression of JavaScript gives."""
        answer = self.ask("Runtime.evaluate", expression=expression, returnByValue=True)
        if "exceptionDetails" in answer:
            raise RuntimeError(answer["exceptionDetails"]["exception"].get("description"))
        return answer["result"].get("value")

    def picture(self, path, is_whole=True):
        data = self.ask("Page.captureScreenshot", captureBeyondViewport=is_whole)["data"]
        with open(path, "wb") as file:
            file.write(base64.b64decode(data))

    def close(self):
        try:
            self.session = None
            self.ask("Browser.close")
        except (RuntimeError, OSError):
            self.process.kill()
        self.process.wait()
        shutil.rmtree(self.folder, ignore_errors=True)
