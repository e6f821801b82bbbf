"""Opens a page in headless Chromium, over the pipe of its DevTools protocol."""

import base64
import json
import os
import pathlib
import select
import shutil
import signal
import subprocess
import tempfile

PROGRAM = shutil.which("chromium")
OPTIONS = ["--headless", "--no-sandbox", "--disable-gpu", "--disable-dev-shm-usage", "--hide-scrollbars", "--no-first-run", "--remote-debugging-pipe"]
# Seconds within which it says something.
LIMIT = 120


class Browser:
    """A browser with one page. Commands are answered in order; what the page asks the network for, and its faults, are kept."""

    def __enter__(self):
        # (a process of the browser may still write there when it is removed)
        self.folder = tempfile.TemporaryDirectory(ignore_cleanup_errors=True)
        theirs, self.out = os.pipe()
        self.back, answers = os.pipe()
        words = ["sh", "-c", f'exec "$@" 3<&{theirs} 4>&{answers}', "sh", PROGRAM, *OPTIONS, f"--user-data-dir={self.folder.name}", "about:blank"]
        quiet = {"stdin": subprocess.DEVNULL, "stdout": subprocess.DEVNULL, "stderr": subprocess.DEVNULL}
        self.process = subprocess.Popen(words, pass_fds=(theirs, answers), start_new_session=True, **quiet)
        os.close(theirs)
        os.close(answers)
        self.count, self.unread, self.session, self.asked, self.faults = 0, b"", None, [], []
        target = next(it for it in self.call("Target.getTargets")["targetInfos"] if it["type"] == "page")
        self.session = self.call("Target.attachToTarget", targetId=target["targetId"], flatten=True)["sessionId"]
        for it in ("Page", "Runtime", "Network"):
            self.call(f"{it}.enable")
        return self

    def __exit__(self, *_):
        os.killpg(self.process.pid, signal.SIGKILL)
        self.process.wait()
        os.close(self.out)
        os.close(self.back)
        self.folder.cleanup()

    def message(self):
        """The next message of the browser."""
        while b"\0" not in self.unread:
            if not select.select([self.back], [], [], LIMIT)[0]:
                raise OSError("the browser doesn't answer")
            more = os.read(self.back, 1 << 20)
            if not more:
                raise OSError("the browser ended")
            self.unread += more
        line, _, self.unread = self.unread.partition(b"\0")
        said = json.loads(line)
        params = said.get("params", {})
        if said.get("method") == "Network.requestWillBeSent":
            self.asked.append(params["request"]["url"])
        elif said.get("method") == "Runtime.exceptionThrown":
            self.faults.append(str(params["exceptionDetails"].get("exception", {}).get("description")))
        return said

    def call(self, method, **params):
        """The answer to a command."""
        self.count += 1
        session = {"sessionId": self.session} if self.session else {}
        os.write(self.out, json.dumps({"id": self.count, "method": method, "params": params} | session).encode() + b"\0")
        while (said := self.message()).get("id") != self.count:
            pass
        if "error" in said:
            raise OSError(f"{method}: {said['error']}")
        return said["result"]

    def open(self, path, width=1200, height=900, scheme="light"):
        """Opens a file in a window of this size."""
        self.call("Emulation.setDeviceMetricsOverride", width=width, height=height, deviceScaleFactor=1, mobile=False)
        self.call("Emulation.setEmulatedMedia", features=[{"name": "prefers-color-scheme", "value": scheme}])
        self.call("Page.navigate", url=pathlib.Path(path).as_uri())
        while self.message().get("method") != "Page.loadEventFired":
            pass

    def ask(self, expression):
        """The value of an expression, once the page has been drawn."""
        drawn = f"new Promise((done) => requestAnimationFrame(() => requestAnimationFrame(() => done({expression}))))"
        answer = self.call("Runtime.evaluate", expression=drawn, awaitPromise=True, returnByValue=True)
        if "exceptionDetails" in answer:
            raise OSError(f"{expression}: {answer['exceptionDetails']}")
        return answer["result"].get("value")

    def press(self, key, shift=False):
        """Presses a key."""
        text = {"text": key} if len(key) == 1 else {}
        for kind in ("keyDown", "keyUp"):
            self.call("Input.dispatchKeyEvent", type=kind, key=key, modifiers=8 * shift, **(text if kind == "keyDown" else {}))

    def click(self, x, y):
        """Clicks at a place of the window."""
        for kind in ("mousePressed", "mouseReleased"):
            self.call("Input.dispatchMouseEvent", type=kind, x=x, y=y, button="left", buttons=1, clickCount=1)

    def picture(self):
        """The window as a PNG."""
        return base64.b64decode(self.call("Page.captureScreenshot", format="png")["data"])
