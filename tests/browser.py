"""Drives headless Chromium over its DevTools protocol, through a pipe: loads a page, types, clicks and reads.

Needs Debian's chromium; nothing else beyond python3.
"""
import base64
import json
import os
import shutil
import signal
import subprocess
import tempfile

# Frames of another origin are attached to. What their script throws before that is reported then.
FRAMES = {"autoAttach": True, "waitForDebuggerOnStart": False, "flatten": True, "filter": [{"type": "iframe"}]}
QUIET = {"stdin": subprocess.DEVNULL, "stdout": subprocess.DEVNULL, "stderr": subprocess.DEVNULL}
NAMES = ("chromium", "chromium-browser", "google-chrome")
KEY_CODES = {"ArrowLeft": 37, "ArrowUp": 38, "ArrowRight": 39, "ArrowDown": 40, "Home": 36, "End": 35, "PageUp": 33, "PageDown": 34,
             "Enter": 13, "Escape": 27, "Tab": 9}


def program():
    """Returns the path of Chromium, or None where it is not installed."""
    return next((path for path in map(shutil.which, NAMES) if path), None)


def end(child):
    """Ends a process, and those that it has started."""
    try:
        os.killpg(child.pid, signal.SIGKILL)
    except ProcessLookupError:
        pass
    child.wait()


class PageFault(AssertionError):
    """What a page or the browser reports as wrong."""


class Browser:
    """One browser with one tab."""

    def __init__(self, width=1600, height=900, has_scrollbars=False):
        self.room = tempfile.mkdtemp(prefix="browser")
        self.last, self.session, self.faults, self.rest = 0, None, [], b""
        ours_in, theirs_out = os.pipe()
        theirs_in, ours_out = os.pipe()
        words = [program(), "--headless=new", "--no-sandbox", "--disable-gpu", "--disable-dev-shm-usage", "--no-first-run",
                 *([] if has_scrollbars else ["--hide-scrollbars"]), "--remote-debugging-pipe", f"--user-data-dir={self.room}", "about:blank"]
        shell = ["bash", "-c", f'exec "$@" 3<&{theirs_in} 4>&{theirs_out}', "bash"]
        self.child = subprocess.Popen(shell + words, pass_fds=(theirs_in, theirs_out), start_new_session=True, **QUIET)
        for fd in (theirs_in, theirs_out):
            os.close(fd)
        self.reader, self.writer = ours_in, os.fdopen(ours_out, "wb")
        target = self.call("Target.createTarget", url="about:blank")["targetId"]
        self.session = self.call("Target.attachToTarget", targetId=target, flatten=True)["sessionId"]
        self.call("Page.enable")
        self.call("Runtime.enable")
        self.call("Target.setAutoAttach", **FRAMES)
        self.resize(width, height)

    def __enter__(self):
        return self

    def __exit__(self, *_):
        end(self.child)
        shutil.rmtree(self.room, ignore_errors=True)

    def receive(self):
        while b"\0" not in self.rest:
            more = os.read(self.reader, 1 << 20)
            if not more:
                raise PageFault("the browser ended")
            self.rest += more
        text, _, self.rest = self.rest.partition(b"\0")
        return json.loads(text)

    def note(self, message):
        if message.get("method") == "Runtime.exceptionThrown":
            details = message["params"]["exceptionDetails"]
            self.faults.append(details.get("exception", {}).get("description", details["text"]))
        elif message.get("method") == "Target.attachedToTarget" and message.get("sessionId"):
            frame = message["params"]["sessionId"]
            self.send(frame, "Runtime.enable", {})
            self.send(frame, "Target.setAutoAttach", FRAMES)

    def send(self, session, method, params):
        """Sends a call, and returns its number."""
        self.last += 1
        message = {"id": self.last, "method": method, "params": params, **({"sessionId": session} if session else {})}
        self.writer.write(json.dumps(message).encode() + b"\0")
        self.writer.flush()
        return self.last

    def call(self, method, **params):
        """Calls a method of the protocol, and returns its result."""
        sent = self.send(self.session, method, params)
        while True:
            answer = self.receive()
            if answer.get("id") == sent:
                if "error" in answer:
                    raise PageFault(f"{method}: {answer['error']}")
                return answer["result"]
            self.note(answer)

    def resize(self, width, height):
        self.call("Emulation.setDeviceMetricsOverride", width=width, height=height, deviceScaleFactor=1, mobile=False)

    def prefer(self, scheme):
        """Prefers a color scheme, light or dark."""
        self.call("Emulation.setEmulatedMedia", features=[{"name": "prefers-color-scheme", "value": scheme}])

    def open(self, path, fragment=""):
        """Opens a file, and waits until its script has run. Raises what the script throws, or that of the page before has."""
        self.check()
        self.call("Page.navigate", url="about:blank")
        self.faults = []
        self.call("Page.navigate", url=f"file://{path}{fragment}")
        self.js("new Promise((done) => document.readyState === 'complete' ? done() : window.addEventListener('load', done))")
        self.check()

    def check(self):
        """Raises the first fault since the last check."""
        faults, self.faults = self.faults, []
        if faults:
            raise PageFault(faults[0])

    def js(self, text):
        """Returns the value of an expression of the page."""
        answer = self.call("Runtime.evaluate", expression=text, returnByValue=True, awaitPromise=True)
        if "exceptionDetails" in answer:
            raise PageFault(answer["exceptionDetails"].get("exception", {}).get("description", str(answer)))
        return answer["result"].get("value")

    def key(self, key, shift=False):
        """Presses a key, and waits until the page has answered it."""
        text = {"Enter": "\r"}.get(key, key if len(key) == 1 else "")
        held = {"key": key, "modifiers": 8 if shift else 0, "windowsVirtualKeyCode": KEY_CODES.get(key, 0)}
        self.call("Input.dispatchKeyEvent", type="keyDown" if text else "rawKeyDown", text=text, **held)
        self.call("Input.dispatchKeyEvent", type="keyUp", **held)
        self.check()

    def type(self, text):
        self.call("Input.insertText", text=text)

    def mouse(self, kind, x, y, **more):
        self.call("Input.dispatchMouseEvent", type=kind, x=x, y=y, **more)
        self.check()

    def click(self, x, y):
        self.mouse("mousePressed", x, y, button="left", buttons=1, clickCount=1)
        self.mouse("mouseReleased", x, y, button="left", clickCount=1)

    def middle_of(self, selector):
        """Returns the middle of the first element that a selector finds."""
        return self.js(f"(() => {{ const b = document.querySelector({json.dumps(selector)}).getBoundingClientRect();"
                       " return [b.x + b.width / 2, b.y + b.height / 2]; })()")

    def picture(self, path):
        """Writes a picture of what is seen."""
        with open(path, "wb") as it:
            it.write(base64.b64decode(self.call("Page.captureScreenshot", format="png")["data"]))
