"""Drives a Chromium without a screen for test_browser.py: its DevTools protocol over two pipes."""
import base64
import json
import os
import shutil
import subprocess
import tempfile
import time

PATIENCE = 60


def find():
    """Returns the path of a Chromium, or nothing."""
    return next(filter(None, map(shutil.which, ("chromium", "chromium-browser", "google-chrome"))), None)


class Browser:
    """A Chromium with one page. It ends with a `with` block."""

    def __init__(self, width=1280, height=800):
        self.room = tempfile.mkdtemp()
        there, self.to = os.pipe()
        self.source, back = os.pipe()
        flags = [
            "--headless=new", "--no-sandbox", "--disable-gpu", "--disable-dev-shm-usage", "--no-first-run",
            "--disable-background-networking", "--disable-component-update", "--disable-sync",
            "--no-default-browser-check", "--hide-scrollbars", "--remote-debugging-pipe",
            f"--user-data-dir={self.room}", f"--window-size={width},{height}", "about:blank",
        ]
        # (The browser reads its third descriptor and writes the fourth.)
        shell = f'exec "$0" "$@" 3<&{there} 4>&{back}'
        self.process = subprocess.Popen(
            ["bash", "-c", shell, find(), *flags], pass_fds=(there, back), stdin=subprocess.DEVNULL,
            stdout=subprocess.DEVNULL, stderr=subprocess.DEVNULL, cwd=self.room,
        )
        os.close(there)
        os.close(back)
        self.number, self.buffer, self.session, self.notes = 0, b"", None, []
        targets = self.send("Target.getTargets")["targetInfos"]
        page = next(it for it in targets if it["type"] == "page")
        asked = {"targetId": page["targetId"], "flatten": True}
        self.session = self.send("Target.attachToTarget", asked)["sessionId"]
        for domain in ("Page", "Runtime", "Log", "Network"):
            self.send(f"{domain}.enable")
        size = {"width": width, "height": height, "deviceScaleFactor": 1, "mobile": False}
        self.send("Emulation.setDeviceMetricsOverride", size)

    def __enter__(self):
        return self

    def __exit__(self, *error):
        self.process.terminate()
        try:
            self.process.wait(PATIENCE)
        except subprocess.TimeoutExpired:
            self.process.kill()
            self.process.wait()
        os.close(self.to)
        os.close(self.source)
        shutil.rmtree(self.room, ignore_errors=True)

    def read(self):
        """Returns the next message."""
        while b"\0" not in self.buffer:
            piece = os.read(self.source, 1 << 20)
            if not piece:
                raise EOFError("the browser ended")
            self.buffer += piece
        message, _, self.buffer = self.buffer.partition(b"\0")
        return json.loads(message)

    def send(self, method, params=None):
        """Sends a command and returns its result."""
        self.number += 1
        message = {"id": self.number, "method": method, "params": params or {}}
        if self.session:
            message["sessionId"] = self.session
        data = json.dumps(message).encode() + b"\0"
        while data:
            data = data[os.write(self.to, data):]
        while True:
            found = self.read()
            if found.get("id") == self.number:
                if "error" in found:
                    raise RuntimeError(f"{method}: {found['error']}")
                return found["result"]
            self.notes.append(found)

    def open(self, address):
        self.send("Page.navigate", {"url": address})

    def value(self, code):
        """Returns the value of an expression in the page."""
        asked = {"expression": code, "returnByValue": True, "awaitPromise": True}
        found = self.send("Runtime.evaluate", asked)
        if "exceptionDetails" in found:
            raise RuntimeError(json.dumps(found["exceptionDetails"])[:500])
        return found["result"].get("value")

    def wait(self, code, seconds=PATIENCE):
        """Waits until an expression is true, and returns its value."""
        end = time.monotonic() + seconds
        while time.monotonic() < end:
            try:
                found = self.value(code)
            except RuntimeError:
                found = None
            if found:
                return found
            time.sleep(0.05)
        raise TimeoutError(f"{code}: {self.value('document.body.innerText')[:500]}")

    def type(self, text):
        """Types a text where the focus is."""
        self.send("Input.insertText", {"text": text})

    def key(self, key, modifiers=0, code=0):
        """Presses a key: a modifier is 1 for Alt, 2 for Ctrl, 8 for Shift."""
        params = {"key": key, "modifiers": modifiers, "windowsVirtualKeyCode": code}
        self.send("Input.dispatchKeyEvent", {"type": "rawKeyDown", **params})
        self.send("Input.dispatchKeyEvent", {"type": "keyUp", **params})

    def theme(self, name):
        features = [{"name": "prefers-color-scheme", "value": name}]
        self.send("Emulation.setEmulatedMedia", {"features": features})

    def picture(self):
        """Returns a picture of the page, as PNG."""
        return base64.b64decode(self.send("Page.captureScreenshot", {"format": "png"})["data"])
