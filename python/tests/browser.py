"""A headless Chromium, driven through a pipe by its DevTools protocol."""

import json
import os
import shutil
import subprocess
import time

PROGRAM = shutil.which("chromium") or shutil.which("chromium-browser") or shutil.which("google-chrome")
WAIT = 60
# The key codes of the keys, and the characters that they type, by key name.
CODES = {
    "ArrowLeft": 37,
    "ArrowUp": 38,
    "ArrowRight": 39,
    "ArrowDown": 40,
    "Home": 36,
    "End": 35,
    "Enter": 13,
    "Tab": 9,
    "Escape": 27,
}
TEXTS = {"Enter": "\r"}
# The shell script passes Python's ends of the pipes to the browser as file descriptors 3 and 4. The browser reads
# commands from 3 and writes replies to 4.
LAUNCH = 'exec "$0" "$@" 3<&{} 4>&{}'


class Browser:
    """A browser with one page open."""

    def __init__(self, folder, *words):
        read, self.writer = os.pipe()
        self.reader, write = os.pipe()
        self.child = subprocess.Popen(
            ["bash", "-c", LAUNCH.format(read, write), PROGRAM, "--headless=new", "--no-sandbox", "--disable-gpu",
             "--hide-scrollbars", "--no-first-run", f"--user-data-dir={folder}", "--remote-debugging-pipe",
             *words, "about:blank"],
            pass_fds=(read, write), stdin=subprocess.DEVNULL, stdout=subprocess.DEVNULL, stderr=subprocess.DEVNULL,
        )  # fmt: skip
        os.close(read)
        os.close(write)
        self.rest, self.number, self.page, self.faults = b"", 0, {}, []
        targets = self.ask("Target.getTargets")["targetInfos"]
        target = next(one["targetId"] for one in targets if one["type"] == "page")
        self.page = {"sessionId": self.ask("Target.attachToTarget", targetId=target, flatten=True)["sessionId"]}
        for domain in ("Page", "Runtime", "Log"):
            self.ask(f"{domain}.enable")

    def ask(self, method, **params):
        """Sends a command to the browser, and returns the reply."""
        self.number += 1
        data = json.dumps({"id": self.number, "method": method, "params": params, **self.page}).encode() + b"\0"
        while data:
            data = data[os.write(self.writer, data) :]
        while True:
            message = self.message()
            if message.get("method") in ("Runtime.exceptionThrown", "Log.entryAdded"):
                self.faults.append(message["params"])
            if message.get("id") == self.number:
                assert "error" not in message, message
                return message["result"]

    def message(self):
        """Returns the browser's next message."""
        while b"\0" not in self.rest:
            data = os.read(self.reader, 1 << 16)
            assert data, "the browser has ended"
            self.rest += data
        message, self.rest = self.rest.split(b"\0", 1)
        return json.loads(message)

    def size(self, width, height=900, dark=False):
        """Sets the window size, and selects dark or light colours."""
        self.ask("Emulation.setDeviceMetricsOverride", width=width, height=height, deviceScaleFactor=1, mobile=False)
        scheme = {"name": "prefers-color-scheme", "value": "dark" if dark else "light"}
        self.ask("Emulation.setEmulatedMedia", features=[scheme])
        self.settle()

    def open(self, address):
        """Opens a page, and waits until the page is drawn."""
        self.ask("Page.navigate", url="about:blank")
        self.ask("Page.navigate", url=address)
        self.until("document.body?.dataset.drawn !== undefined")

    def until(self, condition):
        """Waits until a condition in the page holds."""
        deadline = time.monotonic() + WAIT
        while not self.run(condition):
            assert time.monotonic() < deadline, condition

    def run(self, script):
        """Returns the value of a JavaScript expression in the page. The expression may be a promise."""
        done = self.ask("Runtime.evaluate", expression=script, returnByValue=True, awaitPromise=True)
        assert "exceptionDetails" not in done, done
        return done["result"].get("value")

    def settle(self):
        """Waits for two animation frames, so that all changes are drawn."""
        self.run("new Promise(done => requestAnimationFrame(() => requestAnimationFrame(done)))")

    def key(self, key):
        """Presses a key."""
        text = TEXTS.get(key, key if len(key) == 1 else "")
        more = {"key": key, "code": key, "windowsVirtualKeyCode": CODES.get(key, ord(key[0]))}
        self.ask("Input.dispatchKeyEvent", type="keyDown", **more, **({"text": text} if text else {}))
        self.ask("Input.dispatchKeyEvent", type="keyUp", **more)
        self.settle()

    def mouse(self, kind, x, y, **more):
        """Sends a mouse event."""
        self.ask("Input.dispatchMouseEvent", type=kind, x=x, y=y, **more)
        self.settle()

    def close(self):
        """Ends the browser."""
        self.page = {}
        self.ask("Browser.close")
        self.child.wait(WAIT)
        os.close(self.writer)
        os.close(self.reader)
