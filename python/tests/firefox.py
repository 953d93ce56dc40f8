"""A headless Firefox, driven through a socket by its Marionette protocol."""

import contextlib
import json
import shutil
import socket
import subprocess
import time

PROGRAM = shutil.which("firefox-esr") or shutil.which("firefox")
WAIT = 60
# The WebDriver characters of keys, by key name.
KEYS = {"Tab": "\ue004", "Enter": "\ue007", "Escape": "\ue00c", "ArrowDown": "\ue015", "ArrowRight": "\ue014"}
SETTINGS = """user_pref("marionette.port", 0);
user_pref("browser.shell.checkDefaultBrowser", false);
user_pref("datareporting.policy.dataSubmissionEnabled", false);
user_pref("app.update.enabled", false);
"""
# A script that returns the errors of pages, without the warnings.
FAULTS = """return Services.console.getMessageArray().filter(one => one instanceof Ci.nsIScriptError
  && !(one.flags & (Ci.nsIScriptError.warningFlag | Ci.nsIScriptError.infoFlag)) && one.sourceName.startsWith('file:')).map(one => `${one.sourceName}:${one.lineNumber}: ${one.errorMessage}`)"""


class Firefox:
    """A Firefox with one page open."""

    def __init__(self, folder):
        (folder / "user.js").write_text(SETTINGS, encoding="ascii")
        words = ["--headless", "--no-remote", "--marionette", "--remote-allow-system-access", "--profile", str(folder)]
        quiet = subprocess.DEVNULL
        self.child = subprocess.Popen([PROGRAM, *words, "about:blank"], stdin=quiet, stdout=quiet, stderr=quiet)
        self.deadline, port = time.monotonic() + WAIT, ""
        while not port:
            assert self.child.poll() is None and time.monotonic() < self.deadline, "Firefox does not answer"
            time.sleep(0.05)
            with contextlib.suppress(FileNotFoundError):
                port = (folder / "MarionetteActivePort").read_text(encoding="ascii")
        self.socket = socket.create_connection(("127.0.0.1", int(port)), WAIT)
        self.stream, self.number = self.socket.makefile("rb"), 0
        self.message()
        self.ask("WebDriver:NewSession")

    def ask(self, command, **params):
        """Sends a command to the browser, and returns the reply."""
        self.number += 1
        text = json.dumps([0, self.number, command, params]).encode()
        self.socket.sendall(b"%d:%b" % (len(text), text))
        _, number, fault, found = self.message()
        assert number == self.number and fault is None, fault
        return found

    def message(self):
        """Returns the browser's next message. On the socket, a message is its length, a colon and JSON."""
        size = b""
        while not size.endswith(b":"):
            one = self.stream.read(1)
            assert one, "Firefox has ended"
            size += one
        return json.loads(self.stream.read(int(size[:-1])))

    def run(self, script):
        """Returns the value of a JavaScript expression in the page."""
        return self.ask("WebDriver:ExecuteScript", script=f"return window.eval({json.dumps(script)})", args=[])["value"]

    def in_browser(self, script):
        """Runs a script in the browser itself, not in the page, and returns the script's value."""
        self.ask("Marionette:SetContext", value="chrome")
        found = self.ask("WebDriver:ExecuteScript", script=script, args=[])["value"]
        self.ask("Marionette:SetContext", value="content")
        return found

    def faults(self):
        """Returns the errors of all pages so far."""
        return self.in_browser(FAULTS)

    def size(self, width, height=900, dark=False):
        """Sets the page size, and selects dark or light colours."""
        setting = "layout.css.prefers-color-scheme.content-override"
        self.in_browser(f"Services.prefs.setIntPref('{setting}', {0 if dark else 1})")
        more = [width, height]
        for _ in range(2):
            self.ask("WebDriver:SetWindowRect", width=more[0], height=more[1])
            self.settle()
            inner = self.run("[innerWidth, innerHeight]")
            more = [one + wanted - found for one, wanted, found in zip(more, (width, height), inner)]
        assert self.run("innerWidth") == width
        self.until(f"matchMedia('(prefers-color-scheme: dark)').matches === {str(dark).lower()}")

    def open(self, address):
        """Opens a page, and waits until the page is drawn."""
        self.ask("WebDriver:Navigate", url=address)
        self.until("document.body?.dataset.drawn !== undefined")

    def until(self, condition):
        """Waits until a condition in the page holds."""
        deadline = time.monotonic() + WAIT
        while not self.run(condition):
            assert time.monotonic() < deadline, condition

    def settle(self):
        """Waits for two animation frames, so that all changes are drawn."""
        script = "const done = arguments[0]; requestAnimationFrame(() => requestAnimationFrame(() => done()))"
        self.ask("WebDriver:ExecuteAsyncScript", script=script, args=[])

    def key(self, key):
        """Presses a key."""
        typed = KEYS.get(key, key)
        actions = [{"type": "keyDown", "value": typed}, {"type": "keyUp", "value": typed}]
        self.ask("WebDriver:PerformActions", actions=[{"type": "key", "id": "keys", "actions": actions}])
        self.settle()

    def close(self):
        """Ends the browser."""
        self.ask("Marionette:Quit", flags=["eForceQuit"])
        self.child.wait(WAIT)
        self.stream.close()
        self.socket.close()
