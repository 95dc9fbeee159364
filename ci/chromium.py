"""Drives headless Chromium over its debugging pipe, which needs no more than a process and two descriptors."""
import base64
import json
import os
import select
import shutil
import subprocess
import tempfile
import time
from typing import Any, Sequence, Tuple

COMMAND = shutil.which("chromium") or shutil.which("chromium-browser") or shutil.which("google-chrome")
FLAGS = ["--headless=new", "--no-sandbox", "--disable-gpu", "--disable-dev-shm-usage", "--no-first-run",
         "--disable-extensions", "--disable-background-networking", "--remote-debugging-pipe", "about:blank"]
SECONDS = 120
# the numbers of keys by which a page does what browsers do by themselves, and the texts that they write
KEYS = {"Tab": (9, ""), "Enter": (13, "\r"), " ": (32, " "), "Escape": (27, "")}
CODES = {" ": "Space"}


class Browser:
    """One page of a browser. In a `with` statement it ends at its end."""

    def __init__(self, width: int, height: int, is_dark: bool = False):
        self.folder = tempfile.mkdtemp()
        theirs_in, self.into = os.pipe()
        self.out, theirs_out = os.pipe()
        self.left, self.count, self.session = b"", 0, None
        self.process = self.started(theirs_in, theirs_out)
        os.close(theirs_in)
        os.close(theirs_out)
        target = next(it for it in self.ask("Target.getTargets")["targetInfos"] if it["type"] == "page")
        self.session = self.ask("Target.attachToTarget", targetId=target["targetId"], flatten=True)["sessionId"]
        self.ask("Emulation.setDeviceMetricsOverride", width=width, height=height, deviceScaleFactor=1, mobile=False)
        scheme = {"name": "prefers-color-scheme", "value": "dark" if is_dark else "light"}
        self.ask("Emulation.setEmulatedMedia", features=[scheme])

    def started(self, theirs_in: int, theirs_out: int) -> "subprocess.Popen[bytes]":
        """The process, whose descriptors 3 and 4 are the ends of the pipes."""

        def place() -> None:
            # out of the way first, since either may be 3 or 4
            kept = [os.dup(theirs_in), os.dup(theirs_out)]
            kept = [it if it > 4 else os.dup(os.dup(os.dup(it))) for it in kept]
            os.dup2(kept[0], 3)
            os.dup2(kept[1], 4)

        words = [str(COMMAND), "--user-data-dir=" + self.folder, *FLAGS]
        return subprocess.Popen(
            words, preexec_fn=place, pass_fds=(3, 4), stdin=subprocess.DEVNULL, stdout=subprocess.DEVNULL,
            stderr=subprocess.DEVNULL
        )

    def __enter__(self) -> "Browser":
        return self

    def __exit__(self, *_: object) -> None:
        self.process.terminate()
        try:
            self.process.wait(10)
        except subprocess.TimeoutExpired:
            self.process.kill()
            self.process.wait()
        os.close(self.into)
        os.close(self.out)
        shutil.rmtree(self.folder, ignore_errors=True)

    def message(self, until: float) -> Any:
        """The next message of the browser."""
        while b"\0" not in self.left:
            if not select.select([self.out], [], [], max(0, until - time.monotonic()))[0]:
                raise TimeoutError("the browser does not answer within %d seconds" % SECONDS)
            part = os.read(self.out, 1 << 20)
            if not part:
                raise RuntimeError("the browser ended")
            self.left += part
        text, _, self.left = self.left.partition(b"\0")
        return json.loads(text.decode())

    def ask(self, method: str, **parameters: Any) -> Any:
        """Sends a command, and returns its result."""
        self.count += 1
        asked = {"id": self.count, "method": method, "params": parameters}
        if self.session:
            asked["sessionId"] = self.session
        os.write(self.into, json.dumps(asked).encode() + b"\0")
        until = time.monotonic() + SECONDS
        while True:
            found = self.message(until)
            if found.get("id") == self.count:
                if "error" in found:
                    raise RuntimeError("%s: %s" % (method, found["error"]["message"]))
                return found["result"]

    def value(self, expression: str) -> Any:
        """The value of an expression of the page."""
        found = self.ask("Runtime.evaluate", expression=expression, returnByValue=True)
        if "exceptionDetails" in found:
            raise RuntimeError("%s: %s" % (expression, found["exceptionDetails"].get("exception")))
        return found["result"].get("value")

    def open(self, path: str) -> None:
        """Opens a file, and waits until it is loaded."""
        self.go("file://" + path)

    def go(self, address: str) -> None:
        """Opens an address, and waits until it is loaded."""
        self.ask("Page.navigate", url=address)
        self.until("document.readyState === 'complete' && location.protocol === '%s:'" % address.split(":")[0])

    def until(self, expression: str) -> None:
        """Waits until an expression of the page is true."""
        until = time.monotonic() + SECONDS
        while not self.value(expression):
            if time.monotonic() > until:
                raise TimeoutError("%s is not true within %d seconds" % (expression, SECONDS))
            time.sleep(0.02)

    def drag(self, points: Sequence[Tuple[float, float]]) -> None:
        """Presses the mouse at the first place, moves it to the others, and releases it."""
        kinds = ["mousePressed", *["mouseMoved"] * (len(points) - 1), "mouseReleased"]
        for kind, (x, y) in zip(kinds, [*points, points[-1]]):
            self.ask("Input.dispatchMouseEvent", type=kind, x=x, y=y, button="left", buttons=int(kind != "mouseReleased"), clickCount=1)

    def write(self, text: str) -> None:
        """Writes a text where the focus is."""
        self.ask("Input.insertText", text=text)

    def click(self, x: float, y: float) -> None:
        """Clicks at a place of the window."""
        for kind, button in (("mouseMoved", "none"), ("mousePressed", "left"), ("mouseReleased", "left")):
            self.ask("Input.dispatchMouseEvent", type=kind, x=x, y=y, button=button, clickCount=int(button == "left"))

    def press(self, key: str, is_shifted: bool = False) -> None:
        """Presses a key and releases it."""
        number, text = KEYS.get(key, (0, ""))
        for kind in ("keyDown", "keyUp"):
            more = {"text": text} if text and kind == "keyDown" else {}
            self.ask("Input.dispatchKeyEvent", type=kind, key=key, code=CODES.get(key, key), windowsVirtualKeyCode=number,
                     modifiers=8 if is_shifted else 0, **more)

    def screenshot(self) -> bytes:
        """What is shown, as the bytes of a PNG file."""
        return base64.b64decode(self.ask("Page.captureScreenshot", format="png")["data"])
