"""A page in Debian's chromium without a window, driven by the DevTools protocol over two pipes: messages of JSON, each with a NUL
at its end."""

import base64
import json
import os
import select
import subprocess
import tempfile
import time
from pathlib import Path
from typing import Any

BROWSER = "chromium"
# The file numbers on which chromium reads and writes.
READS, WRITES = 3, 4
OPTIONS = [
    "--headless", "--remote-debugging-pipe", "--no-first-run", "--disable-gpu", "--disable-extensions", "--disable-background-networking",
    "--disable-component-update", "--disable-sync", "--no-default-browser-check", "--hide-scrollbars", "--js-flags=--expose-gc",
    "--enable-precise-memory-info",
]
# The longest that anything may take, in seconds.
PATIENCE = 240


class Browser:
    """A browser with one page."""

    def __init__(self) -> None:
        self.folder = tempfile.TemporaryDirectory(prefix="page-")
        inward, outward = os.pipe(), os.pipe()
        options = [*OPTIONS, f"--user-data-dir={self.folder.name}", *(["--no-sandbox"] if os.geteuid() == 0 else [])]
        words = ["bash", "-c", f'exec {READS}<&{inward[0]} {WRITES}>&{outward[1]} "$@"', "bash", BROWSER, *options]
        settings = {**os.environ, "HOME": self.folder.name}
        nothing = subprocess.DEVNULL
        self.process = subprocess.Popen(
            words, env=settings, pass_fds=[inward[0], outward[1]], stdin=nothing, stdout=nothing, stderr=nothing
        )
        os.close(inward[0])
        os.close(outward[1])
        self.to, self.back, self.rest, self.count = inward[1], outward[0], b"", 0
        self.events: list[dict[str, Any]] = []
        self.session: str | None = None
        target = self.send("Target.createTarget", url="about:blank")["targetId"]
        self.session = self.send("Target.attachToTarget", targetId=target, flatten=True)["sessionId"]
        for domain in ["Page", "Runtime", "Network", "Log", "DOM"]:
            self.send(f"{domain}.enable")

    def send(self, method: str, **parameters: Any) -> dict[str, Any]:
        """Calls a method of the protocol, and returns its result. What happens meanwhile is kept as events."""
        self.count += 1
        message = {"id": self.count, "method": method, "params": parameters, **({"sessionId": self.session} if self.session else {})}
        os.write(self.to, json.dumps(message).encode() + b"\0")
        while True:
            reply = self.message()
            if reply.get("id") == self.count:
                if "error" in reply:
                    raise RuntimeError(f"{method}: {reply['error']}")
                return reply["result"]
            self.events.append(reply)

    def message(self) -> dict[str, Any]:
        """The next message."""
        while b"\0" not in self.rest:
            ready, _, _ = select.select([self.back], [], [], PATIENCE)
            part = os.read(self.back, 1 << 20) if ready else b""
            if not part:
                raise RuntimeError("the browser says nothing")
            self.rest += part
        text, _, self.rest = self.rest.partition(b"\0")
        return json.loads(text)

    def evaluate(self, expression: str) -> Any:
        """The value of an expression in the page, of which a promise is awaited."""
        done = self.send("Runtime.evaluate", expression=expression, awaitPromise=True, returnByValue=True, userGesture=True)
        if "exceptionDetails" in done:
            raise RuntimeError(f"{expression[:200]}: {done['exceptionDetails'].get('exception', {}).get('description')}")
        return done["result"].get("value")

    def open(self, address: str) -> None:
        """Opens an address, and waits until its page is ready."""
        self.send("Page.navigate", url="about:blank")
        self.send("Page.navigate", url=address)
        self.wait("document.body?.classList.contains('ready')")

    def wait(self, condition: str) -> None:
        """Waits until an expression holds."""
        until = time.monotonic() + PATIENCE
        while not self.evaluate(condition):
            if time.monotonic() > until:
                raise RuntimeError(f"never: {condition}")
            time.sleep(0.05)

    def size(self, width: int, height: int, scale: float = 1) -> None:
        self.send("Emulation.setDeviceMetricsOverride", width=width, height=height, deviceScaleFactor=scale, mobile=False)

    def scheme(self, name: str) -> None:
        """Sets the scheme of colors that the user prefers: light or dark."""
        self.send("Emulation.setEmulatedMedia", features=[{"name": "prefers-color-scheme", "value": name}])

    def key(self, key: str, code: int = 0, text: str = "") -> None:
        """Presses and releases a key. A letter has a text too, and other keys the code of Windows."""
        for kind in ["keyDown" if text else "rawKeyDown", "keyUp"]:
            more = {"text": text} if kind == "keyDown" else {}
            self.send("Input.dispatchKeyEvent", type=kind, key=key, windowsVirtualKeyCode=code, **more)

    def mouse(self, kind: str, x: float, y: float) -> None:
        """Moves, presses or releases the mouse."""
        self.send("Input.dispatchMouseEvent", type=kind, x=x, y=y, button="left", buttons=1, clickCount=1)

    def choose_files(self, selector: str, *paths: Path) -> None:
        """Chooses files in a picker of the page."""
        root = self.send("DOM.getDocument")["root"]["nodeId"]
        node = self.send("DOM.querySelector", nodeId=root, selector=selector)["nodeId"]
        self.send("DOM.setFileInputFiles", nodeId=node, files=[str(path) for path in paths])

    def picture(self, path: Path) -> None:
        """Takes a picture of what is seen."""
        path.write_bytes(base64.b64decode(self.send("Page.captureScreenshot", format="png")["data"]))

    def processor_time(self) -> float:
        """Seconds that the processors spent on the browser."""
        session, self.session = self.session, None
        spent = sum(process["cpuTime"] for process in self.send("SystemInfo.getProcessInfo")["processInfo"])
        self.session = session
        return spent

    def close(self) -> None:
        self.session = None
        try:
            self.send("Browser.close")
        except (RuntimeError, OSError):
            self.process.kill()
        self.process.wait()
        os.close(self.to)
        os.close(self.back)
        self.folder.cleanup()
