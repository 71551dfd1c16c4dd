"""A headless Chromium, driven over its own pipe (the DevTools protocol), with nothing but Python's library."""
from __future__ import annotations

import base64
import json
import os
import select
import shutil
import signal
import subprocess
import tempfile
import time
from typing import Any, Dict, List, Optional

from ..clusters import Fault

Value = Dict[str, Any]
NAMES = ("chromium", "chromium-browser", "google-chrome", "google-chrome-stable")
SWITCHES = (
    *("--headless=new", "--remote-debugging-pipe", "--no-first-run", "--no-default-browser-check", "--disable-gpu", "--disable-dev-shm-usage"),
    *("--disable-extensions", "--disable-background-networking", "--disable-component-update", "--disable-sync", "--mute-audio"),
)
SECONDS = 60


def found() -> Optional[str]:
    """The browser's command, if one is installed."""
    return next((path for path in (shutil.which(name) for name in NAMES) if path), None)


class Browser:
    """One tab of a browser of its own, with an empty profile. 'said' has what the page wrote on its console, and what its policy refused;
    a reply that refuses isn't among it."""

    def __init__(self) -> None:
        command = found()
        if not command:
            raise Fault("no Chromium is installed: Debian's package is 'chromium'")
        self.profile = tempfile.mkdtemp()
        to_browser, self.writing = os.pipe()
        self.reading, from_browser = os.pipe()
        # as root Chromium runs without its sandbox alone; it opens no page but the operator's own
        words = [command, *SWITCHES, f"--user-data-dir={self.profile}", *(["--no-sandbox"] if os.geteuid() == 0 else []), "about:blank"]
        # Chromium reads at descriptor 3 and writes at 4
        script = f'exec "$@" 3<&{to_browser} 4>&{from_browser}'
        how: Value = {"stdin": subprocess.DEVNULL, "stdout": subprocess.DEVNULL, "stderr": subprocess.DEVNULL, "start_new_session": True}
        how["env"] = {**os.environ, "TMPDIR": self.profile}
        self.process = subprocess.Popen(["bash", "-c", script, "bash", *words], pass_fds=(to_browser, from_browser), **how)
        os.close(to_browser)
        os.close(from_browser)
        self.held = b""
        self.count = 0
        self.session = ""
        self.said: List[str] = []
        try:
            tab = self.call("Target.createTarget", url="about:blank")["targetId"]
            self.session = self.call("Target.attachToTarget", targetId=tab, flatten=True)["sessionId"]
            for domain in ("Page", "Runtime", "Log"):
                self.call(f"{domain}.enable")
        except BaseException:
            self.close()
            raise

    def __enter__(self) -> Browser:
        return self

    def __exit__(self, *_: object) -> None:
        self.close()

    def close(self) -> None:
        """Ends the browser, by asking it to and then by a signal to all processes of its group, which is its own."""
        self.session = ""
        try:
            self.call("Browser.close")
            self.process.wait(5)
        except (Fault, OSError, subprocess.TimeoutExpired):
            pass
        try:
            os.killpg(self.process.pid, signal.SIGKILL)
        except ProcessLookupError:
            pass
        self.process.wait(SECONDS)
        os.close(self.reading)
        os.close(self.writing)
        shutil.rmtree(self.profile, ignore_errors=True)

    def message(self, last: float) -> Value:
        """The next message of the browser."""
        while b"\0" not in self.held:
            if not select.select([self.reading], [], [], max(last - time.monotonic(), 0))[0]:
                raise Fault("the browser doesn't answer")
            more = os.read(self.reading, 1 << 20)
            if not more:
                raise Fault("the browser ended")
            self.held += more
        text, _, self.held = self.held.partition(b"\0")
        value: Value = json.loads(text)
        self.note(value)
        return value

    def note(self, value: Value) -> None:
        told = value.get("params", {})
        if value.get("method") == "Runtime.consoleAPICalled":
            self.said.append(" ".join(str(it.get("value", it.get("description"))) for it in told["args"]))
        elif value.get("method") == "Runtime.exceptionThrown":
            self.said.append(str(told["exceptionDetails"].get("exception", {}).get("description", told["exceptionDetails"]["text"])))
        elif value.get("method") == "Log.entryAdded" and told["entry"]["source"] != "network":
            self.said.append(f"{told['entry']['text']} {told['entry'].get('url', '')}".strip())

    def call(self, method: str, **parameters: Any) -> Value:
        """The result of a call of the protocol."""
        self.count += 1
        request = {"id": self.count, "method": method, "params": parameters, **({"sessionId": self.session} if self.session else {})}
        os.write(self.writing, json.dumps(request).encode() + b"\0")
        last = time.monotonic() + SECONDS
        while True:
            value = self.message(last)
            if value.get("id") == self.count:
                if "error" in value:
                    raise Fault(f"{method}: {value['error']['message']}")
                result: Value = value["result"]
                return result

    def look(self, width: int, height: int, is_dark: bool) -> None:
        """How wide and high the page is, and whether its reader prefers a dark one."""
        self.call("Emulation.setDeviceMetricsOverride", width=width, height=height, deviceScaleFactor=1, mobile=False)
        self.call("Emulation.setEmulatedMedia", features=[{"name": "prefers-color-scheme", "value": "dark" if is_dark else "light"}])

    def open(self, url: str) -> None:
        fault = self.call("Page.navigate", url=url).get("errorText")
        if fault:
            raise Fault(f"{url}: {fault}")

    def value(self, expression: str) -> Any:
        """The value of an expression of the page's language. A fault of it, as before the page is there, is no value."""
        return self.call("Runtime.evaluate", expression=expression, returnByValue=True, awaitPromise=True)["result"].get("value")

    def wait(self, expression: str, seconds: float = SECONDS) -> Any:
        """The first value of an expression that holds."""
        last = time.monotonic() + seconds
        while True:
            value = self.value(expression)
            if value:
                return value
            if last < time.monotonic():
                raise Fault(f"not so in {seconds:g} seconds: {expression}")
            time.sleep(0.05)

    def press(self, key: str, code: int, text: str = "") -> None:
        """Presses a key, as a user does."""
        for kind in ("keyDown", "keyUp"):
            said = {"text": text} if text and kind == "keyDown" else {}
            self.call("Input.dispatchKeyEvent", type=kind, key=key, code=key, windowsVirtualKeyCode=code, **said)

    def picture(self) -> bytes:
        """What is to be seen, as a PNG."""
        return base64.b64decode(self.call("Page.captureScreenshot", format="png")["data"])
