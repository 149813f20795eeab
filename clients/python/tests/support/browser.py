"""Chromium without a window, for tests of the page: spoken with over its debugging pipe."""

import base64
import json
import os
import shutil
import subprocess
import tempfile
import time

CHROMIUM = shutil.which("chromium")


class Browser:
    """One page of a browser. Each name of `hosts` stands for this machine."""

    def __init__(self, width=1100, height=1000, hosts=()):
        self._folder, self._hosts = tempfile.mkdtemp(), hosts
        to_read, self._write = os.pipe()
        self._read, to_write = os.pipe()
        self._process = subprocess.Popen(
            self._command(width, height), stdout=subprocess.DEVNULL, stderr=subprocess.DEVNULL,
            pass_fds=[to_read, to_write], env={**os.environ, "TO_READ": str(to_read), "TO_WRITE": str(to_write)},
        )
        os.close(to_read)
        os.close(to_write)
        self._said, self._number, self._session = b"", 0, None
        target = self._ask("Target.createTarget", url="about:blank")["targetId"]
        self._session = self._ask("Target.attachToTarget", targetId=target, flatten=True)["sessionId"]
        self._ask("Page.enable")

    def _command(self, width, height):
        """The browser has its pipe at the numbers 3 and 4."""
        words = [
            CHROMIUM, "--headless=new", "--no-sandbox", "--disable-gpu", "--remote-debugging-pipe", "--no-first-run",
            f"--user-data-dir={self._folder}", f"--window-size={width},{height}", "--lang=en",
            f"--host-resolver-rules={','.join(f'MAP {host} 127.0.0.1' for host in self._hosts)}",
        ]
        return ["bash", "-c", 'exec 3<&"$TO_READ" 4>&"$TO_WRITE"; exec "$@"', "browser", *words]

    def _ask(self, method, **params):
        self._number += 1
        call = {"id": self._number, "method": method, "params": params}
        if self._session:
            call["sessionId"] = self._session
        os.write(self._write, json.dumps(call).encode() + b"\0")
        while True:
            reply = self._next()
            if reply.get("id") == self._number:
                if "error" in reply:
                    raise RuntimeError(f"{method}: {reply['error']}")
                return reply["result"]

    def _next(self):
        while b"\0" not in self._said:
            data = os.read(self._read, 1 << 16)
            if not data:
                raise RuntimeError("the browser ended")
            self._said += data
        message, _, self._said = self._said.partition(b"\0")
        return json.loads(message)

    def open(self, url):
        self._ask("Page.navigate", url=url)

    def prefer(self, scheme):
        """Has pages be light or dark."""
        self._ask("Emulation.setEmulatedMedia", features=[{"name": "prefers-color-scheme", "value": scheme}])

    def value(self, expression):
        """The value of a JavaScript expression in the page."""
        result = self._ask("Runtime.evaluate", expression=expression, returnByValue=True, awaitPromise=True)
        if "exceptionDetails" in result:
            raise RuntimeError(json.dumps(result["exceptionDetails"]))
        return result["result"].get("value")

    def wait(self, expression, seconds=60):
        """Waits until an expression holds; what goes wrong while a page loads is waited for too."""
        late = time.monotonic() + seconds
        while True:
            try:
                if value := self.value(expression):
                    return value
            except RuntimeError:
                pass
            if time.monotonic() > late:
                raise AssertionError(f"it never held: {expression}; the page has: {self.value('document.body.innerText')}")
            time.sleep(0.05)

    def picture(self, path):
        """Writes a picture of the page as PNG."""
        data = self._ask("Page.captureScreenshot", format="png")["data"]
        with open(path, "wb") as written:
            written.write(base64.b64decode(data))

    def close(self):
        """Has the browser end with all its processes."""
        self._session = None
        try:
            self._ask("Browser.close")
            self._process.wait(timeout=10)
        except (RuntimeError, OSError, subprocess.TimeoutExpired):
            self._process.kill()
            self._process.wait()
        os.close(self._write)
        os.close(self._read)
        shutil.rmtree(self._folder, ignore_errors=True)
