"""Drives a headless Chromium over two pipes (--remote-debugging-pipe): no port, and no package but Python's own."""
import base64
import json
import os
import select
import shutil
import signal
import subprocess
import tempfile
import time

NAMES = "chromium", "chromium-browser", "google-chrome"
FLAGS = [
    "--headless", "--disable-gpu", "--disable-dev-shm-usage", "--no-first-run", "--disable-background-networking", "--disable-component-update",
    "--remote-debugging-pipe",
]


def find_chromium():
    """The path of Chromium, or None."""
    return next(filter(None, map(shutil.which, NAMES)), None)


class Browser:
    """A page in a browser of its own, with a folder for what it saves."""

    def __init__(self, size=(1280, 800), flags=()):
        self.room = tempfile.mkdtemp(prefix="chromium-")
        self.saved = os.path.join(self.room, "saved")
        self.number, self.rest, self.events, self.session = 0, b"", [], None
        self._start([*FLAGS, *(["--no-sandbox"] if os.geteuid() == 0 else []), *flags])
        self.call("Browser.setDownloadBehavior", behavior="allow", downloadPath=self.saved, eventsEnabled=True)
        target = self.call("Target.createTarget", url="about:blank")["targetId"]
        self.session = self.call("Target.attachToTarget", targetId=target, flatten=True)["sessionId"]
        for domain in "Page", "Runtime", "Log", "Network", "DOM":
            self.call(f"{domain}.enable")
        self.call("Page.setInterceptFileChooserDialog", enabled=True)
        self.resize(*size)

    def _start(self, flags):
        there, self.to = os.pipe()
        self.fro, here = os.pipe()

        def wire():
            given, taken = os.dup(there), os.dup(here)
            os.dup2(given, 3)
            os.dup2(taken, 4)

        command = [find_chromium(), *flags, f"--user-data-dir={self.room}/profile", "about:blank"]
        self.process = subprocess.Popen(command, pass_fds=(3, 4), preexec_fn=wire, start_new_session=True, stdin=subprocess.DEVNULL, stdout=subprocess.DEVNULL,
                                        stderr=subprocess.DEVNULL, env={**os.environ, "HOME": self.room})
        os.close(there)
        os.close(here)

    def call(self, method, seconds=180, **params):
        """Calls a method of the browser, and returns its result. Events that come in between are kept."""
        self.number += 1
        message = {"id": self.number, "method": method, "params": params}
        if self.session:
            message["sessionId"] = self.session
        os.write(self.to, json.dumps(message).encode() + b"\0")
        end = time.time() + seconds
        while True:
            got = self._read(end)
            if got.get("id") != self.number:
                self.events.append(got)
            elif "error" in got:
                raise RuntimeError(f"{method}: {got['error']}")
            else:
                return got["result"]

    def _read(self, end):
        while b"\0" not in self.rest:
            if not select.select([self.fro], [], [], max(0, end - time.time()))[0]:
                raise TimeoutError("the browser doesn't answer")
            part = os.read(self.fro, 1 << 20)
            if not part:
                raise EOFError("the browser ended")
            self.rest += part
        one, _, self.rest = self.rest.partition(b"\0")
        return json.loads(one)

    def resize(self, width, height):
        self.call("Emulation.setDeviceMetricsOverride", width=width, height=height, deviceScaleFactor=1, mobile=False)

    def scheme(self, name):
        """Sets the system's wish: light or dark."""
        self.call("Emulation.setEmulatedMedia", features=[{"name": "prefers-color-scheme", "value": name}])

    def go(self, url):
        self.call("Page.navigate", url=url)
        self.wait("location.href !== 'about:blank' && document.readyState === 'complete'")

    def js(self, text):
        """Runs JavaScript in the page, and returns what it returns."""
        got = self.call("Runtime.evaluate", expression=f"(async () => {{ {text} }})()", awaitPromise=True, returnByValue=True, userGesture=True)
        if "exceptionDetails" in got:
            raise RuntimeError(got["exceptionDetails"].get("exception", {}).get("description", str(got)))
        return got["result"].get("value")

    def wait(self, text, seconds=60):
        """Waits until an expression of JavaScript is true."""
        end = time.time() + seconds
        while time.time() < end:
            if self.js(f"return !!({text})"):
                return
            time.sleep(0.05)
        raise TimeoutError(text)

    def choose_files(self, click, paths):
        """Runs JavaScript that opens the page's chooser of files, and chooses these."""
        self.js(f"{click}; return 0")
        self.wait("document.getElementById('chosen')")
        opened = [it["params"] for it in self.events if it.get("method") == "Page.fileChooserOpened"][-1]
        self.call("DOM.setFileInputFiles", backendNodeId=opened["backendNodeId"], files=list(paths))

    def press(self, key, code=None, text=None):
        for kind in "keyDown", "keyUp":
            self.call("Input.dispatchKeyEvent", type=kind, key=key, code=code or key, **({"text": text} if text and kind == "keyDown" else {}))

    def download(self, name, seconds=60):
        """Waits for a saved file, and returns its bytes. The file is then removed."""
        path = os.path.join(self.saved, name)
        end = time.time() + seconds
        while time.time() < end:
            if os.path.exists(path) and not os.path.exists(f"{path}.crdownload"):
                with open(path, "rb") as file:
                    data = file.read()
                os.remove(path)
                return data
            time.sleep(0.05)
        raise TimeoutError(f"{name} was not saved; there is {os.listdir(self.saved) if os.path.isdir(self.saved) else 'nothing'}")

    def picture(self, path):
        with open(path, "wb") as file:
            file.write(base64.b64decode(self.call("Page.captureScreenshot", format="png")["data"]))

    def requests(self):
        """What the page requested, but for itself and what it holds."""
        self.js("return 0")
        sent = [it["params"]["request"]["url"] for it in self.events if it.get("method") == "Network.requestWillBeSent"]
        return [it for it in sent if not it.startswith(("file:", "blob:", "data:", "about:"))]

    def faults(self):
        """Exceptions of the page, and what it or the browser logged as an error."""
        found = [it["params"] for it in self.events if it.get("method") in ("Runtime.exceptionThrown", "Log.entryAdded")]
        logged = [it["params"] for it in self.events if it.get("method") == "Runtime.consoleAPICalled" and it["params"]["type"] == "error"]
        return [json.dumps(it)[:400] for it in found + logged]

    def close(self):
        try:
            self.session = None
            self.call("Browser.close", seconds=5)
            self.process.wait(10)
        except (OSError, EOFError, TimeoutError, RuntimeError, subprocess.TimeoutExpired):
            os.killpg(self.process.pid, signal.SIGKILL)
            self.process.wait()
        shutil.rmtree(self.room, ignore_errors=True)
