"""Drives headless Chromium by its DevTools protocol, over two pipes."""
import base64
import contextlib
import json
import os
import selectors
import subprocess
import time

# How long Chromium may take to answer a call, or until a page is as a session waits for it to be, in seconds.
LIMIT = 60
# Chromium asks nobody but the servers of this machine.
WORDS = (
    "--headless", "--remote-debugging-pipe", "--no-first-run", "--no-proxy-server", "--disable-background-networking", "--disable-gpu",
    "--disable-component-update", "--disable-sync", "--mute-audio", "--lang=en-US", "--window-size=1100,760",
    "--host-resolver-rules=MAP * ~NOTFOUND, EXCLUDE 127.0.0.1",
)
# The codes of keys, and the texts of those that have one.
KEYS = {
    "Tab": 9, "Enter": 13, "Escape": 27, "End": 35, "Home": 36, "ArrowUp": 38, "ArrowDown": 40, "Backspace": 8, "Delete": 46,
}
TEXTS = {"Enter": "\r"}


class Failure(OSError):
    """What a page or Chromium did not do."""


class Chromium:
    """A browser with one page. It ends with the `with` that made it. `events` has what it has told since the last `forget`."""

    def __init__(self, folder):
        self.folder, self.number, self.events, self.rest = folder, 0, [], b""

    def __enter__(self):
        words = [*WORDS, f"--user-data-dir={self.folder}/settings", *(["--no-sandbox"] if os.getuid() == 0 else [])]
        commands, self.to = os.pipe()
        self.replies, answers = os.pipe()
        # Chromium reads descriptor 3 and writes descriptor 4. The log of Chromium says nothing of the page.
        start = ["sh", "-c", f'exec chromium "$@" 3<&{commands} 4>&{answers}', "sh", *words, "about:blank"]
        environment = {**os.environ, "TZ": "UTC", "LC_ALL": "C.UTF-8"}
        nothing = subprocess.DEVNULL
        self.process = subprocess.Popen(start, stdin=nothing, stdout=nothing, stderr=nothing, pass_fds=(commands, answers), env=environment)
        os.close(commands)
        os.close(answers)
        self.session = None
        target = self.call("Target.createTarget", url="about:blank")["targetId"]
        self.session = self.call("Target.attachToTarget", targetId=target, flatten=True)["sessionId"]
        for domain in ("Page", "Runtime", "Network", "DOM"):
            self.call(f"{domain}.enable")
        return self

    def __exit__(self, *_):
        with contextlib.suppress(OSError, Failure):
            self.session = None
            self.call("Browser.close")
        with contextlib.suppress(subprocess.TimeoutExpired):
            self.process.wait(10)
        self.process.kill()
        self.process.wait()
        os.close(self.to)
        os.close(self.replies)

    def message(self, limit):
        """The next message of Chromium. It comes before the limit, or the session fails."""
        with selectors.DefaultSelector() as waits:
            waits.register(self.replies, selectors.EVENT_READ)
            while b"\0" not in self.rest:
                if not waits.select(max(0, limit - time.monotonic())):
                    raise Failure("Chromium does not answer")
                piece = os.read(self.replies, 1 << 20)
                if not piece:
                    raise Failure("Chromium has ended")
                self.rest += piece
        message, _, self.rest = self.rest.partition(b"\0")
        return json.loads(message)

    def call(self, method, **parameters):
        self.number += 1
        request = {"id": self.number, "method": method, "params": parameters, **({"sessionId": self.session} if self.session else {})}
        os.write(self.to, json.dumps(request).encode() + b"\0")
        limit = time.monotonic() + LIMIT
        while True:
            message = self.message(limit)
            if message.get("id") == self.number:
                if "error" in message:
                    raise Failure(f"{method}: {message['error']['message']}")
                return message["result"]
            if "method" in message:
                self.events.append((message["method"], message["params"]))

    def told(self, method):
        """What Chromium has told by events of one kind."""
        return [parameters for name, parameters in self.events if name == method]

    def forget(self):
        self.events.clear()

    def value(self, script):
        """The value of an expression in the page. A promise is waited for."""
        result = self.call("Runtime.evaluate", expression=script, awaitPromise=True, returnByValue=True, userGesture=True)
        if "exceptionDetails" in result:
            raise Failure(f"{script}: {result['exceptionDetails'].get('exception', {}).get('description', 'an exception')}")
        return result["result"].get("value")

    def until(self, script):
        """Waits until an expression is true in the page."""
        limit = time.monotonic() + LIMIT
        while not self.value(f"Boolean({script})"):
            if time.monotonic() > limit:
                raise Failure(f"the page never came so far: {script}; it shows {self.value('document.body.innerText')[-250:]!r}")
            time.sleep(0.02)

    def visit(self, address):
        self.call("Page.navigate", url=address)
        self.until("document.readyState === 'complete' && location.href !== 'about:blank'")

    def press(self, *keys):
        """Presses keys, one after the other."""
        for key in keys:
            it = {"key": key, "code": key, "windowsVirtualKeyCode": KEYS[key], **({"text": TEXTS[key]} if key in TEXTS else {})}
            self.call("Input.dispatchKeyEvent", type="keyDown", **it)
            self.call("Input.dispatchKeyEvent", type="keyUp", **it)

    def write(self, text):
        """Writes a text where the focus is."""
        self.call("Input.insertText", text=text)

    def choose_files(self, selector, *files):
        """Chooses files in an input of the page, as by its dialog."""
        root = self.call("DOM.getDocument")["root"]["nodeId"]
        node = self.call("DOM.querySelector", nodeId=root, selector=selector)["nodeId"]
        self.call("DOM.setFileInputFiles", nodeId=node, files=[str(it) for it in files])

    def save_into(self, folder):
        """From now on files are saved into a folder, without a question."""
        session, self.session = self.session, None
        self.call("Browser.setDownloadBehavior", behavior="allow", downloadPath=str(folder))
        self.session = session

    def show_as(self, width, height, scheme):
        """Gives the page the size of a screen, in pixels, and a scheme of colours. A screen that is higher than wide is that of a phone."""
        self.call("Emulation.setDeviceMetricsOverride", width=width, height=height, deviceScaleFactor=1, mobile=height > width)
        self.call("Emulation.setEmulatedMedia", features=[{"name": "prefers-color-scheme", "value": scheme}])

    def picture(self):
        """The whole page, also what is below the screen, as a PNG."""
        size = self.call("Page.getLayoutMetrics")["cssContentSize"]
        return base64.b64decode(self.call("Page.captureScreenshot", format="png", captureBeyondViewport=True, clip={**size, "scale": 1})["data"])
