"""Drives a Chromium by its own protocol, the DevTools protocol, over a pipe: a small client for the tests of the page."""
import base64
import json
import os
import select
import signal
import subprocess
import tempfile
import time

# what a browser is asked has an answer within these, also on a slow machine
SECONDS = 60
KEYS = {"ArrowRight": 39, "ArrowLeft": 37, "ArrowUp": 38, "ArrowDown": 40, "Home": 36, "End": 35, "Enter": 13, "Tab": 9}


class Browser:
    """A browser without a window; use it in a `with`, so that it ends."""

    def __init__(self, program):
        self.profile = tempfile.TemporaryDirectory(ignore_cleanup_errors=True)
        told, self.asks = os.pipe()
        self.hears, tells = os.pipe()
        # the browser reads at 3 and writes at 4
        command = f'exec "$0" "$@" 3<&{told} 4>&{tells}'
        self.process = subprocess.Popen(
            ["bash", "-c", command, program, "--headless", "--no-sandbox", "--disable-gpu", "--no-first-run",
             "--disable-dev-shm-usage", "--hide-scrollbars", "--remote-debugging-pipe",
             f"--user-data-dir={self.profile.name}", "about:blank"],
            pass_fds=[told, tells], stderr=subprocess.DEVNULL, start_new_session=True,
        )
        os.close(told)
        os.close(tells)
        self.number = 0
        self.rest = b""
        self.answers = {}

    def __enter__(self):
        return self

    def __exit__(self, *_):
        os.killpg(self.process.pid, signal.SIGKILL)
        self.process.wait()
        os.close(self.asks)
        os.close(self.hears)
        self.profile.cleanup()

    def ask(self, method, session=None, **parameters):
        """What the browser answers to a call of the protocol."""
        self.number += 1
        message = {"id": self.number, "method": method, "params": parameters, **({"sessionId": session} if session else {})}
        data = json.dumps(message).encode() + b"\0"
        while data:
            data = data[os.write(self.asks, data):]
        deadline = time.monotonic() + SECONDS
        while self.number not in self.answers:
            self.hear(deadline)
        answer = self.answers.pop(self.number)
        if "error" in answer:
            raise RuntimeError(f"{method}: {answer['error']['message']}")
        return answer["result"]

    def hear(self, deadline):
        """Reads what the browser says, up to the end of one message at least."""
        while b"\0" not in self.rest:
            ready, _, _ = select.select([self.hears], [], [], max(0, deadline - time.monotonic()))
            if not ready:
                raise TimeoutError("the browser does not answer")
            read = os.read(self.hears, 1 << 20)
            if not read:
                raise RuntimeError("the browser has ended")
            self.rest += read
        *messages, self.rest = self.rest.split(b"\0")
        self.answers.update((message.get("id"), message) for message in map(json.loads, messages))

    def open(self, address, width=1280, height=900):
        """A new page at the address, once it is loaded."""
        target = self.ask("Target.createTarget", url="about:blank")["targetId"]
        page = Page(self, self.ask("Target.attachToTarget", targetId=target, flatten=True)["sessionId"])
        for domain in ["Page", "Runtime"]:
            page.ask(f"{domain}.enable")
        page.resize(width, height)
        page.go(address)
        return page


class Page:
    def __init__(self, browser, session):
        self.browser = browser
        self.session = session

    def ask(self, method, **parameters):
        return self.browser.ask(method, self.session, **parameters)

    def go(self, address):
        """Loads the address anew, and waits until its scripts have run."""
        for place in ["about:blank", address]:
            self.ask("Page.navigate", url=place)
            self.wait(f"location.href === {json.dumps(place)} && document.readyState === 'complete'")

    def resize(self, width, height):
        narrow = width < 600
        self.ask("Emulation.setDeviceMetricsOverride", width=width, height=height, deviceScaleFactor=1, mobile=narrow)

    def dark(self, dark):
        scheme = {"name": "prefers-color-scheme", "value": "dark" if dark else "light"}
        self.ask("Emulation.setEmulatedMedia", features=[scheme])

    def value(self, expression):
        """What the expression gives in the page, where a promise is waited for."""
        done = self.ask(
            "Runtime.evaluate", expression=expression, awaitPromise=True, returnByValue=True, userGesture=True,
        )
        if "exceptionDetails" in done:
            thrown = done["exceptionDetails"].get("exception", {})
            raise RuntimeError(f"{expression[:80]}: {thrown.get('description') or thrown.get('value')}")
        return done["result"].get("value")

    def wait(self, condition):
        """Waits until the condition holds in the page; one that another page takes the place of is asked again."""
        deadline = time.monotonic() + SECONDS
        while time.monotonic() < deadline:
            try:
                if self.value(f"Boolean({condition})"):
                    return
            except RuntimeError as error:
                if "context" not in str(error) and "navigated" not in str(error):
                    raise
            time.sleep(0.02)
        raise TimeoutError(f"{condition} does not come to hold")

    def settle(self):
        """Waits until what was done is drawn."""
        self.value("new Promise((done) => requestAnimationFrame(() => requestAnimationFrame(() => setTimeout(done))))")

    def key(self, key, commands=(), modifiers=0):
        """Presses a key; a browser without a window takes the editing command that its window would find for it."""
        code = KEYS.get(key, ord(key[0].upper()))
        text = {"text": "\r"} if key == "Enter" else {"text": key} if len(key) == 1 and not modifiers else {}
        shared = {"key": key, "windowsVirtualKeyCode": code, "modifiers": modifiers}
        kind = "keyDown" if text else "rawKeyDown"
        self.ask("Input.dispatchKeyEvent", type=kind, commands=list(commands), **shared, **text)
        self.ask("Input.dispatchKeyEvent", type="keyUp", **shared)

    def copy(self, text):
        """Puts the text on the clipboard as it is."""
        self.value(
            "new Promise((done) => { document.addEventListener('copy', (event) => {"
            f" event.clipboardData.setData('text/plain', {json.dumps(text)}); event.preventDefault();"
            " event.stopImmediatePropagation(); done(true); }, { once: true, capture: true });"
            " document.execCommand('copy'); })"
        )

    def paste(self):
        self.key("v", ["paste"], modifiers=2)

    def accessible(self):
        """The accessibility tree, as a list of what is not left out of it."""
        self.ask("Accessibility.enable")
        nodes = self.ask("Accessibility.getFullAXTree")["nodes"]
        return [node for node in nodes if not node.get("ignored")]

    def picture(self, path, width):
        """A picture of the whole page, so wide, into a file."""
        clip = {"x": 0, "y": 0, "width": width, "height": self.value("document.documentElement.scrollHeight"), "scale": 1}
        shot = self.ask("Page.captureScreenshot", format="png", captureBeyondViewport=True, clip=clip)
        path.write_bytes(base64.b64decode(shot["data"]))
