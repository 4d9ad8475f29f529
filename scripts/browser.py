"""A Chromium without a window, told what to do by the DevTools protocol over a pair of pipes."""

import base64
import json
import os
import queue
import select
import shutil
import subprocess
import tempfile
import time

from live import test

NAMES = ("chromium", "chromium-browser", "google-chrome", "google-chrome-stable")
# it asks nobody but this machine for anything, and plays without a touch of the page
WORDS = ["--headless=new", "--remote-debugging-pipe", "--no-first-run", "--disable-background-networking", "--disable-component-update",
         "--disable-sync", "--disable-default-apps", "--disable-extensions",
         "--disable-gpu", "--disable-dev-shm-usage", "--mute-audio", "--ignore-certificate-errors",
         "--autoplay-policy=no-user-gesture-required", "--host-resolver-rules=MAP * ~NOTFOUND, EXCLUDE 127.0.0.1"]


def found():
    """The name of a Chromium on this machine, or None."""
    return next(filter(shutil.which, NAMES), None)


class Browser:
    """A browser with a profile of its own. What a page writes to its console as an error is kept in `errors`."""

    def __init__(self, width=1000, height=960):
        self.size, self.count, self.errors, self.held, self.events = f"--window-size={width},{height}", 0, [], b"", queue.SimpleQueue()

    def __enter__(self):
        self.folder = tempfile.mkdtemp(prefix="smooth-browser-")
        theirs_in, self.tell = os.pipe()
        self.hear, theirs_out = os.pipe()
        words = [found(), *WORDS, self.size, f"--user-data-dir={self.folder}", *(["--no-sandbox"] if os.getuid() == 0 else []), "about:blank"]
        # the browser reads its descriptor 3 and writes to 4
        start = ["bash", "-c", f'exec "$@" 3<&{theirs_in} 4>&{theirs_out}', "bash", *words]
        with open(os.path.join(self.folder, "said"), "wb") as said:
            self.process = subprocess.Popen(start, pass_fds=(theirs_in, theirs_out), stdin=subprocess.DEVNULL, stdout=said, stderr=said)
        os.close(theirs_in)
        os.close(theirs_out)
        return self

    def __exit__(self, *_):
        try:
            self.ask("Browser.close", seconds=10)
            self.process.wait(10)
        except (SystemExit, OSError, subprocess.TimeoutExpired):
            self.process.kill()
            self.process.wait()
        os.close(self.tell)
        os.close(self.hear)
        shutil.rmtree(self.folder, ignore_errors=True)

    def ask(self, method, seconds=60, session=None, **params):
        """Sends a command, and gives what it came to."""
        self.count += 1
        told = {"id": self.count, "method": method, "params": params, **({"sessionId": session} if session else {})}
        os.write(self.tell, json.dumps(told).encode() + b"\0")
        until = time.monotonic() + seconds
        while True:
            reply = self.message(until, method)
            if reply.get("id") == self.count:
                test("error" not in reply, f"the browser answers {method} with {reply.get('error')}")
                return reply["result"]
            self.note(reply)

    def message(self, until, method):
        while b"\0" not in self.held:
            ready, _, _ = select.select([self.hear], [], [], max(0, until - time.monotonic()))
            some = os.read(self.hear, 1 << 20) if ready else b""
            test(some, f"the browser does not answer {method}")
            self.held += some
        text, _, self.held = self.held.partition(b"\0")
        return json.loads(text)

    def note(self, event):
        """Keeps what a page says of its faults."""
        params = event.get("params", {})
        if event.get("method") == "Runtime.exceptionThrown":
            details = params["exceptionDetails"]
            self.errors.append(details.get("exception", {}).get("description") or details["text"])
        if event.get("method") == "Runtime.consoleAPICalled" and params["type"] == "error":
            self.errors.append(" ".join(str(it.get("description") or it.get("value")) for it in params["args"]))

    def open(self, address):
        """A new page at an address."""
        target = self.ask("Target.createTarget", url="about:blank")["targetId"]
        page = Page(self, target, self.ask("Target.attachToTarget", targetId=target, flatten=True)["sessionId"])
        for part in ("Page", "Runtime", "Network"):
            page.ask(f"{part}.enable")
        said = page.ask("Page.navigate", url=address)
        test("errorText" not in said, f"{address} can't be opened: {said.get('errorText')}")
        page.run("new Promise((resolve) => document.readyState === 'complete' ? resolve() : addEventListener('load', () => resolve()))")
        return page


class Page:
    """A page of a browser."""

    def __init__(self, browser, target, session):
        self.browser, self.target, self.session = browser, target, session

    def ask(self, method, **params):
        return self.browser.ask(method, session=self.session, **params)

    def run(self, script):
        """The value of a script, which is waited for where it is a promise."""
        done = self.ask("Runtime.evaluate", expression=script, returnByValue=True, awaitPromise=True, userGesture=True)
        test("exceptionDetails" not in done, f"{script} fails in the browser: {done.get('exceptionDetails')}")
        return done["result"].get("value")

    def type(self, key):
        """Presses a key and lets it go."""
        for kind in ("keyDown", "keyUp"):
            self.ask("Input.dispatchKeyEvent", type=kind, key=key, **({"text": key} if len(key) == 1 and kind == "keyDown" else {}))

    def slow_down(self, bits):
        """Lets so many bits a second arrive, or with None as many as come."""
        rate = -1 if bits is None else bits / 8
        self.ask("Network.emulateNetworkConditions", offline=False, latency=0, downloadThroughput=rate, uploadThroughput=-1)

    def picture(self):
        """What the page looks like, as a PNG."""
        return base64.b64decode(self.ask("Page.captureScreenshot", format="png")["data"])

    def close(self):
        self.browser.ask("Target.closeTarget", targetId=self.target)
