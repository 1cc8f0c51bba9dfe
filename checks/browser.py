"""Speaks with Chromium, without a window, over two pipes by its protocol for developers; for checks of m17-page."""

import base64
import json
import os
import select
import shutil
import subprocess
import tempfile
import time

from starved import Starved, Wait, group_of

NAMES = ("chromium", "chromium-browser", "google-chrome")
PATIENCE = 120


def installed():
    return next(filter(None, map(shutil.which, NAMES)), None)


class Browser:
    def __init__(self):
        self.profile = tempfile.mkdtemp()
        own, theirs = os.pipe(), os.pipe()

        def lay():
            # It reads what it is told from 3, and answers on 4.
            low, high = os.dup(own[0]), os.dup(theirs[1])
            os.dup2(low, 3)
            os.dup2(high, 4)

        words = ["--headless=new", "--no-sandbox", "--disable-gpu", "--disable-dev-shm-usage", "--hide-scrollbars",
                 "--no-first-run", "--disable-background-networking", "--disable-component-update", "--remote-debugging-pipe",
                 f"--user-data-dir={self.profile}", "about:blank"]
        self.process = subprocess.Popen([installed(), *words], preexec_fn=lay, close_fds=False, stdin=subprocess.DEVNULL,
                                        stdout=subprocess.DEVNULL, stderr=subprocess.DEVNULL, start_new_session=True)
        os.close(own[0])
        os.close(theirs[1])
        self.out, self.into = own[1], theirs[0]
        self.held, self.number, self.session, self.events = b"", 0, None, []
        page = next(each for each in self.ask("Target.getTargets")["targetInfos"] if each["type"] == "page")
        self.session = self.ask("Target.attachToTarget", targetId=page["targetId"], flatten=True)["sessionId"]
        for domain in ("Page", "Runtime", "Log", "Accessibility", "Network", "Inspector"):
            self.ask(f"{domain}.enable")

    def ask(self, method, **params):
        self.number += 1
        told = {"id": self.number, "method": method, "params": params}
        if self.session:
            told["sessionId"] = self.session
        wait, until = self.wait(), time.monotonic() + PATIENCE
        self.write(json.dumps(told).encode("ascii") + b"\0")
        while time.monotonic() < until:
            answer = self.read(until - time.monotonic())
            if answer and answer.get("id") == told["id"]:
                if "error" in answer:
                    raise ValueError(f"{method}: {answer['error']}")
                return answer["result"]
        raise wait.fault(f"an answer to {method}")

    def wait(self):
        return Wait(lambda: group_of(self.process.pid))

    def write(self, data):
        try:
            os.write(self.out, data)
        except BrokenPipeError:
            raise Starved("the browser has ended") from None

    def read(self, seconds):
        """The next of what it says, or None where nothing came for so long. Events are kept."""
        until = time.monotonic() + seconds
        while b"\0" not in self.held:
            left = until - time.monotonic()
            if left <= 0 or not select.select([self.into], [], [], left)[0]:
                return None
            data = os.read(self.into, 1 << 16)
            if not data:
                raise Starved("the browser has ended")
            self.held += data
        one, self.held = self.held.split(b"\0", 1)
        said = json.loads(one)
        if said.get("method") == "Inspector.targetCrashed":
            raise Starved("what the browser has for the page has died")
        if "method" in said:
            self.events.append(said)
        return said

    def value(self, text):
        """What a piece of script comes to in the page."""
        told = self.ask("Runtime.evaluate", expression=text, returnByValue=True)
        if "exceptionDetails" in told:
            raise ValueError(told["exceptionDetails"])
        return told["result"].get("value")

    def awaits(self, text, seconds=PATIENCE):
        """Waits until the piece of script is true in the page."""
        wait = self.wait()
        while time.monotonic() < wait.began + seconds:
            try:
                if self.value(text):
                    return
            except ValueError:
                # A page that is just being loaded.
                pass
            time.sleep(0.05)
        raise wait.fault(text)

    def go(self, address):
        self.events.clear()
        self.ask("Page.navigate", url=address)
        self.awaits(f"document.readyState == 'complete' && location.href == {json.dumps(address)}")

    def look(self, width, scheme, height=900):
        """As on a screen of this width, with light or dark colours."""
        self.ask("Emulation.setDeviceMetricsOverride", width=width, height=height, deviceScaleFactor=1, mobile=False)
        self.ask("Emulation.setEmulatedMedia", features=[{"name": "prefers-color-scheme", "value": scheme}])

    def picture(self, path):
        size = self.ask("Page.getLayoutMetrics")["cssContentSize"]
        clip = {"x": 0, "y": 0, "width": size["width"], "height": size["height"], "scale": 1}
        shot = self.ask("Page.captureScreenshot", format="png", captureBeyondViewport=True, clip=clip)
        with open(path, "wb") as out:
            out.write(base64.b64decode(shot["data"]))

    def tree(self):
        """Roles and names of all that a screen reader is told of."""
        nodes = self.ask("Accessibility.getFullAXTree")["nodes"]
        return [(node["role"]["value"], node.get("name", {}).get("value", ""), node) for node in nodes if not node.get("ignored")]

    def close(self):
        try:
            self.session = None
            self.ask("Browser.close")
            self.process.wait(20)
        except (OSError, AssertionError, Starved, ValueError, subprocess.TimeoutExpired):
            self.process.kill()
            self.process.wait()
        finally:
            os.close(self.out)
            os.close(self.into)
            shutil.rmtree(self.profile, ignore_errors=True)
