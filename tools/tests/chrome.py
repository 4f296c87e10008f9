"""Drives a Chromium over its debugging pipe, for tests that look at a page as a user does."""
import fcntl
import json
import os
import subprocess
import sys

# Puts the two ends of the pipe where the browser wants them, and becomes the browser.
SHIM = "import os, sys; os.dup2(int(sys.argv[1]), 3); os.dup2(int(sys.argv[2]), 4); os.execvp(sys.argv[3], sys.argv[3:])"


def high(end):
    """An end of a pipe with a number that the browser doesn't use."""
    moved = fcntl.fcntl(end, fcntl.F_DUPFD, 20)
    os.close(end)
    return moved


class Chrome:
    """One page in a browser without a window."""

    def __init__(self, program, profile):
        commands, self.into = map(high, os.pipe())
        self.out, answers = map(high, os.pipe())
        words = [program, "--headless", "--no-sandbox", "--disable-gpu", "--user-data-dir=" + profile, "--remote-debugging-pipe", "about:blank"]
        self.process = subprocess.Popen([sys.executable, "-c", SHIM, str(commands), str(answers), *words], pass_fds=(commands, answers),
                                        stdout=subprocess.DEVNULL, stderr=subprocess.DEVNULL)
        os.close(commands)
        os.close(answers)
        self.number, self.rest, self.session, self.errors = 0, b"", None, []
        target = self.ask("Target.createTarget", url="about:blank")["targetId"]
        self.session = self.ask("Target.attachToTarget", targetId=target, flatten=True)["sessionId"]
        self.ask("Page.enable")
        self.ask("Runtime.enable")

    def ask(self, method, **parameters):
        """Sends a command and waits for its answer."""
        self.number += 1
        message = {"id": self.number, "method": method, "params": parameters}
        if self.session:
            message["sessionId"] = self.session
        os.write(self.into, json.dumps(message).encode() + b"\0")
        while True:
            answer = self.heard()
            if answer.get("id") == self.number:
                if "error" in answer:
                    raise RuntimeError(answer["error"])
                return answer["result"]
            if answer.get("method") == "Runtime.exceptionThrown":
                self.errors.append(answer["params"]["exceptionDetails"])

    def heard(self):
        while b"\0" not in self.rest:
            piece = os.read(self.out, 1 << 20)
            if not piece:
                raise RuntimeError("the browser is gone")
            self.rest += piece
        message, self.rest = self.rest.split(b"\0", 1)
        return json.loads(message)

    def value(self, expression):
        """What a script's expression comes to."""
        answer = self.ask("Runtime.evaluate", expression=expression, awaitPromise=True, returnByValue=True)
        if "exceptionDetails" in answer:
            raise RuntimeError(answer["exceptionDetails"])
        return answer["result"].get("value")

    def size(self, width, height):
        self.ask("Emulation.setDeviceMetricsOverride", width=width, height=height, deviceScaleFactor=1, mobile=False)
        self.settle()

    def scheme(self, name):
        """Light or dark."""
        self.ask("Emulation.setEmulatedMedia", features=[{"name": "prefers-color-scheme", "value": name}])

    def open(self, place):
        """Opens a page of look, and waits until it is drawn."""
        self.ask("Page.navigate", url=place)
        self.value("new Promise((done) => { const look = () => { const told = document.documentElement?.dataset;"
                   " told?.drawn || told?.failed ? done() : setTimeout(look, 10); }; look(); })")

    def settle(self):
        """Waits until what was asked for is drawn."""
        self.value("new Promise((done) => setTimeout(() => requestAnimationFrame(() => requestAnimationFrame(() => done())), 30))")

    def mouse(self, kind, left, top, **more):
        self.ask("Input.dispatchMouseEvent", type=kind, x=left, y=top, **more)

    def click(self, left, top):
        self.drag(left, left, top)

    def drag(self, left, right, top):
        self.mouse("mouseMoved", left, top)
        self.mouse("mousePressed", left, top, button="left", clickCount=1, buttons=1)
        if right != left:
            self.mouse("mouseMoved", (left + right) / 2, top, button="left", buttons=1)
            self.mouse("mouseMoved", right, top, button="left", buttons=1)
        self.mouse("mouseReleased", right, top, button="left", clickCount=1)
        self.settle()

    def key(self, name):
        self.ask("Input.dispatchKeyEvent", type="keyDown", key=name, text=name if len(name) == 1 else "")
        self.ask("Input.dispatchKeyEvent", type="keyUp", key=name)
        self.settle()

    def close(self):
        self.session = None
        try:
            self.ask("Browser.close")
        except (RuntimeError, OSError):
            pass
        self.process.wait(20)
        os.close(self.into)
        os.close(self.out)
