"""Chromium without a window, spoken to over a pair of pipes: messages in JSON, each ended by a zero byte."""
import base64
import fcntl
import json
import os
import select
import subprocess
import tempfile
import time

SECONDS = 60
ENDED = 10
FLAGS = ("--headless=new", "--no-sandbox", "--disable-gpu", "--disable-dev-shm-usage", "--no-first-run",
         "--disable-extensions", "--disable-background-networking", "--hide-scrollbars", "--remote-debugging-pipe")
KEYS = {"ArrowLeft": 37, "ArrowUp": 38, "ArrowRight": 39, "ArrowDown": 40, "Home": 36, "End": 35, "PageUp": 33,
        "PageDown": 34, "Escape": 27, "Tab": 9, "Enter": 13}
SHIFT = 8


class Browser:
    """A running browser with one page; what goes wrong on the page is gathered in `faults`."""

    def __init__(self):
        self.folder = tempfile.TemporaryDirectory(ignore_cleanup_errors=True)
        inward, outward = os.pipe(), os.pipe()
        ends = [fcntl.fcntl(fd, fcntl.F_DUPFD, 10) for fd in (inward[0], outward[1])]
        command = [os.environ["BROWSER_PROGRAM"], *FLAGS, f"--user-data-dir={self.folder.name}"]
        self.process = subprocess.Popen(["bash", "-c", f'exec "$@" 3<&{ends[0]} 4>&{ends[1]}', "bash", *command],
                                        pass_fds=ends, stdout=subprocess.DEVNULL, stderr=subprocess.DEVNULL)
        for fd in (inward[0], outward[1], *ends):
            os.close(fd)
        self.to, self.back = inward[1], outward[0]
        self.number, self.rest, self.faults, self.session = 0, b"", [], None
        target = self.ask("Target.createTarget", url="about:blank")["targetId"]
        self.session = self.ask("Target.attachToTarget", targetId=target, flatten=True)["sessionId"]
        for domain in ("Page", "Runtime", "Log"):
            self.ask(f"{domain}.enable")

    def close(self):
        """Ends the browser, in good order if it listens."""
        try:
            self.session = None
            self.ask("Browser.close")
            self.process.wait(ENDED)
        except (OSError, TimeoutError, subprocess.TimeoutExpired):
            self.process.kill()
            self.process.wait()
        os.close(self.to)
        os.close(self.back)
        self.folder.cleanup()

    def ask(self, method, **parameters):
        """Sends a command and waits for its answer; what else arrives meanwhile is noted."""
        self.number += 1
        message = {"id": self.number, "method": method, "params": parameters}
        if self.session:
            message["sessionId"] = self.session
        os.write(self.to, json.dumps(message).encode() + b"\0")
        while True:
            answer = self.receive()
            if answer.get("id") == self.number:
                if "error" in answer:
                    raise RuntimeError(f"{method}: {answer['error']['message']}")
                return answer["result"]
            self.note(answer)

    def receive(self):
        end = time.monotonic() + SECONDS
        while b"\0" not in self.rest:
            if not select.select([self.back], [], [], max(0, end - time.monotonic()))[0]:
                raise TimeoutError("the browser says nothing")
            piece = os.read(self.back, 1 << 20)
            if not piece:
                raise OSError("the browser has ended")
            self.rest += piece
        message, _, self.rest = self.rest.partition(b"\0")
        return json.loads(message)

    def note(self, event):
        """Exceptions, what is printed as an error, and what the browser itself has to say against the page."""
        method, told = event.get("method"), event.get("params", {})
        if method == "Runtime.exceptionThrown":
            self.faults.append(told["exceptionDetails"].get("exception", {}).get("description", "an exception"))
        if method == "Runtime.consoleAPICalled" and told["type"] in ("error", "warning", "assert"):
            self.faults.append(f"console: {told['args']}")
        if method == "Log.entryAdded" and told["entry"]["level"] in ("error", "warning"):
            self.faults.append(told["entry"]["text"])

    def open(self, address, width=1280, height=800):
        """Opens a page as for the first time, in a window of a size, and waits until it is there."""
        self.value("try { sessionStorage.clear(); } catch (fault) {}")
        self.ask("Emulation.setDeviceMetricsOverride", width=width, height=height, deviceScaleFactor=1, mobile=False)
        for goal in ("about:blank", address):
            self.ask("Page.navigate", url=goal)
            wanted, end = goal.partition("#")[0] + " complete", time.monotonic() + SECONDS
            while self.reached() != wanted:
                if time.monotonic() > end:
                    raise TimeoutError(f"{goal} is not opened")

    def reached(self):
        """The page's address and how far it is loaded; nothing while one page goes and the next comes."""
        try:
            return self.value("location.href.split('#')[0] + ' ' + document.readyState")
        except RuntimeError:
            return ""

    def value(self, expression):
        """What an expression is on the page."""
        result = self.ask("Runtime.evaluate", expression=expression, returnByValue=True)
        if "exceptionDetails" in result:
            raise RuntimeError(f"{expression}: {result['exceptionDetails']['exception'].get('description')}")
        return result["result"].get("value")

    def press(self, key, shift=False):
        """A key pressed and let go, as by hand."""
        known = dict(key=key, windowsVirtualKeyCode=KEYS.get(key) or ord(key.upper()), modifiers=SHIFT * shift)
        self.ask("Input.dispatchKeyEvent", type="keyDown" if len(key) == 1 else "rawKeyDown",
                 **known, **({"text": key} if len(key) == 1 else {}))
        self.ask("Input.dispatchKeyEvent", type="keyUp", **known)

    def click(self, selector, across=0.5):
        """A click on an element, at a part of its width."""
        x, y = self.value(f"(() => {{ const one = document.querySelector({json.dumps(selector)}); "
                          "one.scrollIntoView({block: 'nearest'}); const box = one.getBoundingClientRect(); "
                          f"return [box.left + box.width * {across}, box.top + box.height / 2]; }})()")
        for kind in ("mousePressed", "mouseReleased"):
            self.ask("Input.dispatchMouseEvent", type=kind, x=x, y=y, button="left", clickCount=1)

    def printed(self):
        """The page as a PDF."""
        return base64.b64decode(self.ask("Page.printToPDF", preferCSSPageSize=True)["data"])

    def picture(self):
        return base64.b64decode(self.ask("Page.captureScreenshot", format="png")["data"])
