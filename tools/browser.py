"""A headless Chromium that scripts speak to."""
import base64
import contextlib
import fcntl
import json
import os
import subprocess
import time
from pathlib import Path

import sdf

SECONDS = 60
WIDTH = 1280
ITS_OWN = (3, 4)
SWITCHES = ("--headless=new", "--remote-debugging-pipe", "--disable-gpu", "--no-sandbox", "--hide-scrollbars",
            "--no-first-run")
OPENED = "document.body && document.body.dataset.opened && document.querySelectorAll('.card .inside').length"


def above_its_own(pipe):
    """The same end of a pipe by a number that Chromium has no use for."""
    made = fcntl.fcntl(pipe, fcntl.F_DUPFD_CLOEXEC, max(ITS_OWN) + 1)
    os.close(pipe)
    return made


def as_its_own(pipes):
    """Gives ends of pipes the numbers by which Chromium reads and writes."""
    for pipe, number in zip(pipes, ITS_OWN):
        os.dup2(pipe, number)


@contextlib.contextmanager
def closing_both(*pipes):
    try:
        yield pipes
    finally:
        for pipe in pipes:
            os.close(pipe)


class Browser:
    """A Chromium that is spoken to by a pair of pipes, in its protocol for developers."""

    def __init__(self, path, folder):
        to_it, ours = os.pipe()
        theirs, from_it = os.pipe()
        with closing_both(above_its_own(to_it), above_its_own(from_it)) as pipes:
            self.child = subprocess.Popen([path, *SWITCHES, f"--user-data-dir={folder}", "about:blank"],
                                          preexec_fn=lambda: as_its_own(pipes), close_fds=False,
                                          stdin=subprocess.DEVNULL, stdout=subprocess.DEVNULL,
                                          stderr=subprocess.DEVNULL)
        self.out, self.into = os.fdopen(ours, "wb", 0), os.fdopen(theirs, "rb", 0)
        self.rest, self.number, self.session, self.faults = b"", 0, None, []
        target = self.ask("Target.createTarget", url="about:blank")["targetId"]
        self.session = self.ask("Target.attachToTarget", targetId=target, flatten=True)["sessionId"]
        for domain in ("Page", "Runtime", "Log"):
            self.ask(f"{domain}.enable")

    def message(self):
        while b"\0" not in self.rest:
            piece = self.into.read(65_536)
            if not piece:
                raise sdf.Fault("Chromium ended")
            self.rest += piece
        text, self.rest = self.rest.split(b"\0", 1)
        return json.loads(text)

    def ask(self, method, **parameters):
        self.number += 1
        asked = {"id": self.number, "method": method, "params": parameters}
        if self.session:
            asked["sessionId"] = self.session
        self.out.write(json.dumps(asked).encode() + b"\0")
        while (answer := self.message()).get("id") != self.number:
            self.note(answer)
        if "error" in answer:
            raise sdf.Fault(f"Chromium: {method}: {answer['error']['message']}")
        return answer["result"]

    def note(self, event):
        if event.get("method") == "Runtime.exceptionThrown":
            details = event["params"]["exceptionDetails"]
            self.faults.append(details.get("exception", {}).get("description", details["text"]).split("\n")[0])

    def value(self, expression):
        """What an expression gives in the page, once its promise is kept."""
        answer = self.ask("Runtime.evaluate", expression=expression, awaitPromise=True, returnByValue=True)
        if "exceptionDetails" in answer:
            self.faults.append(f"{expression[:60]}: {answer['exceptionDetails']['text']}")
        return answer["result"].get("value")

    def open(self, path, width=WIDTH, height=1000, dark=False):
        """Opens a page of records; how many milliseconds it took until the first were drawn."""
        self.look(width, height, dark)
        self.ask("Page.navigate", url=Path(path).as_uri())
        self.wait(OPENED)
        return int(self.value("document.body.dataset.opened"))

    def look(self, width=WIDTH, height=1000, dark=False):
        """Sets the size of the window, and what the page is asked to look like."""
        self.ask("Emulation.setDeviceMetricsOverride", width=width, height=height, deviceScaleFactor=1, mobile=False)
        scheme = {"name": "prefers-color-scheme", "value": "dark" if dark else "light"}
        self.ask("Emulation.setEmulatedMedia", features=[scheme])

    def wait(self, expression, seconds=SECONDS):
        """What an expression gives in the page once that isn't nothing."""
        end = time.monotonic() + seconds
        while time.monotonic() < end:
            value = self.value(expression)
            if value:
                return value
            time.sleep(0.02)
        raise sdf.Fault(f"the page has no {expression} after {seconds} s")

    def hand_over(self, selector, path):
        """Hands a file to an element of the page, as one that the user picks."""
        root = self.ask("DOM.getDocument")["root"]["nodeId"]
        node = self.ask("DOM.querySelector", nodeId=root, selector=selector)["nodeId"]
        self.ask("DOM.setFileInputFiles", nodeId=node, files=[path])

    def picture(self, path):
        picture = self.ask("Page.captureScreenshot", format="png")
        with open(path, "wb") as file:
            file.write(base64.b64decode(picture["data"]))

    def close(self):
        with contextlib.suppress(OSError, sdf.Fault):
            self.session = None
            self.ask("Browser.close")
        self.out.close()
        self.into.close()
        self.child.wait()
