"""A browser without a window, driven by its DevTools protocol over two pipes (Chromium: --remote-debugging-pipe)."""

import fcntl
import json
import os
import select
import shutil
import time

BROWSERS = ("chromium", "chromium-browser", "google-chrome")

# The pipes of the browser, and how many seconds it may take to answer.
READS, WRITES, PATIENCE = 3, 4, 60


def find_browser():
    """The path of a browser, if one is here."""
    return next(filter(None, map(shutil.which, BROWSERS)), None)


def high_pipe():
    """A pipe whose ends have greater numbers than those of the browser's."""
    ends = os.pipe()
    high = [fcntl.fcntl(end, fcntl.F_DUPFD_CLOEXEC, 10) for end in ends]
    for end in ends:
        os.close(end)
    return high


class Browser:
    """A browser with one page. Its own files stand in a folder that the caller removes."""

    def __init__(self, program, folder, size):
        words = [program, "--headless=new", "--remote-debugging-pipe", "--disable-gpu", "--no-first-run",
                 "--disable-background-networking", f"--user-data-dir={folder}", "--window-size={},{}".format(*size)]
        if os.geteuid() == 0:
            words.append("--no-sandbox")
        (reads, self.to), (self.source, writes) = high_pipe(), high_pipe()
        quiet = (os.POSIX_SPAWN_OPEN, 2, os.devnull, os.O_WRONLY, 0)
        pipes = [(os.POSIX_SPAWN_DUP2, reads, READS), (os.POSIX_SPAWN_DUP2, writes, WRITES), quiet]
        self.process = os.posix_spawn(program, words, os.environ, file_actions=pipes)
        os.close(reads)
        os.close(writes)
        self.number, self.session, self.kept, self.events = 0, None, b"", []
        target = self.ask("Target.createTarget", url="about:blank")["targetId"]
        self.session = self.ask("Target.attachToTarget", targetId=target, flatten=True)["sessionId"]
        for domain in ("Page", "Runtime", "Network", "Log"):
            self.ask(f"{domain}.enable")
        width, height = size
        self.ask("Emulation.setDeviceMetricsOverride", width=width, height=height, deviceScaleFactor=1, mobile=False)

    def read(self):
        """The next message of the browser."""
        end = time.monotonic() + PATIENCE
        while b"\0" not in self.kept:
            if not select.select([self.source], [], [], max(end - time.monotonic(), 0))[0]:
                raise TimeoutError("the browser does not answer")
            more = os.read(self.source, 1 << 20)
            if not more:
                raise EOFError("the browser ended")
            self.kept += more
        message, self.kept = self.kept.split(b"\0", 1)
        return json.loads(message)

    def ask(self, method, **words):
        """What the browser answers. Events that come before are kept."""
        self.number += 1
        question = {"id": self.number, "method": method, "params": words}
        if self.session:
            question["sessionId"] = self.session
        text = json.dumps(question).encode() + b"\0"
        while text:
            text = text[os.write(self.to, text):]
        while True:
            message = self.read()
            if message.get("id") == self.number:
                if "error" in message:
                    raise RuntimeError(f"{method}: {message['error']['message']}")
                return message["result"]
            self.events.append(message)

    def happened(self, method):
        """What events of this name told."""
        return [event["params"] for event in self.events if event.get("method") == method]

    def open(self, address, has_script=True):
        """Opens a page, and waits for it, and for what its script draws."""
        self.events.clear()
        self.ask("Page.navigate", url=address)
        while not self.happened("Page.loadEventFired"):
            self.events.append(self.read())
        if has_script:
            self.value("new Promise((done) => requestAnimationFrame(() => requestAnimationFrame(() => done(0))))")

    def value(self, expression):
        """The value of an expression in the page."""
        answer = self.ask("Runtime.evaluate", expression=expression, returnByValue=True, awaitPromise=True)
        if "exceptionDetails" in answer:
            raise RuntimeError(answer["exceptionDetails"]["exception"]["description"])
        return answer["result"].get("value")

    def mouse(self, kind, x, y, **more):
        """Something that the mouse does at a place of the window."""
        self.ask("Input.dispatchMouseEvent", type=kind, x=x, y=y, **more)

    def click(self, x, y):
        self.mouse("mousePressed", x, y, button="left", buttons=1, clickCount=1)
        self.mouse("mouseReleased", x, y, button="left", clickCount=1)

    def key(self, key, text=""):
        """A key that is pressed and let go. One that writes a letter has it as its text."""
        self.ask("Input.dispatchKeyEvent", type="keyDown", key=key, text=text)
        self.ask("Input.dispatchKeyEvent", type="keyUp", key=key)

    def close(self):
        """Ends the browser."""
        try:
            self.session = None
            self.ask("Browser.close")
        except (EOFError, BrokenPipeError, TimeoutError):
            pass
        os.waitpid(self.process, 0)
