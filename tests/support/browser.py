"""Debian's Chromium without a window, as the cases of the page drive it: what is clicked, pressed and given to a page, what is seen and saved; and a case of
the page."""

import contextlib
import fcntl
import json
import os
import select
import shutil
import signal
import subprocess
import sys
import tempfile
import time
import unittest
from pathlib import Path

from support import LIMIT, PATIENCE, ROOT, Case, table_of

PAGE = ROOT / "web" / "tapebox.html"

# The browser takes commands from file 3 and answers to file 4, each ended by a zero byte.
CHROMIUM = ["chromium", "--headless=new", "--remote-debugging-pipe", "--no-first-run", "--disable-gpu", "--disable-dev-shm-usage"]
TO_PIPES = "import os, sys; os.dup2(int(sys.argv[1]), 3); os.dup2(int(sys.argv[2]), 4); os.execvp(sys.argv[3], sys.argv[3:])"
# A file number that is neither 3 nor 4.
BEYOND = 10
# Keys by their numbers in events.
KEYS = {"Tab": 9, "Enter": 13, "End": 35, "ArrowRight": 39, "ArrowDown": 40}


def far(file):
    """The same file under a number that the browser does not use."""
    moved = fcntl.fcntl(file, fcntl.F_DUPFD_CLOEXEC, BEYOND)
    os.close(file)
    return moved


class Browser:
    """A browser with one page, and what it told of it: each event, the oldest first."""

    def __init__(self, *flags):
        self.room = tempfile.mkdtemp(prefix="tapebox-page-")
        self.saved = Path(self.room, "saved")
        self.saved.mkdir()
        (theirs, self.to), (self.of, answers) = map(lambda pair: tuple(map(far, pair)), (os.pipe(), os.pipe()))
        words = [*CHROMIUM, *flags, f"--user-data-dir={self.room}", *["--no-sandbox"] * (os.geteuid() == 0), "about:blank"]
        how = {"pass_fds": (theirs, answers), "stdin": subprocess.DEVNULL, "stdout": subprocess.DEVNULL, "stderr": subprocess.DEVNULL}
        self.running = subprocess.Popen([sys.executable, "-c", TO_PIPES, str(theirs), str(answers), *words], start_new_session=True, **how)
        os.close(theirs)
        os.close(answers)
        self.events, self.answers, self.rest, self.count = [], {}, b"", 0
        self.session = None
        self.session = self.attached()
        for domain in ("Page", "Runtime", "Network", "Log", "DOM"):
            self.call(f"{domain}.enable")
        # Workers wait until what they ask for is told too.
        self.call("Target.setAutoAttach", autoAttach=True, waitForDebuggerOnStart=True, flatten=True)

    def attached(self):
        """Opens a page, and gives the name under which it is spoken to."""
        self.call("Browser.setDownloadBehavior", behavior="allowAndName", downloadPath=str(self.saved), eventsEnabled=True)
        target = self.call("Target.createTarget", url="about:blank")["targetId"]
        return self.call("Target.attachToTarget", targetId=target, flatten=True)["sessionId"]

    def close(self):
        """Ends it."""
        with contextlib.suppress(ProcessLookupError):
            os.killpg(self.running.pid, signal.SIGKILL)
        self.running.wait()
        os.close(self.to)
        os.close(self.of)
        shutil.rmtree(self.room, ignore_errors=True)

    def send(self, method, session, params):
        """Sends a command, and gives its number."""
        self.count += 1
        message = {"id": self.count, "method": method, "params": params} | ({"sessionId": session} if session else {})
        rest = json.dumps(message).encode() + b"\0"
        while rest:
            rest = rest[os.write(self.to, rest) :]
        return self.count

    def hear(self, until):
        """Takes what the browser says next."""
        if not select.select([self.of], [], [], max(until - time.monotonic(), 0))[0]:
            raise TimeoutError("the browser does not answer")
        part = os.read(self.of, 1 << 20)
        if not part:
            raise ConnectionError("the browser ended")
        *messages, self.rest = (self.rest + part).split(b"\0")
        for message in map(json.loads, messages):
            if "id" in message:
                self.answers[message["id"]] = message
            else:
                self.events.append(message)
                self.look_into(message)

    def look_into(self, event):
        """Has a worker that begins tell what it asks the network for."""
        if event["method"] == "Target.attachedToTarget" and event["params"]["waitingForDebugger"]:
            for method in ("Network.enable", "Runtime.enable", "Runtime.runIfWaitingForDebugger"):
                self.send(method, event["params"]["sessionId"], {})

    def call(self, method, session=None, **params):
        """What a command answers, of the page unless another is named."""
        number, until = self.send(method, session or self.session, params), time.monotonic() + LIMIT
        while number not in self.answers:
            self.hear(until)
        answer = self.answers.pop(number)
        if "error" in answer:
            raise RuntimeError(f"{method}: {answer['error']['message']}")
        return answer["result"]

    def value(self, expression, session=None):
        """The value of an expression in the page."""
        answer = self.call("Runtime.evaluate", session, expression=expression, awaitPromise=True, returnByValue=True, userGesture=True)
        if "exceptionDetails" in answer:
            raise RuntimeError(answer["exceptionDetails"].get("exception", {}).get("description", expression))
        return answer["result"].get("value")

    def wait(self, what, holds, limit=LIMIT):
        """Waits until this holds."""
        until = time.monotonic() + limit
        while not (found := holds()):
            if time.monotonic() > until:
                raise TimeoutError(f"{what} never came")
            time.sleep(0.02)
        return found

    def told(self, method):
        """What was told by events of this name, so far."""
        self.value("0")
        return [event["params"] for event in self.events if event["method"] == method]

    def open(self, file, link=""):
        """Opens a file as a page, by a link with this behind its name."""
        self.go(file.as_uri() + link)

    def go(self, address):
        """Opens the page of an address."""
        # A link to a page that is open already would not open it anew.
        for url in ("about:blank", address):
            self.events.clear()
            self.call("Page.navigate", url=url)
            self.wait("the page", lambda of=url.partition("#")[0]: self.is_open(of))

    def is_open(self, url):
        """Whether all of a page is there."""
        # Between two pages there is none to ask.
        with contextlib.suppress(RuntimeError):
            return self.value("`${location.href.split('#')[0]} ${document.readyState}`") == f"{url} complete"
        return False

    def workers(self):
        """The names under which the page's workers are spoken to."""
        return [event["sessionId"] for event in self.told("Target.attachedToTarget")]

    def click(self, selector):
        """Clicks on what this names."""
        self.value(f"document.querySelector({json.dumps(selector)}).click()")

    def point(self, selector):
        """Clicks with the mouse on what this names."""
        place = f"(({{ x, y, width, height }}) => [x + width / 2, y + height / 2])(document.querySelector({json.dumps(selector)}).getBoundingClientRect())"
        x, y = self.value(place)
        for kind in ("mousePressed", "mouseReleased"):
            self.call("Input.dispatchMouseEvent", type=kind, x=x, y=y, button="left", clickCount=1)

    def press(self, key):
        """Presses a key."""
        text = {"text": "\r"} if key == "Enter" else {}
        for kind, more in (("keyDown" if text else "rawKeyDown", text), ("keyUp", {})):
            self.call("Input.dispatchKeyEvent", type=kind, key=key, code=key, windowsVirtualKeyCode=KEYS[key], **more)

    def begun(self, name):
        """Clicks on a link to save, and gives the name of the download that this begins. Chromium on a busy machine now and then begins none."""
        before = len(self.told("Browser.downloadWillBegin"))
        for _ in range(3):
            self.point(f"#save-{name}")
            with contextlib.suppress(TimeoutError):
                return self.wait(f"what {name} saves", lambda: self.told("Browser.downloadWillBegin")[before:], PATIENCE)[0]["guid"]
        raise TimeoutError(f"no click saves {name}")

    def save(self, name):
        """The bytes that a click on a link to save gives."""
        begun = self.begun(name)
        states = lambda: [it["state"] for it in self.told("Browser.downloadProgress") if it["guid"] == begun]
        self.wait(f"all of what {name} saves", lambda: "completed" in states())
        return (self.saved / begun).read_bytes()

    def give(self, table, matrix):
        """Gives the page a table's file by a matrix, as a person does, and waits until it has made all of it, or shows its fault."""
        if self.value("state.matrix") != matrix:
            self.value(f"state.file = null, document.querySelector('input[name=matrix][value=\"{matrix}\"]').click()")
        run = self.value("state.run") + 1
        root = self.call("DOM.getDocument")["root"]["nodeId"]
        node = self.call("DOM.querySelector", nodeId=root, selector="#file")["nodeId"]
        self.call("DOM.setFileInputFiles", nodeId=node, files=[str(table)])
        done = f"state.run === {run} && (document.body.dataset.done === '{run}' || !document.getElementById('fault').hidden || state.broken !== '')"
        self.wait("the end of a table", lambda: self.value(done))


@unittest.skipUnless(shutil.which("chromium"), "no chromium")
@unittest.skipUnless(PAGE.exists(), "no web/tapebox.html, which web/build makes")
class PageCase(Case):
    """A case of the page, which is opened anew for each."""

    @classmethod
    def setUpClass(cls):
        cls.browser = Browser()
        cls.addClassCleanup(cls.browser.close)
        cls.folder = tempfile.TemporaryDirectory()
        cls.addClassCleanup(cls.folder.cleanup)

    def setUp(self):
        self.browser.open(PAGE)

    def tearDown(self):
        """The page failed nowhere."""
        self.assertEqual(self.browser.value("state.broken"), "")
        self.assertEqual([it["exceptionDetails"].get("exception", {}).get("description") for it in self.browser.told("Runtime.exceptionThrown")], [])

    def written(self, name, rows):
        """A table's file."""
        file = Path(self.folder.name, name)
        file.write_bytes(rows if isinstance(rows, bytes) else table_of(rows))
        return file

    def is_made(self):
        """Whether all of the table that is open is made."""
        return self.browser.value("document.body.dataset.done === String(state.run)")

    def try_sample(self):
        """Opens the page's own sample by a click, and waits until all of it is made."""
        self.browser.click("#try")
        self.browser.wait("the end of the sample", self.is_made)
