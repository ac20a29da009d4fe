"""A browser without a window, Debian's chromium, by its DevTools protocol over a pipe: pages are opened, asked and pictured."""
import base64
import json
import os
import select
import shutil
import subprocess
import tempfile
import time

NAMES = ("chromium", "chromium-browser", "google-chrome")
SECONDS = 60
# A millimetre in inches, in which the protocol gives paper.
INCH = 25.4


def found():
    """The browser's path, or None."""
    return next(filter(None, map(shutil.which, NAMES)), None)


class Browser:
    """A browser with one page open at a time. It keeps what the page's console says and what the page asks the network for."""

    def __init__(self):
        self.folder = tempfile.TemporaryDirectory()
        ours, theirs = os.pipe(), os.pipe()

        def place():
            # The browser reads its commands from 3, and writes answers to 4.
            read, write = os.dup(ours[0]), os.dup(theirs[1])
            os.dup2(read, 3)
            os.dup2(write, 4)

        words = ["--headless=new", "--no-sandbox", "--disable-gpu", "--hide-scrollbars", "--no-first-run", "--disable-extensions", "--disable-dev-shm-usage",
                 "--disable-background-networking", f"--user-data-dir={self.folder.name}", "--remote-debugging-pipe", "about:blank"]
        self.process = subprocess.Popen([found(), *words], preexec_fn=place, close_fds=False, stdin=subprocess.DEVNULL, stdout=subprocess.DEVNULL,
                                        stderr=subprocess.DEVNULL, start_new_session=True)
        os.close(ours[0])
        os.close(theirs[1])
        self.writer, self.reader = ours[1], theirs[0]
        self.number, self.left, self.events, self.session = 0, b"", [], None
        target = self.call("Target.createTarget", url="about:blank")["targetId"]
        self.session = self.call("Target.attachToTarget", targetId=target, flatten=True)["sessionId"]
        for domain in ("Page", "Runtime", "Log", "Network", "Accessibility", "DOM"):
            self.call(f"{domain}.enable")

    def __enter__(self):
        return self

    def __exit__(self, *_):
        os.close(self.writer)
        os.close(self.reader)
        self.process.kill()
        self.process.wait()
        for _ in range(20):
            try:
                self.folder.cleanup()
                return
            except OSError:
                time.sleep(0.1)

    def message(self):
        """The next message of the browser."""
        until = time.monotonic() + SECONDS
        while b"\0" not in self.left:
            if not select.select([self.reader], [], [], max(0, until - time.monotonic()))[0]:
                raise TimeoutError(f"the browser says nothing within {SECONDS} seconds")
            came = os.read(self.reader, 1 << 20)
            if not came:
                raise RuntimeError("the browser ended")
            self.left += came
        text, self.left = self.left.split(b"\0", 1)
        return json.loads(text)

    def call(self, method, **parameters):
        """What a method of the protocol answers."""
        self.number += 1
        asked = {"id": self.number, "method": method, "params": parameters}
        if self.session:
            asked["sessionId"] = self.session
        data = json.dumps(asked).encode() + b"\0"
        while data:
            data = data[os.write(self.writer, data):]
        while True:
            said = self.message()
            if said.get("id") == self.number:
                if "error" in said:
                    raise RuntimeError(f"{method}: {said['error']}")
                return said["result"]
            self.events.append(said)

    def wait(self, method):
        """Waits for an event."""
        while not any(event.get("method") == method for event in self.events):
            self.events.append(self.message())

    def open(self, path):
        """Opens a file, and gives how many seconds that took."""
        self.events.clear()
        begun = time.monotonic()
        self.call("Page.navigate", url=f"file://{os.path.abspath(path)}")
        self.wait("Page.loadEventFired")
        self.value("document.body.offsetHeight")
        return time.monotonic() - begun

    def value(self, expression):
        """What an expression is worth in the page."""
        said = self.call("Runtime.evaluate", expression=expression, returnByValue=True)
        if "exceptionDetails" in said:
            raise RuntimeError(f"{expression}: {said['exceptionDetails']}")
        return said["result"].get("value")

    def complaints(self):
        """What the console and the page's scripts said since it was opened."""
        self.value("0")
        for event in self.events:
            if event.get("method") in ("Log.entryAdded", "Runtime.consoleAPICalled", "Runtime.exceptionThrown"):
                yield json.dumps(event["params"])[:500]

    def requests(self):
        """What the page asked for, but for itself and what stands in it."""
        asked = [event["params"]["request"]["url"] for event in self.events if event.get("method") == "Network.requestWillBeSent"]
        return [url for url in asked[1:] if not url.startswith("data:")]

    def show(self, width, height=900, colours="light", media="screen"):
        """Gives the page a width, colours and a medium."""
        self.call("Emulation.setDeviceMetricsOverride", width=width, height=height, deviceScaleFactor=1, mobile=False)
        self.call("Emulation.setEmulatedMedia", media=media, features=[{"name": "prefers-color-scheme", "value": colours}])

    def picture(self, path, whole=True):
        """Writes a picture of the page."""
        data = self.call("Page.captureScreenshot", format="png", captureBeyondViewport=whole, fromSurface=True)["data"]
        with open(path, "wb") as file:
            file.write(base64.b64decode(data))

    def paper(self, path, width=210, height=297):
        """Writes the page as it is printed on paper of so many millimetres."""
        self.call("Emulation.setEmulatedMedia", media="", features=[])
        said = self.call("Page.printToPDF", paperWidth=width / INCH, paperHeight=height / INCH, printBackground=True, preferCSSPageSize=True)
        with open(path, "wb") as file:
            file.write(base64.b64decode(said["data"]))

    def tree(self):
        """The nodes of the accessibility tree in order: each its role, its name and its properties."""
        nodes = {node["nodeId"]: node for node in self.call("Accessibility.getFullAXTree")["nodes"]}
        left, found = [number for number, node in nodes.items() if "parentId" not in node], []
        while left:
            node = nodes[left.pop()]
            found.append(Node(node))
            left += [child for child in reversed(node.get("childIds", [])) if child in nodes]
        return found


class Node:
    """A node of the accessibility tree."""

    def __init__(self, node):
        self.number, self.parent, self.is_ignored = node["nodeId"], node.get("parentId"), node.get("ignored", False)
        self.role, self.name = node.get("role", {}).get("value", ""), node.get("name", {}).get("value", "")
        self.properties = {each["name"]: each["value"].get("value") for each in node.get("properties", [])}
