"""Real browsers for tests/page/page.py, with one interface: Chromium by python3-selenium and chromium-driver, and
Firefox by its own remote protocol, Marionette, over a socket, since Debian has no driver for it.

A browser opens a page, runs JavaScript in it, presses keys, changes its window and makes pictures. Each has a profile
of its own in a folder that is removed, and no window on a screen.
"""
import base64
import contextlib
import importlib.util
import json
import os
import pathlib
import shutil
import socket
import subprocess
import tempfile
import time

SECONDS = 900  # for one script
SECONDS_TO_START = 600  # on a machine that is busy with other things
STARTS = 3  # of a browser, until it is told that it does not start
KEYS = {
    "Tab": "\ue004",
    "Enter": "\ue007",
    "Space": " ",
    "ArrowLeft": "\ue012",
    "ArrowUp": "\ue013",
    "ArrowRight": "\ue014",
    "ArrowDown": "\ue015",
    "Home": "\ue011",
    "End": "\ue010",
    "Shift": "\ue008",
    "Control": "\ue009",
    "Alt": "\ue00a",
    "Escape": "\ue00c",
    "Delete": "\ue017",
}


def key_actions(keys):
    """The actions of the WebDriver standard that press these keys one after the other. Of Control+z both are down."""
    pressed = []
    for key in keys:
        together = [KEYS.get(one, one) for one in (key.split("+") if len(key) > 1 else [key])]
        pressed += [{"type": "keyDown", "value": one} for one in together]
        pressed += [{"type": "keyUp", "value": one} for one in reversed(together)]
    return [{"type": "key", "id": "keyboard", "actions": pressed}]


def memory_below(process):
    """How many bytes a process and those that it started have, each that several share in parts."""
    total = 0
    with contextlib.suppress(OSError):  # one that has just ended
        for line in pathlib.Path(f"/proc/{process}/smaps_rollup").read_text(encoding="ascii").splitlines():
            if line.startswith("Pss:"):
                total += 1024 * int(line.split()[1])
        for thread in pathlib.Path(f"/proc/{process}/task").iterdir():
            total += sum(
                memory_below(int(child)) for child in (thread / "children").read_text(encoding="ascii").split()
            )
    return total


class Chromium:
    name = "Chromium"
    WITHOUT_VECTORS = "--js-flags=--no-enable-sse4-1"  # as on a processor that is too old for WebAssembly's vectors

    @staticmethod
    def missing():
        """What is missing for this browser, or None."""
        if importlib.util.find_spec("selenium") is None:
            return "python3-selenium"
        return None if shutil.which("chromium") and shutil.which("chromedriver") else "chromium, chromium-driver"

    def __init__(self, *more_words):
        from selenium import webdriver
        from selenium.webdriver.chrome.options import Options
        from selenium.webdriver.chrome.service import Service

        options = Options()
        options.binary_location = shutil.which("chromium")
        for word in ("--headless=new", "--no-sandbox", "--disable-gpu", "--disable-dev-shm-usage", "--no-first-run"):
            options.add_argument(word)
        for word in more_words:
            options.add_argument(word)
        options.set_capability("goog:loggingPrefs", {"performance": "ALL", "browser": "ALL"})
        self.driver = webdriver.Chrome(service=Service(shutil.which("chromedriver")), options=options)
        self.driver.set_script_timeout(SECONDS)
        self.driver.set_page_load_timeout(SECONDS)

    def open(self, url):
        self.driver.get("about:blank")
        self.driver.get(url)

    def run_before(self, script):
        """From now on, the script runs in each page before those of the page."""
        self.driver.execute_cdp_cmd("Page.addScriptToEvaluateOnNewDocument", {"source": script})

    def run(self, script, *arguments):
        return self.driver.execute_script(script, *arguments)

    def wait(self, script, *arguments):
        """What the script passes to its last argument, a function."""
        return self.driver.execute_async_script(script, *arguments)

    def press(self, *keys):
        self.driver.execute("actions", {"actions": key_actions(keys)})

    def size(self, width, height):
        """The size of what is inside the window."""
        # Headless Chromium has no window narrower than 500 pixels, but a page can be.
        self.driver.execute_cdp_cmd(
            "Emulation.setDeviceMetricsOverride",
            {"width": width, "height": height, "deviceScaleFactor": 1, "mobile": False},
        )

    def picture(self, path):
        pathlib.Path(path).write_bytes(self.driver.get_screenshot_as_png())

    def paper(self):
        """The page as a PDF."""
        return base64.b64decode(self.driver.execute_cdp_cmd("Page.printToPDF", {})["data"])

    def tree(self):
        """The tree that a screen reader sees; nodes that it passes over are marked as ignored."""
        return self.driver.execute_cdp_cmd("Accessibility.getFullAXTree", {})["nodes"]

    def memory(self):
        return memory_below(self.driver.service.process.pid)

    def requests(self):
        """The addresses that the browser asked for since the last call."""
        messages = [json.loads(entry["message"])["message"] for entry in self.driver.get_log("performance")]
        return [
            message["params"]["request"]["url"]
            for message in messages
            if message["method"] == "Network.requestWillBeSent"
        ]

    def end(self):
        self.driver.quit()


class Firefox:
    name = "Firefox"
    WITHOUT_VECTORS = None  # it has no such setting

    @staticmethod
    def missing():
        return None if Firefox.program() else "firefox-esr"

    @staticmethod
    def program():
        return shutil.which("firefox-esr") or shutil.which("firefox")

    def __init__(self):
        self.folder = tempfile.mkdtemp()
        settings = {
            "marionette.port": 0,  # a free one, which it tells in a file
            "datareporting.policy.dataSubmissionEnabled": False,
            "app.update.enabled": False,
            "browser.shell.checkDefaultBrowser": False,
            "toolkit.telemetry.reportingpolicy.firstRun": False,
            "browser.startup.page": 0,
            "focusmanager.testmode": True,
        }  # a window that nobody sees has the focus too
        lines = [f"user_pref({json.dumps(name)}, {json.dumps(value)});\n" for name, value in settings.items()]
        pathlib.Path(self.folder, "user.js").write_text("".join(lines))
        words = [self.program(), "--headless", "--marionette", "--remote-allow-system-access", "--no-remote",
                 "--profile", self.folder]
        surroundings = {**os.environ, "HOME": self.folder}
        self.child = subprocess.Popen(words, env=surroundings, stdout=subprocess.DEVNULL, stderr=subprocess.DEVNULL)
        try:
            self.socket = self.connect()
            self.bytes = b""
            self.number = 0
            self.receive()  # who answers, and by which protocol
            self.ask("WebDriver:NewSession", {"capabilities": {"alwaysMatch": {"acceptInsecureCerts": False}}})
            self.ask("WebDriver:SetTimeouts", {"script": 1000 * SECONDS, "pageLoad": 1000 * SECONDS, "implicit": 0})
        except Exception:
            self.child.kill()
            self.remove()
            raise

    def connect(self):
        end, told = time.monotonic() + SECONDS_TO_START, pathlib.Path(self.folder, "MarionetteActivePort")
        while True:
            try:
                return socket.create_connection(("127.0.0.1", int(told.read_text(encoding="ascii"))), timeout=SECONDS)
            except (OSError, ValueError):  # it is not there yet, or not whole
                if time.monotonic() > end or self.child.poll() is not None:
                    raise
                time.sleep(0.2)

    def receive(self):
        """The next message: its length, a colon, and JSON."""
        while b":" not in self.bytes:
            self.more()
        length, _, self.bytes = self.bytes.partition(b":")
        while len(self.bytes) < int(length):
            self.more()
        message, self.bytes = self.bytes[: int(length)], self.bytes[int(length):]
        return json.loads(message)

    def more(self):
        piece = self.socket.recv(1 << 16)
        if not piece:
            raise OSError("Firefox has closed its connection")
        self.bytes += piece

    def ask(self, command, parameters=None):
        self.number += 1
        message = json.dumps([0, self.number, command, parameters or {}]).encode()
        self.socket.sendall(b"%d:%s" % (len(message), message))
        _, number, error, result = self.receive()
        assert number == self.number
        if error:
            raise RuntimeError(f"{command}: {error['error']}: {error['message']}")
        return result

    def open(self, url):
        self.ask("WebDriver:Navigate", {"url": "about:blank"})
        self.ask("WebDriver:Navigate", {"url": url})

    def run(self, script, *arguments):
        return self.ask("WebDriver:ExecuteScript", {"script": script, "args": list(arguments)})["value"]

    def wait(self, script, *arguments):
        return self.ask("WebDriver:ExecuteAsyncScript", {"script": script, "args": list(arguments)})["value"]

    def press(self, *keys):
        self.ask("WebDriver:PerformActions", {"actions": key_actions(keys)})

    def size(self, width, height):
        """The size of what is inside the window, or what is nearest to it. Firefox has no window narrower than 500
        pixels, but a page that is zoomed can be. The window may have its size a while after it was asked for."""
        zoom = 2 if width < 500 else 1
        self.ask("Marionette:SetContext", {"value": "chrome"})
        self.run("Cc['@mozilla.org/content-pref/service;1'].getService(Ci.nsIContentPrefService2).setGlobal("
                 "FullZoom.name, arguments[0], Cu.createLoadContext())", zoom)
        self.ask("Marionette:SetContext", {"value": "content"})
        inside, before = self.inside(f"devicePixelRatio === {zoom}"), None
        while inside not in ([width, height], before):
            before, window = inside, self.ask("WebDriver:GetWindowRect")
            self.ask("WebDriver:SetWindowRect", {"width": window["width"] + zoom * (width - inside[0]),
                                                 "height": window["height"] + zoom * (height - inside[1])})
            inside = self.inside(f"innerWidth === {width} && innerHeight === {height}")

    def inside(self, condition):
        """The size of what is inside the window, once a condition holds, or three seconds later."""
        return self.wait(f"const [tell] = arguments; const end = Date.now() + 3000; const look = () => {condition} || "
                         "Date.now() > end ? tell([innerWidth, innerHeight]) : setTimeout(look, 10); look();")

    def picture(self, path):
        shown = self.ask("WebDriver:TakeScreenshot", {"full": False, "hash": False})["value"]
        pathlib.Path(path).write_bytes(base64.b64decode(shown))

    def paper(self):
        return base64.b64decode(self.ask("WebDriver:Print", {})["value"])

    def tree(self):
        return None  # its remote protocol has none

    def memory(self):
        return memory_below(self.child.pid)

    def requests(self):
        return None  # the server's own log has to do

    def end(self):
        with contextlib.suppress(OSError, RuntimeError):
            self.ask("Marionette:Quit", {"flags": ["eForceQuit"]})
        self.socket.close()
        try:
            self.child.wait(20)
        except subprocess.TimeoutExpired:
            self.child.kill()
        self.remove()

    def remove(self):
        self.child.wait()
        shutil.rmtree(self.folder, ignore_errors=True)


BROWSERS: list = [Chromium, Firefox]


def started(kind, *more_words):
    """A browser. A busy machine may be too slow for its start, so it is tried again."""
    for _ in range(STARTS - 1):
        with contextlib.suppress(Exception):
            return kind(*more_words)
    return kind(*more_words)
