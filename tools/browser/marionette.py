"""Firefox, steered by its own Marionette protocol, whose commands are those of WebDriver (W3C)."""
import base64
import contextlib
import json
import os
import pathlib
import re
import shutil
import socket
import subprocess
import tempfile
import time

import webdriver
from checks import PATIENCE

# Which command of Marionette stands for a request of WebDriver.
COMMANDS = {
    "/url": "Navigate",
    "/element": "FindElement",
    "/actions": "PerformActions",
    "/execute/sync": "ExecuteScript",
    "/execute/async": "ExecuteAsyncScript",
    "/click": "ElementClick",
    "/clear": "ElementClear",
    "/value": "ElementSendKeys",
    "/window/rect": "SetWindowRect",
    "/refresh": "Refresh",
}
# Scripts may write to the clipboard, and a first start opens no other page.
SETTINGS = {
    "dom.events.testing.asyncClipboard": True,
    "browser.startup.homepage_override.mstone": "ignore",
    "datareporting.policy.dataSubmissionEnabled": False,
    "app.update.disabledForTesting": True,
}


class Driver:
    """What starts Firefox, one for each page. Those that are still open end with the `with` block."""

    name = "Firefox"
    has_input_methods = False

    def __init__(self):
        self.pages = []
        self.ratio = -1.0

    def __enter__(self):
        return self

    def __exit__(self, *_):
        for page in list(self.pages):
            page.close()

    def scaled(self, ratio, open_page):
        """A page whose pixels have so many of the device."""
        self.ratio = ratio
        try:
            return open_page()
        finally:
            self.ratio = -1.0

    def processes(self):
        """The IDs of all that the browsers run as."""
        return [it for page in self.pages for it in (page.process.pid, *webdriver.below(page.process.pid))]

    def page(self, address, *_):
        """Opens an address in a browser of its own. The words for Chromium have no meaning here."""
        page = Page(self)
        self.pages.append(page)
        page.post("/url", url=address)
        return page


class Page(webdriver.Page):
    """A page in a Firefox of its own, without a window."""

    def __init__(self, driver):
        self.driver = driver
        self.profile = tempfile.mkdtemp()
        with socket.create_server(("127.0.0.1", 0)) as it:
            port = it.getsockname()[1]
        settings = {**SETTINGS, "marionette.port": port, "layout.css.devPixelsPerPx": str(driver.ratio)}
        lines = [f"user_pref({json.dumps(name)}, {json.dumps(value)});\n" for name, value in settings.items()]
        pathlib.Path(self.profile, "user.js").write_text("".join(lines))
        words = ["firefox-esr", "--headless", "--marionette", "--remote-allow-system-access", "--no-remote", "--profile", self.profile]
        size = {"MOZ_HEADLESS_WIDTH": "1000", "MOZ_HEADLESS_HEIGHT": "700", "HOME": self.profile}
        self.process = subprocess.Popen(words, env={**os.environ, **size}, stdout=subprocess.DEVNULL, stderr=subprocess.DEVNULL)
        self.socket = connected(port)
        self.stream = self.socket.makefile("rb")
        self.number = 0
        self.message()
        self.ask("NewSession", {"capabilities": {"alwaysMatch": {}}})

    def message(self):
        """The next message: its length in decimal, a colon, and JSON."""
        length = b""
        while (digit := self.stream.read(1)) not in (b":", b""):
            length += digit
        return json.loads(self.stream.read(int(length)))

    def ask(self, command, given, part="WebDriver"):
        self.number += 1
        text = json.dumps([0, self.number, f"{part}:{command}", given]).encode()
        self.socket.sendall(b"%d:%s" % (len(text), text))
        _, _, fault, answer = self.message()
        if fault:
            raise RuntimeError(f"{command}: {fault['error']}: {fault['message']}")
        return answer

    def post(self, path, **given):
        element, path = re.fullmatch(r"(?:/element/([^/]+))?(/.+)", path).groups()
        answer = self.ask(COMMANDS[path], {**given, "id": element} if element else given)
        return answer.get("value") if isinstance(answer, dict) else answer

    def close(self):
        self.driver.pages.remove(self)
        with contextlib.suppress(OSError, ValueError, RuntimeError):
            self.ask("DeleteSession", {})
        self.socket.close()
        self.process.terminate()
        self.process.wait()
        shutil.rmtree(self.profile, ignore_errors=True)

    def zoom(self, factor):
        """Enlarges the page, as a person does."""
        self.ask("SetContext", {"value": "chrome"}, "Marionette")
        self.run("gBrowser.selectedBrowser.fullZoom = arguments[0]", factor)
        self.ask("SetContext", {"value": "content"}, "Marionette")

    def may_copy(self):
        """SETTINGS let scripts write to the clipboard."""

    def screenshot(self):
        return base64.b64decode(self.ask("TakeScreenshot", {"full": False})["value"])


def connected(port):
    for _ in range(10 * PATIENCE):
        with contextlib.suppress(OSError):
            return socket.create_connection(("127.0.0.1", port), timeout=2 * PATIENCE)
        time.sleep(0.1)
    raise RuntimeError("Firefox doesn't answer")
