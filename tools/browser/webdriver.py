"""Chromium, steered through chromedriver by the requests of WebDriver (W3C) that the tests need."""
import base64
import contextlib
import json
import os
import pathlib
import signal
import subprocess
import time
import urllib.error
import urllib.request

from checks import PATIENCE, check

# Lets so many timers of the page pass, each of 50 milliseconds, while nothing about its window changes. Whatever rests
# for a shorter time in the page is over then, however slow the machine is.
REST = """
    const [turns, done] = arguments;
    const now = () => [innerWidth, innerHeight, devicePixelRatio, document.getElementById('picture')?.width].join();
    let [last, left] = [now(), turns];
    const look = () => {
      left = now() === last ? left - 1 : turns;
      last = now();
      if (left > 0) setTimeout(look, 50);
      else done();
    };
    look();
"""
ELEMENT = "element-6066-11e4-a52e-4f735466cecf"


def below(process):
    """The IDs of all processes that a process has started, and these in turn."""
    children = {}
    for it in pathlib.Path("/proc").glob("[0-9]*/stat"):
        with contextlib.suppress(OSError):
            children.setdefault(int(it.read_text().rpartition(")")[2].split()[1]), []).append(int(it.parent.name))
    found, queue = [], [process]
    while queue:
        more = children.get(queue.pop(), [])
        found += more
        queue += more
    return found


@contextlib.contextmanager
def asleep(driver):
    """Stops the browsers within the `with` block, as a machine does that sleeps."""
    stopped = driver.processes()
    try:
        for it in stopped:
            os.kill(it, signal.SIGSTOP)
        yield
    finally:
        for it in stopped:
            with contextlib.suppress(ProcessLookupError):
                os.kill(it, signal.SIGCONT)


class Driver:
    """A running chromedriver. It ends with the `with` block, and so does each browser that is still open."""

    name = "Chromium"
    has_input_methods = True

    def __init__(self, port):
        self.port = port
        self.pages = []

    def page(self, address, *arguments):
        """Opens an address in a browser of its own."""
        page = Page(self, *arguments)
        self.pages.append(page)
        page.post("/url", url=address)
        return page

    def scaled(self, ratio, open_page):
        """A page whose pixels have so many of the device."""
        return open_page(f"--force-device-scale-factor={ratio}")

    def __enter__(self):
        self.process = subprocess.Popen(["chromedriver", f"--port={self.port}"], stdout=subprocess.DEVNULL, stderr=subprocess.DEVNULL)
        for _ in range(10 * PATIENCE):
            try:
                self.call("GET", "/status")
                return self
            except OSError:
                time.sleep(0.1)
        raise RuntimeError("chromedriver doesn't answer")

    def __exit__(self, *_):
        for page in list(self.pages):
            with contextlib.suppress(OSError):
                page.close()
        self.process.terminate()
        self.process.wait()

    def processes(self):
        """The IDs of all that the browsers run as."""
        return below(self.process.pid)

    def call(self, method, path, given=None):
        body = json.dumps(given).encode() if given is not None else None
        request = urllib.request.Request(f"http://127.0.0.1:{self.port}{path}", data=body, method=method)
        with urllib.request.urlopen(request, timeout=2 * PATIENCE) as answer:
            return json.load(answer)["value"]


class Page:
    """A page in a browser of its own, without a window."""

    ARGUMENTS = ["--headless=new", "--no-sandbox", "--disable-gpu", "--disable-dev-shm-usage", "--window-size=1000,700"]

    def __init__(self, driver, *arguments):
        self.driver = driver
        options = {"goog:chromeOptions": {"args": [*self.ARGUMENTS, *arguments]}}
        made = driver.call("POST", "/session", {"capabilities": {"alwaysMatch": options}})
        self.path = f"/session/{made['sessionId']}"

    def go(self, address):
        """Opens another address anew, even one that differs behind its `#` alone."""
        self.post("/url", url="about:blank")
        self.post("/url", url=address)

    def reload(self):
        """Loads the page again, whatever it would have the browser ask."""
        self.post("/refresh")

    def post(self, path, **given):
        return self.driver.call("POST", self.path + path, given)

    def close(self):
        self.driver.pages.remove(self)
        self.driver.call("DELETE", self.path)

    def run(self, script, *arguments):
        return self.post("/execute/sync", script=script, args=list(arguments))

    def until(self, script, wanted, seconds=PATIENCE):
        """Waits until the script gives what is wanted, and answers what it gave last. A page that is about to be another
        one gives nothing."""
        end = time.time() + seconds
        while time.time() < end:
            with contextlib.suppress(urllib.error.HTTPError, RuntimeError):
                if (found := self.run(script)) == wanted:
                    return found
            time.sleep(0.05)
        return self.run(script)

    def shows(self, name, wanted, script, seconds=PATIENCE):
        """Waits until the script gives what is wanted, which is a check."""
        check(name, wanted, self.until(script, wanted, seconds))

    def rest(self, turns=12):
        """Waits until the page's window has rested, and all in the page that waits for that."""
        self.post("/execute/async", script=REST, args=[turns])

    def element(self, selector):
        return self.post("/element", using="css selector", value=selector)[ELEMENT]

    def click(self, selector):
        self.post(f"/element/{self.element(selector)}/click")

    def fill(self, selector, text):
        element = self.element(selector)
        self.post(f"/element/{element}/clear")
        self.post(f"/element/{element}/value", text=text)

    def type(self, *keys):
        """Presses and lets go of each key, one after the other, on whatever has the focus. A key that is a list is
        held from its first to its last."""
        steps = []
        for key in keys:
            held = key if isinstance(key, list) else [key]
            steps += [{"type": "keyDown", "value": it} for it in held]
            steps += [{"type": "keyUp", "value": it} for it in reversed(held)]
        self.post("/actions", actions=[{"type": "key", "id": "keyboard", "actions": steps}])

    def drag(self, start, end, held=None):
        """Presses the button of the mouse at one place of the window, and lets it go at another. A key may be held."""
        press, let_go = {"type": "pointerDown", "button": 0}, {"type": "pointerUp", "button": 0}
        self.mouse([self.to(start), press, self.to(end), let_go], held)

    def clicks(self, place, times):
        press, let_go = {"type": "pointerDown", "button": 0}, {"type": "pointerUp", "button": 0}
        self.mouse([self.to(place), *[press, let_go] * times])

    @staticmethod
    def to(place):
        return {"type": "pointerMove", "duration": 20, "x": int(place[0]), "y": int(place[1])}

    def mouse(self, steps, held=None):
        actions = [{"type": "pointer", "id": "mouse", "parameters": {"pointerType": "mouse"}, "actions": steps}]
        if held:
            pauses = [{"type": "pause"}] * len(steps)
            actions[0]["actions"] = [{"type": "pause"}, *steps, {"type": "pause"}]
            actions.append({"type": "key", "id": "keyboard", "actions": [{"type": "keyDown", "value": held}, *pauses, {"type": "keyUp", "value": held}]})
        self.post("/actions", actions=actions)

    def resize(self, width, height):
        """Gives the window a size."""
        self.post("/window/rect", width=width, height=height)

    def zoom(self, factor):
        """What a page is told that is enlarged: fewer pixels, each of more of the device."""
        width, height = self.run("return [innerWidth, innerHeight]")
        self.command("Emulation.setDeviceMetricsOverride", width=int(width / factor), height=int(height / factor), deviceScaleFactor=factor, mobile=False)

    def compose(self, steps, text):
        """Lets an input method show each of the steps, and then type the text."""
        for step in steps:
            self.command("Input.imeSetComposition", text=step, selectionStart=len(step), selectionEnd=len(step))
        self.command("Input.insertText", text=text)

    def may_copy(self):
        """Lets scripts of the page write to the clipboard."""
        self.command("Browser.grantPermissions", permissions=["clipboardReadWrite", "clipboardSanitizedWrite"])

    def command(self, name, **given):
        """A command of Chromium's own protocol, for what WebDriver has no request."""
        return self.post("/goog/cdp/execute", cmd=name, params=given)

    def screenshot(self):
        return base64.b64decode(self.driver.call("GET", self.path + "/screenshot"))
