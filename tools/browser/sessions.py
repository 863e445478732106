"""A page with a session of its own, and what is read of it."""
import base64
import re
import time

from checks import PATIENCE, check, until
from services import ADDRESS, picture_at, screen_at, screen_of, until_prompt

RETURN, BACKSPACE, CONTROL, SHIFT, ALT, ESCAPE, TAB = "\ue007", "\ue003", "\ue009", "\ue008", "\ue00a", "\ue00c", "\ue004"
UP, LEFT, DOWN, RIGHT = "\ue013", "\ue012", "\ue015", "\ue014"
HOME, END, PAGE_UP, PAGE_DOWN, INSERT, DELETE = "\ue011", "\ue010", "\ue00e", "\ue00f", "\ue016", "\ue017"
F = [None, *(chr(0xE031 + k) for k in range(12))]
STATE = "return document.body.dataset.state"
MESSAGE = "return document.getElementById('message').textContent"
RIGHTS = "return document.getElementById('rights').textContent"
NOTICE = "return document.getElementById('notice').textContent"
FOCUS = "return document.activeElement.id || document.activeElement.tagName"
LINES = "return [...document.querySelectorAll('#text .line')].map((it) => it.textContent)"
STAMP_AND_LINES = "return [document.body.dataset.stamp, [...document.querySelectorAll('#text .line')].map((it) => it.textContent)]"
ABOVE = "return [...document.querySelectorAll('#scrollback .line')].map((it) => it.textContent)"
# Copies a text, as another program would.
COPY = "navigator.clipboard.writeText(arguments[0]).then(arguments[1], (fault) => arguments[1](String(fault)))"
PIXELS = """
    const canvas = document.getElementById(arguments[0]);
    const pixels = canvas.getContext('2d').getImageData(0, 0, canvas.width, canvas.height).data;
    let text = '';
    for (let at = 0; at < pixels.length; at += 4) text += String.fromCharCode(pixels[at], pixels[at + 1], pixels[at + 2]);
    return [document.body.dataset.stamp, canvas.width, canvas.height, btoa(text)];
"""


def pixels_of(page, canvas):
    """The size and the pixels of a canvas, and the stamp that is shown; none where the page is about to be another one."""
    stamp, width, height, pixels = page.run(PIXELS, canvas) or (None, 0, 0, "")
    return stamp, (width, height, base64.b64decode(pixels))


def seen(page):
    """What the page shows of the gateway's pixels: the stamp, the size and the pixels."""
    return pixels_of(page, "picture")


def both_have(look, stream_of):
    """What a page shows, the stamp first, at a stamp that the stream has: that of another viewer may come later."""
    end = time.time() + PATIENCE
    while True:
        stamp, shown = look()
        stream = stream_of()
        # (a page that has just opened shows nothing yet)
        if stamp and f"4.sync,{len(stamp)}.{stamp};".encode() in stream or time.time() > end:
            return stamp, shown, stream
        time.sleep(0.1)


def check_picture(name, page, stream_of):
    stamp, picture, stream = both_have(lambda: seen(page), stream_of)
    check(name, picture_at(stream, stamp), picture)


def check_text(name, page, stream_of):
    """The rows of text are what `look` reads of the frames up to the same stamp."""
    stamp, lines, stream = both_have(lambda: page.run(STAMP_AND_LINES) or (None, []), stream_of)
    check(name, screen_at(stream, stamp).split("\n")[:-1], lines)


def until_shown(page, stream_of, text, what="the screen"):
    """Waits until the screen of the stream has a text, and the page shows that stamp or a later one."""
    until(True, lambda: text in screen_of(stream_of()))
    screen = screen_of(stream_of())
    check(f"{what} has {text!r}", text, text if text in screen else screen[-200:])
    until_latest(page, stream_of, what)


def until_latest(page, stream_of, what="the screen"):
    """Waits until the page shows the stream's last stamp or a later one."""
    stamp = re.findall(rb"4\.sync,[0-9]+\.([0-9]+);", stream_of())[-1].decode()
    page.shows(f"the page is at {what}", True, f"return Number(document.body.dataset.stamp) >= {stamp}")


def until_ready(page, stream_of):
    """Waits until the shell's prompt is the last on the screen, and the page shows it. Nothing changes then by itself, and
    no key is lost that is typed."""
    until_prompt(stream_of)
    until_latest(page, stream_of)


def until_still(page):
    """Waits until nothing new is shown for a second of the page's own time."""
    stamp = "return document.body.dataset.stamp"

    def stays():
        before = page.run(stamp)
        page.rest(20)
        return page.run(stamp) == before

    until(True, stays)


# Keeps all that an element tells, since what is told next stands in its place, where HEARD finds it. It is a script of
# the page, so that it stays.
HEAR = """
    const [id, script] = [arguments[0], document.createElement('script')];
    script.textContent = `new MutationObserver(() => { document.body.dataset.${id}Heard = (document.body.dataset.${id}Heard ?? '') + document.getElementById('${id}').textContent; }).observe(document.getElementById('${id}'), { childList: true });`;
    document.head.append(script);
"""
HEARD = "return document.body.dataset[arguments[0] + 'Heard'] ?? ''"


# What a session has that doesn't follow the window.
KEPT = "&columns=100&rows=30"


def opened(driver, telnet, web, *arguments, fields=KEPT):
    """A page that has opened a session by its form, and what gives the text of its reads."""
    page = driver.page(f"http://{ADDRESS}:{web.port}/#hostname={ADDRESS}&port={telnet.port}{fields}", *arguments)
    page.shows("an address that names a host opens nothing", "idle", STATE)
    before = set(web.texts)
    page.click("#open > button")
    page.shows("the page is open", "open", STATE)
    [tunnel] = set(web.texts) - before
    stream = lambda: web.given(tunnel)  # noqa: E731
    until(True, lambda: b"4.sync," in stream())
    until_ready(page, stream)
    return page, stream


def paste(page, text, keys):
    page.may_copy()
    check("the browser has copied a text", None, until(None, lambda: page.post("/execute/async", script=COPY, args=[text])))
    page.type(keys)


def place_of(page, row, column):
    """The middle of the left edge of a cell, in pixels of the window."""
    left, top, width, height = page.run("const it = document.getElementById('terminal').getBoundingClientRect(); return [it.left, it.top, it.width, it.height]")
    lines = len(page.run(LINES))
    advance = page.run("return parseFloat(getComputedStyle(document.getElementById('screen')).getPropertyValue('--cell-width'))")
    return left + column * advance + 1, top + (row + 0.5) * height / lines
