"""Text as it is seen, selected, copied and kept: sharp at the device's own pixels, or the gateway's pixels at whole
factors; the characters over it; what is selected, by whom it is copied; the lines above the screen."""
import png
from checks import check, eventually
from sessions import ABOVE, CONTROL, END, FOCUS, HOME, LINES, PAGE_UP, RETURN, SHIFT, check_picture, check_text, opened, pixels_of, place_of, until_ready, until_shown

SELECTED = "return getSelection().toString().trimEnd()"
CLIPBOARD = "navigator.clipboard.readText().then(arguments[0], (fault) => arguments[0](String(fault)))"
CHOOSE = "const form = document.getElementById('choices'); form.elements[arguments[0]].value = arguments[1]; form.dispatchEvent(new Event('change'))"
PLACE = "const it = document.getElementById(arguments[0]).getBoundingClientRect(); return [devicePixelRatio, it.left, it.top, it.width, it.height]"
ROOM = "const it = document.getElementById('screen'); const below = it.scrollHeight - it.clientHeight - it.scrollTop"
AT_END = f"{ROOM}; return below < 4"
ALL = "return [...document.querySelectorAll('#scrollback .line, #text .line')].map((it) => it.textContent)"


def differing(page, canvas):
    """How many pixels of a canvas aren't those of the window where it stands, at the place that fits best."""
    _, (width, height, pixels) = pixels_of(page, canvas)
    ratio, left, top, *_ = page.run(PLACE, canvas)
    lines = png.lines_of(page.screenshot())
    least = width * height
    for x, y in ((round(left * ratio) + dx, round(top * ratio) + dy) for dx in (0, 1) for dy in (0, 1)):
        rows = [(lines[y + k][3 * x : 3 * (x + width)], pixels[3 * width * k : 3 * width * (k + 1)]) for k in range(height)]
        least = min(least, sum(sum(a[k : k + 3] != b[k : k + 3] for k in range(0, len(b), 3)) for a, b in rows if a != b))
    return least


def try_sharpness(driver, telnet, web, ratio):
    page, stream = driver.scaled(ratio, lambda *arguments: opened(driver, telnet, web, *arguments))
    page.type(*"clear; ls -l --color /; echo gqpPy9 _", RETURN)
    until_shown(page, stream, "\ngqpPy9 _")
    until_ready(page, stream)
    check_text("the text of a listing", page, stream)
    page.run("document.activeElement.blur()")
    eventually(f"sharp text has the device's own pixels, at {ratio}", 0, lambda: differing(page, "sharp"))
    page.run(CHOOSE, "text", "exact")
    _, (width, height, _) = pixels_of(page, "picture")

    def is_whole():
        ratio, _, _, shown_width, shown_height = page.run(PLACE, "picture")
        factors = [shown_width * ratio / width, shown_height * ratio / height]
        return abs(factors[0] - round(factors[0])) < 0.01 and abs(factors[0] - factors[1]) < 0.01

    eventually("exact pixels have a whole factor", True, is_whole)
    check_picture("the exact pixels are the gateway's", page, stream)
    page.close()


def check_copied(name, page, text):
    eventually(name, text, lambda: page.post("/execute/async", script=CLIPBOARD, args=[]))


def check_clicks(name, page, row, times, text):
    """Clicks on a row select a text. On a slow machine they may be too far from each other, and are tried again."""

    def click():
        # So that these aren't taken as more clicks of those before.
        page.clicks(place_of(page, 0, 1), 1)
        page.rest()
        page.clicks(place_of(page, row, 1), times)
        return page.run(SELECTED)

    eventually(name, text, click)


def try_selection(driver, telnet, web):
    page, stream = opened(driver, telnet, web)
    page.may_copy()
    page.type(*"clear; seq 101 112", RETURN)
    until_shown(page, stream, "\n112\n")
    until_ready(page, stream)
    # Firefox's call searches the field alone, where that has the focus.
    if driver.has_input_methods:
        check("the browser's search finds what is shown", True, page.run("return window.find('108', false, false, true)"))
    page.drag(place_of(page, 1, 1), place_of(page, 3, 2))
    page.shows("what a drag selects", "02\n103\n10", SELECTED)
    page.type([CONTROL, SHIFT, "c"])
    check_copied("Control-Shift-C copies lines", page, "02\n103\n10")
    check_clicks("a double click selects a word", page, 4, 2, "105")
    page.type([CONTROL, "c"])
    check_copied("Control-C copies what is selected", page, "105")
    page.shows("and the terminal has the focus again", "keys", FOCUS)
    check_clicks("a triple click selects a line", page, 5, 3, "106")
    page.rest()
    page.clicks(place_of(page, 6, 1), 1)
    page.rest()
    page.drag(place_of(page, 7, 2), place_of(page, 7, 2), SHIFT)
    page.shows("a click with Shift selects from the click before", "07\n10", SELECTED)
    page.type(*"echo go; sleep 600", RETURN)
    until_shown(page, stream, "\ngo\n")
    page.shows("typing ends a selection", "", SELECTED)
    page.type([CONTROL, "c"])
    until_shown(page, stream, "^C")
    until_ready(page, stream)
    page.type(*"echo $?", RETURN)
    until_shown(page, stream, "130", "a program that Control-C has stopped")
    until_ready(page, stream)
    page.drag(place_of(page, 9, 0), place_of(page, 9, 3))
    before = page.run(SELECTED)
    page.run("document.getElementById('keys').dispatchEvent(new KeyboardEvent('keydown', { key: 'x', code: 'KeyX' }))")
    until_shown(page, stream, " x\n")
    check("something is selected", True, before != "")
    check("a selection stays while its characters stay", before, page.run(SELECTED))
    page.close()


# Keeps what is saved, in place of a file.
SAVE = "URL.createObjectURL = (it) => { window.wasGiven = it; return 'data:,'; }; HTMLAnchorElement.prototype.click = function click() { window.wasGiven.text().then((text) => { window.wasSaved = [this.download, text]; }); }"
# Keeps what is opened, in place of a page.
KEEP = "window.wasOpened = []; window.open = (...given) => { window.wasOpened.push(given); }"
KEPT = "return window.wasOpened"


def try_addresses(driver, telnet, web):
    """A click with Control opens the address at that place, in one row or over more, and no other click does."""
    page, stream = opened(driver, telnet, web)
    long = "https://example.org/" + "x" * 120
    page.type(*f"clear; echo 'see http://example.org/a_(b), or'; echo {long}", RETURN)
    until_shown(page, stream, "x" * 40 + "\n")
    until_ready(page, stream)
    page.run(KEEP)
    rows = page.run(LINES)
    first, wrapped = rows.index("see http://example.org/a_(b), or"), rows.index("x" * 40)
    check("an address goes on in the next row", long[:100], rows[wrapped - 1])
    page.clicks(place_of(page, first, 6), 1)
    page.rest()
    check("a click opens nothing", [], page.run(KEPT))
    for x, y, opens in [(6, first, ["http://example.org/a_(b)"]), (1, first, []), (30, first, []), (50, wrapped - 1, [long]), (20, wrapped, [long])]:
        page.run(KEEP)
        page.drag(place_of(page, y, x), place_of(page, y, x), CONTROL)
        page.rest()
        check(f"a click with Control at {x}, {y - first}", [[it, "_blank", "noopener,noreferrer"] for it in opens], page.run(KEPT))
    page.close()


def try_scrollback(driver, telnet, web):
    page, stream = opened(driver, telnet, web)
    page.type(*"clear", RETURN)
    # No more at once than the screen has, and each part is shown, so that all are on the screen at a sync.
    for first in range(1, 91, 15):
        page.type(*f"seq -f 'row %g' {first} {first + 14}", RETURN)
        until_shown(page, stream, f"\nrow {first + 14}\n")
        until_ready(page, stream)
    check("no line is missing", [f"row {k}" for k in range(1, 91)], [it for it in page.run(ALL) if it.startswith("row ")])
    page.run(SAVE)
    page.click("#panel > summary")
    page.click("#save")
    page.shows("all of it is saved as text", True, "return window.wasSaved !== undefined")
    name, text = page.run("return window.wasSaved")
    check("what is saved is every line", page.run(ALL), [*text.split("\n")[:-1], *[""] * (len(page.run(ALL)) - text.count("\n"))])
    check("and is named as a text", ".txt", name[-4:])
    page.clicks(place_of(page, 0, 1), 1)
    page.shows("the end is shown", True, AT_END)
    page.type([SHIFT, PAGE_UP])
    page.shows("Shift-Page Up goes back", True, f"{ROOM}; return below > 100")
    page.type([SHIFT, HOME])
    page.shows("Shift-Home goes to the first line", 0, f"{ROOM}; return it.scrollTop")
    page.type("x")
    page.shows("typing goes to the end", True, AT_END)
    page.type([SHIFT, HOME])
    page.shows("Shift-Home goes to the first line again", 0, f"{ROOM}; return it.scrollTop")
    page.type([SHIFT, END])
    page.shows("Shift-End goes to the end", True, AT_END)
    page.type(*"\ue003clear", RETURN, *"seq 2000", RETURN)
    until_shown(page, stream, "\n2000\n")
    until_ready(page, stream)
    numbers = [int(it) for it in page.run(ALL) if it.isdigit()]
    gaps = page.run("return document.querySelectorAll('.gap').length")
    check("numbers come in their order", sorted(numbers), numbers)
    check("where lines are missing it is told", True, gaps > 0 or len(numbers) == 2000)
    page.run(CHOOSE, "lines", "0")
    page.shows("no lines are kept where none are wanted", [], ABOVE)
    page.close()
