"""A session that follows the window of whoever types: what the page tells in windows of several sizes, on a phone, and
where another page tells another size; what `stty size` says to that, and what stays of a selection and of the lines
above."""
import itertools
import re
import shutil

from checks import check, eventually, until
from services import ADDRESS, TOP, owner, screen_of, until_prompt
from sessions import ABOVE, LINES, RETURN, SHIFT, STATE, check_picture, check_text, opened, place_of, until_latest, until_ready, until_shown, until_still

CELLS = "const it = document.getElementById('picture'); return [it.width / 8, it.height / 16]"
# What is left of the window beside and below the terminal, in pixels of the page.
LEFT = """
    const [room, terminal] = ['screen', 'terminal'].map((id) => document.getElementById(id).getBoundingClientRect());
    return [room.width - terminal.width, room.height - terminal.height];
"""
SELECTED = "return getSelection().toString()"
KEEP = "const it = document.getElementById('keep'); it.checked = arguments[0]; it.dispatchEvent(new Event('change'))"
# Whether the row of the cursor is seen, and the last line of the screen.
SEEN = """
    const [room, cursor, terminal] = ['screen', 'keys', 'terminal'].map((id) => document.getElementById(id).getBoundingClientRect());
    return [cursor.top > room.top - 1 && cursor.bottom < room.bottom + 1, terminal.bottom < room.bottom + 1];
"""
# Whether the last line of the screen is seen.
LAST_SEEN = """
    const [room, terminal] = ['screen', 'terminal'].map((id) => document.getElementById(id).getBoundingClientRect());
    return terminal.bottom < room.bottom + 1;
"""
WINDOWS = [(1400, 900), (1000, 700), (1250, 640)]


def sizes_of(web, tunnel):
    """The sizes in columns and rows that a page has told."""
    told = re.findall(rb"4\.size,[0-9]+\.([0-9]+),[0-9]+\.([0-9]+),2\.96;", web.written.get(tunnel, b""))
    return [[int(width) // 8, int(height) // 16] for width, height in told]


def tunnel_of(web, before):
    [tunnel] = set(web.texts) - set(before)
    return tunnel


def joined(driver, web, session, words="", window="--window-size=1000,700"):
    """A page that joins a session, and its tunnel."""
    before = list(web.texts)
    page = driver.page(f"http://{ADDRESS}:{web.port}/#id=%24{session.id[1:]}{words}", window)
    page.shows("the page is open", "open", STATE)
    return page, tunnel_of(web, before)


def turned_to(page, web, tunnel, count):
    """The size that a page has told last, once it has told more than so many, its window has rested, and it has it."""
    last = lambda: (sizes_of(web, tunnel) or [None])[-1]  # noqa: E731
    until(True, lambda: len(sizes_of(web, tunnel)) > count)
    page.rest()
    until(True, lambda: page.run(CELLS) == last())
    return last()


def resized(page, web, tunnel, width, height):
    """The size that a page tells in a window."""
    count = len(sizes_of(web, tunnel))
    page.resize(width, height)
    return turned_to(page, web, tunnel, count)


def check_fits(name, page):
    page.shows(f"{name} fits the window", True, f"const [beside, below] = (() => {{ {LEFT} }})(); return 0 <= beside && beside < 45 && 0 <= below && below < 45")


asked = itertools.count(1)


def stty(page, stream):
    """What the host says of its terminal's size: columns and rows."""
    # A number that isn't typed as it is told, so that it is this answer.
    number = next(asked)
    page.type(*f"clear; stty size; echo $((1000 + {number}))", RETURN)
    answer = re.compile(rf"^([0-9]+) ([0-9]+)\n{1000 + number}$", re.M)
    until(True, lambda: answer.search(screen_of(stream())) is not None)
    until_ready(page, stream)
    found = answer.search(screen_of(stream()))
    return [int(found[2]), int(found[1])] if found else screen_of(stream())[-200:]


def try_window(driver, telnet, web):
    """A page that opens a session: the host has the window's size from the beginning, and follows it."""
    before = list(web.texts)
    page, stream = opened(driver, telnet, web, fields="")
    tunnel = tunnel_of(web, before)
    first = page.run(CELLS)
    check("the host has the window's size", first, stty(page, stream))
    check_fits("a session that is opened", page)
    page.rest()
    check("and is told no other", [], sizes_of(web, tunnel))
    told = first
    for width, height in WINDOWS:
        before, told = told, resized(page, web, tunnel, width, height)
        check(f"a window of {width} is told", True, told not in (None, before))
        page.shows(f"the page has the size of a window of {width}", told, CELLS)
        check(f"the host has the size of a window of {width}", told, stty(page, stream))
        check_fits(f"a window of {width}", page)
        check_picture(f"the pixels in a window of {width}", page, stream)
        check_text(f"the text in a window of {width}", page, stream)
    count = len(sizes_of(web, tunnel))
    page.resize(WINDOWS[-1][0] + 1, WINDOWS[-1][1] + 1)
    page.rest()
    check("a window that has no column and no row more is told nothing", count, len(sizes_of(web, tunnel)))
    page.run(KEEP, True)
    page.resize(*WINDOWS[0])
    page.rest()
    check("where the size is kept the window is told nothing", count, len(sizes_of(web, tunnel)))
    page.run(KEEP, False)
    eventually("and once it isn't it is told", True, lambda: len(sizes_of(web, tunnel)) > count)
    page.close()


def try_others(driver, gateway, telnet, web):
    """Pages of one session: one that looks on and one that keeps the size tell none, and of two that type the one whose
    window was changed last counts."""
    first = owner(gateway.port, telnet.port, "control", 720, 416)
    stream = lambda: first.text  # noqa: E731
    until_prompt(stream)
    looking, kept = joined(driver, web, first, "&read-only"), joined(driver, web, first, "&keep-size")
    for page, _ in (looking, kept):
        page.resize(1200, 800)
        page.rest()
    check("who looks on, and who keeps the size, tell none", [[], []], [sizes_of(web, tunnel) for _, tunnel in (looking, kept)])
    kept[0].shows("the session has its own size", [90, 26], CELLS)
    one = joined(driver, web, first)
    told = turned_to(one[0], web, one[1], 0)
    # Its window is as large, so it has nothing to tell yet.
    other = joined(driver, web, first)
    other[0].shows("a page that comes later has the size of the one before", told, CELLS)
    other[0].rest()
    for (page, tunnel), size in ((one, (1300, 900)), (other, (900, 640)), (one, (1100, 760))):
        resized(page, web, tunnel, *size)
    told = [sizes_of(web, tunnel) for _, tunnel in (one, other)]
    check("both have told their windows", True, all(told))
    for page, _ in (one, other):
        page.rest(20)
    check("and don't answer each other", told, [sizes_of(web, tunnel) for _, tunnel in (one, other)])
    for page, _ in (looking, kept, one, other):
        page.shows("all have the size of the window that changed last", told[0][-1], CELLS)
        check_picture("the pixels of each page", page, stream)
    for page, _ in (looking, kept, one, other):
        page.close()
    first.close()


def try_what_stays(driver, telnet, web):
    """Lines above the screen, a selection and the text stay at another size."""
    page, stream = opened(driver, telnet, web, fields="")
    page.type(*"clear; seq 60", RETURN)
    until_shown(page, stream, "\n60\n")
    until_ready(page, stream)
    page.type(*"clear; seq 101 112", RETURN)
    until_shown(page, stream, "\n112\n")
    until_ready(page, stream)
    above = page.run(ABOVE)
    page.drag(place_of(page, 1, 0), place_of(page, 2, 3))
    page.shows("something is selected", "102\n103", SELECTED)
    size = page.run(CELLS)
    page.resize(1400, 900)
    page.shows("the session has another size", True, "const it = document.getElementById('picture'); return it.width / 8 > 120")
    check("what is selected stays", "102\n103", page.run(SELECTED))
    check("the lines above stay", above, page.run(ABOVE)[: len(above)])
    check_text("the text of another size", page, stream)
    page.resize(1000, 700)
    page.shows("the session has its size again", size, CELLS)
    check("what is selected stays in a smaller window", "102\n103", page.run(SELECTED))
    check_text("the text of the first size", page, stream)
    page.close()


# What is begun, the keys by which it draws on and on, and how it is ended.
DRAWING = [
    ("vim", f"vim -n -u NONE -N +'set nu laststatus=2' {TOP}/web/main.js", "jjjjjjjjjjkkkkkjjjjjjjjjjjjjjj", ":q!"),
    ("less", f"LESSHISTFILE=- less {TOP}/README.md", "jjjjjkjjjjjjbjjjjjjjjjkjjjjjjj", "q"),
]


def try_programs_turned(driver, telnet, web):
    """Programs that draw on while the window changes: the pixels and the text are those of the gateway's frames, and the
    program ends up with the window's size."""
    before = list(web.texts)
    page, stream = opened(driver, telnet, web, fields="")
    tunnel = tunnel_of(web, before)
    for name, command, keys, end in DRAWING:
        if not shutil.which(name):
            print(f"skipped: {name} isn't there")
            continue
        page.type(*f"clear; {command}", RETURN)
        until_shown(page, stream, "import" if name == "vim" else "guacgate", name)
        for width, height in WINDOWS:
            page.type(*keys)
            page.resize(width, height)
            page.type(*keys)
            count = len(sizes_of(web, tunnel))
            page.resize(width - 90, height - 60)
            page.type(*keys)
            turned_to(page, web, tunnel, count)
            until_still(page)
            check_picture(f"the pixels of {name} in a window of {width} that changed while it drew", page, stream)
            check_text(f"the text of {name} in a window of {width} that changed while it drew", page, stream)
            page.shows(f"{name} is shown to its last row", True, LAST_SEEN)
        page.type(*end, RETURN)
        until_ready(page, stream)
        check(f"the host has the size behind {name}", page.run(CELLS), stty(page, stream))
    page.close()


def try_phone(driver, telnet, web):
    """A phone, as Chromium stands in for one: fewer columns, and a keyboard that comes and goes tells nothing."""
    before = list(web.texts)
    page = driver.page(f"http://{ADDRESS}:{web.port}/#hostname={ADDRESS}&port={telnet.port}")
    turned(page, 390, 760)
    page.click("#open > button")
    page.shows("the page is open", "open", STATE)
    tunnel = tunnel_of(web, before)
    stream = lambda: web.given(tunnel)  # noqa: E731
    until_prompt(stream)
    until_latest(page, stream)
    columns, rows = page.run(CELLS)
    check("a phone has columns that can be read", True, 40 <= columns < 60 and rows > 24)
    check("the host has the phone's size", [columns, rows], stty(page, stream))
    turned(page, 390, 420)
    page.rest()
    check("the keyboard leaves the session as it is", ([], [columns, rows]), (sizes_of(web, tunnel), page.run(CELLS)))
    page.type(*"echo here", RETURN)
    until_shown(page, stream, "\nhere")
    page.shows("the cursor is seen above the keyboard", True, f"return (() => {{ {SEEN} }})()[0]")
    page.type(*"seq 100", RETURN)
    until_shown(page, stream, "\n100\n")
    page.shows("and so it is at the end of the screen", [True, True], SEEN)
    turned(page, 390, 760)
    page.rest()
    check("and so does its going", [], sizes_of(web, tunnel))
    turned(page, 760, 390)
    eventually("a phone that is turned tells its size", True, lambda: len(sizes_of(web, tunnel)) > 0)
    page.close()


def turned(page, width, height):
    page.command("Emulation.setDeviceMetricsOverride", width=width, height=height, deviceScaleFactor=3, mobile=True, screenWidth=min(width, 390), screenHeight=760)
    page.command("Emulation.setTouchEmulationEnabled", enabled=True)


def try_zoom(driver, telnet, web):
    """A page that is enlarged."""
    before = list(web.texts)
    page, _ = opened(driver, telnet, web, fields="")
    tunnel = tunnel_of(web, before)
    columns, rows = page.run(CELLS)
    page.zoom(1.25)
    told = turned_to(page, web, tunnel, 0)
    check("an enlarged page tells fewer columns", True, told is not None and 80 <= told[0] < columns and told[1] <= rows)
    page.close()


def try_sizes(driver, gateway, telnet, web):
    try_window(driver, telnet, web)
    try_others(driver, gateway, telnet, web)
    try_what_stays(driver, telnet, web)
    try_programs_turned(driver, telnet, web)
    try_zoom(driver, telnet, web)
    if driver.has_input_methods:
        try_phone(driver, telnet, web)
