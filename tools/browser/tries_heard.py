"""The page without a mouse and without eyes: what is said, what has the focus, and the list of what WCAG 2.1 AA wants
of a page as far as it can be told from its elements."""
from checks import check, eventually
from sessions import CONTROL, ESCAPE, F, FOCUS, HEAR, HEARD, LINES, MESSAGE, RETURN, SHIFT, STATE, TAB, opened, until_shown

NEWS = "return document.getElementById('news').textContent"
# Each answers the elements that lack something.
WCAG = {
    "the page has a language and a title (3.1.1, 2.4.2)": "return document.documentElement.lang && document.title ? [] : ['html']",
    "each field has a label (1.3.1, 4.1.2)": "return [...document.querySelectorAll('input, select, textarea')].filter((it) => !it.labels?.length && !it.ariaLabel && !it.getAttribute('aria-label')).map((it) => it.outerHTML)",
    "each button and link has a name (4.1.2)": "return [...document.querySelectorAll('button, summary, a[href]')].filter((it) => !it.hidden && !(it.getAttribute('aria-label') ?? it.textContent).trim()).map((it) => it.outerHTML)",
    "each canvas is hidden from readers, which have its text (1.1.1)": "return [...document.querySelectorAll('canvas')].filter((it) => it.getAttribute('aria-hidden') !== 'true').map((it) => it.id)",
    "each ID stands once (4.1.1)": "const ids = [...document.querySelectorAll('[id]')].map((it) => it.id); return ids.filter((it, k) => ids.indexOf(it) !== k)",
    "states are told as status (4.1.3)": "return ['message', 'rights'].filter((it) => document.getElementById(it).getAttribute('role') !== 'status')",
    "no order of the focus of its own (2.4.3)": "return [...document.querySelectorAll('[tabindex]')].filter((it) => it.tabIndex > 0).map((it) => it.id)",
    "the page may be enlarged (1.4.4)": "return /user-scalable|maximum-scale/.test(document.querySelector('meta[name=viewport]').content) ? ['viewport'] : []",
    "text has a contrast of 4.5 (1.4.3)": """
        const luminance = (colour) => { const [r, g, b] = colour.map((it) => (it /= 255, it <= 0.04045 ? it / 12.92 : ((it + 0.055) / 1.055) ** 2.4)); return 0.2126 * r + 0.7152 * g + 0.0722 * b; };
        const parts = (text) => text.match(/[0-9.]+/g).map(Number);
        const ground = (it) => { for (; it; it = it.parentElement) { const colour = parts(getComputedStyle(it).backgroundColor); if (colour.length < 4 || colour[3] > 0) return colour.slice(0, 3); } return [0, 0, 0]; };
        const shown = [...document.querySelectorAll('body *')].filter((it) => it.checkVisibility() && !it.closest('#text, .unseen, canvas, #keys, #picture') && [...it.childNodes].some((node) => node.nodeType === 3 && node.data.trim()));
        return shown.filter((it) => { const [one, other] = [luminance(parts(getComputedStyle(it).color).slice(0, 3)), luminance(ground(it))].sort((a, b) => a - b); return (other + 0.05) / (one + 0.05) < 4.5; }).map((it) => it.outerHTML.slice(0, 80));
    """,
}


def check_list(page, where):
    for name, script in WCAG.items():
        check(f"{where}: {name}", [], page.run(script))


def try_hearing(driver, telnet, web):
    page, stream = opened(driver, telnet, web)
    check_list(page, "a terminal")
    page.run(HEAR, "news")
    page.type(*"echo heard; ls /nowhere", RETURN)
    until_shown(page, stream, "cannot access")
    eventually("new lines are said", True, lambda: all(it in page.run(HEARD, "news") for it in ("heard", "cannot access")))
    check("a reader has the text of the screen", True, any("cannot access" in it for it in page.run(LINES)))
    if driver.has_input_methods:
        names = lambda: [it.get("name", {}).get("value", "") for it in page.command("Accessibility.getFullAXTree")["nodes"]]  # noqa: E731
        eventually("and so has the tree that it is given", True, lambda: any("cannot access" in it for it in names()))
    page.type([CONTROL, SHIFT, "l"])
    page.type(*"echo quiet", RETURN)
    until_shown(page, stream, "\nquiet")
    page.rest(30)
    check("what is off says nothing", "New lines are no longer said.", page.run(NEWS))
    page.type([CONTROL, SHIFT, "l"])
    page.close()


def try_leaving(driver, telnet, web):
    page, stream = opened(driver, telnet, web)
    page.shows("the terminal has the focus", "keys", FOCUS)
    page.type(TAB)
    page.shows("Tab is the terminal's", "keys", FOCUS)
    for key in ([CONTROL, F[6]], [CONTROL, SHIFT, ESCAPE]):
        page.type(key)
        page.shows("the stated key leaves the terminal", "SUMMARY", FOCUS)
        page.type([SHIFT, TAB])
        page.shows("and Shift-Tab comes back", "keys", FOCUS)
    told = page.run("return document.getElementById(document.getElementById('keys').getAttribute('aria-describedby')).textContent")
    check("the page tells the key", True, "Control-F6" in told)
    page.type([CONTROL, F[6]])
    for panel, field, keys in ("share", "role", [RETURN]), ("panel", "text", [TAB, RETURN]):
        is_open = f"return document.getElementById('{panel}').open"
        page.type(*keys)
        page.shows(f"{panel} is open", True, is_open)
        check_list(page, panel)
        page.type(TAB)
        page.shows("its fields are reached by Tab", field, "return document.activeElement.name")
        page.type(ESCAPE)
        page.shows("Escape closes it", False, is_open)
    page.click("#terminal")
    page.type(*"exit", RETURN)
    page.shows("the page is ended", "ended", STATE)
    page.shows("the end has its cause", "The host has ended the session.", MESSAGE)
    page.shows("the button has the focus", "again", FOCUS)
    check_list(page, "an end")
    page.type(RETURN)
    page.shows("the form is there again", "idle", STATE)
    check_list(page, "the forms")
    page.close()
