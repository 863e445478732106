"""A link that is lost, while a person types or nobody does: the page says so, comes back by itself with the whole screen,
sends no key twice, and tells where one may be lost; the places that it had are given back."""
import http.client
import string
import threading
import time

from checks import PATIENCE, check, eventually, until
from services import ADDRESS, Link, instruction, owner, screen_of, until_prompt
from sessions import CONTROL, HEAR, HEARD, MESSAGE, NOTICE, RETURN, STATE, check_picture, check_text, opened, until_latest, until_ready, until_shown
from webdriver import asleep

ONLINE = "dispatchEvent(new Event('online'))"
UNREACHABLE = "The connection to the gateway was lost, and this session can’t be reached from here any more."
LOST = "Some keys may be lost."
THROWN = "What you typed was thrown away."
PRESS = "document.getElementById('keys').dispatchEvent(new KeyboardEvent(arguments[0], { key: 'Control', code: 'ControlLeft', ctrlKey: arguments[1] }))"
# Each once, so that it is seen which are missing and whether one came twice.
LETTERS = string.ascii_lowercase + string.digits + string.ascii_uppercase
# How many may be in a session (docs/TEACHING.md).
MOST_VIEWERS = 64


def is_part(part, whole):
    """Whether letters are those of a text in its order, some of which may be missing."""
    rest = iter(whole)
    return all(letter in rest for letter in part)


def is_timely(began):
    """Whether keys that were typed since then were kept for all that time. On a machine that is slower they aren't."""
    return time.time() - began < 9.5


def joined(driver, link, first, words="&keep-size"):
    page = driver.page(f"http://{ADDRESS}:{link.port}/#id=%24{first.id[1:]}{words}")
    page.shows("the page is open", "open", STATE)
    page.run(HEAR, "notice")
    return page


def typed_over(page, link, stream, seconds):
    """Types letters while the link is cut for so long, and answers them, those that came to the host, and what was told."""
    # What is typed while the screen is cleared goes with it.
    page.type(*"clear; echo ready", RETURN)
    until(True, lambda: screen_of(stream()).startswith("ready\n") and screen_of(stream()).rstrip()[-1:] in ("$", "#"))
    until_ready(page, stream)
    page.type(*"echo ")
    until_shown(page, stream, " echo\n")
    heard = len(page.run(HEARD, "notice"))
    blip = threading.Thread(target=lambda: (time.sleep(0.3), link.cut(), time.sleep(seconds), link.mend()))
    blip.start()
    letters = iter(LETTERS)
    typed = ""
    while blip.is_alive():
        letter = next(letters, None)
        if letter:
            typed += letter
            page.type(letter)
        time.sleep(seconds / 80)
    told = lambda: page.run(HEARD, "notice")[heard:]  # noqa: E731
    eventually(f"that it is back is told behind {seconds} seconds", True, lambda: "The connection is back." in told())
    page.shows(f"a page is back behind {seconds} seconds", "open", STATE)
    page.type(RETURN)
    until(True, lambda: len(screen_of(stream()).rstrip().split("\n")) >= 4 and screen_of(stream()).rstrip()[-1:] in ("$", "#"))
    return typed, screen_of(stream()).split("\n")[2], told()


def try_blips(driver, gateway, telnet, web):
    """The link is cut for 0.7, 5 and 60 seconds, or 20, while a person types."""
    first, link = owner(gateway.port, telnet.port, "control"), Link(web.port)
    stream = lambda: first.text  # noqa: E731
    until_prompt(stream)
    page = joined(driver, link, first)
    for seconds in (0.7, 5, 60 if web.has_sockets else 20):
        typed, came, told = typed_over(page, link, stream, seconds)
        check(f"no letter comes twice or too early over {seconds} seconds", True, is_part(came, typed))
        check(f"where one is missing it is told, over {seconds} seconds", True, came == typed or LOST in told or THROWN in told)
        until_latest(page, stream)
        check_picture(f"the pixels behind {seconds} seconds", page, stream)
        check_text(f"the text behind {seconds} seconds", page, stream)
    page.close()
    link.close()
    first.close()


def try_kept(driver, gateway, telnet, web):
    """What is typed while the link is lost is sent where it is back within 10 seconds, and else thrown away."""
    first, link = owner(gateway.port, telnet.port, "control"), Link(web.port)
    stream = lambda: first.text  # noqa: E731
    until_prompt(stream)
    page = joined(driver, link, first)
    link.cut()
    page.shows("a page whose link is lost", "lost", STATE)
    check("what it says", "The connection is lost. This page comes back by itself. Keys are kept for 10 seconds.", page.run(MESSAGE))
    page.shows("it offers to try at once", "Try now", "const it = document.getElementById('again'); return it.hidden ? '' : it.textContent")
    began = time.time()
    page.type(*"echo kept", RETURN)
    link.mend()
    # It may be back before a click of the mouse.
    page.run("document.getElementById('again').click()")
    page.shows("it is back", "open", STATE)
    if is_timely(began):
        until_shown(page, stream, "\nkept\n")
    link.cut()
    page.shows("the link is lost again", "lost", STATE)
    page.click("#screen")
    page.type(*"echo gone", RETURN)
    page.shows("what is thrown away is told", THROWN, NOTICE)
    page.type(*"echo late", RETURN)
    link.mend()
    page.run(ONLINE)
    page.shows("the event online brings it back", "open", STATE)
    eventually("and so it is told when it is back", True, lambda: f"The connection is back. {THROWN}" in page.run(HEARD, "notice"))
    page.type(*"echo then", RETURN)
    until_shown(page, stream, "\nthen\n")
    check("what was thrown away doesn't come", (False, False), ("gone" in screen_of(stream()), "late" in screen_of(stream())))
    page.close()
    link.close()
    first.close()


def post(port, query, body):
    """The status and the body of what a gateway answers."""
    ask = http.client.HTTPConnection(ADDRESS, port, timeout=PATIENCE)
    try:
        ask.request("POST", f"/tunnel?{query}", body)
        answer = ask.getresponse()
        return answer.status, answer.read().decode()
    finally:
        ask.close()


def places_left(port, session):
    """How many more may join a session. They leave it again."""
    tunnels = []
    while len(tunnels) <= MOST_VIEWERS:
        status, tunnel = post(port, "connect", f"id={session}")
        if status != 200:
            break
        tunnels.append(tunnel)
    for tunnel in tunnels:
        post(port, f"write:{tunnel}", instruction("disconnect"))
    return len(tunnels)


def reload(page, first=""):
    """Loads the page anew, and waits until it is another document: the one before may still answer for a moment."""
    page.run(f"window.wasThere = true; {first} location.reload()")
    check("it is loaded anew", True, page.until("return window.wasThere !== true", True))


def try_places(driver, gateway, telnet, web):
    """40 lost links and reloads leave a session with the places that it had."""
    first, link = owner(gateway.port, telnet.port, "control"), Link(web.port)
    stream = lambda: first.text  # noqa: E731
    until_prompt(stream)
    page = joined(driver, link, first, "&read-only")
    for _ in range(40):
        tunnels = len(web.texts)
        link.cut()
        until("lost", lambda: page.run(STATE))
        link.mend()
        page.run(ONLINE)
        until("open", lambda: page.run(STATE))
        until(True, lambda: len(web.texts) > tunnels)
    reload(page)
    page.shows("a reload comes back", "open", STATE)
    page.shows("as what it was", "You look on. Your keys are not sent.", "return document.getElementById('rights').textContent")
    reload(page, "history.replaceState(null, '', location.pathname);")
    page.shows("by what the tab keeps, too", ["open", "You look on. Your keys are not sent."], "return [document.body.dataset.state, document.getElementById('rights').textContent]")
    check_picture("the pixels behind it all", page, stream)
    eventually("places are left for all others", MOST_VIEWERS - 2, lambda: places_left(gateway.port, first.id))
    page.close()
    link.close()
    first.close()


def try_quiet(driver, gateway, telnet, web):
    """A link that goes silent, as where a machine has slept."""
    first, link = owner(gateway.port, telnet.port, "control"), Link(web.port)
    stream = lambda: first.text  # noqa: E731
    until_prompt(stream)
    page = joined(driver, link, first)
    link.is_silent = True
    page.shows("a silent link is told of, though nobody types", ["unstable", "The gateway doesn’t answer. Keys are kept for 10 seconds."], "return [document.body.dataset.state, document.getElementById('message').textContent]")
    page.shows("and given up", "lost", STATE)
    first.socket.sendall(b"".join(instruction("key", str(ord(it)), "1") for it in "echo meanwhile") + instruction("key", "65293", "1"))
    until(True, lambda: "\nmeanwhile\n" in screen_of(stream()))
    link.cut()
    link.mend()
    page.run(ONLINE)
    page.shows("it is back", "open", STATE)
    until_shown(page, stream, "\nmeanwhile\n")
    check_picture("with the whole screen", page, stream)
    page.close()
    link.close()
    first.close()


def try_sleep(driver, gateway, telnet, web):
    """A machine that sleeps for a minute, while something is shown: its browser is stopped, and then goes on."""
    first = owner(gateway.port, telnet.port, "control")
    stream = lambda: first.text  # noqa: E731
    until_prompt(stream)
    page = joined(driver, web, first)
    with asleep(driver):
        first.socket.sendall(b"".join(instruction("key", str(ord(it)), "1") for it in "echo meanwhile") + instruction("key", "65293", "1"))
        until(True, lambda: "\nmeanwhile\n" in screen_of(stream()))
        time.sleep(60)
    until_shown(page, stream, "\nmeanwhile\n")
    page.shows("a page that has slept is open", "open", STATE)
    eventually("it has joined again", True, lambda: "The connection is back." in page.run(HEARD, "notice"))
    page.type(*"echo awake", RETURN)
    until_shown(page, stream, "\nawake\n")
    eventually("and has one place", MOST_VIEWERS - 2, lambda: places_left(gateway.port, first.id))
    page.close()
    first.close()


def try_release(page, stream, web):
    """The write with the release of Control is lost. The letter behind it is a letter all the same, and ends no program."""
    until_ready(page, stream)
    page.type(*"cat", RETURN, *"one", RETURN)
    until_shown(page, stream, "\none\none\n")
    page.run(PRESS, "keydown", True)
    until(True, lambda: any(it.endswith(instruction("key", "65507", "1")) for it in web.written.values()))
    web.refuses = 0
    page.run(PRESS, "keyup", False)
    page.shows("a write that has no answer is told of", "unstable", STATE)
    web.refuses = None
    page.run(ONLINE)
    page.shows("it goes on", "open", STATE)
    eventually("that keys may be lost is told", True, lambda: f"The connection is back. {LOST}" in page.run(HEARD, "notice"))
    page.type("c", RETURN)
    until_shown(page, stream, "\nc\nc\n")
    page.type([CONTROL, "d"])
    until_ready(page, stream)


def try_held(driver, gateway, telnet, web):
    """The link is lost while Control is held. The letter behind it is a letter all the same, and ends no program."""
    first, link = owner(gateway.port, telnet.port, "control"), Link(web.port)
    stream = lambda: first.text  # noqa: E731
    until_prompt(stream)
    page = joined(driver, link, first)
    page.type(*"cat", RETURN, *"one", RETURN)
    until_shown(page, stream, "\none\none\n")
    page.run(PRESS, "keydown", True)
    until(True, lambda: any(it.endswith(instruction("key", "65507", "1")) for it in web.written.values()))
    link.cut()
    page.shows("the link is lost", "lost", STATE)
    page.run(PRESS, "keyup", False)
    link.mend()
    page.run(ONLINE)
    page.shows("it is back", "open", STATE)
    page.type("c", RETURN)
    until_shown(page, stream, "\nc\nc\n")
    page.type([CONTROL, "d"])
    until_ready(page, stream)
    page.close()
    link.close()
    first.close()


def opened_over(driver, telnet, web):
    """A link, and a page that has opened a session over it."""
    link = Link(web.port)
    near = type("Near", (), {"port": link.port, "texts": web.texts, "given": staticmethod(web.given)})
    return link, *opened(driver, telnet, near)


def try_own(driver, telnet, web):
    """A page that has opened its session knows its ID: it comes back, and so does a reload."""
    link, page, _ = opened_over(driver, telnet, web)
    stream = lambda: web.given(list(web.texts)[-1])  # noqa: E731
    for name, lose in ("a blip", lambda: (link.cut(), until("lost", lambda: page.run(STATE)), link.mend())), ("a reload", page.reload):
        tunnels = len(web.texts)
        lose()
        until(True, lambda: len(web.texts) > tunnels)
        page.shows(f"it is open behind {name}", "open", STATE)
        until_ready(page, stream)
        page.type(*f"echo on{len(name)}", RETURN)
        until_shown(page, stream, f"\non{len(name)}\n")
    page.close()
    link.close()


def try_alone(driver, telnet, web):
    """A session that nobody can join: a write that wasn't done is done again, one that may have been done isn't, and a
    lost link is the end."""
    link, page, stream = opened_over(driver, telnet, web)
    page.run(HEAR, "notice")
    web.refuses = 502
    began = time.time()
    page.type(*"echo again")
    page.shows("a write that fails is told of", "unstable", STATE)
    web.refuses = None
    page.run(ONLINE)
    page.shows("it is mended", "open", STATE)
    page.type(RETURN)
    if is_timely(began):
        until_shown(page, stream, "\nagain\n")
    check("nothing is told of lost keys", False, LOST in page.run(HEARD, "notice"))
    try_release(page, stream, web)
    link.cut()
    page.shows("a lost link is the end of it", ["ended", UNREACHABLE], "return [document.body.dataset.state, document.getElementById('message').textContent]")
    link.mend()
    page.click("#again")
    page.shows("another can be opened", "idle", STATE)
    page.close()
    link.close()


def try_links(driver, gateway, telnet, web):
    try_blips(driver, gateway, telnet, web)
    try_kept(driver, gateway, telnet, web)
    try_places(driver, gateway, telnet, web)
    try_quiet(driver, gateway, telnet, web)
    if web.has_sockets:
        try_sleep(driver, gateway, telnet, web)
        try_own(driver, telnet, web)
        try_held(driver, gateway, telnet, web)
    else:
        try_alone(driver, telnet, web)
