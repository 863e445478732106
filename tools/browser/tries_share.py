"""Links: who shares a session makes one, others join by it and do what it lets them, and it is used up or taken back."""
import concurrent.futures
import http.client
import threading

from checks import PATIENCE, check, eventually, until
from services import ADDRESS, Viewer, instruction, owner, screen_of, until_prompt
from sessions import RETURN, RIGHTS, STATE, opened, until_ready, until_shown

SAID = "return document.querySelector('#share [role=status]').textContent"
MADE = "return [...document.querySelectorAll('#share li input')].map((it) => it.value)"
USUAL = "const role = document.querySelector('#share [name=role]'); role.value = arguments[0]; role.dispatchEvent(new Event('change')); return document.querySelector('#share [name=uses]').value"
SHARES = "return !document.getElementById('share').hidden"
NOWHERE = "This link leads nowhere any more: it is used up, was taken back, or its session is over."
STATE_AND_MESSAGE = "return [document.body.dataset.state, document.getElementById('message').textContent]"

NOWHERE_ID = "00000000-0000-4000-8000-000000000000"
# How often two come at once by a link of one use.
ROUNDS = 50
MANY = 1000


def made(page, role, uses):
    """Makes a link, and answers its address."""
    before = len(page.run(MADE))
    page.run("document.querySelector('#share').open = true")
    page.run("document.querySelector('#share [name=role]').value = arguments[0]", role)
    page.fill("#share [name=uses]", str(uses))
    page.click("#share form button")
    until(before + 1, lambda: len(page.run(MADE)))
    page.shows("a link is copied", "The link is copied.", SAID)
    return page.run(MADE)[-1]


def try_looking(driver, page, stream):
    """A link to look on, used twice, once by who asks to type all the same."""
    link = made(page, "view", 2)
    check("the link looks on", True, link.endswith("&link&read-only"))
    looking = driver.page(link)
    looking.shows("who comes by it is there", "open", STATE)
    looking.shows("and looks on", "You look on. Your keys are not sent.", RIGHTS)
    check("and makes no links", False, looking.run(SHARES))
    tampering = driver.page(link.removesuffix("&read-only"))
    tampering.shows("who asks to type is there", "open", STATE)
    tampering.type(*"echo no", RETURN)
    tampering.shows("and is answered nothing", "Your keys are sent, and nothing answers. This session may let you look on alone.", RIGHTS)
    third = driver.page(link)
    third.shows("a third is refused", ["ended", NOWHERE], STATE_AND_MESSAGE)
    for it in looking, tampering, third:
        it.close()
    check("nothing was typed", False, "no" in screen_of(stream()))


def try_typing(driver, page, stream):
    """A link to type, which is taken back."""
    link = made(page, "control", 5)
    check("who types by it keeps the size, where its maker does", True, link.endswith("&link&keep-size"))
    typing = driver.page(link)
    typing.shows("who comes by it is there", "open", STATE)
    check("and makes no links", False, typing.run(SHARES))
    until_ready(typing, stream)
    typing.type(*"echo typed", RETURN)
    until_shown(typing, stream, "\ntyped\n")
    page.run("document.querySelector('#share').open = true")
    page.click("#share li:last-child button:last-of-type")
    page.shows("it is taken back", "Nobody else joins by that link. Who is here stays.", SAID)
    check("and no longer listed", 1, len(page.run(MADE)))
    late = driver.page(link)
    late.shows("who comes late is refused", ["ended", NOWHERE], STATE_AND_MESSAGE)
    typing.type(*"echo stays", RETURN)
    until_shown(typing, stream, "\nstays\n")
    for it in late, typing:
        it.close()


def try_sharing(driver, telnet, web, plain):
    page, stream = opened(driver, telnet, web)
    page.may_copy()
    check("how often a link may be used where nobody says", ["10", "1000"], [page.run(USUAL, it) for it in ("control", "view")])
    try_looking(driver, page, stream)
    try_typing(driver, page, stream)
    web.has_sockets = False
    page.run("document.querySelector('#share').open = true")
    page.click("#share form button")
    page.shows("where no links are made it is told", "Links can’t be made at this address.", SAID)
    web.has_sockets = True
    page.close()
    alone, _ = opened(driver, telnet, plain)
    check("who isn't told its session's ID makes none", False, alone.run(SHARES))
    alone.close()


def ask(port, method, path, body=""):
    """The status, Guacamole's, and the text of what a gateway answers."""
    link = http.client.HTTPConnection(ADDRESS, port, timeout=PATIENCE)
    try:
        link.request(method, path, body)
        answer = link.getresponse()
        return answer.status, int(answer.headers.get("Guacamole-Status-Code") or 0), answer.read().decode()
    finally:
        link.close()


def form(session, role="view", uses="1"):
    return f"id=%24{session}&role={role}&uses={uses}"


def refusals(session):
    """Requests that are refused, in the order of docs/PROTOCOL.md ("Links"): what is wrong in later rows is wrong in each
    before, too."""
    yield "another path", "GET", "/links/?make", "", 404, 516
    yield "another query", "GET", "/links?list", "", 400, 768
    yield "an ID that can't be read", "GET", "/links?revoke:1", "", 400, 768
    yield "a GET that makes", "GET", "/links?make", "", 405, 768
    yield "a GET that revokes", "GET", f"/links?revoke:{NOWHERE_ID}", "", 405, 768
    yield "a link that isn't there", "POST", f"/links?revoke:{NOWHERE_ID}", form(session), 404, 516
    for it in "", f"id=%24{session}&role=view", f"id=%24{session}&uses=1", "role=view&uses=1", form(NOWHERE_ID, "type"):
        yield f"the form {it}", "POST", "/links?make", it, 400, 768
    for uses in "", "0", "1000001", "0" * 20 + "1", "1.0", "-1":
        yield f"{uses} uses", "POST", "/links?make", form(NOWHERE_ID, uses=uses), 400, 768
    for it in NOWHERE_ID, session[1:]:
        yield f"no session {it}", "POST", "/links?make", form(it), 404, 516


def link_to(port, session, role="view", uses="1"):
    status, _, name = ask(port, "POST", "/links?make", form(session, role, uses))
    check(f"a link to {role}, {uses} times", (200, 37), (status, len(name)))
    return name


def join(port, name, looks="false"):
    """The status of who joins by a name, and its tunnel."""
    status, _, tunnel = ask(port, "POST", "/tunnel?connect", f"id=%24{name[1:]}&read-only={looks}")
    return status, tunnel


def leave(port, tunnel):
    ask(port, "POST", f"/tunnel?write:{tunnel}", instruction("disconnect").decode())


def try_uses(port, session):
    """The least and the most uses, a link that leads to none, and many links, each for one."""
    for uses in "1000000", "0" * 19 + "1":
        link_to(port, session, uses=uses)
    first = link_to(port, session)
    check("a link leads to no link", (404, 516), ask(port, "POST", "/links?make", form(first[1:]))[:2])
    names = [ask(port, "POST", "/links?make", form(session))[2] for _ in range(MANY)]
    check("many links have names of their own", MANY, len(set(names)))
    statuses = set()
    for name in names:
        status, tunnel = join(port, name)
        leave(port, tunnel)
        statuses.add((status, join(port, name)[0]))
    check("each is good once", {(200, 404)}, statuses)


def try_two_at_once(port, session):
    """Of two who come at once by a link of one use one gets in."""
    found = []
    with concurrent.futures.ThreadPoolExecutor(2) as pool:
        for _ in range(ROUNDS):
            name, gate = ask(port, "POST", "/links?make", form(session))[2], threading.Barrier(2)
            answers = list(pool.map(lambda _: gate.wait() >= 0 and join(port, name), range(2)))
            found.append(sorted(status for status, _ in answers))
            for status, tunnel in answers:
                if status == 200:
                    leave(port, tunnel)
    check("of two at once one gets in", [[200, 404]] * ROUNDS, found)


def try_requests(gateway, telnet):
    """What the gateway answers to requests for links, without a page."""
    first = owner(gateway.port, telnet.port, "control")
    port, session = gateway.port, first.id[1:]
    until_prompt(lambda: first.text)
    for name, method, path, body, status, code in refusals(session):
        check(f"{name} is refused", (status, code, ""), ask(port, method, path, body))
    try_uses(port, session)
    try_two_at_once(port, session)
    name = link_to(port, session, "control", "9")
    by_link = Viewer(port, instruction("select", name), instruction("connect", "VERSION_1_1_0", ""))
    check("who joins is told the link's name", name, by_link.id)
    _, looks = join(port, name, "true")
    ask(port, "POST", f"/tunnel?write:{looks}", "".join(instruction("key", str(ord(it)), "1").decode() for it in "no"))
    by_link.socket.sendall(instruction("key", str(ord("y")), "1"))
    eventually("a link to type lets who looks on type nothing", True, lambda: screen_of(first.text).rstrip().endswith(" y"))
    check("it is taken back, and once more", [200, 200], [ask(port, "POST", f"/links?revoke:{name[1:]}")[0] for _ in range(2)])
    check("nobody joins by it", 404, join(port, name)[0])
    by_link.socket.sendall(instruction("key", str(ord("s")), "1"))
    eventually("who is there stays", True, lambda: screen_of(first.text).rstrip().endswith(" ys"))
    leave(port, looks)
    by_link.close()
    first.close()
