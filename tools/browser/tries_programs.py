"""Programs that use the whole screen, in windows of three sizes: the characters that the page has are those that `look`
reads of the same frames, the pixels are the gateway's, and a picture of each page is kept to be looked at."""
import shutil

from services import ADDRESS, TOP, owner, until_prompt
from sessions import DOWN, ESCAPE, F, RETURN, STATE, check_picture, check_text, until_ready, until_shown, until_still

# The program, how it is begun, what is typed then, and what is shown in the end.
PROGRAMS = [
    ("vim", f"vim -n -u NONE -N +'syntax on' +'set nu nowrap hlsearch' {TOP}/web/rest.js", [*"/rest", RETURN], "rest"),
    ("mc", f"mc -a {TOP} {TOP}/web", [DOWN, DOWN], "web"),
    ("dialog", "LC_ALL=C dialog --ascii-lines --title Choose --menu 'What is next?' 15 50 6 a 'The first' b 'The second' c 'The third'", [DOWN], "second"),
    ("htop", "htop -d 300", [], "PID"),
    ("less", f"less -i {TOP}/README.md", [*"/viewer", RETURN], "viewer"),
]
WINDOWS = [(1000, 700), (1400, 1000), (640, 480)]
# How each is ended, so that the next can begin.
ENDS = {"vim": [ESCAPE, *":q!", RETURN], "mc": [F[10], RETURN], "dialog": [ESCAPE, ESCAPE], "htop": ["q"], "less": ["q"]}


def try_programs(driver, gateway, telnet, web, folder, terminal_type="", columns=100, rows=30):
    folder.mkdir(parents=True, exist_ok=True)
    first = owner(gateway.port, telnet.port, "control", 8 * columns, 16 * rows)
    stream = lambda: first.text  # noqa: E731
    until_prompt(stream)
    page = driver.page(f"http://{ADDRESS}:{web.port}/#id={first.id}&keep-size")
    page.shows("the page is open", "open", STATE)
    page.type(*f"export PAGER=cat LESSHISTFILE=- {terminal_type}; clear", RETURN)
    for name, command, keys, wanted in PROGRAMS:
        if not shutil.which(name):
            print(f"skipped: {name} isn't there")
            continue
        page.type(*f"clear; {command}", RETURN)
        until_shown(page, stream, wanted, name)
        until_still(page)
        page.type(*keys)
        until_still(page)
        for width, height in WINDOWS:
            page.resize(width, height)
            page.rest()
            check_picture(f"the pixels of {name} in a window of {width}", page, stream)
            check_text(f"the text of {name} in a window of {width}", page, stream)
            (folder / f"{name}-{width}-{driver.name}.png").write_bytes(page.screenshot())
        page.type(*ENDS[name])
        until_ready(page, stream)
    page.close()
    first.close()
