"""What is pasted: several lines are asked about once, by keyboard alone, and what is too long is told and not cut."""
from checks import check
from services import screen_of
from sessions import CONTROL, ESCAPE, FOCUS, NOTICE, RETURN, SHIFT, TAB, opened, paste, until_shown
from tries_heard import check_list
from tries_keys import LISTEN

ASKED = "const it = document.getElementById('asking'); return it.open ? it.querySelector('h1').textContent : ''"
# What a reader is told of what is asked: the name and the description, of elements that are there.
TOLD = "const it = document.getElementById('asking'); return ['labelledby', 'describedby'].map((name) => document.getElementById(it.getAttribute(`aria-${name}`)).textContent)"
PASTES = [CONTROL, SHIFT, "v"]


def try_pasting(driver, telnet, web):
    page, stream = opened(driver, telnet, web)
    page.type(*LISTEN, RETURN)
    page.shows("the screen is clear", "", "return document.querySelector('#text').textContent")
    lines = "\n".join(f"l{k}" for k in range(1, 13))
    paste(page, lines, PASTES)
    page.shows("12 lines are asked about", "Paste 12 lines?", ASKED)
    check("a reader is told of them", ["Paste 12 lines?", lines], page.run(TOLD))
    page.shows("the answer has the focus", "Paste", "return document.activeElement.textContent")
    check_list(page, "a question")
    page.type(ESCAPE)
    page.shows("Escape answers no", "", ASKED)
    page.shows("the terminal has the focus again", "keys", FOCUS)
    page.type("<")
    until_shown(page, stream, "<")
    check("nothing is pasted", False, "l1" in screen_of(stream()))
    paste(page, lines, PASTES)
    page.shows("they are asked about again", "Paste 12 lines?", ASKED)
    page.type([SHIFT, TAB], " ")
    page.shows("not to ask is chosen by the keyboard", True, "return document.querySelector('#asking input').checked")
    page.type(TAB, RETURN)
    until_shown(page, stream, "<l1^Ml2^Ml3")
    until_shown(page, stream, "^Ml11^Ml12")
    page.type(">")
    paste(page, "one\r\ntwo", PASTES)
    until_shown(page, stream, ">one^Mtwo", "what isn't asked about")
    check("it isn't asked again", "", page.run(ASKED))
    paste(page, "x" * 262145, PASTES)
    page.shows("what is too long is told", "This is too long to paste: it has 262,145 bytes, and at most 262,144 are pasted. Nothing was sent.", NOTICE)
    page.type("!")
    until_shown(page, stream, "two!")
    page.close()
