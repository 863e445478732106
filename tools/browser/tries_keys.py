"""The table of keys: what the host receives of each key, as `cat -vt` of a terminal that changes nothing prints it, with
`^` and `M-`. The bytes are those of docs/PROTOCOL.md ("Keys")."""
from checks import check
from services import screen_of
from sessions import ALT, BACKSPACE, CONTROL, DELETE, DOWN, END, ESCAPE, F, FOCUS, HOME, INSERT, LEFT, PAGE_DOWN, PAGE_UP, RETURN, RIGHT, SHIFT, TAB, UP, opened, paste, until_shown

LISTEN = "stty -istrip -icanon -echo -isig -ixon -icrnl -iexten; clear; cat -vt"
SENT = [
    ("letters and signs", [*"aZ%{~ "], "aZ%{~ "),
    ("named keys", [BACKSPACE, TAB, RETURN, ESCAPE, DELETE, INSERT], "^?^I^M^[^[[3~^[[2~"),
    ("places", [UP, DOWN, RIGHT, LEFT, HOME, END, PAGE_UP, PAGE_DOWN], "^[[A^[[B^[[C^[[D^[[1~^[[4~^[[5~^[[6~"),
    ("F1 to F6", F[1:7], "^[[[A^[[[B^[[[C^[[[D^[[[E^[[17~"),
    ("F7 to F12", F[7:], "^[[18~^[[19~^[[20~^[[21~^[[23~^[[24~"),
    ("Control", [[CONTROL, "a"], [CONTROL, "r"], [CONTROL, "l"], [CONTROL, " "], [CONTROL, "["], [CONTROL, "\\"], [CONTROL, "]"]], "^A^R^L^@^[^\\^]"),
    ("Control and Shift with a sign", [[CONTROL, SHIFT, "_"], [CONTROL, SHIFT, "^"]], "^_^^"),
    ("Alt", [[ALT, "x"], [ALT, LEFT], [CONTROL, ALT, "x"]], "^[x^[^[[D^[^X"),
    ("Shift with keys that it doesn't change", [[SHIFT, RETURN], [SHIFT, BACKSPACE]], "^M^?"),
    ("keys that the table hasn't", [[SHIFT, TAB], [SHIFT, UP], [CONTROL, LEFT], [CONTROL, "/"], [CONTROL, "5"]], ""),
    ("the browser's own", [[CONTROL, "+"], [CONTROL, "-"], [CONTROL, "0"]], ""),
]


def try_key_table(driver, telnet, web):
    page, stream = opened(driver, telnet, web)
    page.type(*LISTEN, RETURN)
    page.shows("the screen is clear", "", "return document.querySelector('#text').textContent")
    for name, keys, wanted in SENT:
        # A line feed is Control and J, and begins a line.
        page.type("<", *keys, ">", [CONTROL, "j"])
        until_shown(page, stream, f"<{wanted}>", name)
    paste(page, "one €", [CONTROL, SHIFT, "v"])
    until_shown(page, stream, "one M-bM-^BM-,", "what Control-Shift-V pastes")
    paste(page, "three", [SHIFT, INSERT])
    until_shown(page, stream, ",three", "what Shift-Insert pastes")
    check("each is pasted once", (1, 1), (screen_of(stream()).count("one"), screen_of(stream()).count("three")))
    if driver.has_input_methods:
        page.compose(["'", "'e"], "é")
        until_shown(page, stream, "threeM-CM-)", "an input method")
    page.close()


def try_buttons(driver, telnet, web):
    """The row of keys of a touch screen, which is shown here by hand."""
    page, stream = opened(driver, telnet, web)
    page.type(*LISTEN, RETURN)
    page.shows("the screen is clear", "", "return document.querySelector('#text').textContent")
    page.run("document.getElementById('touch').style.display = 'flex'")
    for name in ("Escape", "Tab", "ArrowUp", "ArrowLeft", "Control"):
        page.click(f"#touch [data-key={name}]")
    page.shows("a button keeps the focus in the terminal", "keys", FOCUS)
    page.shows("Control is held", "true", "return document.querySelector('#touch [data-key=Control]').getAttribute('aria-pressed')")
    page.type("c", "d")
    until_shown(page, stream, "^[^I^[[A^[[D^Cd", "the buttons")
    page.shows("Control is held for one key", "false", "return document.querySelector('#touch [data-key=Control]').getAttribute('aria-pressed')")
    page.close()
