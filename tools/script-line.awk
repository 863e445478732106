# Tells the first line of a script that is outside the grammar of docs/SCRIPT.md, and why.
# Run it in the C locale, so that lengths are bytes.
function fault(why) { print "line " NR ": " why; told = 1; exit }
function is_number(word) { return word ~ /^[0-9]+$/ && length(word) <= 20 }
# Whether a number is at most another; as texts, since they may be longer than awk's numbers.
function at_most(word, most) {
    sub(/^0+/, "", word)
    return length(word) < length(most) || (length(word) == length(most) && (word "") <= (most ""))
}
function number(name, word, most) {
    if (!is_number(word)) fault(name " is \"" word "\", and should be a number of 1 to 20 digits")
    if (!at_most(word, most)) fault(name " is " word ", and is at most " most)
}
function words(count) { if (n != count) fault("\"" w[1] "\" takes " count - 1 " words; " n - 1 " stand behind it") }
function screen(cols, rows) {
    number("the columns", cols, "512"); number("the rows", rows, "256")
    if (cols + 0 == 0 || rows + 0 == 0) fault("a screen has at least 1 column and 1 row")
    if (cols * rows > 8192) fault(cols " x " rows " is " cols * rows " cells, at most 8192")
}
function start() {
    words(4)
    screen(w[2], w[3])
    if (w[4] !~ /^(none|view|control)$/) fault("the mode is \"" w[4] "\", and should be none, view or control")
    if (started) fault("the session was started before")
    started = 1
}
function server() {
    words(2)
    if (w[2] !~ /^[0-9a-fA-F]*$/) fault("a hexadecimal digit is 0 to 9, a to f or A to F")
    if (length(w[2]) % 2) fault("an even number of hexadecimal digits is needed")
    if (length(w[2]) == 0 || length(w[2]) > 131072) fault("1 to 65,536 bytes are needed")
}
{
    sub(/\r$/, "")
    if (length($0) > 262144) fault("a line has at most 262,144 bytes")
    size += length($0) + 1
    if ($0 == "" || $0 ~ /^#/) next
    if ($0 ~ /^write[ \t]/) {
        rest = substr($0, 7)
        if (!match(rest, /[ \t]/)) fault("\"write\" takes a viewer's number, a blank and instructions")
        number("the viewer", substr(rest, 1, RSTART - 1), "4294967295")
        if (!started) fault("the session isn't started yet; \"start\" comes first")
        next
    }
    if ($0 ~ /^[ \t]|[ \t][ \t]|[ \t]$/) fault("one blank stands between two words, and none before or behind them")
    n = split($0, w, /[ \t]/)
    if (w[1] == "at") { words(2); number("the time", w[2], "18446744073709551615"); next }
    if (w[1] !~ /^(start|server|join|read|size|take|leave|close|pixel|same)$/) fault("\"" w[1] "\" is no word of a script")
    if (w[1] == "start") { start(); next }
    if (!started) fault("the session isn't started yet; \"start\" comes first")
    if (w[1] == "server") server()
    if (w[1] == "join") { words(2); if (w[2] !~ /^(owner|control|view|keep)$/) fault("a viewer joins as owner, control, view or keep") }
    if (w[1] == "read" || w[1] == "leave") { words(2); number("the viewer", w[2], "4294967295") }
    if (w[1] == "size") { words(4); number("the viewer", w[2], "4294967295"); screen(w[3], w[4]) }
    if (w[1] == "take") { words(2); number("the most bytes", w[2], "65536") }
    if (w[1] == "close") words(1)
    if (w[1] == "pixel") { words(4); number("the viewer", w[2], "4294967295"); number("x", w[3], "18446744073709551615"); number("y", w[4], "18446744073709551615") }
    if (w[1] == "same") { words(3); number("the viewer", w[2], "4294967295"); number("the other viewer", w[3], "4294967295") }
}
