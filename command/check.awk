# Shows a row of numbers (standard input) as it is understood: index of the first number, the numbers, and what they say. Two links that are one cable
# name each other. It goes up to the number at which the row is refused, which it marks. The refusal is the program's and comes as CHECK_REFUSAL in the
# environment, empty where the row is good. That of a path names the link itself, by message, place and step; which number of a link or message
# another one means is looked up here. POSIX awk.

BEGIN {
    refusal = ENVIRON["CHECK_REFUSAL"]
    if (split(refusal, words, " ") >= 4) {
        no = words[2] + 0
        place = words[4] + 0
        on_first = no == 7 || no == 14 || no == 15
        on_second = no == 10 || (no >= 16 && no <= 19)
    }
    count = at = over = 0
}

# A space or a line feed parts two words, so that two of them have an empty word between them.
{
    n = split($0, parts, /[ ]/)
    if (n == 0) word[count++] = ""
    for (i = 1; i <= n; i++) word[count++] = parts[i]
}

END {
    plan()
    if (!over && at < count) {
        begin()
        take("nothing", 65535)
        if (!over) mark("more follows behind the last message")
        line("", "")
    }
    # a rule that the looking up above does not know
    if (!over && no) print "  the place is not found in the row"
    print no ? refusal : "good, " counted(count, "number")
}

# ---------------------------------------------------------------- what a row has

function plan(    i) {
    begin()
    edition = take("the edition", 65535)
    if (no == 1 && !over) mark("the edition is not 1")
    line("", "edition " edition)
    begin()
    vertices = take("the number of vertices", 63) + 1
    links = take("the number of links", 63) + 1
    messages = take("the number of messages", 31) + 1
    slots = take("the number of slots", 63) + 1
    line("", counted(vertices, "vertex") ", " counted(links, "link") ", " counted(messages, "message") ", " counted(slots, "slot"))
    for (i = 0; i < links && !over; i++) link(i)
    for (i = 0; i < messages && !over; i++) message(i)
}

function link(e,    i, back) {
    begin()
    from[e] = take("where link " e " begins", 63)
    if (no == 5 && e == place && from[e] >= vertices) mark("there is no vertex " from[e])
    to[e] = take("where link " e " ends", 63)
    if (no == 5 && e == place && !over) mark(to[e] >= vertices ? "there is no vertex " to[e] : "it ends where it begins")
    if (no == 6 && e == place)
        for (i = 0; i < e; i++) if (from[i] == from[e] && to[i] == to[e]) mark("link " i " has the same ends")
    back = other_way(e)
    line("", "link " e ": " from[e] " to " to[e] (back == "" ? "" : ", one cable with link " back))
}

# The link with the same ends reversed, which may stand further on in the row.
function other_way(e,    i) {
    for (i = 0; i < links; i++) if (i != e && word[5 + 2 * i] == to[e] "" && word[6 + 2 * i] == from[e] "") return i
    return ""
}

function message(m,    places, p) {
    begin()
    places = take("how many links the first path of message " m " has", 15) + 1
    line("", "message " m ": first path of " counted(places, "link"))
    if (no == 17 && m == place) goal = target(places)
    for (p = 0; p < places && !over; p++) place_of(m, p)
}

function place_of(m, p,    e, s, flag) {
    begin()
    e = first[p] = take("the link of place " p, 63)
    if (on_first && named(m, p, p)) mark(wrong(e, leads_to(first[p - 1])))
    s = slot[p] = take("the slot of place " p, 63)
    if (no == 8 && m == place && s >= slots) mark("there is no slot " s)
    if (no == 8 && m == place && p > 0 && s <= slot[p - 1]) mark("slots rise, and the place before has slot " slot[p - 1])
    if (no == 9 && m == place && (e, s) in owner && owner[e, s] != m) mark("message " owner[e, s] " has link " e " in slot " s)
    if (!((e, s) in owner)) owner[e, s] = m
    flag = take("whether place " p " has a second path", 1)
    line("  ", "place " p ": link " ends(e) " in slot " s ", " (flag ? "and a second path" : "no second path"))
    if (flag && !over) second(m, p)
}

function second(m, p,    n, i, e, way, here) {
    begin()
    n = take("how many links the second path has", 15) + 1
    here = first[p] < links ? from[first[p]] : "?"
    way = "by " counted(n, "link") ": " here
    for (i = 0; i < n && !over; i++) {
        e = take("link " i " of the second path", 63)
        if (on_second && named(m, p, i)) mark(wrong(e, here))
        here = leads_to(e)
        way = way ", " here
    }
    line("    ", way)
}

# Whether the refusal of a path names this link.
function named(m, p, i) { return m == place && p == words[5] && i == words[6] }

# What is wrong with the link that it names; before it the path is here.
function wrong(e, here) {
    if (no == 7 || no == 10) return "there is no link " e ": the last one is link " (links - 1)
    if (no == 14 || no == 16) return "link " e " begins at " from[e] ", and " (words[6] == 0 ? "its place stands" : "the path is") " at " here
    if (no == 15 || no == 18) return "the path comes to vertex " to[e] " again"
    if (no == 17) return "this path ends at " to[e] ", and the first path at " goal
    return "this is the link that it replaces"
}

# Where the first path ends that begins here; the row has been taken apart before rule 17 is asked.
function target(places,    i, p, e) {
    i = at
    for (p = 0; p < places; p++) {
        e = word[i]
        i += word[i + 2] ? 5 + word[i + 3] : 3
    }
    return to[e]
}

# ---------------------------------------------------------------- lines

function counted(n, what) { return n " " (n == 1 ? what : what == "vertex" ? "vertices" : what "s") }

function leads_to(e) { return e < links ? to[e] : "?" }

function ends(e) { return e < links ? e " (" from[e] " to " to[e] ")" : e }

function begin() {
    if (over) return
    start = at
    numbers = caret = ""
}

function put(text) {
    if (numbers != "") numbers = numbers " "
    under = numbers
    numbers = numbers (text == "" ? "\"\"" : text)
}

function visible(text) {
    gsub(/\r/, "\\r", text)
    gsub(/\t/, "\\t", text)
    gsub(/[[:cntrl:]]/, "?", text)
    return length(text) > 20 ? substr(text, 1, 20) ".." : text
}

# The next number, or a mark where the row ends or is refused.
function take(what, most,    w) {
    if (over) return 0
    if (at >= count) {
        put("..")
        mark("the row ends here, and " what " is missing")
        return 0
    }
    w = word[at]
    put(visible(w))
    if (w !~ /^(0|[1-9][0-9]?[0-9]?[0-9]?[0-9]?)$/ || w > 65535)
        mark("this is no number: one space or line feed parts two, no sign, no needless zero, at most 65535")
    else if (no == 3 && at == place) mark(what " is at most " most)
    at++
    return w + 0
}

# Marks the number that was put last, once.
function mark(why) {
    if (over) return
    over = 1
    caret = under
    gsub(/./, " ", caret)
    reason = why
}

function line(indent, says,    head) {
    if (shown) return
    head = sprintf("%5d: ", start)
    if (caret == "" && !over) printf "%s%-23s  %s%s\n", head, numbers, indent, says
    else {
        printf "%s%s\n", head, numbers
        printf "       %s^ %s\n", caret, reason
        shown = 1
    }
}
