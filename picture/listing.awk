# Reads a replay's listing, or what `explain` prints, which is a list of cuts before its listing; what is done with it stands in another file, which gives
# its name as `tool` and what to do as `again`. It knows the listing alone: kind[slot, message], number[slot, message], slots, lanes (the messages), arrived,
# and explained with the numbers of the list in pair[1 .. pairs]. What is no listing gets a message on standard error and exit status 1. POSIX awk.

BEGIN {
    MOST_SLOTS = 64
    MOST_MESSAGES = 32
    MOST_LINKS = 64
    NUMBER = "(0|[1-9][0-9]?)"
    EVENT = "^" NUMBER " " NUMBER " [0-7] " NUMBER "$"
    PAIRS = "^(" NUMBER " " NUMBER "( " NUMBER " " NUMBER ")*)?$"
    LAST = "^arrived " NUMBER " of " NUMBER "$"
    WHERE = "(0|[1-9][0-9]*)"
    REFUSED = "^refused [1-9][0-9]* place " WHERE "( " WHERE " " WHERE ")?$"
    OF_PATH = "^(7|10|1[4-9])$"
    slot = -1
    message = lanes = ended = failed = explained = pairs = 0
}

# The refusal of a path has three numbers behind `place`, each other one has one.
NR == 1 && $0 ~ REFUSED && ($2 ~ OF_PATH) == (NF == 6) {
    nothing("the plan, the cuts or the capture were refused (" $0 "), so there is no cycle.\n" \
        "README.md says what to do about refusal " $2 "; then ask again.")
}

NR == 1 && $0 == "unexplained" { nothing("the capture is unexplained: no list of so few cuts has exactly these crossings, so there is no cycle.") }

NR == 1 && $0 ~ PAIRS {
    explained = 1
    pairs = split($0, pair, " ")
    next
}

NR == 1 + explained {
    if ($0 != "slot message kind number") no_listing("line " NR " is not `slot message kind number`")
    next
}

ended { no_listing("something follows the line `arrived ..`") }

$0 ~ LAST {
    if (slot < 0) no_listing("there is no event in it")
    if (lanes == 0) lanes = message + 1
    if (message != lanes - 1) no_listing("slot " slot " has events for " (message + 1) " of " lanes " messages")
    slots = slot + 1
    arrived = $2 + 0
    if ($4 + 0 != lanes) no_listing("its last line says " $4 " messages, and its events are of " lanes)
    ended = 1
    next
}

$0 ~ EVENT {
    follow($1 + 0, $2 + 0)
    take($3 + 0, $4 + 0)
    next
}

{ no_listing("line " NR " is no event: " clean(substr($0, 1, 40))) }

END {
    if (failed) exit 1
    if (NR == 0) {
        nothing("nothing came in.\n" again)
        exit 1
    }
    if (!ended) no_listing("its last line `arrived N of M` is missing")
    if (failed) exit 1
}

function nothing(why) {
    if (failed) return
    failed = 1
    print tool ": " why | "cat 1>&2"
    close("cat 1>&2")
    exit 1
}

function no_listing(why) { nothing("this is no listing of a replay: " why ".\n" again) }

function clean(text) {
    gsub(/[[:cntrl:]]/, "?", text)
    return text
}

# The next event must be of the next message in the same slot, or of message 0 in the next slot.
function follow(s, m) {
    if (slot < 0) {
        if (s != 0 || m != 0) no_listing("line " NR " is not of slot 0 and message 0")
    } else if (s == slot + 1 && m == 0 && (lanes == 0 || message == lanes - 1)) {
        lanes = message + 1
    } else if (s != slot || m != message + 1 || (lanes > 0 && m >= lanes)) {
        no_listing("line " NR " is out of order: slot by slot, and in each slot message by message, from 0")
    }
    if (s >= MOST_SLOTS) no_listing("line " NR " has a slot above " (MOST_SLOTS - 1))
    if (m >= MOST_MESSAGES) no_listing("line " NR " has a message above " (MOST_MESSAGES - 1))
    slot = s
    message = m
}

function second(k) { return k == 3 || k == 4 || k == 5 || k == 7 }

function crosses(k) { return k == 2 || k == 3 }

# Takes an event, if it can come after the message's last one.
function take(k, n,    before) {
    before = slot > 0 ? kind[slot - 1, message] : 1
    if (k == 0 && (n != 0 || (before != 0 && !crosses(before))))
        no_listing("line " NR ": message " message " did not come to its target")
    if (k != 0 && before == 0)
        no_listing("line " NR ": message " message " was at its target already")
    if (k != 0 && second(before) && !second(k))
        no_listing("line " NR ": message " message " was on its second path already")
    if (n >= MOST_LINKS) no_listing("line " NR " has a number above " (MOST_LINKS - 1))
    kind[slot, message] = k
    number[slot, message] = n
}
