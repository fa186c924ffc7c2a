# Says in words what the programs said of a plan: the row, the verdict's lines, and a replay's listing of each list that is shown. POSIX awk.
#
#   awk -v lists=1 -f summary.awk ROW VERDICT               the lists that have to be replayed, one a line: slot link slot link ..
#   awk -f summary.awk ROW VERDICT LISTING...               the summary, given the listings of these lists in their order
#
# It computes nothing that a program has said: it looks up the most l that is resistant for each k, and who was lost and held in the listings.
# Listings that do not fit the row or the verdict get status 1.

BEGIN { WIDE = 100; MOST = 3; MOST_HOLDS = 3; MOST_SLACKS = 6 }

FNR == 1 { file++ }

file == 1 { for (i = 1; i <= NF; i++) row[i - 1] = $i + 0; next }

file == 2 && $1 == "slack" { slack[$2, $3] = $4 + 0; second_paths++; if ($4 < 0) short[shorts++] = $2 " " $3; next }
file == 2 {
    k = $1 + 0
    if (k > most_k) most_k = k
    if ($3 == "resistant") { if ($2 + 0 > safe[k]) safe[k] = $2 + 0 }
    else if (!(k in breaks)) { breaks[k] = rest(3) }
    next
}

$1 == "slot" { next }
$1 == "arrived" { arrived[file - 2] = $2 + 0; next }
{
    kind[file - 2, $1, $2] = $3
    number[file - 2, $1, $2] = $4
}

END {
    take_row()
    number_lists()
    if (lists) for (i = 1; i <= n_lists; i++) print list[i]
    else if (file - 2 != n_lists) exit 1
    else summary()
    exit bad
}

function rest(i,    text) {
    for (; i <= NF; i++) text = text (text == "" ? "" : " ") $i
    return text
}

# Lists that are shown, each once: a k whose list is that of the k before has nothing new.
function number_lists(    k, l) {
    for (k = 1; k <= most_k; k++) {
        if (!(k in breaks)) continue
        for (l = 1; l <= n_lists && list[l] != breaks[k]; l++) continue
        if (l > n_lists) list[++n_lists] = breaks[k]
        list_of[k] = l
    }
}

# Vertices, links with their ends, and each message's target.
function take_row(    at, e, m, p, places) {
    vertices = row[1] + 1; links = row[2] + 1; messages = row[3] + 1; slots = row[4] + 1
    for (e = 0; e < links; e++) {
        begin[e] = row[5 + 2 * e]
        to[e] = row[6 + 2 * e]
        link[begin[e], to[e]] = e
    }
    at = 5 + 2 * links
    for (m = 0; m < messages; m++) {
        places = row[at++] + 1
        for (p = 0; p < places; p++) {
            target[m] = to[row[at]]
            all_places++
            if (!row[at + 2]) alone++
            at += row[at + 2] ? 5 + row[at + 3] : 3
        }
    }
}

function counted(n, what) { return n " " (n == 1 ? what : what == "vertex" ? "vertices" : what "s") }

function all(n) { return n == 1 ? "the message arrives" : "all " n " messages arrive" }

function summary(    k, last) {
    tell("", counted(vertices, "vertex") ", " counted(links, "link") ", " counted(messages, "message") ", " counted(slots, "slot") ".")
    tell("", "Without a cut " (safe[0] == messages ? all(messages) : "at least " safe[0] " of " messages " arrive") ".")
    for (k = 1; k <= most_k; k = last + 1) {
        for (last = k; last < most_k && safe[last + 1] == safe[k] && list_of[last + 1] == list_of[k]; last++) continue
        cuts_of(k, last)
    }
    if (most_k < 3) tell("", "More than " counted(most_k, "cut") ": not answered for a plan of this size.")
    spare()
}

function cuts_of(k, last,    up, whichever) {
    up = "Up to " (k < last ? k " or " : "") counted(last, "cut") ": "
    whichever = ", whichever " (last == 1 ? "cable is" : "cables are") " cut and whenever"
    if (!(k in list_of)) {
        tell("", up all(messages) whichever ".")
        return
    }
    tell("", up (safe[k] ? "at least " safe[k] " of " messages " arrive" whichever : "it may be that none arrives") \
        ". The first list that leaves " (safe[k] ? "fewer than " safe[k] + 1 : "none") ": " said_list(list[list_of[k]]) ".")
    losses(list_of[k])
}

function said_list(text,    words, n, i, said) {
    n = split(text, words, " ")
    for (i = 1; i < n; i += 2) said = said (said == "" ? "" : i + 2 > n ? " and " : ", ") cable(words[i + 1]) " in slot " words[i]
    return said
}

# A pair names the lower link of a cable, and cuts the one with the same ends reversed too, if the plan has one.
function cable(e) { return "link " e ((to[e], begin[e]) in link ? " (and its other way, link " link[to[e], begin[e]] ")" : "") }

# Who does not arrive under a list, and why. A message that crosses a link in the last slot arrives if that ends at its target.
function losses(i,    m, lost, last, more, there) {
    for (m = 0; m < messages; m++) {
        last = kind[i, slots - 1, m]
        if (last == 0 || ((last == 2 || last == 3) && to[number[i, slots - 1, m]] == target[m])) { there++; continue }
        lost++
        if (lost <= MOST) tell("  ", "Message " m " is lost: " why(i, m, last) ".")
        else more = more (more == "" ? "" : ", ") m
    }
    if (more != "") tell("  ", "So " (lost - MOST == 1 ? "is message " : "are messages ") more ".")
    if (there + 0 != arrived[i]) bad = 1
}

# Its holds, each stretch of slots with one holder once, and how it ends.
function why(i, m, last,    s, k, n, from, text, end, holds) {
    for (s = 0; s < slots; s++) {
        k = kind[i, s, m]
        n = number[i, s, m]
        if (k != 4 && k != 5) continue
        from = s
        while (s + 1 < slots && kind[i, s + 1, m] == k && number[i, s + 1, m] == n) s++
        if (++holds > MOST_HOLDS) continue
        text = text (text == "" ? "held " : ", then ") (from == s ? "in slot " s : "in slots " from " to " s) " by message " n \
            (k == 5 ? ", which goes first" : n == m ? ", which is itself: its own slot in the table" : ", which has link and slot in the table")
    }
    if (holds > MOST_HOLDS) text = text ", and " counted(holds - MOST_HOLDS, "more hold")
    if (last == 6 || last == 7) {
        for (s = slots - 1; s > 0 && kind[i, s - 1, m] == last; s--) continue
        n = number[i, s, m]
        end = "from slot " s " on it stays, since link " n (last == 6 ? " is cut and there is no second path" : " of its second path is cut")
    } else end = "the cycle ends before it arrives"
    return text (text == "" ? "" : "; ") end
}

# What the slacks promise, and which promise nothing.
function spare(    i, words, text) {
    if (!second_paths) { tell("", "There is no second path."); return }
    if (!shorts) text = "Slack: every second path arrives in time if it stays whole"
    else {
        text = "Slack: " shorts " of " counted(second_paths, "second path") " " (shorts == 1 ? "has" : "have") " less than 0, which is no promise and no verdict: "
        for (i = 0; i < shorts && i < MOST_SLACKS; i++) {
            split(short[i], words, " ")
            text = text (i ? ", " : "") "message " words[1] " from place " words[2] " (" slack[words[1], words[2]] ")"
        }
        if (shorts > MOST_SLACKS) text = text ", and " shorts - MOST_SLACKS " more"
    }
    tell("", text ".")
    if (alone) tell("", alone " of " counted(all_places, "place") " " (alone == 1 ? "has" : "have") " no second path.")
}

# Prints a text, broken at spaces.
function tell(indent, text,    words, n, i, line) {
    n = split(text, words, " ")
    line = indent words[1]
    for (i = 2; i <= n; i++) {
        if (length(line) + 1 + length(words[i]) > WIDE) { print line; line = indent "  " words[i] }
        else line = line " " words[i]
    }
    print line
}
