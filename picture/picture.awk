# Draws a replay's listing (standard input) as one SVG picture (standard output): a row for each message, a column for
# each slot. It knows the listing and the cuts alone, so it shows what was proved and nothing else. POSIX awk; listing.awk reads.
#
#   awk -f listing.awk -f picture.awk < listing > cycle.svg
#   awk -v title='Plan B, link 0 cut in slot 0' -v cuts=cuts -f listing.awk -f picture.awk < listing > cycle.svg
#
# The title and the name of the file with the cuts may also come as PICTURE_TITLE and PICTURE_CUTS in the environment. What `explain` prints has its
# cuts with it. A cut takes both ways of a cable, and the list names one: the other way has a tag of its own if the listing shows it as cut. Without
# cuts it shows a cut where the listing first shows it. What is no listing, or has other cuts, gets a message on standard error, exit status 1 and no
# picture.

BEGIN {
    tool = "picture"
    again = "Give it what the replay printed, whole:\n  ./nuthatchet replay < cuts | ./nuthatchet picture cuts > cycle.svg"
    CUT = "^cut " NUMBER " " NUMBER "$"
    if (title == "") title = ENVIRON["PICTURE_TITLE"]
    if (cuts == "") cuts = ENVIRON["PICTURE_CUTS"]
    split("D W C S T H X Z", letters, " ")
}

END {
    see()
    if (failed) exit 1
    lay_out()
    draw()
}

# ---------------------------------------------------------------- what there is to see

function see(    s, m) {
    for (s = 0; s < slots; s++) tags[s] = 0
    for (m = 0; m < lanes; m++) {
        turned[m] = -1
        for (s = 0; s < slots; s++) see_event(s, m)
    }
    listed = cuts != "" || explained
    if (cuts != "") read_cuts()
    else if (explained) explained_cuts()
    else see_cuts()
    see_fates()
}

function see_event(s, m,    k) {
    k = kind[s, m]
    if (k == 4 || k == 5) {
        if (number[s, m] >= lanes || (k == 5 && number[s, m] == m))
            no_listing("message " m " in slot " s " cannot be held by message " number[s, m])
    }
    if (second(k) && turned[m] < 0) turned[m] = s
}

# The first slot in which the listing shows a link as cut: kinds 6 and 7 name it, and so does the wait before a turn.
# Where a message turns and no link has been named yet, a `?` stands for its link.
function see_cuts(    s, m) {
    named = 0
    for (s = 0; s < slots; s++) {
        for (m = 0; m < lanes; m++) {
            if (kind[s, m] == 6 || kind[s, m] == 7) note_cut(s, number[s, m])
            if (turned[m] == s && s > 0 && kind[s - 1, m] == 1) note_cut(s, number[s - 1, m])
        }
        for (m = 0; m < lanes; m++)
            if (turned[m] == s && named + tags[s] == 0) add_tag(s, "?", "")
    }
}

function note_cut(s, link) {
    if (link in cut) return
    cut[link] = s
    named++
    add_tag(s, link, "")
}

function add_tag(s, link, way) {
    tag[s, tags[s]] = link
    way_of[s, tags[s]] = way
    if (++tags[s] > most_tags) most_tags = tags[s]
}

# The cuts as they were given, each in its slot.
function read_cuts(    line, words, lines) {
    while ((got = (getline line < cuts)) > 0) {
        split(line, words, " ")
        take_cut(line ~ CUT, words[2], words[3], "line " lines + 0 " of " clean(cuts), line)
        if (failed) return
        lines++
    }
    if (got < 0) nothing("the cuts in " clean(cuts) " cannot be read")
    close(cuts)
    all_agree()
}

# The cuts that stand before the listing.
function explained_cuts(    i) {
    for (i = 1; i < pairs; i += 2) take_cut(1, pair[i], pair[i + 1], "line 1", pair[i] " " pair[i + 1])
    if (!failed) all_agree()
}

function take_cut(formed, s, link, where, line) {
    if (!formed || s >= slots || s * MOST_LINKS + link < next_cut || link + 0 in cut)
        nothing(where " is no cut of this cycle: " clean(substr(line, 1, 40)))
    if (failed) return
    next_cut = s * MOST_LINKS + link + 1
    if (first_cut == "") first_cut = s + 0
    cut[link + 0] = s + 0
}

# They are those of this listing only if it shows no link as whole that they name and that is cut by then, and if each link that it shows as cut is
# named, or is the other way of a cable that is.
function all_agree(    s, m) {
    for (s = 0; s < slots; s++)
        for (m = 0; m < lanes; m++) agrees(s, m, kind[s, m], number[s, m])
    if (!failed) find_cables()
    if (!failed) show_cuts()
}

function agrees(s, m, k, n) {
    if (k == 6 || k == 7) shown_cut(s, n)
    if (k == 1 || k == 2 || k == 3) shown_whole(s, n)
    if (turned[m] == s && s > 0 && kind[s - 1, m] == 1) shown_cut(s, number[s - 1, m])
    if (turned[m] == s && (first_cut == "" || first_cut > s)) not_these("message " m " turns in slot " s)
}

# Of a link that is not named it keeps the first slot that shows it as cut, and the last that shows it as whole.
function shown_cut(s, e) {
    if (e in cut && cut[e] > s) not_these("link " e " is cut in slot " s)
    if (!(e in cut) && !(e in seen_cut)) seen_cut[e] = s
}

function shown_whole(s, e) {
    if (e in cut && cut[e] <= s) not_these("link " e " is whole in slot " s)
    if (!(e in cut)) seen_whole[e] = s
}

# Each link that is shown as cut and not named gets a cable of its own, of which it can be the other way. It takes the lowest that is free, or else one
# whose link can take another in its stead, and so on: each cable is tried once, so all links get one if that can be done at all. Then each link
# is asked for another cable than its own. If there is none, its cable is known.
function find_cables(    e, d) {
    for (e = 0; e < MOST_LINKS; e++)
        if (e in seen_cut && !gets_cable(e, -1))
            not_these("link " e " is cut in slot " seen_cut[e] ": they do not name it, and no cable that they name is left of which it could be the other way")
    for (e = 0; e < MOST_LINKS; e++) {
        if (!(e in seen_cut)) continue
        d = cable_of[e]
        delete other_of[d]
        known[e] = !gets_cable(e, d)
        if (known[e]) other_of[d] = e
    }
}

# A cable for link e, which must not be the cable `not_it`.
function gets_cable(e, not_it) {
    split("", tried)
    barred_link = e
    barred_cable = not_it
    return takes_cable(e)
}

function takes_cable(e,    d) {
    for (d = 0; d < e; d++) {
        if (d in tried || !can_be(d, e)) continue
        tried[d] = 1
        if (d in other_of && !takes_cable(other_of[d])) continue
        other_of[d] = e
        cable_of[e] = d
        return 1
    }
    return 0
}

# Link e can be the other way of cable d, which is named by its lower link: it is not shown as cut before the cable is, nor as whole from then on.
function can_be(d, e) {
    if (e == barred_link && d == barred_cable) return 0
    return d in cut && cut[d] <= seen_cut[e] && !(e in seen_whole && seen_whole[e] >= cut[d])
}

# A tag for each cut in its slot, and for the other way of a cable too if the listing shows it as cut: where the cable is known in the cable's slot,
# else in the first slot that shows it.
function show_cuts(    e) {
    for (e = 0; e < MOST_LINKS; e++) {
        if (e in cut) add_tag(cut[e], e, "")
        else if (e in seen_cut) {
            other_ways++
            if (known[e]) add_tag(cut[cable_of[e]], e, "link " cable_of[e])
            else add_tag(seen_cut[e], e, "a cut cable")
        }
    }
}

function not_these(why) { nothing("these are not the cuts of this listing, in which " why ".\n" again) }

# A message that crosses a link in the last slot may have come to its target with it; how many of them did is known from
# the last line, which of them only if all or none did.
function see_fates(    m, s, last, sure, open) {
    sure = open = 0
    for (m = 0; m < lanes; m++) {
        last = kind[slots - 1, m]
        if (last == 0) sure++
        if (crosses(last)) open++
    }
    if (arrived < sure || arrived > sure + open) {
        no_listing("its last line says " arrived " arrived, and its events show " sure (open ? " to " (sure + open) : ""))
        return
    }
    for (m = 0; m < lanes; m++) {
        fate[m] = "lost"
        last = kind[slots - 1, m]
        if (last == 0) {
            for (s = slots - 1; s > 0 && kind[s - 1, m] == 0; s--) continue
            fate[m] = "arrived at time " s
        } else if (crosses(last) && arrived == sure + open) {
            fate[m] = "arrived at time " slots
        } else if (crosses(last) && arrived > sure) {
            fate[m] = "arrived? (" (arrived - sure) " of " open ")"
            unknown = "; " (arrived - sure) " of the " open " that cross a link in the last slot arrived, the listing does not say which"
        }
    }
}

# ---------------------------------------------------------------- where things stand

function lay_out(    s) {
    MARGIN = 20
    LABELS = 96
    FATES = 148
    wide = slots <= 16 ? 40 : 28
    high = lanes <= 12 ? 40 : 32
    gap = 8
    TAG = 18
    top = 62 + 22 + (most_tags ? most_tags * (TAG + 2) + 6 : 0)
    right = MARGIN + LABELS
    for (s = 0; s < slots; s++) {
        place_arrows(s)
        right += gutter(s)
        left[s] = right
        right += wide
    }
    bottom = top + lanes * (high + gap)
    if (lanes > 12) bottom += 18
    width = right + FATES + MARGIN
    ITEM = 370
    if (width < 2 * (MARGIN + ITEM)) width = 2 * (MARGIN + ITEM)
    columns = int((width - 2 * MARGIN) / ITEM)
    rows = int((12 + (other_ways > 0) + columns - 1) / columns)
    height = bottom + 34 + rows * 26 + 10
}

function lane(m) { return top + m * (high + gap) }

# The gutter before a column has a track for each arrow that must not lie on another.
function gutter(s) { return tracks[s] ? 9 + 5 * tracks[s] : (slots <= 16 ? 14 : 5) }

# Arrows of one slot that lead to one message for one reason share a track; others do where they do not meet.
function place_arrows(s,    m, h, k) {
    tracks[s] = 0
    for (m = 0; m < lanes; m++) {
        k = kind[s, m]
        if (k == 4 || k == 5) stretch(s, number[s, m], k, m)
    }
    for (h = 0; h < lanes; h++)
        for (k = 4; k <= 5; k++)
            if ((s, h, k) in upper) give_track(s, h, k)
}

# The arrows to a holder reach from its uppermost to its lowest row.
function stretch(s, h, k, m) {
    if (!((s, h, k) in upper)) upper[s, h, k] = lower[s, h, k] = h
    if (m < upper[s, h, k]) upper[s, h, k] = m
    if (m > lower[s, h, k]) lower[s, h, k] = m
}

function give_track(s, h, k,    track, m) {
    track = 0
    while (is_taken(s, track, upper[s, h, k], lower[s, h, k])) track++
    for (m = upper[s, h, k]; m <= lower[s, h, k]; m++) taken[s, track, m] = 1
    track_of[s, h, k] = track
    if (track + 1 > tracks[s]) tracks[s] = track + 1
}

function is_taken(s, track, from, to,    m) {
    for (m = from; m <= to; m++) if ((s, track, m) in taken) return 1
    return 0
}

# ---------------------------------------------------------------- drawing

function draw(    s, m) {
    draw_head()
    draw_axes()
    for (s = 0; s < slots; s++) draw_tags(s)
    for (m = 0; m < lanes; m++)
        for (s = 0; s < slots; s++) draw_cell(s, m)
    for (s = 0; s < slots; s++)
        for (m = 0; m < lanes; m++)
            if (kind[s, m] == 4 || kind[s, m] == 5) draw_hold(s, m, number[s, m], kind[s, m])
    for (m = 0; m < lanes; m++) draw_fate(m)
    draw_legend()
    print "</svg>"
}

function escaped(text) {
    gsub(/[[:cntrl:]]/, " ", text)
    gsub(/&/, "\\&amp;", text)
    gsub(/</, "\\&lt;", text)
    gsub(/>/, "\\&gt;", text)
    return text
}

function heading() {
    if (title != "") return escaped(title)
    return "One cycle: " slots (slots == 1 ? " slot, " : " slots, ") lanes (lanes == 1 ? " message" : " messages")
}

function draw_head() {
    print "<?xml version=\"1.0\" encoding=\"UTF-8\"?>"
    printf "<svg xmlns=\"http://www.w3.org/2000/svg\" version=\"1.1\" width=\"%d\" height=\"%d\" viewBox=\"0 0 %d %d\">\n", \
        width, height, width, height
    print "<title>" heading() ": " arrived " of " lanes " arrived</title>"
    print "<style type=\"text/css\">"
    print "text{font-family:Helvetica,Arial,'Liberation Sans','DejaVu Sans',sans-serif;font-size:13px;fill:#1a1a1a}"
    print ".cell text,.tag text,.fate text,.slot{text-anchor:middle}"
    print ".cell .l{font-weight:bold;font-size:15px}.cell .n{font-size:" (wide > 30 ? 12 : 11) "px}"
    print ".k0 rect{fill:#f3f3f1;stroke:#d4d4d0}.k0 text{fill:#6e6e6a}"
    print ".k1 rect{fill:#d6e8f7;stroke:#9dbfda}"
    print ".k2 rect{fill:#17568f;stroke:#0f3d66}.k2 text{fill:#fff}"
    print ".k3 rect{fill:#fcc24f;stroke:#b98312}"
    print ".k4 rect{fill:#8463c9;stroke:#573a96}.k4 text{fill:#fff}"
    print ".k5 rect{fill:#e5809f;stroke:#ad4467}"
    print ".k6 rect{fill:#161616;stroke:#000}.k6 text{fill:#fff}"
    print ".k7 rect{fill:#8a1616;stroke:#5a0c0c}.k7 text{fill:#fff}"
    print ".turn{fill:#000;stroke:#fff;stroke-width:1}"
    print ".hold{fill:none;stroke:#1a1a1a;stroke-width:1.5}.hold.k4{stroke-dasharray:3 2}.head{fill:#1a1a1a}"
    print ".tag rect{fill:#fff;stroke:#b00020;stroke-width:1.5}.tag polygon{fill:#b00020}.tag text{font-weight:bold;font-size:12px}.tag.other rect{stroke-dasharray:4 3}"
    print ".fate rect{fill:#fff;stroke:#7a7a76}.fate.lost rect{fill:#1a1a1a;stroke:#1a1a1a}.fate.lost text{fill:#fff;font-weight:bold}"
    print ".fate.open rect{stroke-dasharray:4 3}"
    print ".soft{fill:#5c5c58}"
    print "</style>"
    printf "<rect width=\"%d\" height=\"%d\" fill=\"#fff\"/>\n", width, height
    printf "<text x=\"%d\" y=\"30\" style=\"font-size:18px;font-weight:bold\">%s</text>\n", MARGIN, heading()
    printf "<text x=\"%d\" y=\"50\" class=\"soft\">%d of %d arrived%s</text>\n", MARGIN, arrived, lanes, \
        (arrived < lanes ? ", " (lanes - arrived) " lost" : "") unknown
}

function draw_axes(    s, m) {
    printf "<text x=\"%d\" y=\"78\" class=\"soft\">slot</text>\n", MARGIN
    for (s = 0; s < slots; s++) draw_slot(s, 78)
    if (lanes > 12) {
        printf "<text x=\"%d\" y=\"%d\" class=\"soft\">slot</text>\n", MARGIN, bottom - 6
        for (s = 0; s < slots; s++) draw_slot(s, bottom - 6)
    }
    if (most_tags) printf "<text x=\"%d\" y=\"%d\" class=\"soft\">links cut</text>\n", MARGIN, 86 + 13
    for (m = 0; m < lanes; m++) {
        if (m % 2 == 0)
            printf "<rect x=\"%d\" y=\"%d\" width=\"%d\" height=\"%d\" fill=\"#f8f8fb\"/>\n", \
                MARGIN - 8, lane(m) - gap / 2, right + FATES - MARGIN + 8, high + gap
        printf "<text x=\"%d\" y=\"%d\">message %d</text>\n", MARGIN, lane(m) + high / 2 + 5, m
    }
}

function draw_slot(s, y) { printf "<text x=\"%d\" y=\"%d\" class=\"slot\">%d</text>\n", left[s] + wide / 2, y, s }

function draw_tags(s,    i) {
    for (i = 0; i < tags[s]; i++) draw_tag(left[s] + wide / 2, 86 + i * (TAG + 2), tag[s, i], way_of[s, i])
}

# A bolt and the link's number; dashed if the link is the other way of something.
function draw_tag(x, y, link, way,    l) {
    l = x - 17
    printf "<g class=\"tag%s\"><title>link %s is cut%s</title>", (way == "" ? "" : " other"), link, (way == "" ? "" : ", the other way of " way)
    printf "<rect x=\"%d\" y=\"%d\" width=\"34\" height=\"%d\" rx=\"3\"/>", l, y, TAG
    printf "<polygon points=\"%d,%d %d,%d %d,%d %d,%d %d,%d %d,%d\"/>", \
        l + 9, y + 2, l + 4, y + 10, l + 8, y + 10, l + 6, y + 16, l + 12, y + 7, l + 8, y + 7
    printf "<text x=\"%d\" y=\"%d\">%s</text></g>\n", l + 22, y + 14, link
}

function said(s, m,    k, n) {
    k = kind[s, m]
    n = number[s, m]
    if (k == 0) return "at its target"
    if (k == 1) return "waits for its slot on link " n
    if (k == 2) return "crosses link " n " of its first path"
    if (k == 3) return "crosses link " n " of its second path"
    if (k == 4) return "held: the table gives the link and slot to message " n
    if (k == 5) return "held: message " n " tries the same link"
    if (k == 6) return "stays: link " n " of its first path is cut, no second path here"
    return "stays: link " n " of its second path is cut"
}

function draw_cell(s, m,    x, y, k, below) {
    x = left[s]
    y = lane(m)
    k = kind[s, m]
    below = k == 0 ? "" : (k == 4 || k == 5 ? "m" : "") number[s, m]
    printf "<g class=\"cell k%d\"><title>slot %d, message %d: %s</title>", k, s, m, said(s, m)
    draw_box(x, y, wide, high, k, below)
    if (turned[m] == s) draw_turn(x, y)
    print "</g>"
}

function draw_box(x, y, w, h, k, below,    middle) {
    middle = x + w / 2
    printf "<rect x=\"%d\" y=\"%d\" width=\"%d\" height=\"%d\" rx=\"3\"/>", x, y, w, h
    printf "<text class=\"l\" x=\"%d\" y=\"%d\">%s</text>", middle, y + h / 2 + (below == "" ? 5 : -1), letters[k + 1]
    if (below != "") printf "<text class=\"n\" x=\"%d\" y=\"%d\">%s</text>", middle, y + h / 2 + 13, below
}

function draw_turn(x, y) {
    printf "<polygon class=\"turn\" points=\"%d,%d %d,%d %d,%d\"/>", x - 1, y - 1, x + 9, y - 1, x - 1, y + 9
}

# From the held message's cell through the gutter to the holder's cell of the same slot.
function draw_hold(s, m, h, k,    x, from, to) {
    x = left[s] - 9 - 5 * track_of[s, h, k]
    from = lane(m) + high / 2 + 8
    to = lane(h) + high / 2 - (k == 5 ? 2 : 10)
    draw_arrow(left[s], from, x, to, k)
}

function draw_arrow(edge, from, x, to, k) {
    printf "<path class=\"hold k%s\" d=\"M%d %dH%dV%dH%d\"/>", k, edge, from, x, to, edge - 5
    printf "<polygon class=\"head\" points=\"%d,%d %d,%d %d,%d\"/>\n", edge - 1, to, edge - 7, to - 4, edge - 7, to + 4
}

function draw_fate(m,    x, y, word) {
    x = right + 14
    y = lane(m) + high / 2 - 11
    word = fate[m] == "lost" ? "lost" : (fate[m] ~ /[?]/ ? "open" : "arrived")
    printf "<g class=\"fate %s\"><rect x=\"%d\" y=\"%d\" width=\"%d\" height=\"22\" rx=\"11\"/>", word, x, y, FATES - 28
    printf "<text x=\"%d\" y=\"%d\">%s</text></g>\n", x + (FATES - 28) / 2, y + 15, fate[m]
}

function draw_legend(    k) {
    split("at its target|waits for its own slot on the link|crosses a link of its first path|" \
        "crosses a link of its second path|held, the table gives link and slot away|" \
        "held, a lower message tries the link too|stays, link cut, no second path here|" \
        "stays, link of its second path cut", words, "|")
    printf "<text x=\"%d\" y=\"%d\" class=\"soft\">Below the letter stands the link; below T and H the message that has the link, and an arrow leads there.</text>\n", \
        MARGIN, bottom + 22
    for (k = 0; k < 8; k++) {
        printf "<g class=\"legend k%d\">", k
        printf "<rect x=\"%d\" y=\"%d\" width=\"24\" height=\"20\" rx=\"3\"/>", item_x(k), item_y(k)
        printf "<text x=\"%d\" y=\"%d\" style=\"text-anchor:middle;font-weight:bold\">%s</text></g>", item_x(k) + 12, item_y(k) + 15, letters[k + 1]
        draw_words(k, "kind " k ": " words[k + 1])
    }
    printf "<rect x=\"%d\" y=\"%d\" width=\"24\" height=\"20\" rx=\"3\" fill=\"#fff\" stroke=\"#7a7a76\"/>", item_x(8), item_y(8)
    draw_turn(item_x(8), item_y(8))
    draw_words(8, "turn: from here on its second path")
    draw_tag(item_x(9) + 13, item_y(9) + 1, "n", "")
    draw_words(9, listed ? "the cable of link n is cut from this slot on" : "link n is cut, first seen here (?: not named)")
    draw_arrow(item_x(10) + 26, item_y(10) + 16, item_x(10) + 2, item_y(10) + 5, "5 sample")
    draw_words(10, "from H to the message that goes first")
    draw_arrow(item_x(11) + 26, item_y(11) + 16, item_x(11) + 2, item_y(11) + 5, "4 sample")
    draw_words(11, "from T to the message in the table")
    if (!other_ways) return
    draw_tag(item_x(12) + 13, item_y(12) + 1, "n", "a cut cable")
    draw_words(12, "link n is cut too, the other way of a cut cable")
}

# The legend goes down its columns.
function item_x(i) { return MARGIN + int(i / rows) * ITEM }

function item_y(i) { return bottom + 34 + (i % rows) * 26 }

function draw_words(i, text) { printf "<text x=\"%d\" y=\"%d\">%s</text>\n", item_x(i) + 42, item_y(i) + 15, text }
