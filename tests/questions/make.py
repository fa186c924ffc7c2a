#!/usr/bin/env python3
"""Writes the questions of this folder, NAME.questions, from plans built by hand here. The answers, NAME.answers, come from the
independent second program (tests/make-expected): oracle probe < NAME.questions > NAME.answers. The captures of `explain` are those of replays that
the second program played (target/oracle), and what is made of them here. Not made here are:

  longest                its plan, a good one of 10,405 numbers and 7,348 bytes, is from the second program's generator (seed 1)
  explain-last-message   on which it matters that the foremost message that differs is named, not the last; like the next two found by the second
                         program (oracle/README.md): target/oracle different 1 100000 last-message 12
  explain-wait-is-dead   on which it matters that a message that waits names its link: target/oracle different 1 5000 wait-is-dead 12
  explain-wrong-ways     six for each other wrong way to explain a capture: target/oracle different 1 3000 NAME 6, in the order that it lists them
  path-rules-wrong-ways  six for each wrong way to refuse a path: target/oracle different-refusals 1 5000 NAME 6, likewise
  figure-wrong-ways      six for each wrong way to find a figure: target/oracle different-figures 1 3000 NAME 6, likewise
  cables-wrong-ways      eight for each wrong way to cut a cable: target/oracle different-cuts 1 10000 NAME 8, likewise

With request [3] a seed has other cases. The questions that were found before it were kept, but for those on which their way no longer differed, because
a cable of their plan goes both ways: one of explain-wait-is-dead, four of explain-wrong-ways and 33 of figure-wrong-ways, found again by these commands
(one-slot-alone and links-rise by 8000 cases)."""
import subprocess

B = [1, 2, 2, 1, 3, 0, 1, 0, 2, 2, 1, 0, 0, 0, 1, 1, 1, 2, 0, 0, 1, 1, 1, 1, 2]
A = [1, 3, 3, 1, 3, 0, 1, 1, 3, 0, 2, 2, 3, 1, 0, 0, 1, 1, 2, 3, 1, 1, 0, 1, 2, 0, 1, 1, 0, 1, 3, 1, 0]


def bits(row):
    out = []

    def put(v, w):
        for i in range(w - 1, -1, -1):
            out.append(v >> i & 1)

    it = iter(row)
    put(next(it), 4)
    put(next(it), 6)
    e = next(it)
    put(e, 6)
    m = next(it)
    put(m, 5)
    put(next(it), 6)
    for _ in range(e + 1):
        put(next(it), 6)
        put(next(it), 6)
    for _ in range(m + 1):
        n = next(it)
        put(n, 4)
        for _ in range(n + 1):
            put(next(it), 6)
            put(next(it), 6)
            f = next(it)
            put(f, 1)
            if f:
                k = next(it)
                put(k, 4)
                for _ in range(k + 1):
                    put(next(it), 6)
    return out


def file(row):
    b = bits(row)
    b += [0] * (-len(b) % 8)
    return [int("".join(map(str, b[i : i + 8])), 2) for i in range(0, len(b), 8)]


def hexed(data):
    return "".join("%02x" % x for x in data) or "-"


def nums(row):
    return " ".join(map(str, row))


def read(data, room=10405):
    return "read %d %s" % (room, hexed(data))


def write(row, room=7348):
    return ("write %d %s" % (room, nums(row))).rstrip()


def line(v, e, m, t, links, messages):
    """A row from its parts: links as pairs, a message as a list of (link, slot, second path or None)."""
    row = [1, v - 1, e - 1, m - 1, t - 1]
    for a, b in links:
        row += [a, b]
    for path in messages:
        row.append(len(path) - 1)
        for l, s, second in path:
            row += [l, s]
            row += [1, len(second) - 1] + second if second else [0]
    return row


# The longest row that has the form of a plan. All its second paths begin where the first one does, so it is refused for that alone: first at place 1.
def longest():
    row = [1, 63, 63, 31, 63]
    for i in range(64):
        row += [i, (i + 1) % 64]
    for m in range(32):
        row.append(15)
        for p in range(16):
            row += [p, p + m, 1, 15] + list(range(16))
    return row


def questions_files():
    q = [read(file(B)), read(file(B), 25), read(file(B), 24), read(file(B), 0), write(B), write(B, 17), write(B, 16), write(B, 0)]
    q += [read(file(A)), write(A)]
    f = file(B)
    q += [read(f[:-1] + [1]), read([]), read([0x20] + f[1:]), read([0x10]), read([0]), read([0xFF])]
    q += [read(f + [0]), read(f + [1]), read(f[:-1]), read(f[:1]), read(f[:2]), read(f[:16])]
    for cut in range(len(f)):
        q.append(read(f[:cut]))
    for bit in range(129, 136):
        g = list(f)
        g[bit // 8] ^= 128 >> bit % 8
        q.append(read(g))
    big = longest()
    q += [read(file(big)), write(big), read(file(big) + [0]), read(file(big)[:-1]), write(big + [0]), write(big[:-1])]
    return q


def questions_rows():
    q = [write([]), write([1]), write([2]), write([65535]), write([0])]
    for n in range(len(B)):
        q.append(write(B[:n]))
    q += [write(B + [0]), write(B + [65535])]
    # a number too large for its field, at each index; and the last number alone at fault
    limit = [None, 64, 64, 32, 64] + [64] * 6 + [16, 64, 64, 2, 16, 64, 64, 16, 64, 64, 2, 16, 64, 64]
    for i in range(1, len(B)):
        row = list(B)
        row[i] = limit[i]
        q.append(write(row))
        row[i] = 65535
        q.append(write(row))
    q.append(write(B[:-1] + [3]))
    return q


# a ring of n vertices with m messages of one link each, as a base to break
def ring(n, m, t):
    links = [(i, (i + 1) % n) for i in range(n)]
    messages = [[(i % n, i // n, None)] for i in range(m)]
    return n, n, m, t, links, messages


def questions_rules():
    q = []
    n, m, t = 64, 32, 64
    v, e, mm, tt, links, messages = ring(n, m, t)
    q.append(write(line(v, e, mm, tt, links, messages)))
    for k in (0, e - 1):  # 5 at the first and the last link, in each way
        for bad in ((links[k][0], links[k][0]), (63, 63)):
            ls = list(links)
            ls[k] = bad
            q.append(write(line(v, e, mm, tt, ls, messages)))
    small = [(0, 1), (1, 0)] + [(i, i + 1) for i in range(1, 30)]
    for bad in ((30, 1), (1, 31), (63, 0)):  # an end not below V
        ls = list(small)
        ls[0] = bad
        q.append(write(line(31, len(ls), 1, 4, ls, [[(2, 0, None)]])))
    for k in (1, e - 1):  # 6 at the first and the last possible link
        ls = list(links)
        ls[k] = ls[0]
        q.append(write(line(v, e, mm, tt, ls, messages)))
    for k in (0, m - 1):  # 14, 15, 7: links that do not join, a vertex twice, a link not below E
        ms = [list(x) for x in messages]
        ms[k] = [(0, 1, None), (2, 2, None)]
        q.append(write(line(v, e, mm, tt, links, ms)))
        two = [(0, 1), (1, 0)]
        q.append(write(line(2, 2, 1, 4, two, [[(0, 0, None), (1, 1, None)]])))
        ms[k] = [(63, 1, None)]
        q.append(write(line(v, 63, mm, tt, links[:63], ms)))
    for k in (0, m - 1):  # 8: slots that stand still, fall, or are not below t
        ms = [list(x) for x in messages]
        ms[k] = [(k, 5, None), ((k + 1) % n, 5, None)]
        q.append(write(line(v, e, mm, tt, links, ms)))
        ms[k] = [(k, 6, None), ((k + 1) % n, 5, None)]
        q.append(write(line(v, e, mm, tt, links, ms)))
        ms[k] = [(k, 40, None)]
        q.append(write(line(v, e, mm, 40, links, ms)))
        ms[k] = [(k, 39, None)]
        q.append(write(line(v, e, mm, 40, links, ms)))
    for k in (1, m - 1):  # 9 at the first and the last possible message, with message 0
        ms = [list(x) for x in messages]
        ms[k] = list(ms[0])
        q.append(write(line(v, e, mm, tt, links, ms)))
    # 10, 16 to 19: in each way, at the first and the last message. Links 0:0-1 1:1-2 2:0-3 3:3-2 4:3-1 5:2-0 6:0-2
    net = [(0, 1), (1, 2), (0, 3), (3, 2), (3, 1), (2, 0), (0, 2)]
    for k in (0, 31):
        for second in ([2, 3], [6], [2, 4, 1], [0, 1], [2], [3], [2, 4], [7], [2, 7], [2, 3, 5], [4, 1], [6, 5, 6], [63]):
            ms = [[(0, i, None)] for i in range(32)]
            ms[k] = [(0, 40, second), (1, 41, None)]
            q.append(write(line(4, 7, 32, 64, net, ms)))
            ms[k] = [(0, 40, None), (1, 41, second)]
            q.append(write(line(4, 7, 32, 64, net, ms)))
    return q


# The other questions about a bad row: all say the same, whatever else is bad in them, and the last two show an empty part.
def asked_otherwise(row):
    return [read(file(row), 0), "replay 0 3 9 9 9 " + nums(row), "verdict 9 9 0 " + nums(row), "slack 99 99 " + nums(row), "explain 9 0 1 9 " + nums(row), "second 0 0 " + nums(row), "where 0 0 " + nums(row)]


# 32 messages, all but one with first path link 0. Message k goes along 0-1-...-16 by links 0 to 15, and from its places 0 and 15 there is a second
# path of 16 links by 17-18-...-31 to 16. Links 33 on are for the faults, and those not below 43 are none.
def long_paths(k, first, seconds):
    links = [(i, i + 1) for i in range(16)] + [(0, 17), (15, 17)] + [(i, i + 1) for i in range(17, 31)] + [(31, 16)]
    links += [(31, 32), (29, 16), (16, 31), (15, 0), (15, 14), (15, 7), (17, 0), (17, 15), (0, 16), (1, 0)]
    ms = [[(0, 20 + i, None)] for i in range(32)]
    ms[k] = [(link, place, seconds.get(place)) for place, link in enumerate(first)]
    return line(33, 43, 32, 64, links, ms)


# Three messages with first path 0, 1, 2, 3 along 0-1-2-3-4, and from each place a second path over 5-6-7 to 4; links 11 on are for the faults, and
# those not below 28 are none. A change is (message, links) for a first path, (message, place, links) for a second one, and (message, "slots", slots).
def short_paths(*changes):
    links = [(0, 1), (1, 2), (2, 3), (3, 4), (0, 5), (5, 6), (6, 7), (7, 4), (1, 5), (2, 5), (3, 5), (1, 0), (2, 0), (2, 1), (4, 0), (4, 2), (4, 3)]
    links += [(5, 0), (6, 0), (6, 5), (7, 5), (4, 7), (4, 6), (7, 8), (0, 4), (8, 9), (0, 3), (5, 4)]
    ms = [[(p, 6 * m + p, [(4, 8, 9, 10)[p], 5, 6, 7]) for p in range(4)] for m in range(3)]
    for change in changes:
        m, path = change[0], change[-1]
        if len(change) == 2:
            ms[m] = [(link, 6 * m + p, None) for p, link in enumerate(path)]
        elif change[1] == "slots":
            ms[m] = [(ms[m][p][0], slot, ms[m][p][2]) for p, slot in enumerate(path)]
        else:
            p = change[1]
            ms[m][p] = (ms[m][p][0], ms[m][p][1], path)
    return line(10, 28, 3, 20, links, ms)


def questions_path_rules():
    along, side = list(range(16)), list(range(18, 32))
    whole = {0: [16] + side + [32], 15: [17] + side + [32]}
    rows = []
    # each number in the first and the last message, at the first and the last place and step that there can be
    for k in (0, 31):
        rows.append(long_paths(k, along, whole))  # good
        for bad in (43, 63):  # 7
            rows += [long_paths(k, [bad], {}), long_paths(k, [bad] + along[1:], whole), long_paths(k, along[:7] + [bad] + along[8:], whole), long_paths(k, along[:15] + [bad], whole)]
        rows += [long_paths(k, [0, 2] + along[3:], {}), long_paths(k, along[:7] + along[8:], {}), long_paths(k, along[:15] + [32], {})]  # 14
        rows += [long_paths(k, [0, 42], {}), long_paths(k, [0, 42] + along[:14], {})]  # 15: the start again in one link
        rows += [long_paths(k, along[:15] + [back], {}) for back in (36, 37, 38)]  # 15: the start, the one before, another
        for place, begin in ((0, 16), (15, 17)):

            def second(*links):
                return long_paths(k, along, {**whole, place: list(links)})

            rows += [second(bad, *side, 32) for bad in (43, 63)] + [second(63), second(begin, *side[:6], 43, *side[7:], 32), second(begin, *side, 63)]  # 10
            rows += [second(33 - begin, *side, 32), second(32), second(*side, 32)]  # 16: where the other one begins, and in the middle
            rows += [second(begin, 32), second(begin, *side[1:], 32), second(begin, *side, 15)]  # 16: the joins
            rows += [second(begin), second(begin, *side), second(begin, *side, 33)]  # 17
            back = (39, 41) if place == 0 else (40, 15)
            rows += [second(begin, *back), second(begin, *side[:12], 34, 35, 32)]  # 18: the start again in one link, the target last
            rows.append(second(*along[place:]))  # 19
    # the order: each number before each later one, the later one in the lowest message and the earlier one in the last
    faults = [
        (lambda m: (m, [0, 1, 63])),  # 7
        (lambda m: (m, [0, 1, 3])),  # 14
        (lambda m: (m, [0, 1, 13])),  # 15
        (lambda m: (m, "slots", [6 * m, 6 * m + 1, 6 * m + 1, 6 * m + 2])),  # 8
        (lambda m: (m, "slots", [6, 7, 8, 9])),  # 9, with message 1
        (lambda m: (m, 1, [8, 63])),  # 10
        (lambda m: (m, 2, [9, 6, 7])),  # 16
        (lambda m: (m, 3, [10, 5])),  # 17
        (lambda m: (m, 1, [11, 0, 8, 27])),  # 18
        (lambda m: (m, 1, [1, 2, 3])),  # 19
    ]
    for i, earlier in enumerate(faults):
        rows.append(short_paths(earlier(2)))
        for later in faults[i + 1 :]:
            rows.append(short_paths(later(0), earlier(2)))
            rows.append(short_paths(earlier(1), later(2), later(0)))
    # several rules in one path: 15 below 14 below 7; 18 below 17; 19 below 18, 17, 16 and 10; 16 beside 17 and below 10
    for path in ([0, 11, 4, 6], [0, 11, 4, 6, 28], [0, 2, 63], [0, 4, 17], [0, 1, 12, 6, 11]):
        rows += [short_paths((m, path)) for m in (0, 2)]
    for path in ([4, 17, 4, 5], [4, 17], [0, 11, 24], [0, 1], [0, 6, 7], [0, 1, 2, 28], [4, 17, 6, 23], [4, 17, 6, 63], [5], [5, 63], [16, 3], [4, 5, 6, 7, 21]):
        rows += [short_paths((m, 0, path)) for m in (0, 2)]
    # one rule twice: in one path, in two places of one message, in two messages
    rows += [short_paths((1, path)) for path in ([0, 63, 28], [28, 63], [0, 2, 1, 3], [0, 11, 0, 1], [0, 1, 12, 0])]
    rows += [short_paths((1, 0, path)) for path in ([4, 63, 28], [63, 28], [5, 7, 6, 7], [4, 7, 6, 7], [4, 17, 4, 17, 24], [4, 5, 19, 5, 6, 7])]
    seconds = (([4, 63], [63]), ([4, 6, 7], [7]), ([4, 5], [10]), ([4, 5, 18, 24], [10, 27, 16, 3]), ([0, 1, 2, 3], [3]))
    for low, high in seconds:
        rows += [short_paths((1, 0, low), (1, 3, high)), short_paths((1, 3, high), (2, 0, low)), short_paths((0, 3, high), (1, 0, low), (1, 3, high))]
    for low, high in (([0, 1, 2, 63], [28]), ([0, 1, 3], [0, 2]), ([0, 1, 12], [0, 11])):
        rows += [short_paths((0, low), (2, high)), short_paths((1, high), (2, low))]
    # an earlier number at a higher place of one message
    for i, (_, high) in enumerate(seconds):
        rows += [short_paths((1, 0, low), (1, 3, high)) for low, _ in seconds[i + 1 :]]
    q = []
    for i, row in enumerate(rows):
        q += [write(row), asked_otherwise(row)[i % 7]]
    # every question about one bad row of each number
    for fault in faults:
        q += asked_otherwise(short_paths(fault(2)))
    return q


def questions_second():
    q = []
    for m in (0, 1, 2, 65535):
        for p in (0, 1, 2, 65535):
            q.append("second %d %d %s" % (m, p, nums(B)))
            q.append("second %d %d %s" % (m, p, nums(A)))
    q += ["second 0 0", "second 0 0 2", "second 0 0 " + nums(B[:-1]), "second 0 0 " + nums(B + [0]), "second 0 0 " + nums(B[:-1] + [3])]
    return q


def questions_where():
    return [q.replace("second", "where", 1) for q in questions_second()] + ["where", "where 0"]


# example 4.1 of document 000, with first paths that make all that its text claims true: at most two cuts before the cycle leave two messages, and
# two cuts in slot 1 leave fewer
def example_41():
    net = [(0, 1), (1, 2), (2, 3), (1, 4), (1, 5), (1, 6), (1, 7), (7, 8), (8, 9), (9, 4), (4, 3), (0, 7), (8, 10), (10, 6), (0, 11), (11, 8), (9, 5), (0, 12), (12, 13), (13, 9)]
    four = [
        [(0, 0, None), (1, 1, [6, 7, 8, 9, 10]), (2, 2, None)],
        [(0, 1, [17, 18, 19, 9]), (3, 2, None)],
        [(0, 2, [14, 15, 8, 16]), (4, 3, None)],
        [(0, 3, [11, 7, 12, 13]), (5, 4, None)],
    ]
    return line(14, 20, 4, 5, net, four)


def questions_verdict():
    short = list(A)
    short[4] = 1
    q = []
    for plan in (A, B, short):
        for k in range(5):
            for l in range(4):
                for room in (2 * k, 6):
                    q.append("verdict %d %d %d %s" % (k, l, room, nums(plan)))
    q += ["verdict 2 1 3 " + nums(A), "verdict 3 1 5 " + nums(A), "verdict 1 2 0 " + nums(A), "verdict 1 1 2 " + nums(A[:-1]), "verdict 65535 0 0 " + nums(A)]
    # cuts before the cycle do no harm, and one in slot 2 does; and an order by slot before link
    late = [1, 2, 2, 1, 2, 0, 1, 0, 2, 2, 1, 0, 0, 0, 1, 1, 1, 2, 0, 0, 2, 1, 1, 1, 2]
    order = [1, 3, 3, 2, 2, 0, 1, 0, 2, 2, 1, 1, 3, 0, 0, 0, 1, 1, 1, 2, 0, 0, 2, 1, 1, 1, 2, 0, 3, 0, 0]
    q += ["verdict 1 2 2 " + nums(late), "verdict 1 3 2 " + nums(order)]
    example = example_41()
    q += ["verdict %d %d 6 %s" % (k, l, nums(example)) for k in range(4) for l in range(5)]
    # the accident of the mission: no cut before the cycle does harm, and one in slot 3 does
    accident = [int(x) for x in open("../../samples/accident/row.txt").read().split()]
    q += ["verdict %d %d 6 %s" % (k, l, nums(accident)) for k in range(4) for l in range(4)]
    return q


def questions_slack():
    q = []
    for m in (0, 1, 2, 65535):
        for p in (0, 1, 65535):
            q += ["slack %d %d %s" % (m, p, nums(B)), "slack %d %d %s" % (m, p, nums(A))]
    own = [1, 3, 3, 0, 3, 0, 1, 1, 3, 0, 2, 2, 1, 1, 0, 0, 1, 2, 2, 3, 1, 1, 2, 0]
    twice = [1, 3, 4, 1, 7, 0, 1, 1, 2, 0, 3, 3, 2, 1, 3, 1, 0, 0, 1, 1, 2, 3, 1, 1, 1, 1, 4, 3, 1, 0, 1, 1, 1, 2, 3, 1, 2, 0]
    q += ["slack 0 0 " + nums(own), "slack 1 0 " + nums(twice), "slack 0 1 " + nums(twice), "slack 0 0", "slack 0 0 " + nums(B[:-1])]
    return q


def questions_replay():
    def ask(plan, cuts, room):
        return ("replay %d %d %s" % (room, len(cuts), nums(list(cuts) + plan))).rstrip()

    q = []
    for plan in (A, B):
        for cuts in ([], [0, 0], [1, 0], [1, 1], [0, 0, 0, 2], [3, 0], [3, 2]):
            for room in (16, 15, 17, 0):
                q.append(ask(plan, cuts, room))
    for cuts in ([0], [0, 0, 1], [4, 0], [0, 4], [0, 3], [0, 1, 0, 0], [1, 0, 0, 1], [0, 0, 0, 0], [0, 0, 1, 0], [0, 0, 1, 1, 4, 2], [65535, 65535]):
        q += [ask(A, cuts, 16), ask(B, cuts, 16), ask(A, cuts, 0)]
    q += [ask(A, [0, 0] * 40, 16), ask([], [0, 0], 16), ask(B[:-1], [9], 0)]
    return q


def crossings(plan, cuts):
    """The capture of a replay that the second program plays: triples slot, link, message of its crossings, in order."""
    asked = ("replay 4096 %d %s" % (len(cuts), nums(list(cuts) + plan))).encode()
    answer = subprocess.run(["../../target/oracle", "probe"], input=asked + b"\n", stdout=subprocess.PIPE, check=True).stdout.decode().split()
    assert answer[0] == "ok", asked
    events = [int(x) for x in answer[2:]]
    messages = plan[3] + 1
    return sorted((i // messages, events[2 * i + 1], i % messages) for i in range(len(events) // 2) if events[2 * i] in (2, 3))


def questions_explain():
    def ask(plan, k, triples, room=None):
        numbers = [x for triple in triples for x in triple]
        return ("explain %d %d %d %s" % (k, 2 * k if room is None else room, len(numbers), nums(numbers + list(plan)))).rstrip()

    def of(plan, k, *cuts):
        return ask(plan, k, crossings(plan, cuts))

    q = []
    # captures of no cut, of each single cut, and of a few lists of two, three and four
    for plan in (A, B):
        e, t = plan[2] + 1, plan[4] + 1
        for k in range(4):
            q.append(of(plan, k))
        for slot in range(t):
            for link in range(e):
                q += [of(plan, 1, slot, link), of(plan, 3, slot, link)]
        for cuts in ((0, 0, 0, 1), (0, 0, 0, 2), (0, 0, 1, 1), (0, 0, 1, 2), (0, 0, 2, 2), (0, 1, 1, 0), (1, 0, 1, 1), (1, 0, 2, 2), (1, 1, 1, 2), (3, 0, 3, 1), (0, 0, 0, 1, 0, 2), (0, 0, 1, 1, 2, 2), (1, 0, 2, 1, 3, 2)):
            q += [of(plan, k, *cuts) for k in (1, 2, 3)]
    q += [of(A, k, 0, 0, 0, 1, 0, 2, 0, 3) for k in range(4)] + [of(A, 3, 0, 0, 1, 1, 1, 2, 2, 3)]
    # one crossing removed, each of them; one added and one moved, in each way
    for plan, cuts in ((A, ()), (A, (0, 0)), (B, ()), (B, (0, 0)), (B, (1, 0))):
        capture = crossings(plan, cuts)
        for triple in capture:
            rest = [other for other in capture if other != triple]
            slot, link, m = triple
            q.append(ask(plan, 3, rest))
            for moved in ((slot + 1, link, m), (slot - 1, link, m), (slot, link + 1, m), (slot, link, 1 - m)):
                q.append(ask(plan, 3, sorted(set(rest + [tuple(max(0, x) for x in moved)]))))
        for added in ((0, 0, 0), (0, 1, 1), (1, 2, 1), (3, 2, 1)):
            q.append(ask(plan, 3, sorted(set(capture + [added]))))
    # the empty capture; every triple there is, more than a cycle can have crossings; another plan's capture
    for plan in (A, B):
        e, m, t = plan[2] + 1, plan[3] + 1, plan[4] + 1
        every = [(i, x, j) for i in range(t) for x in range(e) for j in range(m)]
        q += [ask(plan, k, []) for k in range(4)]
        q += [ask(plan, 3, every), ask(plan, 3, every[: t * m]), ask(plan, 3, every[: t * m + 1]), ask(plan, 3, every[-1:])]
    q += [ask(B, 3, [x for x in crossings(A, ()) if x[1] < 3]), ask(A, 3, crossings(B, (0, 0)))]
    # two links for one message and slot, two messages on one link and slot
    q += [ask(B, 3, [(0, 0, 0), (0, 1, 0), (1, 0, 1)]), ask(B, 3, [(0, 0, 0), (0, 0, 1)]), ask(B, 3, [(0, 1, 0), (0, 2, 0)])]
    # k and rooms
    for plan in (A, B):
        for k in range(5):
            for room in (0, 1, 2 * k - 1, 2 * k, 2 * k + 1, 9):
                if room >= 0:
                    q += [ask(plan, k, [], room), ask(plan, k, crossings(plan, (0, 0)), room), ask(plan, k, [(3, 2, 1)], room)]
        q += [ask(plan, k, [], 6) for k in (5, 256, 65535)]
    # 23: out of range, out of order, unfinished, at the first, a middle and the last triple
    capture = crossings(A, (0, 0))
    for at in (0, 1, len(capture) - 1):
        slot, link, m = capture[at]
        for bad in ((4, link, m), (64, link, m), (65535, link, m), (slot, 4, m), (slot, 65535, m), (slot, link, 2), (slot, link, 65535), (4, 4, 2)):
            q.append(ask(A, 3, capture[:at] + [bad] + capture[at + 1 :]))
        q += [ask(A, 3, capture[: at + 1] + [capture[at]] + capture[at + 1 :]), ask(A, 3, capture[:at] + [(slot,)]), ask(A, 3, capture[:at] + [(slot, link)])]
        q.append(ask(A, 3, capture[:at] + [(4, 0, 0)] + capture[at:] + [(0,)]))
    q += [ask(A, 3, two) for two in ([(1, 0, 0), (0, 1, 1)], [(1, 1, 0), (1, 0, 1)], [(1, 1, 1), (1, 1, 0)], [(3, 3, 1), (3, 3, 1)], [(0, 0, 1), (0, 1, 0)], [(0, 3, 1), (1, 0, 0)])]
    # the order of the refusals: 1 to 10 and 14 to 19, 11, 23, 13
    for row in ([2] + A[1:], [], A[:-1], A[:1] + [64] + A[2:], A + [0], A[:6] + [0] + A[7:], A[:7] + A[5:7] + A[9:], A[:19] + [7] + A[20:]):
        q += [ask(row, 9, [(9,)], 0), ask(row, 2, [], 4)]
    net = [(0, 1), (1, 3), (0, 2), (2, 3)]
    for messages in ([[(0, 0, None), (3, 1, None)]], [[(0, 1, None), (1, 1, None)]], [[(0, 0, None)], [(0, 0, None)]], [[(0, 0, [2]), (1, 1, None)]]):
        q += [ask(line(4, 4, len(messages), 4, net, messages), k, [(9,)], 0) for k in (2, 4)]  # 14, 8, 9, 17
    q += [ask(A, 4, [(9,)], 0), ask(A, 3, [(9,)], 0), ask(A, 3, [(0, 0, 0)], 0), ask(A, 3, [(0, 0, 0)], 5)]
    # one, two and three links that lose one message each; so many lost need so many cuts
    chain = line(5, 4, 4, 3, [(0, 1), (1, 2), (2, 3), (3, 4)], [[(i, 1, None)] for i in range(4)])
    for lost in range(5):
        q += [ask(chain, k, [(1, i, i) for i in range(lost, 4)]) for k in range(4)]
    # the foremost of two that differ is named (oracle/examples.rs), and messages that wait and are diverted together
    foremost = line(4, 5, 2, 4, [(0, 1), (1, 2), (0, 2), (3, 2), (3, 0)], [[(0, 2, [2]), (1, 3, None)], [(3, 3, [4, 2])]])
    q += [of(foremost, k, 0, 3, 1, 0) for k in range(4)]
    queue = line(3, 3, 4, 6, [(0, 1), (0, 2), (2, 1)], [[(0, i, [1, 2])] for i in (5, 4, 3, 2)])
    for cuts in ((), (0, 0), (1, 0), (2, 0), (3, 0), (5, 0), (0, 0, 2, 1), (0, 0, 3, 2), (1, 0, 1, 1), (2, 0, 4, 1, 5, 2)):
        q += [of(queue, k, *cuts) for k in (1, 2, 3)]
    # the accident of the mission, its mended plan, and the example 4.1
    accident = [int(x) for x in open("../../samples/accident/row.txt").read().split()]
    mended = [int(x) for x in open("../../samples/mended/row.txt").read().split()]
    for plan in (accident, mended):
        for cuts in ((), (3, 1), (0, 1), (2, 3), (3, 1, 4, 4), (0, 0, 3, 1), (5, 6), (3, 1, 5, 6), (0, 3, 3, 1, 4, 5)):
            q += [of(plan, k, *cuts) for k in (1, 2, 3)]
    for cuts in ((1, 4, 3, 2, 4, 1), (0, 6, 2, 1, 3, 5), (0, 7, 1, 0, 1, 1), (1, 1, 2, 0, 2, 6), (0, 3, 2, 0, 2, 8), (2, 1, 3, 4, 3, 5), (0, 3, 1, 4, 3, 1), (0, 1, 2, 0, 3, 7)):
        q += [of(accident, k, *cuts) for k in (2, 3)]  # three cuts, and no fewer
    q += [ask(mended, 2, crossings(accident, (3, 1))), ask(accident, 2, crossings(mended, (3, 1)))]
    # a plan of the largest size: captures that few slots decide, and one of more triples than 2,048
    large = [int(x) for x in open("../../samples/large/row.txt").read().split()]
    q += [of(large, 3), of(large, 0), of(large, 1, 0, 0), of(large, 3, 0, 0), of(large, 2, 1, 0, 1, 2), ask(large, 1, []), ask(large, 0, [(63, 63, 31)])]
    every = [(i, x, j) for i in range(2) for x in range(64) for j in range(32)]
    q += [ask(large, 3, every[:2048]), ask(large, 3, every[:2049]), ask(large, 3, every[:3000]), ask(large, 3, every[:3000] + [(1, 0, 0)])]
    q += ["explain", "explain 1", "explain 1 2", "explain 1 2 1", "explain 1 2 3 0 0", "explain 1 2 00 " + nums(B), "explain 1  2 0 " + nums(B), "explain 1 2 0 " + nums(B) + " "]
    return q


def questions_figure():
    def both(plan, k, room=None):
        return ["figure %d %s" % (k, nums(plan)), "figures %d %d %s" % (k, k + 1 if room is None else room, nums(plan))]

    def until(plan, t):
        return plan[:4] + [t - 1] + plan[5:]

    def sample(name):
        return [int(x) for x in open("../../samples/%s/row.txt" % name).read().split()]

    q = []
    # each k and each room
    for plan in (A, B):
        for k in range(6):
            q.append("figure %d %s" % (k, nums(plan)))
            q += ["figures %d %d %s" % (k, room, nums(plan)) for room in (0, 1, k, k + 1, k + 2, 9, 300)]
        q += both(plan, 65535, 9)
    # A and B with fewer slots and more; with E x t 64 and next to it
    for plan, times in ((A, (2, 3, 5, 15, 16, 17)), (B, (2, 3, 5, 21, 22))):
        for t in times:
            q += both(until(plan, t), 1) + both(until(plan, t), 3)
    # cuts before the cycle do no harm, and one in slot 2 does; and an order by slot before link
    late = [1, 2, 2, 1, 2, 0, 1, 0, 2, 2, 1, 0, 0, 0, 1, 1, 1, 2, 0, 0, 2, 1, 1, 1, 2]
    order = [1, 3, 3, 2, 2, 0, 1, 0, 2, 2, 1, 1, 3, 0, 0, 0, 1, 1, 1, 2, 0, 0, 2, 1, 1, 1, 2, 0, 3, 0, 0]
    # the plans of other questions: a message a link; two that differ at once; a queue; three starts and a hub
    chain = line(5, 4, 4, 3, [(0, 1), (1, 2), (2, 3), (3, 4)], [[(i, 1, None)] for i in range(4)])
    foremost = line(4, 5, 2, 4, [(0, 1), (1, 2), (0, 2), (3, 2), (3, 0)], [[(0, 2, [2]), (1, 3, None)], [(3, 3, [4, 2])]])
    queue = line(3, 3, 4, 6, [(0, 1), (0, 2), (2, 1)], [[(0, i, [1, 2])] for i in (5, 4, 3, 2)])
    hub = line(5, 7, 3, 6, [(1, 0), (2, 0), (3, 0), (1, 4), (2, 4), (3, 4), (4, 0)], [[(i, 0, [3 + i, 6])] for i in range(3)])
    for plan in (late, order, chain, foremost, queue, hub, sample("accident"), sample("mended")):
        for k in range(4):
            q += both(plan, k)
    for k in range(3):
        q += both(example_41(), k)
    # those of slack, of rules and of path-rules
    own = [1, 3, 3, 0, 3, 0, 1, 1, 3, 0, 2, 2, 1, 1, 0, 0, 1, 2, 2, 3, 1, 1, 2, 0]
    twice = [1, 3, 4, 1, 7, 0, 1, 1, 2, 0, 3, 3, 2, 1, 3, 1, 0, 0, 1, 1, 2, 3, 1, 1, 1, 1, 4, 3, 1, 0, 1, 1, 1, 2, 3, 1, 2, 0]
    for k in range(4):
        q += both(own, k) + both(twice, k)
    whole = {0: [16, *range(18, 32), 32], 15: [17, *range(18, 32), 32]}
    for plan in (short_paths(), long_paths(0, range(16), whole), long_paths(31, range(16), whole), line(*ring(64, 32, 64))):
        q += both(plan, 0)[:1] + both(plan, 1)[1:]
    # the smallest plans: one link, one slot; one link and every slot; two links, three; a link that none uses
    for t in (1, 2, 63, 64):
        for slot in sorted({0, t - 1}):
            for k in range(4):
                q.append(both(line(2, 1, 1, t, [(0, 1)], [[(0, slot, None)]]), k)[k % 2])
    for n in (2, 3):
        many = line(n + 1, n, n, 1, [(i, i + 1) for i in range(n)], [[(i, 0, None)] for i in range(n)])
        unused = line(n + 1, n, 1, 2, [(i, i + 1) for i in range(n)], [[(n - 1, 1, None)]])
        q += [both(plan, k)[k % 2] for plan in (many, unused) for k in range(4)]
    # 32 messages: on one link; on 32 links in one slot; on one link with a second path that all share; the largest plans
    queue_of_32 = line(2, 1, 32, 64, [(0, 1)], [[(0, 2 * i, None)] for i in range(32)])
    links_32 = line(33, 32, 32, 1, [(i, i + 1) for i in range(32)], [[(i, 0, None)] for i in range(32)])
    shared = line(3, 3, 32, 64, [(0, 1), (0, 2), (2, 1)], [[(0, i, [1, 2])] for i in range(32)])
    for plan in (queue_of_32, links_32, shared):
        for k in range(4):
            q += both(plan, k) if k != 2 else both(plan, k)[:1]
    for k in (0, 1):
        q += both(sample("large"), k)[k : k + 1]
    q.append("figure 0 " + open("../plans/longest.row").read().strip())
    # the largest number of links and of slots
    ring_64 = line(*ring(64, 1, 64))
    q += ["figure 0 " + nums(ring_64), "figures 1 2 " + nums(ring_64), "figures 2 3 " + nums(line(*ring(64, 1, 1)))]
    # every refusal of a row comes before 11 and 13
    rows = [[2] + A[1:], [65535], [], A[:-1], A[:1] + [64] + A[2:], A + [0], A[:6] + [0] + A[7:], A[:7] + A[5:7] + A[9:]]
    rows += [short_paths(change) for change in ((2, [0, 1, 63]), (2, [0, 1, 3]), (2, [0, 1, 13]), (2, "slots", [12, 13, 13, 14]), (2, "slots", [6, 7, 8, 9]))]
    rows += [short_paths(change) for change in ((2, 1, [8, 63]), (2, 2, [9, 6, 7]), (2, 3, [10, 5]), (2, 1, [11, 0, 8, 27]), (2, 0, [0, 1, 2, 3]))]
    for row in rows + [sample("refused")]:
        q += [(each % nums(row)).rstrip() for each in ("figure 9 %s", "figures 9 0 %s", "figure 2 %s", "figures 2 0 %s", "figures 2 3 %s")]
    q += ["figure", "figure ", "figure x", "figure 1 x", "figure 01 " + nums(B), "figure 65536 " + nums(B), "figure 1  " + nums(B), "figure 1 " + nums(B) + " "]
    q += ["figures", "figures 1", "figures 1 ", "figures 1 x " + nums(B), "figures 1 02 " + nums(B), "figures 1 65536 " + nums(B), "figures 1 2 " + nums(B) + " 65536"]
    return q


# A cable is two links with the same ends reversed; the lower one names it (document 02, [3]).
def questions_cables():
    def replay(plan, cuts, room=None):
        needed = 2 * (plan[4] + 1) * (plan[3] + 1)
        return "replay %d %d %s" % (needed if room is None else room, len(cuts), nums(list(cuts) + plan))

    def explain(plan, k, triples):
        numbers = [x for triple in triples for x in triple]
        return "explain %d %d %d %s" % (k, 2 * k, len(numbers), nums(numbers + plan))

    def other(plan, link):
        ends = [tuple(plan[5 + 2 * i : 7 + 2 * i]) for i in range(plan[2] + 1)]
        back = ends[link][::-1]
        return ends.index(back) if back in ends else None

    def lower(plan):
        return [i for i in range(plan[2] + 1) if other(plan, i) is None or other(plan, i) > i]

    # three vertices and three cables: 0, 1 between 0 and 1, 2, 4 between 0 and 2, 3, 5 between 1 and 2. Message 0 goes there over link 0, message 1 back
    # over link 1, and their second paths go over vertex 2, one each way
    there = line(3, 6, 2, 4, [(0, 1), (1, 0), (0, 2), (2, 1), (2, 0), (1, 2)], [[(0, 0, [2, 3])], [(1, 1, [5, 4])]])
    # the same with the links numbered from the last: what was the lower of a cable is the higher now
    reversed_numbers = line(3, 6, 2, 4, [(1, 2), (2, 0), (2, 1), (0, 2), (1, 0), (0, 1)], [[(5, 0, [3, 2])], [(4, 1, [0, 1])]])
    # the same three cables with the lower links first: the message goes over link 0 and has slack 1, its second path has the higher links 3 and 4. Named
    # with link 0, links 1 and 2 are cables of that second path and no links of it: the premise of demand 3 differs
    higher = line(3, 6, 1, 3, [(0, 1), (2, 0), (1, 2), (0, 2), (2, 1), (1, 0)], [[(0, 0, [3, 4])]])
    # the same with slack 0
    higher_0 = line(3, 6, 1, 2, [(0, 1), (2, 0), (1, 2), (0, 2), (2, 1), (1, 0)], [[(0, 0, [3, 4])]])
    # one cable, a message each way; the lower link leads to 0, or from it
    one = line(2, 2, 2, 1, [(1, 0), (0, 1)], [[(1, 0, None)], [(0, 0, None)]])
    two = line(2, 2, 2, 2, [(0, 1), (1, 0)], [[(1, 0, None)], [(0, 1, None)]])
    # the second path goes back over the cable that the message came by
    back = line(3, 4, 1, 4, [(0, 1), (1, 2), (1, 0), (0, 2)], [[(0, 0, None), (1, 1, [2, 3])]])
    # one cable with both ways among links without: link 4 is the other way of link 1
    one_of_four = line(4, 5, 3, 5, [(0, 1), (1, 3), (0, 2), (2, 3), (3, 1)], [[(0, 0, [2, 3]), (1, 1, None)], [(2, 0, [0, 1]), (3, 1, None)], [(4, 2, None)]])
    # a square with all its cables both ways, four messages that run both ways over two of them, second paths over the cables of the others' first paths
    square = line(4, 8, 4, 6, [(0, 1), (2, 3), (1, 0), (3, 2), (0, 2), (1, 3), (2, 0), (3, 1)], [[(0, 0, [4, 1, 7])], [(2, 1, [5, 3, 6])], [(1, 2, [6, 0, 5])], [(3, 0, [7, 2, 4])]])
    # 32 cables from one vertex, links 2i out and 2i + 1 in; message i goes out or in by turns
    star = line(33, 64, 32, 1, [x for end in range(1, 33) for x in ((0, end), (end, 0))], [[(2 * i + i % 2, 0, None)] for i in range(32)])
    # a ring of 32 vertices, link i from vertex i to the next and link 63 - i back; the even messages go half way round by the first, the odd ones by the
    # second, all at once, and from where they start the other half is their second path
    ends = [(i, (i + 1) % 32) for i in range(32)]
    on, off = [[x % 32 for x in range(v, v + 16)] for v in range(32)], [[63 - (v - 1 - x) % 32 for x in range(16)] for v in range(32)]
    ring_32 = [[(link, slot, None if slot else (off if v % 2 == 0 else on)[v]) for slot, link in enumerate((on if v % 2 == 0 else off)[v])] for v in range(32)]
    ring_32 = line(32, 64, 32, 64, ends + [x[::-1] for x in ends[::-1]], ring_32)
    large = [int(x) for x in open("../../samples/large/row.txt").read().split()]
    small = (there, reversed_numbers, higher, higher_0, one, two, back, one_of_four, square)
    q = []
    # no cut, each single one, and each two of a few; the higher link named alone is 12
    for plan in small:
        e, t = plan[2] + 1, plan[4] + 1
        q.append(replay(plan, []))
        q += [replay(plan, [slot, link]) for slot in range(t) for link in range(e)]
    for plan in (there, reversed_numbers, higher, back):
        e = plan[2] + 1
        pairs = [(slot, link) for slot in range(3) for link in range(e)]
        q += [replay(plan, [*x, *y]) for x in pairs[: 2 * e : 2] for y in pairs if x < y and y[0] < plan[4] + 1]
    # a higher link at the first, a middle and the last pair, behind the lower one of its cable and before it, beside each other fault; room too short
    for cuts in ([0, 0, 0, 1], [0, 0, 3, 1], [0, 1, 1, 0], [0, 1, 0, 2], [0, 2, 0, 4, 0, 5], [0, 0, 0, 2, 0, 3, 0, 5], [0, 0, 1, 4, 2, 3], [0, 0, 0, 1, 0, 2, 0, 3, 0, 4, 0, 5]):
        q += [replay(there, cuts), replay(there, cuts, 15), replay(there, cuts, 0)]
    for cuts in ([0, 4, 9, 0], [9, 0, 0, 4], [0, 4, 0], [0, 0, 0], [0, 2, 0, 2, 0, 4], [0, 2, 1, 2, 2, 5], [1, 5, 0, 3], [1, 3, 0, 5], [0, 6, 0, 1], [0, 1, 0, 6], [0, 65535, 1, 5], [3, 5, 4, 0]):
        q += [replay(there, cuts), replay(reversed_numbers, cuts)]
    q += [replay(there, [0, 0, 0, 2, 0, 3]), replay(there, [0, 3, 1, 2, 2, 0]), replay(there, [0, 0, 0, 2, 0, 3, 0, 0]), replay(there, [0, 0, 0, 2, 0, 3], 15)]
    # a plan without reversed links is as it was: every link names itself
    q += [replay(plan, cuts) for plan in (A, B) for cuts in ([0, 0, 0, 1, 0, 2], [0, 1, 1, 0], [0, 2, 2, 1], [1, 1, 2, 2, 3, 0], [0, 0, 1, 0])]
    # verdicts and figures, each k and l
    for plan in small:
        m = plan[3] + 1
        for k in range(4):
            q += ["verdict %d %d %d %s" % (k, l, 2 * k, nums(plan)) for l in range(m + 1)]
            q.append("figure %d %s" % (k, nums(plan)))
        q.append("figures 3 4 " + nums(plan))
    q += ["verdict 3 1 5 " + nums(there), "figures 3 3 " + nums(there), "verdict 4 1 8 " + nums(there), "figure 4 " + nums(there)]
    # captures: of each single cut and of some lists of two and three; each single crossing; without each of its crossings
    for plan in small:
        names, t, m = lower(plan), plan[4] + 1, plan[3] + 1
        for slot in range(t):
            q += [explain(plan, k, crossings(plan, [slot, name])) for name in names for k in (1, 2)]
        for x in names:
            q += [explain(plan, k, crossings(plan, [0, x, min(1, t - 1), y])) for y in names if x < y for k in (1, 2, 3)]
        if plan not in (square, one_of_four):
            q += [explain(plan, 2, [(slot, link, i)]) for slot in range(t) for link in range(plan[2] + 1) for i in range(m)]
        whole = crossings(plan, [])
        q += [explain(plan, 2, [x for x in whole if x != gone]) for gone in whole] + [explain(plan, 3, []), explain(plan, 1, whole)]
    # what one way alone cut would give: message 0 is diverted and message 1 is not, and the other way round
    q += [explain(there, k, triples) for k in (1, 2, 3) for triples in ([(0, 2, 0), (1, 1, 1), (1, 3, 0)], [(0, 0, 0), (0, 5, 1), (1, 4, 1)], [(0, 2, 0), (1, 1, 1)], [(0, 0, 0), (1, 5, 1)])]
    # slack counts links, not cables
    for plan in small + (large,):
        q += ["slack %d 0 %s" % (i, nums(plan)) for i in range(min(4, plan[3] + 1))]
    third = line(3, 6, 3, 4, [(0, 1), (1, 0), (0, 2), (2, 1), (2, 0), (1, 2)], [[(0, 0, [2, 3])], [(1, 1, [5, 4])], [(3, 0, None)]])
    q += ["slack 0 0 " + nums(third), "slack 1 0 " + nums(third), replay(third, [0, 0]), replay(third, [0, 0, 0, 3])]
    # 64 links that are 32 cables: all cut, one too many, every link named, the first and the last link
    names = [x for i in range(32) for x in (0, 2 * i)]
    q += [replay(star, names), replay(star, names + [0, 63]), replay(star, names[:-2] + [0, 63]), replay(star, [x for i in range(64) for x in (0, i)]), replay(star, [0, 0]), replay(star, [0, 1]), replay(star, [0, 62]), replay(star, [0, 63])]
    q += ["figures 3 4 " + nums(star), "verdict 3 30 6 " + nums(star), "verdict 3 29 6 " + nums(star), "verdict 1 32 2 " + nums(star), explain(star, 3, [(0, 2 * i + i % 2, i) for i in range(32) if i not in (0, 1, 31)]), explain(star, 2, [(0, 2 * i + i % 2, i) for i in range(30)])]
    # the largest size: the first link and the last, which is the other way of the first; two in the middle; all 32 cables in their order; one cut's figure
    q += [replay(ring_32, cuts) for cuts in ([0, 0], [0, 63], [3, 31], [3, 32], [1, 0, 2, 16], [0, 0, 0, 63], [63, 31], [x for i in range(32) for x in (i // 2, i)], [x for i in range(33) for x in (5, i)])]
    q += ["figures 1 2 " + nums(ring_32), "verdict 1 32 2 " + nums(ring_32), "verdict 1 31 2 " + nums(ring_32), explain(ring_32, 1, crossings(ring_32, [0, 0])), explain(ring_32, 2, crossings(ring_32, [0, 0, 1, 5]))]
    q += [replay(large, [3, 0, 5, 56, 24, 26]), replay(large, [3, 0, 3, 1, 5, 56, 24, 26, 24, 27]), replay(large, [0, 1]), replay(large, [63, 63]), replay(large, [3, 0, 5, 57])]
    return q


for name, made in (("cables", questions_cables()), ("figure", questions_figure()), ("explain", questions_explain()), ("replay", questions_replay()), ("slack", questions_slack()), ("verdict", questions_verdict()), ("files", questions_files()), ("rows", questions_rows()), ("rules", questions_rules()), ("path-rules", questions_path_rules()), ("second", questions_second()), ("where", questions_where())):
    with open(name + ".questions", "w") as f:
        f.write("\n".join(made) + "\n")
