#!/usr/bin/env python3
"""The question behind a verdict, or behind an explanation, as SMT-LIB2, from document 01's rules and document 02's [3]: is there a cut list of at most K pairs that leaves
fewer than L arrivals, or under which exactly the crossings of a capture are made?

  bench/encode.py PLAN K L      the plan file; the question goes to standard output
  bench/encode.py PLAN K        the capture is on standard input, a byte a number

Booleans alone, with Z3's bounds on how many of them are true. A cable's cut is one boolean a slot, which rises once. A message is on its first path
as planned, or at a step of one of its second paths, one boolean for each time at which it can be there. Where the plan decides, nothing is asked:
which link a message on its first path waits for, and which links the table gives away."""
import sys


def read(file):
    """The timeout, for each link the lower one of its cable, and for each message its places: link, slot, links of the second path or None."""
    bits = ''.join('{:08b}'.format(byte) for byte in file)
    at = 0

    def field(width):
        nonlocal at
        at += width
        return int(bits[at - width : at], 2)

    field(4), field(6)
    links, messages, timeout = field(6) + 1, field(5) + 1, field(6) + 1
    ends = [(field(6), field(6)) for _ in range(links)]
    names = [min(e, ends.index((to, by)) if (to, by) in ends else e) for e, (by, to) in enumerate(ends)]
    plan = []
    for _ in range(messages):
        places = []
        for _ in range(field(4) + 1):
            link, slot = field(6), field(6)
            second = [field(6) for _ in range(field(4) + 1)] if field(1) else None
            places.append((link, slot, second))
        plan.append(places)
    return timeout, names, plan


def encode(timeout, names, plan, k, l, capture=None):
    """The question for l arrivals, or, where there is one, for a capture: a list of triples slot, link, message."""
    lines = ['(set-logic QF_FD)']
    count = 0

    def name(formula):
        """A boolean that is as the formula says."""
        nonlocal count
        count += 1
        lines.append('(declare-const x%d Bool)(assert (= x%d %s))' % (count, count, formula))
        return 'x%d' % count

    def any_of(parts):
        parts = list(parts)
        return 'false' if not parts else parts[0] if len(parts) == 1 else '(or %s)' % ' '.join(parts)

    def all_of(parts):
        return '(and %s)' % ' '.join(parts)

    down = [['d%d_%d' % (e, i) for i in range(timeout)] for e in names]
    cables = sorted(set(names))
    for e in cables:
        for i in range(timeout):
            lines.append('(declare-const %s Bool)' % down[e][i])
            if i:
                lines.append('(assert (=> %s %s))' % (down[e][i - 1], down[e][i]))
    lines.append('(assert ((_ at-most %d) %s))' % (k, ' '.join(down[e][-1] for e in cables)))

    given = {(link, slot) for places in plan for link, slot, _ in places}
    on_first = ['true'] * len(plan)  # on its first path as planned; None once it is at its target
    place = [0] * len(plan)
    at = [{} for _ in plan]  # (place, links crossed) of a second path -> boolean
    home = [[] for _ in plan]  # the booleans of which one is true if it has arrived
    crossings = {}  # (slot, link, message) -> the booleans of which one is true if it crosses the link then
    for i in range(timeout):
        tried = {}  # link -> booleans of the lower messages that stand before it, turned
        for m, places in enumerate(plan):
            here = at[m]
            if place[m] < len(places):
                link, slot, second = places[place[m]]
                if second is not None:
                    turns = name(all_of([on_first[m], down[link][i]]))
                    start = (place[m], 0)
                    here[start] = name(any_of([here[start], turns])) if start in here else turns
                on_first[m] = name(all_of([on_first[m], '(not %s)' % down[link][i]]))
                if slot == i:
                    crossings[i, link, m] = [on_first[m]]
                    place[m] += 1
                    if place[m] == len(places):
                        home[m].append(on_first[m])
            then, mine = {}, {}
            for (p, q), stands in here.items():
                second = places[p][2]
                link = second[q]
                if (link, i) in given:
                    moves, stays = None, stands
                else:
                    mine.setdefault(link, []).append(stands)
                    free = ['(not %s)' % down[link][i]] + ['(not %s)' % other for other in tried.get(link, [])]
                    moves = name(all_of([stands] + free))
                    stays = name(all_of([stands, '(not %s)' % moves]))
                    crossings.setdefault((i, link, m), []).append(moves)
                then.setdefault((p, q), []).append(stays)
                if moves and q + 1 < len(second):
                    then.setdefault((p, q + 1), []).append(moves)
                elif moves:
                    home[m].append(moves)
            for link, stands in mine.items():
                tried.setdefault(link, []).append(stands[0] if len(stands) == 1 else name(any_of(stands)))
            at[m] = {step: parts[0] if len(parts) == 1 else name(any_of(parts)) for step, parts in then.items()}
    if capture is None:
        arrived = [name(any_of(parts)) for parts in home]
        lines.append('(assert ((_ at-most %d) %s))' % (l - 1, ' '.join(arrived)) if l else '(assert false)')
    else:
        seen = set(capture)
        lines.extend(('(assert %s)' if triple in seen else '(assert (not %s))') % any_of(parts) for triple, parts in crossings.items())
        lines.extend('(assert false)' for triple in seen if triple not in crossings)
    lines.append('(check-sat)')
    return '\n'.join(lines) + '\n'


if __name__ == '__main__':
    with open(sys.argv[1], 'rb') as file:
        read_plan = read(file.read())
    if len(sys.argv) > 3:
        sys.stdout.write(encode(*read_plan, int(sys.argv[2]), int(sys.argv[3])))
    else:
        numbers = sys.stdin.buffer.read()
        triples = [tuple(numbers[at : at + 3]) for at in range(0, len(numbers), 3)]
        sys.stdout.write(encode(*read_plan, int(sys.argv[2]), 0, triples))
