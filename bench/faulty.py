"""Plans that break one rule of paths each, made of a good one: for each of refusals 7, 14, 15, 10 and 16 to 19 the last message that can break it does,
at its last place."""


def read(file):
    """A plan file taken apart: V, t, the ends of its links, and for each message its places: link, slot, links of the second path."""
    bits = ''.join('{:08b}'.format(byte) for byte in file)
    at = 0

    def field(width):
        nonlocal at
        at += width
        return int(bits[at - width : at], 2)

    field(4)
    vertices, links, messages, timeout = field(6), field(6) + 1, field(5) + 1, field(6)
    ends = [(field(6), field(6)) for _ in range(links)]
    paths = []
    for _ in range(messages):
        count = field(4) + 1
        paths.append([(field(6), field(6), [field(6) for _ in range(field(4) + 1)] if field(1) else []) for _ in range(count)])
    return vertices, timeout, ends, paths


def pack(vertices, timeout, ends, paths):
    """The plan file again."""
    fields = [(4, 1), (6, vertices), (6, len(ends) - 1), (5, len(paths) - 1), (6, timeout)]
    for pair in ends:
        fields += [(6, vertex) for vertex in pair]
    for places in paths:
        fields.append((4, len(places) - 1))
        for link, slot, second in places:
            fields += [(6, link), (6, slot), (1, 1 if second else 0)]
            if second:
                fields += [(4, len(second) - 1)] + [(6, e) for e in second]
    bits = ''.join('{:0{}b}'.format(value, width) for width, value in fields)
    bits += '0' * (-len(bits) % 8)
    return bytes(int(bits[i : i + 8], 2) for i in range(0, len(bits), 8))


def links_that(ends, passes):
    return [e for e, pair in enumerate(ends) if passes(*pair)]


def first_paths(ends, links):
    """For refusals 7, 14 and 15 the first path with another last link, where there is one."""
    stands = ends[links[-1]][0]
    met = [ends[e][0] for e in links]
    other = {
        7: [len(ends)] if len(ends) < 64 else [],
        14: links_that(ends, lambda a, b: a != stands) if len(links) > 1 else [],
        15: links_that(ends, lambda a, b: a == stands and b in met),
    }
    return {number: links[:-1] + found[-1:] for number, found in other.items() if found}


def second_paths(ends, links, p, second):
    """For refusals 10 and 16 to 19 another second path from place p of a first path, where there is one."""
    stands, end = ends[links[p]][0], ends[links[-1]][1]
    last = ends[second[-1]][0]
    met = [ends[e][0] for e in second]
    other = {
        10: [second[:-1] + [len(ends)]] if len(ends) < 64 else [],
        16: [second[:-1] + [e] for e in links_that(ends, lambda a, b: a != last and b == end)],
        17: [second[:-1] + [e] for e in links_that(ends, lambda a, b: a == last and b != end and b not in met)],
        18: [[e, back] + second for e in links_that(ends, lambda a, b: a == stands) for back in links_that(ends, lambda a, b: (b, a) == ends[e])],
        19: [links[p:]],
    }
    return {number: found[-1] for number, found in other.items() if found and len(found[-1]) <= 16}


def faulty(file):
    """A plan file for each refusal."""
    vertices, timeout, ends, paths = read(file)
    made = {}
    for m, places in enumerate(paths):
        links = [link for link, _, _ in places]
        for number, other in first_paths(ends, links).items():
            made[number] = paths[:m] + [[(e, slot, second) for e, (_, slot, second) in zip(other, places)]] + paths[m + 1 :]
        for p, (link, slot, second) in enumerate(places):
            for number, other in second_paths(ends, links, p, second).items() if second else ():
                made[number] = paths[:m] + [places[:p] + [(link, slot, other)] + places[p + 1 :]] + paths[m + 1 :]
    return {number: pack(vertices, timeout, ends, paths) for number, paths in made.items()}
