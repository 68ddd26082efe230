"""Pseudo-random face files: taken ones of all shapes, and ones that are damaged."""

from making import face_bytes


def numbers(rng):
    """The heights and widths that a face takes its sizes from. A short row makes many ties and equal m."""
    kind = rng.randrange(6)
    if kind == 0:
        return list(range(1, rng.randint(2, 9)))
    if kind == 1:
        return sorted(rng.sample(range(1, 61), 10))
    if kind == 2:
        return list(range(1, 1001))
    if kind == 3:
        return list(range(980, 1001))
    if kind == 4:
        return [10 * i for i in range(1, 13)]
    return sorted({1, 1000, 999, 2} | {rng.randint(1, 1000) for _ in range(8)})


def sizes(rng, pool, most):
    count = min(rng.randint(1, most), len(pool))
    heights = sorted(rng.sample(pool, count), reverse=True)
    return list(zip(heights, sorted(rng.sample(pool, count))))


def longer(rng, length):
    """The length itself, or a greater one."""
    return min(1000, length + rng.choice([0, 0, 1, rng.randint(1, 300)]))


def no_better(rng, size):
    """The size again, or one that is inferior to it."""
    height, width = size
    return longer(rng, height), longer(rng, width)


def printed(rng, pool, ordered):
    """The sizes of a gauge of version 2: as many pairs of any lengths from the pool as there are ordered sizes; or these
    sizes, in order or in any order, or with repeats and inferior ones among them."""
    kind = rng.randrange(4)
    if kind == 0:
        return [(rng.choice(pool), rng.choice(pool)) for _ in ordered]
    if kind == 1:
        return ordered
    others = rng.randint(0, 8 - len(ordered)) if kind == 2 else 0
    found = ordered + [no_better(rng, rng.choice(ordered)) for _ in range(others)]
    rng.shuffle(found)
    return found


def spread(rng):
    """Eight sizes from the highest to the widest. Faces of such gauges have long lists."""
    steps = range(0, 1000, 125)
    heights = [step + rng.randint(1, 125) for step in steps][::-1]
    return list(zip(heights, [step + rng.randint(1, 125) for step in steps]))


def joined(rng, gauges, shape, depth=0):
    """The entries of a part of these gauges, each part before its join."""
    if len(gauges) == 1:
        return [gauges[0]]
    cut = {
        "left": len(gauges) - 1,
        "right": 1,
        "even": len(gauges) // 2,
    }.get(shape[0]) or rng.randint(1, len(gauges) - 1)
    kind = {"beside": 2, "stacked": 3, "turns": 2 + depth % 2}.get(shape[1]) or rng.randint(2, 3)
    older = joined(rng, gauges[:cut], shape, depth + 1)
    return older + joined(rng, gauges[cut:], shape, depth + 1) + [bytes([kind])]


def gauge_count(rng, large):
    kind = rng.random()
    if kind < 0.15:
        return 1
    if kind < 0.75:
        return rng.randint(2, 7)
    if kind < 1 - large:
        return rng.randint(8, 16)
    return rng.choice([17, 24, 33, 48, 63, 64])


def face(rng, large=0.04):
    """A file that is taken, of either version. So many of all are large ones."""
    count = gauge_count(rng, large)
    pool = numbers(rng)
    most = rng.choice([1, 2, 3, 8])
    wide = rng.random() < 0.2
    gauges = [spread(rng) if wide else sizes(rng, pool, most) for _ in range(count)]
    version = rng.choice([1, 2])
    if version == 2:
        gauges = [printed(rng, pool, ordered) for ordered in gauges]
    shape = rng.choice(["left", "right", "even", "any"]), rng.choice(["beside", "stacked", "turns", "any"])
    entries = joined(rng, [face_bytes.gauge(*of_gauge) for of_gauge in gauges], shape)
    return face_bytes.face(*entries, version=version)


def lopsided(rng):
    """A file that is taken, of either version, of a deep tree and so many sizes that its top level is at an end of document
    01's rule. In version 2 a gauge may have one size only, printed again and again."""
    version = rng.choice([1, 2])
    left = rng.choice([31, 32, 127, 128, 129, 511, 512, rng.randint(16, 512)])
    count = rng.randint((left + 7) // 8, min(64, left))
    gauges = []
    for others in range(count - 1, -1, -1):
        own = rng.randint(max(1, left - 8 * others), min(8, left - others))
        of_gauge = spread(rng)[:own]
        if version == 2:
            of_gauge = rng.choices(of_gauge[: rng.randint(1, own)], k=own)
        gauges.append(face_bytes.gauge(*of_gauge))
        left -= own
    entries = joined(rng, gauges, (rng.choice(["left", "right", "even", "any"]), "any"))
    return face_bytes.face(*entries, version=version)


def odd_byte(rng):
    return rng.choice([0, 1, 2, 3, 4, 8, 9, 0xE8, 0xE9, 0xFF, rng.randrange(256)])


def too_many(rng):
    """Gauges to the 65th, or parts that are not joined."""
    count = rng.choice([2, 3, 64, 65, 66, 127])
    pairs = sizes(rng, numbers(rng), 2)
    joins = [bytes([rng.randint(2, 3)]) for _ in range(rng.randint(0, min(count, 127 - count)))]
    entries = [face_bytes.gauge(*pairs) for _ in range(count)] + joins
    return face_bytes.face(*entries, version=rng.choice([1, 2]))


def damaged(rng, file):
    """The file changed at a random place, cut short, lengthened, or with another version or count of entries."""
    kind = rng.randrange(10)
    place = rng.randrange(len(file))
    if kind <= 2:
        return file[:place] + bytes([odd_byte(rng)]) + file[place + 1 :]
    if kind == 3:
        return file[:place]
    if kind == 4:
        return file + bytes(odd_byte(rng) for _ in range(rng.choice([1, 1, 2, 7, 300])))
    if kind == 5:
        return file[:place] + file[place + 1 :]
    if kind == 6:
        return file[:place] + bytes([odd_byte(rng)]) + file[place:]
    if kind == 7 and len(file) >= 7:
        entries = max(0, min(65535, file[5] * 256 + file[6] + rng.choice([-1, 1, -2, 2, 256, 127])))
        return file[:5] + face_bytes.two(entries) + file[7:]
    if kind == 8:
        return file[:3] + face_bytes.two(rng.choice([0, 1, 1, 1, 2, 2, 3, 257, 258, 512])) + file[5:]
    return too_many(rng)


def noise(rng):
    """Random bytes, after a header or not."""
    version = rng.choice([1, 2])
    headers = [face_bytes.header(rng.randint(0, 130), version), face_bytes.header(rng.randint(1, 5), version)]
    start = rng.choice([b"", b"FCE", b"FCE\0\1", b"FCE\0\2", *headers])
    few = rng.random() < 0.5
    return start + bytes(rng.randint(0, 4) if few else rng.randrange(256) for _ in range(rng.randint(0, 40)))


def any_file(rng, taken=0.7, large=0.04):
    """A file, of which so many are taken before they are damaged."""
    kind = rng.random()
    file = face(rng, large)
    if kind < taken:
        return file
    if kind < 0.95:
        file = damaged(rng, file)
        return damaged(rng, file) if file and rng.random() < 0.2 else file
    return noise(rng)
