"""Pseudo-random heights for the catalogue call: falling ones, mostly near those of items, and ones that are damaged."""

from models import catalogue_model

BIG = 4_294_967_295
MOST = catalogue_model.HEIGHTS


def some_count(rng):
    """How many heights: mostly a few, and sometimes as many as there may be."""
    return rng.choice([0, 1, 2, 3, rng.randint(1, 9), rng.randint(1, 9), rng.randint(10, 60)] * 3 + [255, MOST])


def near(rng, own):
    """A height near one of these, or further up or down."""
    height = rng.choice(own)
    nearby = [height, height, height, height + 1, height - 1] * 3
    others = [own[0] + 1, own[-1] - 1, rng.randint(own[-1], own[0]), rng.randint(1, height)]
    return max(1, rng.choice(nearby + others))


def falling(rng, own):
    """Heights near the items' own, none of them more than the one before. All may be of a few, or the first the largest
    words."""
    count = some_count(rng)
    kind = rng.randrange(6)
    few = [near(rng, own) for _ in range(rng.randint(1, 3))]
    found = [rng.choice(few) if kind < 2 else near(rng, own) for _ in range(count)]
    for place in range(rng.randint(0, min(3, count)) if kind == 2 else 0):
        found[place] = rng.choice([BIG, BIG - 1, 2_147_483_648, 65_536])
    return sorted(found, reverse=True)


def damaged(rng, heights):
    """The heights with one that is 0, or more than it was; or from the last to the first; or too many of them."""
    place = rng.randrange(len(heights)) if heights else 0
    kind = rng.randrange(5)
    if kind == 0 or not heights:
        return heights[:place] + [0] + heights[place + 1 :]
    if kind == 1:
        return heights[:place] + [min(BIG, rng.choice([heights[0] + 1, BIG]))] + heights[place:]
    if kind == 2:
        return heights[:place] + [min(BIG, heights[place] + 1)] + heights[place + 1 :]
    if kind == 3:
        return heights[::-1]
    return heights + [heights[-1]] * (rng.choice([MOST + 1, MOST + 2, 300]) - len(heights))


def some_heights(rng, own):
    """Heights for a face whose items have these: mostly taken."""
    heights = falling(rng, own)
    return damaged(rng, heights) if rng.random() < 0.2 else heights
