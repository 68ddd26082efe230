"""Trees of gauges, for face files. A gauge is whatever stands for one, a join a triple: its byte, the older part and the
newer one."""

from making.face_bytes import BESIDE, STACKED


class Numbers:
    """A fixed row of numbers that look like chance, the same on every machine."""

    def __init__(self, start):
        self.state = start

    def below(self, end):
        self.state = (self.state * 1103515245 + 12345) % 2**31
        return self.state // 2**8 % end


def lopsided(gauges, joins=(BESIDE,)):
    """Each gauge after the first is joined, as the newer part, to all before it. The joins are taken in turn."""
    tree = gauges[0]
    for i, newer in enumerate(gauges[1:]):
        tree = (joins[i % len(joins)], tree, newer)
    return tree


def lopsided_back(gauges, joins=(BESIDE,)):
    """All gauges stand first and then all joins: each gauge is the older part, joined to all that follow it."""
    tree = gauges[-1]
    for i, older in enumerate(reversed(gauges[:-1])):
        tree = (joins[i % len(joins)], older, tree)
    return tree


def lopsided_either(gauges, joins, numbers):
    """Each gauge after the first is joined to all before it, as the newer or as the older part."""
    tree = gauges[0]
    for i, other in enumerate(gauges[1:]):
        join = joins[i % len(joins)]
        tree = (join, tree, other) if numbers.below(2) == 0 else (join, other, tree)
    return tree


def zigzag(gauges):
    """The next gauge is the newer part, then the older, in turn, so the deepest gauges stand in the middle."""
    tree = gauges[0]
    for i, gauge in enumerate(gauges[1:]):
        tree = (BESIDE, tree, gauge) if i % 2 == 0 else (BESIDE, gauge, tree)
    return tree


def balanced(gauges, joins=(BESIDE,)):
    """Halves of halves. The joins are taken in turn on the way down."""
    if len(gauges) == 1:
        return gauges[0]
    half = len(gauges) // 2
    below = joins[1:] + joins[:1]
    return (joins[0], balanced(gauges[:half], below), balanced(gauges[half:], below))


def mixed(gauges, numbers):
    """A tree of any form: cut anywhere, with any join."""
    if len(gauges) == 1:
        return gauges[0]
    cut = 1 + numbers.below(len(gauges) - 1)
    join = BESIDE if numbers.below(2) == 0 else STACKED
    return (join, mixed(gauges[:cut], numbers), mixed(gauges[cut:], numbers))
