"""Gauges of many sizes, for face files. A gauge is a list of its (height, width) sizes."""

from making.face_bytes import BESIDE, STACKED
from making.trees import Numbers, lopsided_either


def stairs(count, gauge_number=0):
    """So many sizes, falling in height and rising in width by one, and other ones for each gauge number."""
    return [(900 - 10 * gauge_number - i, 1 + 10 * gauge_number + i) for i in range(count)]


def with_stairs(tree):
    """A tree whose gauges are numbers of sizes, with so many stairs for each. Its joins are made side by side and stacked
    in turn on the way down, the root's side by side; those of a pair need not be given."""
    gauges = 0

    def visit(part, join, below):
        nonlocal gauges
        if isinstance(part, int):
            gauges += 1
            return stairs(part, gauges)
        older, newer = part[-2:]
        return (join, visit(older, below, join), visit(newer, below, join))

    return visit(tree, BESIDE, STACKED)


def any_gauge(numbers, count, least=1, most=1000):
    """So many sizes with lengths from least to most, falling in height and rising in width."""
    heights, widths = set(), set()
    while len(heights) < count:
        heights.add(least + numbers.below(most - least + 1))
    while len(widths) < count:
        widths.add(least + numbers.below(most - least + 1))
    return list(zip(sorted(heights, reverse=True), sorted(widths)))


def any_gauges(start, gauges, most_sizes=8, least=1, most=1000):
    numbers = Numbers(start)
    return [any_gauge(numbers, 1 + numbers.below(most_sizes), least, most) for _ in range(gauges)]


def eights(start, gauges=64):
    """Gauges of eight sizes each."""
    numbers = Numbers(start)
    return [any_gauge(numbers, 8) for _ in range(gauges)]


def long_both_ways(start, gauges=64):
    """Gauges of eight sizes. The least height and the least width of each are 1, and the others one in each of seven
    bands from 40 on. A face of 64 of them, joined in turn each way, has items down to 32 high and to 33 wide: of the
    sizes that come to it seven of eight go on its list, but for those whose height or width is there already."""
    numbers = Numbers(start)
    made = []
    for _ in range(gauges):
        heights = [40 + 137 * band + numbers.below(137) for band in reversed(range(7))] + [1]
        widths = [1] + [40 + 137 * band + numbers.below(137) for band in range(7)]
        made.append(list(zip(heights, widths)))
    return made


def long_by_height(gauges=64):
    """Gauges of eight sizes. All heights differ, but for the last size of each gauge, whose height is 1: so every
    height but one is on the list of them side by side, and that one stands for the last size of each."""
    made = []
    for g in range(gauges):
        heights = [2 + gauges * (6 - i) + 29 * g % gauges for i in range(7)] + [1]
        made.append([(height, 1 + 100 * i + g) for i, height in enumerate(heights)])
    return made


def turned(gauges):
    """The same gauges lying: heights for widths."""
    return [[(width, height) for height, width in reversed(sizes)] for sizes in gauges]


def few_heights(start, gauges):
    """Gauges of up to eight sizes whose heights are tens from 10 to 80, the last 10: many equal m."""
    numbers = Numbers(start)
    made = []
    for _ in range(gauges):
        count = 1 + numbers.below(8)
        heights = {10}
        while len(heights) < count:
            heights.add(10 + 10 * numbers.below(8))
        widths = sorted(1 + 100 * i + numbers.below(100) for i in range(count))
        made.append(list(zip(sorted(heights, reverse=True), widths)))
    return made


def alternating_many(gauges=64):
    """A long list that is turned at each join, with gauges joined at either end."""
    return lopsided_either(long_both_ways(5, gauges), [BESIDE, STACKED], Numbers(5))


# ---------------------------------------------------------------------------------------------------------------
# Sizes as the makers print them, for files of version 2


def shuffled(numbers, sizes):
    left = list(sizes)
    return [left.pop(numbers.below(len(left))) for _ in sizes]


def more(numbers, length):
    """The length itself, or a greater one."""
    return min(1000, length + numbers.below(2) * (1 + numbers.below(30)))


def printed(numbers, sizes):
    """These sizes and as many more of them, eight at most, in any order: repeats, and sizes that are taller, wider or
    both."""
    found = list(sizes)
    while len(found) < min(8, 2 * len(sizes)):
        height, width = sizes[numbers.below(len(sizes))]
        found.append((more(numbers, height), more(numbers, width)))
    return shuffled(numbers, found)


def all_shuffled(start, gauges):
    numbers = Numbers(start)
    return [shuffled(numbers, sizes) for sizes in gauges]


def all_printed(start, gauges):
    numbers = Numbers(start)
    return [printed(numbers, sizes) for sizes in gauges]


def any_pairs(start, gauges, most_sizes, most):
    """Gauges of any pairs of lengths up to most."""
    numbers = Numbers(start)
    return [
        [(1 + numbers.below(most), 1 + numbers.below(most)) for _ in range(1 + numbers.below(most_sizes))]
        for _ in range(gauges)
    ]


