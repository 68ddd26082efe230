"""The catalogue calls on stored faces. A call is given what a right one is, but for what its name says."""

import itertools

from making import height_files
from making.calls import SHORT, WORDS, Levels
from making.case import LONGER, OUTPUT, file_case, widths_case
from making.rib_files import FACES, MOST
from models import catalogue_model, face_model, list_model

BIG = height_files.BIG
HEIGHTS = catalogue_model.HEIGHTS

# The heights around so many items go to one call: each one's own, one more and one less.
ITEMS = HEIGHTS // 3

# Small faces, with a call for each height around each item; and large ones.
SMALL = """example example-stacked lone-of-8 tie-with-turned three-beside-then-stacked three-stacked-then-beside
tiny-stacked printed-lone printed-stacked printed-beside-then-stacked""".split()
LARGE = """row-of-16 pile-of-16 alternating-17 balanced-16-stacked mixed-20 mixed-40-small equal-heights-mixed row-of-64
pile-of-64 mixed-64 balanced-64-stacked alternating-64-many square-of-64 widest highest printed-pile-of-16
printed-mixed-20 printed-row-of-64 printed-alternating-64 printed-mixed-64""".split()

# Faces with each number of heights.
COUNTED = ["example-stacked", "printed-beside", "row-of-64", "pile-of-64", "printed-alternating-64"]
COUNTS = [0, 1, 2, 255, 256, 257]

# Faces with what each check refuses, and with all sets of checks that fail.
CHECKED = ["example", "example-stacked", "lone-1-1", "printed-beside-then-stacked", "printed-mixed-64"]
ORDERED = ["example", "printed-beside-then-stacked"]


class HeightCalls:
    """Catalogue calls on a face. Where nothing else is said they are lent as many words as are asked, and levels that
    are all 1, or another table of four for another rib."""

    def __init__(self, name):
        self.name, self.file = name, FACES[name]
        self.levels = Levels(self.file, face_model.read(self.file).size_count())
        self.found = {}

    def call(self, what, heights, rib=0, number=None, table=None, arena=WORDS, scratch=WORDS, output=None):
        """Adds a call. A number that was worked out by hand is that of its answer."""
        table = self.levels.of_rib(rib) if table is None else table
        output = min(OUTPUT, len(heights)) if output is None else output
        name = f"{self.name}, widths, rib {rib}, {what}"
        case = widths_case(name, self.file, table, rib, heights, arena, scratch, output)
        assert number is None or case.wanted.split()[1] == str(number), name
        self.found.setdefault(name, case)

    def cases(self):
        return [file_case(f"{self.name}, widths", self.file)] + list(self.found.values())


# ---------------------------------------------------------------------------------------------------------------
# Heights that are taken


def by_hand_calls(calls):
    """The heights that have hand-written answers."""
    for asked in height_files.ASKED:
        if asked.name == calls.name:
            calls.call(asked.what(), asked.heights, asked.rib, asked.number)


def around(items):
    """Each item's height, one more and one less, from the largest."""
    near = {item.height + more for item in items for more in (1, 0, -1)}
    return sorted(near - {0}, reverse=True)


def item_calls(calls):
    """The heights around each item, one by one and all in one call."""
    for rib in (0, 1, MOST):
        heights = around(list_model.outer_sizes(calls.file, rib))
        for height in heights:
            calls.call(str(height), [height], rib)
        calls.call("around all items", heights, rib, output=len(heights) + 4)


def many_items_calls(calls):
    """The heights around each item, many in a call; and under each table of levels a few."""
    for rib in (0, MOST):
        items = list_model.outer_sizes(calls.file, rib)
        for start in range(0, len(items), ITEMS):
            calls.call(f"around {ITEMS} items from {start}", around(items[start : start + ITEMS]), rib)
    for rib in (13, 6, 3, 4):
        items = list_model.outer_sizes(calls.file, rib)
        few = [items[len(items) * part // 8] for part in range(8)]
        calls.call("around a few items", around(few), rib, output=OUTPUT)


def spread(items, count):
    """So many heights from above the tallest item to below the lowest, as far apart as they can be."""
    high, low = items[0].height + 1, max(1, items[-1].height - 1)
    return [high - (high - low) * place // max(1, count - 1) for place in range(count)]


def count_calls(calls):
    """Each number of heights: all the same, and falling over the whole list."""
    items = list_model.outer_sizes(calls.file, 0)
    middle = items[len(items) // 2].height
    for count in COUNTS:
        number = 0 if count <= HEIGHTS else 23
        for height in (BIG, items[0].height, middle, items[-1].height, 1):
            calls.call(f"{count} of {height}", [height] * count, number=number)
        calls.call(f"{count} spread", spread(items, count), number=number)
        calls.call(f"{count} spread, longer output", spread(items, count), number=number, output=OUTPUT)
        if count >= 2:
            half = count // 2
            running_out = [middle] * half + [1] * (count - half)
            calls.call(f"{count}, half of {middle} and half of 1", running_out, number=number)


# ---------------------------------------------------------------------------------------------------------------
# Checks 14 to 23


def room_calls(calls):
    """Both sides of 17 and of 18, which asks a word for each height and none for the list."""
    items = list_model.outer_sizes(calls.file, 0)
    for count in (1, 2, 255, HEIGHTS):
        heights = spread(items, count)
        calls.call(f"{count} spread, short output", heights, number=18, output=count - 1)
        calls.call(f"{count} spread, one word more", heights, number=0, output=count + 1)
        calls.call(f"{count} spread, no output", heights, number=18, output=0)
    calls.call("none, longer output", [], number=0, output=4)
    heights = spread(items, 3)
    for words, number in {0: 17, SHORT: 17, WORDS: 0, WORDS + 1: 0, LONGER: 0}.items():
        calls.call(f"arena of {words}", heights, number=number, arena=words)
        calls.call(f"scratch of {words}", heights, number=number, scratch=words)
    calls.call("longer buffers", heights, number=0, arena=LONGER, scratch=LONGER, output=OUTPUT)
    calls.call("none, short arena", [], number=17, arena=SHORT)


def given_calls(calls):
    """Both sides of 14, 15 and 22."""
    heights = spread(list_model.outer_sizes(calls.file, 0), 3)
    for what, table in calls.levels.wrong().items():
        calls.call(what, heights, table=table)
    for rib in (MOST, MOST + 1, 255, 256, 65_536, BIG):
        calls.call("three spread", heights, rib, 0 if rib <= MOST else 22)
    calls.call("none", [], MOST + 1, 22)


def order_calls(calls):
    """Each set of checks that fail: the number is that of the first of them."""
    ones = calls.levels.ones
    for failing in itertools.product((False, True), repeat=6):
        numbers = [number for number, fails in zip((14, 15, 22, 17, 23, 18), failing) if fails]
        table = ([9] if 15 in numbers else [1]) + ones[1:] + ([1] if 14 in numbers else [])
        heights = [60, 61] if 23 in numbers else [60, 60]
        calls.call(
            "fails " + (" ".join(map(str, numbers)) or "none"),
            heights,
            MOST + 1 if 22 in numbers else 0,
            numbers[0] if numbers else 0,
            table,
            SHORT if 17 in numbers else WORDS,
            output=1 if 18 in numbers else 2,
        )


def refused_calls(name):
    """The call on a file that the reader refuses: with a level and a height, with no heights, and with all that can be
    wrong."""
    file = FACES[name]
    return [
        file_case(f"{name}, widths", file),
        widths_case(f"{name}, widths, 1 level", file, [1], 0, [60], WORDS, WORDS, 1),
        widths_case(f"{name}, widths, none", file, [1], 0, [], WORDS, WORDS, 0),
        widths_case(f"{name}, widths, all fail", file, [9, 9], MOST + 1, [0, 1], SHORT, SHORT, 0),
    ]


GROUPS = [
    ([asked.name for asked in height_files.ASKED], by_hand_calls),
    (SMALL, item_calls),
    (LARGE, many_items_calls),
    (COUNTED, count_calls),
    (CHECKED, room_calls),
    (CHECKED, given_calls),
    (ORDERED, order_calls),
]


def cases():
    found = []
    for name in dict.fromkeys(name for names, _ in GROUPS for name in names):
        calls = HeightCalls(name)
        for names, maker in GROUPS:
            if name in names:
                maker(calls)
        found += calls.cases()
    refused = [name for name, file in FACES.items() if face_model.number_of(file) != 0]
    return found + [case for name in refused for case in refused_calls(name)]
