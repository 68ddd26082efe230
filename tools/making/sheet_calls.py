"""The sheet calls on stored faces, and the texts of `material`. A call is given what a right one is, but for what its name
says."""

import itertools

from making import fit_files, sheet_files, text_files
from making.calls import SHORT, WORDS, Levels, opening_word
from making.case import LONGER, MATERIAL_LEAST, TEXT, file_case, material_case, sheet_case
from making.rib_files import ANY, LARGEST, MOST
from making.sheet_files import FACES
from models import face_model, fit_model, sheet_model

BIG = 4_294_967_295

# Small faces, in openings at each item with each of some ribs; and three of them with every rib.
SMALL = """example example-stacked lone-of-8 tie tie-with-turned lower-side-of-two three-beside three-beside-then-stacked
three-stacked-then-beside rib-ties tiny-row tiny-turned mixed-5 mixed-7 brick three-equal row-in-pile-in-row printed-lone
printed-beside printed-stacked printed-beside-then-stacked printed-tiny printed-mixed-6""".split()
RIBS = (0, 1, 5, MOST)
EVERY = ["example", "three-beside-then-stacked", "printed-stacked"]

# Large faces, in openings at the item of least area.
LARGE = """row-of-16 pile-of-16 alternating-17 balanced-16-stacked mixed-20 mixed-40-small equal-heights-mixed row-of-64
pile-of-64 mixed-64 lopsided-64-back balanced-64-stacked alternating-64-many square-of-64 widest highest printed-pile-of-16
printed-mixed-20 printed-row-of-64 printed-alternating-64 printed-mixed-64""".split()

# Faces with what each check refuses, and with all sets of checks that fail.
CHECKED = ["example", "example-stacked", "lone-1-1", "digits", "printed-beside-then-stacked", "printed-mixed-64"]
ORDERED = ["example", "printed-beside-then-stacked"]

# Openings on both sides of check 16's limit, by their numbers. The faces are smaller than those that are taken, and the
# low two bytes of some that are refused are not.
OPENINGS = {
    (LARGEST, LARGEST): 0,
    (64000, 64001): 0,
    (0, LARGEST): 16,
    (LARGEST, 0): 16,
    (0, 0): 16,
    (LARGEST + 1, LARGEST): 16,
    (LARGEST, LARGEST + 1): 16,
    (65536 + 60, LARGEST): 16,
    (LARGEST, 65536 + 70): 16,
    (BIG, LARGEST): 16,
    (LARGEST, BIG): 16,
    (BIG, BIG): 16,
}


class SheetCalls:
    """Sheet calls on a face. Where nothing else is said they are lent as many words and bytes as are asked, and levels that
    are all 1, or another table of four for another rib."""

    def __init__(self, name):
        self.name, self.file = name, FACES[name]
        self.face = face_model.read(self.file)
        self.need = sheet_model.output_bytes(self.face)
        self.levels = Levels(self.file, self.face.size_count())
        self.found = {}

    def call(self, what, opening=ANY, rib=0, number=None, table=None, arena=WORDS, scratch=WORDS, output=None):
        """Adds a call. A number that was worked out by hand is that of its answer."""
        table = self.levels.of_rib(rib) if table is None else table
        output = self.need if output is None else output
        name = f"{self.name}, sheet, rib {rib}, {what}"
        case = sheet_case(name, self.file, table, rib, *opening, arena, scratch, output)
        assert number is None or case.wanted.split()[1] == str(number), name
        self.found.setdefault(name, case)

    def fit(self, opening, rib):
        self.call(opening_word(opening), opening, rib)

    def cases(self):
        return [file_case(f"{self.name}, sheet", self.file)] + list(self.found.values())


# ---------------------------------------------------------------------------------------------------------------
# Sheets that are taken, and openings in which nothing fits


def by_hand_calls(calls):
    """The sheets that were worked out by hand: in an output just long enough, a longer one, one a byte too short, and one
    with room for the text alone."""
    for stored in sheet_files.SHEETS:
        if stored.name == calls.name:
            rooms = {"": calls.need, ", longer": calls.need + 4, ", short": calls.need - 1, ", text": len(stored.text())}
            for what, room in rooms.items():
                number = 0 if room >= calls.need else 18
                calls.call(opening_word(stored.opening) + what, stored.opening, stored.rib, number, output=room)


def around(item):
    """The opening of an item, and those of one less either way."""
    return [(item.height, item.width), (item.height - 1, item.width), (item.height, item.width - 1)]


def opening_calls(calls):
    """Openings around each item or some of many; the largest one; and those that are between the items."""
    for rib in RIBS:
        items = fit_model.root_part(calls.file, rib).items
        openings = [opening for item in fit_files.some_items(items) for opening in around(item)]
        openings += [ANY, (items[0].height - 1, items[-1].width - 1), (items[-1].height, items[0].width)]
        for opening in openings:
            calls.fit(opening, rib)


def every_rib_calls(calls):
    for rib in range(MOST + 1):
        calls.call("every rib", rib=rib, number=0, output=calls.need + 4)


def large_calls(calls):
    """Openings around the item of least area, the largest one, and those of the first and last items alone."""
    for rib in (0, MOST):
        items = fit_model.root_part(calls.file, rib).items
        least = fit_model.picked(items, *ANY)
        for opening in [*around(least), ANY, (LARGEST, items[0].width), (items[-1].height, LARGEST)]:
            calls.fit(opening, rib)


def table_calls(calls):
    """Each table of levels; longer buffers; and the smallest opening, in longer buffers too."""
    tables = {"ones": calls.levels.ones, "eights": calls.levels.eights}
    tables |= {"own": calls.levels.own, "scattered": calls.levels.scattered}
    for what, table in tables.items():
        calls.call(f"levels {what}", number=0, table=table)
    calls.call("longer buffers", number=0, arena=LONGER, scratch=LONGER, output=TEXT)
    calls.call("1x1", (1, 1), table=calls.levels.scattered)
    calls.call("1x1, longer buffers", (1, 1), arena=LONGER, scratch=LONGER, output=TEXT)


# ---------------------------------------------------------------------------------------------------------------
# Checks 14 to 22


def room_calls(calls):
    """Both sides of 17 and of 18. Less than the room are the fit's five words a gauge, counted as words and as bytes, and
    each part of the room alone."""
    gauges = calls.face.gauge_count()
    length = sheet_model.sheet_call(calls.file, calls.levels.ones, 0, *ANY).length
    for room in (0, 1, 5 * gauges, 20 * gauges, 32 * gauges, 64, length - 1, length, calls.need - 32, calls.need - 1):
        calls.call(f"output of {room}", number=18, output=room)
    for room in (calls.need, calls.need + 1, calls.need + 32, 2 * calls.need, TEXT):
        calls.call(f"output of {room}", number=0, output=room)
    for words, number in {0: 17, 1: 17, 4096: 17, SHORT: 17, WORDS: 0, WORDS + 1: 0, LONGER: 0}.items():
        calls.call(f"arena of {words}", number=number, arena=words)
        calls.call(f"scratch of {words}", number=number, scratch=words)
    calls.call("arena and scratch short", number=17, arena=SHORT, scratch=SHORT)


def given_calls(calls):
    """Both sides of 14, 15, 22 and 16."""
    for what, table in calls.levels.wrong().items():
        calls.call(what, number=14 if len(table) != calls.face.size_count() else 15, table=table)
    for rib in (MOST, MOST + 1, 255, 256, 65_536, BIG):
        calls.call("given rib", rib=rib, number=0 if rib <= MOST else 22)
    for opening, number in OPENINGS.items():
        calls.call(f"given {opening_word(opening)}", opening, number=number)
        calls.call(f"given {opening_word(opening)}", opening, MOST, number)


def opening_of(numbers):
    """An opening that fails 16, 19, both or none."""
    if 16 in numbers:
        return (0, 1) if 19 in numbers else (LARGEST + 1, LARGEST)
    return (1, 1) if 19 in numbers else ANY


def order_calls(calls):
    """Each set of checks that fail: the number is that of the first of them."""
    ones = calls.levels.ones
    for failing in itertools.product((False, True), repeat=7):
        numbers = [number for number, fails in zip((14, 15, 22, 16, 17, 18, 19), failing) if fails]
        table = ([9] if 15 in numbers else [1]) + ones[1:] + ([1] if 14 in numbers else [])
        calls.call(
            "fails " + (" ".join(map(str, numbers)) or "none"),
            opening_of(numbers),
            MOST + 1 if 22 in numbers else 0,
            numbers[0] if numbers else 0,
            table,
            SHORT if 17 in numbers else WORDS,
            output=calls.need - (18 in numbers),
        )


# ---------------------------------------------------------------------------------------------------------------
# Refused files, and the texts of `material`


def refused_calls(name, file):
    """The call on a file that the reader refuses: with nothing else wrong, with all that can be, and with an output of no
    bytes."""
    return [
        sheet_case(f"{name}, sheet, 1 level", file, [1], 0, *ANY, WORDS, WORDS, TEXT),
        sheet_case(f"{name}, sheet, all fail", file, [9, 9], MOST + 1, 0, 0, SHORT, SHORT, 95),
        sheet_case(f"{name}, sheet, no output", file, [1], 0, *ANY, WORDS, WORDS, 0),
    ]


def material_calls(name, file):
    """The text of `material` in buffers just long enough, a byte shorter, a byte longer, and of no bytes."""
    rooms = (MATERIAL_LEAST, MATERIAL_LEAST - 1, MATERIAL_LEAST + 1, 0)
    return [material_case(f"{name}, material in {room}", file, room) for room in rooms]


GROUPS = [
    ([stored.name for stored in sheet_files.SHEETS], by_hand_calls),
    (SMALL, opening_calls),
    (EVERY, every_rib_calls),
    (LARGE, large_calls),
    (SMALL + LARGE, table_calls),
    (CHECKED, room_calls),
    (CHECKED, given_calls),
    (ORDERED, order_calls),
]


def taken_cases():
    """The sheet calls on each face, and its text of `material`."""
    found = []
    for name in dict.fromkeys(name for names, _ in GROUPS for name in names):
        calls = SheetCalls(name)
        for names, maker in GROUPS:
            if name in names:
                maker(calls)
        found += calls.cases() + material_calls(name, calls.file)
    return found


def cases():
    refused = {name: file for name, file in FACES.items() if face_model.number_of(file) != 0}
    refused |= {stored.name: stored.file for stored in text_files.LONG}
    found = taken_cases()
    for name, file in refused.items():
        found += [file_case(f"{name}, sheet", file)] + refused_calls(name, file) + material_calls(name, file)
    return found
