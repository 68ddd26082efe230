"""Sheets of faces, with what document 02's paper 7 says of each, worked out by hand.

A sheet is of a face of the other modules or of one that stands here, with a rib, in an opening. The reason says how large
the face is and where its blank squares are: above a gauge that is lower than its row, beside one that is narrower than its
pile, and in the ribs, each of them as height by width.
What the model says otherwise are `faults`, and so is a text of `material` other than the one that stands here.
sheet_calls.py has the calls that are made.
"""

import dataclasses

from making import by_hand, rib_files
from making.by_hand import Stored
from making.face_bytes import BESIDE, EXAMPLE, STACKED, face, gauge, tree_face
from making.rib_files import ANY, LARGEST, MOST
from making.trees import lopsided
from models import face_model, sheet_model


@dataclasses.dataclass
class Sheet:
    """The sheet of a face with a rib in an opening, line by line."""

    name: str
    rib: int
    opening: tuple
    rows: list
    reason: str

    def text(self):
        return "".join(row + "\n" for row in self.rows).encode()


# The faces that stand in no other module, and all of them by their names.
FILES = []
FACES = dict(rib_files.FACES)
SHEETS = []


def new(name, file, reason):
    assert name not in FACES, name
    FILES.append(Stored(name, file, 0, reason))
    FACES[name] = file


def sheet(name, rib, gauges, used, blank, area, reason, opening=ANY):
    """A sheet: the line of each gauge, and the numbers of the last three lines."""
    SHEETS.append(Sheet(name, rib, opening, gauges + [f"used {used}", f"blank {blank}", f"face {area}"], reason))


# --- Document 01's file: (60, 40), (40, 60) beside (50, 30), (30, 50). The first of a pair is the height.
UP = ["1 40 60 2400", "2 30 50 1500"]
LYING = ["1 60 40 2400", "2 50 30 1500"]
sheet("example", 0, UP, 3900, 300, 4200, "60 by 70. Above gauge 2, 10 by 30.")
sheet("example", 1, UP, 3900, 360, 4260, "60 by 71. Above gauge 2, 300; a rib of 60 by 1.")
sheet("example", 5, UP, 3900, 600, 4500, "60 by 75. Above gauge 2, 300; a rib of 60 by 5, 300.")
sheet("example", 11, LYING, 3900, 940, 4840, "40 by 121. Above gauge 2, 10 by 50; a rib of 40 by 11, 440.")
sheet("example", MOST, LYING, 3900, 1300, 5200, "40 by 130. Above gauge 2, 500; a rib of 40 by 20, 800.")
sheet("example", 0, LYING, 3900, 500, 4400, "40 by 110. Above gauge 2, 10 by 50.", (55, LARGEST))
sheet("example", 0, [LYING[0], UP[1]], 3900, 600, 4500, "50 by 90. Above gauge 1, 10 by 60.", (59, 90))
sheet("example", MOST, UP, 3900, 1500, 5400, "60 by 90. Above gauge 2, 300; a rib of 60 by 20.", (60, 129))

# --- Stacked.
sheet("example-stacked", 0, LYING, 3900, 300, 4200, "70 by 60. Beside gauge 2, 30 by 10.")
sheet("example-stacked", 5, LYING, 3900, 600, 4500, "75 by 60. Beside gauge 2, 300; a rib of 5 by 60.")
sheet("example-stacked", MOST, UP, 3900, 1300, 5200, "130 by 40. Beside gauge 2, 50 by 10; a rib of 20 by 40.")
sheet("example-stacked", 0, [UP[0], LYING[1]], 3900, 600, 4500, "90 by 50. Beside gauge 1, 60 by 10.", (90, 50))

# --- One gauge covers its face, and has no rib.
sheet("lone-1-1", 0, ["1 1 1 1"], 1, 0, 1, "The smallest sheet.")
sheet("lone-1-1", MOST, ["1 1 1 1"], 1, 0, 1, "No join.")
sheet("lone-of-2", 0, ["1 40 60 2400"], 2400, 0, 2400, "Of equal areas the least width.")
sheet("lone-of-2", MOST, ["1 60 40 2400"], 2400, 0, 2400, "40 by 60.", (59, 60))
sheet("lone-of-8", 5, ["1 1 80 80"], 80, 0, 80, "80 by 1 and 10 by 8 are both 80, and the least width is picked.")
sheet("lone-of-8", 0, ["1 8 10 80"], 80, 0, 80, "10 by 8.", (79, 8))
new("lone-largest", face(gauge((1000, 1000))), "The largest gauge.")
sheet("lone-largest", 0, ["1 1000 1000 1000000"], 1_000_000, 0, 1_000_000, "1,000 by 1,000.")

# --- Rows and piles that the gauges cover.
TIED = ["1 40 60 2400", "2 30 60 1800"]
sheet("tie", 0, TIED, 4200, 0, 4200, "Both are 60 high.")
sheet("tie", 1, TIED, 4200, 60, 4260, "A rib of 60 by 1.")
TIED_LYING = ["1 60 40 2400", "2 60 30 1800"]
sheet("tie-stacked", 0, TIED_LYING, 4200, 0, 4200, "Both are 60 wide.")
sheet("tie-stacked", 5, TIED_LYING, 4200, 300, 4500, "A rib of 5 by 60.")
new(
    "brick",
    face(gauge((40, 30)), gauge((40, 20)), BESIDE, gauge((10, 50)), STACKED),
    "40 by 30 beside 40 by 20, and 10 by 50 over both.",
)
BRICK = ["1 30 40 1200", "2 20 40 800", "3 50 10 500"]
sheet("brick", 0, BRICK, 2500, 0, 2500, "50 by 50.")
sheet("brick", 1, BRICK, 2500, 101, 2601, "51 by 51. Ribs of 40 by 1 and of 1 by 51; beside gauge 3, 10 by 1.")
sheet("brick", MOST, BRICK, 2500, 2400, 4900, "70 by 70. Ribs of 40 by 20 and of 20 by 70; beside gauge 3, 10 by 20.")

# --- Gauges of equal sizes.
new(
    "four-equal",
    face(*[gauge((10, 10)), gauge((10, 10)), BESIDE] * 2, STACKED),
    "Two rows of two, all 10 by 10.",
)
EQUAL = [f"{number} 10 10 100" for number in (1, 2, 3, 4)]
sheet("four-equal", 0, EQUAL, 400, 0, 400, "20 by 20.")
sheet("four-equal", 1, EQUAL, 400, 41, 441, "21 by 21. Ribs of 10 by 1 twice, and of 1 by 21.")
sheet("four-equal", 5, EQUAL, 400, 225, 625, "25 by 25. Ribs of 10 by 5 twice, and of 5 by 25.")
TURNABLE = gauge((60, 40), (40, 60))
new("three-equal", face(TURNABLE, TURNABLE, BESIDE, TURNABLE, BESIDE), "Three of (60, 40), (40, 60) in a row.")
NARROW, WIDE = ([f"{number} {size} 2400" for number in (1, 2, 3)] for size in ("40 60", "60 40"))
sheet("three-equal", 0, NARROW, 7200, 0, 7200, "60 by 120 and 40 by 180 are both 7,200.")
sheet("three-equal", 5, WIDE, 7200, 400, 7600, "40 by 190; 60 by 130 is 7,800. Two ribs of 40 by 5.")
new(
    "printed-three-equal",
    face(*[gauge((60, 60), (40, 60), (60, 40), (60, 40))] * 3, STACKED, STACKED, version=2),
    "Three of (40, 60), (60, 40) in a pile; the first size of each is inferior, and the last one a repeat.",
)
sheet("printed-three-equal", 0, NARROW, 7200, 0, 7200, "180 by 40 and 120 by 60 are both 7,200.")
sheet("printed-three-equal", MOST, NARROW, 7200, 1600, 8800, "220 by 40; 160 by 60 is 9,600. Two ribs of 20 by 40.")

# --- A side that is lower than the other.
sheet("lower-side", 0, ["1 10 90 900", "2 10 20 200"], 1100, 700, 1800, "90 by 20. Above gauge 2, 70 by 10.")
sheet(
    "lower-side-of-two",
    0,
    ["1 10 90 900", "2 5 100 500", "3 5 20 100"],
    1500,
    500,
    2000,
    "100 by 20. Above gauge 1, 10 by 10; above gauge 3, 80 by 5.",
    (100, 20),
)
new("crossed", face(gauge((1, 1000)), gauge((1000, 1)), BESIDE), "One lies and one stands.")
CROSSED = ["1 1000 1 1000", "2 1 1000 1000"]
sheet("crossed", 0, CROSSED, 2000, 999_000, 1_001_000, "1,000 by 1,001. Above gauge 1, 999 by 1,000.")
sheet("crossed", MOST, CROSSED, 2000, 1_019_000, 1_021_000, "1,000 by 1,021. The same, and a rib of 1,000 by 20.")

# --- Three gauges. Sizes (10, 2), (6, 5); (8, 3), (4, 7); (6, 1), (2, 9).
sheet(
    "three-beside",
    MOST,
    ["1 5 6 30", "2 7 4 28", "3 1 6 6"],
    64,
    254,
    318,
    "6 by 53. Above gauge 2, 2 by 7; two ribs of 6 by 20.",
)
sheet(
    "three-beside-then-stacked",
    1,
    ["1 5 6 30", "2 3 8 24", "3 9 2 18"],
    72,
    27,
    99,
    "11 by 9. Above gauge 1, 2 by 5; a rib of 8 by 1 in the row, and one of 1 by 9 over it.",
)
sheet(
    "three-stacked-then-beside",
    2,
    ["1 2 10 20", "2 3 8 24", "3 1 6 6"],
    50,
    70,
    120,
    "20 by 6. Beside gauge 1, 10 by 1; above gauge 3, 14 by 1; a rib of 2 by 3 in the pile, and one of 20 by 2.",
)
sheet(
    "tie-with-turned",
    1,
    ["1 50 20 1000", "2 40 30 1200", "3 8 50 400"],
    2600,
    409,
    3009,
    "51 by 59. Beside gauge 2, 30 by 10; above gauge 3, 1 by 8; a rib of 1 by 50 in the pile, and one of 51 by 1.",
)
sheet(
    "rib-ties",
    5,
    ["1 8 50 400", "2 50 20 1000", "3 40 25 1000"],
    2400,
    750,
    3150,
    "50 by 63. Beside gauge 3, 25 by 10; a rib of 5 by 50 in the pile, and one of 50 by 5.",
)

# --- A row in a pile in a row, of one size each.
new(
    "row-in-pile-in-row",
    face(gauge((2, 3)), gauge((4, 1)), BESIDE, gauge((1, 7)), STACKED, gauge((3, 2)), BESIDE),
    "2 by 3 beside 4 by 1; 1 by 7 over both; 3 by 2 beside all.",
)
NESTED = ["1 3 2 6", "2 1 4 4", "3 7 1 7", "4 2 3 6"]
sheet("row-in-pile-in-row", 0, NESTED, 23, 22, 45, "5 by 9. Above 1, 2 by 3; beside 2, 4 by 3; above 4, 2 by 2.")
sheet(
    "row-in-pile-in-row",
    1,
    NESTED,
    23,
    37,
    60,
    "6 by 10. Above 1, 2 by 3; beside 2, 4 by 2; above 4, 3 by 2; ribs of 4 by 1, of 1 by 7 and of 6 by 1.",
)
sheet(
    "row-in-pile-in-row",
    5,
    NESTED,
    23,
    137,
    160,
    "10 by 16. Above 1, 2 by 3; beside 3, 1 by 2; above 4, 7 by 2; ribs of 4 by 5, of 5 by 9 and of 10 by 5.",
)
sheet(
    "row-in-pile-in-row",
    MOST,
    NESTED,
    23,
    1127,
    1150,
    "25 by 46. Above 1, 2 by 3; beside 3, 1 by 17; above 4, 22 by 2; ribs of 4 by 20, of 20 by 24 and of 25 by 20.",
)

# --- Version 2: sizes in any order, repeated and inferior.
sheet("printed-lone", 0, ["1 40 60 2400"], 2400, 0, 2400, "60 by 40 and 40 by 60 are both 2,400.")
sheet("printed-all-equal", MOST, ["1 40 60 2400"], 2400, 0, 2400, "Any of the eight.")
sheet("printed-beside", 0, UP, 3900, 300, 4200, "As of document 01's file.")
sheet("printed-beside", 5, UP, 3900, 600, 4500, "As of document 01's file.")
sheet("printed-stacked", MOST, UP, 3900, 1300, 5200, "As of its stacked form.")
SMALL_OVER = ["1 40 60 2400", "2 10 10 100"]
sheet("printed-equal-and-falling", 0, SMALL_OVER, 2500, 300, 2800, "70 by 40. Beside gauge 2, 10 by 30.")
sheet("printed-equal-and-falling", MOST, SMALL_OVER, 2500, 1100, 3600, "90 by 40. The same, and a rib of 20 by 40.")
sheet(
    "printed-nearly-in-order",
    MOST,
    ["1 40 60 2400", "2 40 59 2360", "3 39 59 2301", "4 40 60 2400"],
    9461,
    3679,
    13140,
    "60 by 219. Above gauge 2, 1 by 40; above gauge 3, 1 by 39; three ribs of 60 by 20.",
)

# --- Areas at each end of each number of digits, and gauge numbers of one and of two. All stand in a row, 1,000 high.
DIGITS = [(1, 1), (5, 2), (3, 3), (10, 10), (9, 11), (25, 40), (27, 37), (100, 100), (101, 99), (250, 400), (271, 369)]
DIGITS += [(1000, 1000), (1000, 999)]
new("digits", tree_face(lopsided([[size] for size in DIGITS])), "Areas of 1 to 7 digits.")
sheet(
    "digits",
    0,
    [
        "1 1 1 1",
        "2 2 5 10",
        "3 3 3 9",
        "4 10 10 100",
        "5 11 9 99",
        "6 40 25 1000",
        "7 37 27 999",
        "8 100 100 10000",
        "9 99 101 9999",
        "10 400 250 100000",
        "11 369 271 99999",
        "12 1000 1000 1000000",
        "13 999 1000 999000",
    ],
    2_221_216,
    849_784,
    3_071_000,
    "Above the first eleven: 999, 1,990, 2,991, 9,900, 10,901, 39,000, 36,001, 90,000, 89,001, 300,000 and 269,001.",
)

# --- 64 gauges: the shortest text of so many, and the longest numbers.
UNITS = [f"{number} 1 1 1" for number in range(1, 65)]
new("units-in-row", face(gauge((1, 1)), *[gauge((1, 1)), BESIDE] * 63), "64 of 1 by 1 in a row.")
sheet("units-in-row", 0, UNITS, 64, 0, 64, "1 by 64.")
sheet("units-in-row", 1, UNITS, 64, 63, 127, "1 by 127. 63 ribs of 1 by 1.")
sheet("units-in-row", MOST, UNITS, 64, 1260, 1324, "1 by 1,324. 63 ribs of 1 by 20.")
new("units-in-pile", face(gauge((1, 1)), *[gauge((1, 1)), STACKED] * 63, version=2), "64 of 1 by 1 in a pile.")
sheet("units-in-pile", 5, UNITS, 64, 315, 379, "379 by 1. 63 ribs of 5 by 1.")
LARGE = [f"{number} 1000 1000 1000000" for number in range(1, 65)]
sheet("widest", 0, LARGE, 64_000_000, 0, 64_000_000, "1,000 by 64,000.")
sheet("widest", MOST, LARGE, 64_000_000, 1_260_000, 65_260_000, "1,000 by 65,260. 63 ribs of 1,000 by 20.")
sheet("highest", 1, LARGE, 64_000_000, 63_000, 64_063_000, "64,063 by 1,000. 63 ribs of 1 by 1,000.")
sheet("highest-back", MOST, LARGE, 64_000_000, 1_260_000, 65_260_000, "65,260 by 1,000. 63 ribs of 20 by 1,000.")
sheet("square-of-64", 0, LARGE, 64_000_000, 0, 64_000_000, "8,000 by 8,000.")
sheet(
    "square-of-64",
    MOST,
    LARGE,
    64_000_000,
    2_259_600,
    66_259_600,
    "8,140 by 8,140. Seven strips of 20 either way, 162,800 each, which cross in 49 places of 400.",
)

# ---------------------------------------------------------------------------------------------------------------
# Model and hand-written answers

# What `material` prints for document 01's file.
EXAMPLE_TEXT = b"""1 40 60 2400
2 30 50 1500
used 3900
blank 300
face 4200
"""


def sheet_faults(stored):
    """What the model says otherwise than the hand-written sheet."""
    file = FACES[stored.name]
    levels = [1] * face_model.read(file).size_count()
    found = sheet_model.sheet_call(file, levels, stored.rib, *stored.opening)
    if (found.number, found.text) == (0, stored.text()):
        return []
    where = f"{stored.name} with rib {stored.rib} in {stored.opening}"
    return [f"{where}: by hand {stored.rows}, by the model {found.number} {found.text.decode().splitlines()}"]


def faults():
    found = by_hand.faults_of(FILES, lambda stored: [])
    found += [fault for stored in SHEETS for fault in sheet_faults(stored)]
    if sheet_model.text_of(EXAMPLE) != EXAMPLE_TEXT:
        found.append("the model has another sheet of document 01's file than by hand")
    return found
