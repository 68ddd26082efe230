"""Faces with a rib between the parts of each join. What documents 01 and 02 say of each was worked out by hand.

A face is one of the other modules, or stands here. With a rib it has its list, the records that hold it, and what openings
give, in the forms of list_files.py and fit_files.py. What the models say otherwise are `faults`, and so is a face of few
choices with another list, or another least area, than all its choices with the rib make, or than all places make in the
openings of a tiny face. rib_calls.py has the calls that are made on these faces.
"""

import dataclasses

from making import by_hand, fit_files, list_files, printed_files
from making.by_hand import Stored
from making.face_bytes import BESIDE, STACKED, face, gauge, tree_face
from making.trees import balanced, lopsided_back
from models import fit_model, list_model

MOST = list_model.RIB
LARGEST = fit_model.OPENING
ANY = (LARGEST, LARGEST)


@dataclasses.dataclass
class Ribbed(Stored):
    """A face with a rib."""

    rib: int = 0


# The faces that stand in no other module, and all of them by their names.
FILES = []
FACES = {stored.name: stored.file for stored in list_files.FILES + fit_files.FILES + printed_files.FILES}
RIBBED = []


def new(name, file, reason):
    FILES.append(Stored(name, file, 0, reason))
    FACES[name] = file


def ribbed(name, rib, reason, items, records, fits):
    """A face with a rib. items, records and fits are as in printed_files.py."""
    answers = {"list": {"items": items, "records": records}, "fits": fits}
    RIBBED.append(Ribbed(name, FACES[name], 0, reason, answers, rib))


# --- No join, so no rib.
ribbed(
    "lone-of-2",
    MOST,
    "A gauge has no parts.",
    [(60, 40), (40, 60)],
    [1, 2],
    {ANY: [(1, 0, 0)], (60, 40): [(1, 0, 0)], (59, 60): [(2, 0, 0)], (59, 59): 19},
)

# --- Document 01's file: sizes (60, 40), (40, 60) beside (50, 30), (30, 50). Every width is the rib more, and the right part
# starts the rib after the left part's 40 or 60.
ribbed(
    "example",
    5,
    "60: size 1 with 3. 50: size 3 with 2. 40: size 2 with 4.",
    [(60, 75), (50, 95), (40, 115)],
    [1, 3, 2],
    {
        ANY: [(1, 0, 0), (1, 45, 0)],  # 60 by 75 is 4,500, and 40 by 115 is 4,600.
        (60, 75): [(1, 0, 0), (1, 45, 0)],
        (60, 74): 19,
        (59, 95): [(2, 0, 0), (1, 65, 0)],
        (59, 94): 19,
        (55, LARGEST): [(2, 0, 0), (2, 65, 0)],  # 40 by 115 is 4,600, and 50 by 95 is 4,750.
        (40, 115): [(2, 0, 0), (2, 65, 0)],
        (40, 114): 19,
        (39, 115): 19,
    },
)
ribbed(
    "example",
    10,
    "60 by 80 and 40 by 120 are both 4,800, and the least width is picked. A rib less, and 60 is the smaller face.",
    [(60, 80), (50, 100), (40, 120)],
    [1, 3, 2],
    {ANY: [(1, 0, 0), (1, 50, 0)], (59, 120): [(2, 0, 0), (2, 70, 0)], (59, 119): [(2, 0, 0), (1, 70, 0)]},
)
ribbed(
    "example",
    11,
    "60 by 81 is 4,860, and 40 by 121 is 4,840.",
    [(60, 81), (50, 101), (40, 121)],
    [1, 3, 2],
    {ANY: [(2, 0, 0), (2, 71, 0)], (60, 120): [(1, 0, 0), (1, 51, 0)]},
)
ribbed(
    "example",
    MOST,
    "60 by 90 is 5,400, 50 by 110 is 5,500, and 40 by 130 is 5,200.",
    [(60, 90), (50, 110), (40, 130)],
    [1, 3, 2],
    {ANY: [(2, 0, 0), (2, 80, 0)], (60, 129): [(1, 0, 0), (1, 60, 0)], (40, 130): [(2, 0, 0), (2, 80, 0)], (40, 129): 19},
)
ribbed(
    "example-stacked",
    10,
    "120 by 40 and 80 by 60 are both 4,800, and the least width is picked.",
    [(120, 40), (100, 50), (80, 60)],
    [2, 4, 1],
    {ANY: [(1, 0, 0), (1, 0, 70)], (119, 60): [(2, 0, 0), (2, 0, 50)], (100, 59): [(1, 0, 0), (2, 0, 70)]},
)
ribbed(
    "example-stacked",
    MOST,
    "130 by 40 is 5,200, 110 by 50 is 5,500, and 90 by 60 is 5,400.",
    [(130, 40), (110, 50), (90, 60)],
    [2, 4, 1],
    {
        ANY: [(1, 0, 0), (1, 0, 80)],
        (129, 60): [(2, 0, 0), (2, 0, 60)],
        (110, 50): [(1, 0, 0), (2, 0, 80)],
        (89, 60): 19,
        (130, 39): 19,
    },
)

# --- A rib inside a turned part moves its m: it parts two that are equal without a rib, or makes two equal.
ribbed(
    "tie-with-turned",
    1,
    "Stacked, the first two are 51 high in size 1's record, and no more as high as (50, 8).",
    [(51, 59)],
    [1],
    {ANY: [(1, 0, 0), (1, 0, 21), (1, 51, 0)], (51, 58): 19, (50, 59): 19},
)
ribbed(
    "tie-newer-turned",
    1,
    "The stacked part, (51, 50) in size 3's record, is now the higher one.",
    [(51, 59)],
    [3],
    {ANY: [(1, 0, 0), (1, 9, 0), (1, 9, 21)], (51, 58): 19, (50, 59): 19},
)
new(
    "rib-ties",
    face(gauge((50, 8), (10, 90)), gauge((20, 50)), gauge((25, 40)), STACKED, BESIDE),
    "With a rib of 5 the stacked part is as high as size 1.",
)
ribbed(
    "rib-ties",
    4,
    "The stacked part is (49, 50) in size 3's record, and beside size 2 lower than size 1.",
    [(50, 62), (49, 144)],
    [1, 3],
    {ANY: [(1, 0, 0), (1, 12, 0), (1, 12, 24)], (49, 144): [(2, 0, 0), (1, 94, 0), (1, 94, 24)], (49, 143): 19},
)
ribbed(
    "rib-ties",
    5,
    "It is (50, 50), as high as size 1. The older part's record stays.",
    [(50, 63)],
    [1],
    {ANY: [(1, 0, 0), (1, 13, 0), (1, 13, 25)], (50, 62): 19, (49, LARGEST): 19},
)
ribbed(
    "rib-ties",
    6,
    "It is (51, 50), higher than size 1.",
    [(51, 64)],
    [3],
    {ANY: [(1, 0, 0), (1, 14, 0), (1, 14, 26)], (50, LARGEST): 19},
)

# --- Three gauges. Sizes (10, 2), (6, 5); (8, 3), (4, 7); (6, 1), (2, 9).
ribbed(
    "three-beside",
    MOST,
    "The first two make 10 25, 8 28, 6 32 in 1, 3, 2; each joins 6 1, which is as high as the last. Two ribs.",
    [(10, 46), (8, 49), (6, 53)],
    [1, 3, 2],
    {ANY: [(2, 0, 0), (2, 25, 0), (1, 52, 0)], (10, 46): [(1, 0, 0), (1, 22, 0), (1, 45, 0)], (6, 52): 19, (5, 53): 19},
)
ribbed(
    "three-beside-back",
    MOST,
    "The last two make 8 24, 6 28, 4 36 in 3, 5, 4. Two ribs.",
    [(10, 46), (8, 49), (6, 53)],
    [1, 3, 2],
    {ANY: [(2, 0, 0), (2, 25, 0), (1, 52, 0)], (9, 52): [(2, 0, 0), (1, 25, 0), (1, 48, 0)], (6, 52): 19},
)
ribbed(
    "three-stacked",
    MOST,
    "By width the first two make 7 30, 5 34, 3 38 in 4, 2, 3. Two ribs.",
    [(64, 3), (60, 5), (56, 7), (52, 9)],
    [6, 4, 2, 3],
    {ANY: [(1, 0, 0), (1, 0, 30), (1, 0, 58)], (52, 9): [(2, 0, 0), (2, 0, 26), (2, 0, 50)], (51, 9): 19, (63, 3): 19},
)
ribbed(
    "three-beside-then-stacked",
    1,
    "The first two make 10 6, 8 9, 6 13 in 1, 3, 2. Width 9 is then in both parts: the older part's record stays.",
    [(17, 6), (11, 9), (9, 13)],
    [2, 3, 1],
    {
        ANY: [(2, 0, 0), (1, 6, 0), (2, 0, 9)],  # 17 by 6 is 102, 11 by 9 is 99, 9 by 13 is 117.
        (17, 6): [(1, 0, 0), (1, 3, 0), (1, 0, 11)],
        (10, 13): [(2, 0, 0), (2, 6, 0), (2, 0, 7)],
        (10, 12): 19,
        (8, 13): 19,
    },
)
ribbed(
    "three-beside-then-stacked",
    MOST,
    "The first two make 10 25, 8 28, 6 32 in 1, 3, 2, all wider than 2 9.",
    [(32, 25), (30, 28), (28, 32)],
    [2, 3, 1],
    {
        ANY: [(1, 0, 0), (1, 22, 0), (2, 0, 30)],
        (31, LARGEST): [(2, 0, 0), (1, 25, 0), (2, 0, 28)],
        (28, 32): [(2, 0, 0), (2, 25, 0), (2, 0, 26)],
        (28, 31): 19,
    },
)
ribbed(
    "three-stacked-then-beside",
    2,
    "The first two make 20 3, 16 5, 12 7 in 3, 2, 4. Of 20 by 6 and 12 by 10 the least width is picked.",
    [(20, 6), (16, 8), (12, 10)],
    [3, 2, 4],
    {
        ANY: [(1, 0, 0), (1, 0, 12), (1, 5, 0)],
        (19, 10): [(2, 0, 0), (2, 0, 8), (1, 9, 0)],
        (19, 9): [(2, 0, 0), (1, 0, 8), (1, 7, 0)],
        (12, 9): 19,
    },
)

# --- Version 2: the same lists, in the records and with the numbers that are printed.
ribbed(
    "printed-beside",
    5,
    "60: size 2 with 7. 50: size 7 with 1. 40: size 1 with 5.",
    [(60, 75), (50, 95), (40, 115)],
    [2, 7, 1],
    {ANY: [(2, 0, 0), (3, 45, 0)], (59, 95): [(1, 0, 0), (3, 65, 0)], (40, 115): [(1, 0, 0), (1, 65, 0)], (40, 114): 19},
)
ribbed(
    "printed-stacked",
    MOST,
    "By width, 60: size 1 with 5. 50: size 5 with 2. 40: size 2 with 7.",
    [(130, 40), (110, 50), (90, 60)],
    [1, 5, 2],
    {ANY: [(2, 0, 0), (3, 0, 80)], (129, 60): [(1, 0, 0), (1, 0, 60)], (110, 50): [(2, 0, 0), (1, 0, 80)], (89, 60): 19},
)
ribbed(
    "printed-nearly-in-order",
    MOST,
    "Widths 40, 40, 39 and 40, and three ribs.",
    [(60, 219)],
    [1],
    {ANY: [(1, 0, 0), (2, 60, 0), (2, 120, 0), (1, 179, 0)], (60, 218): 19},
)
ribbed(
    "printed-beside-then-stacked",
    1,
    "The first two make 10 6, 8 9, 6 13 in 2, 6, 1. Width 9 is then in both parts.",
    [(17, 6), (11, 9), (9, 13)],
    [1, 6, 2],
    {
        ANY: [(1, 0, 0), (3, 6, 0), (1, 0, 9)],
        (17, 6): [(2, 0, 0), (3, 3, 0), (2, 0, 11)],
        (10, 13): [(1, 0, 0), (2, 6, 0), (1, 0, 7)],
        (8, 13): 19,
    },
)

# --- The widest faces and the highest: 64 gauges of 1,000 either way and 63 ribs of 20, 65,260. The gauges stand 1,020
# apart, whichever way the tree leans.
CUBES = [[(1000, 1000)]] * 64
new("widest-back", tree_face(lopsided_back(CUBES, [BESIDE])), "64 in a row, from the other end.")
new("highest-back", tree_face(lopsided_back(CUBES, [STACKED])), "64 in a pile, from the other end.")
for row in ("widest", "widest-back"):
    apart = [(1, 1020 * i, 0) for i in range(64)]
    fits = {ANY: apart, (1000, LARGEST): apart, (1000, LARGEST - 1): 19, (999, LARGEST): 19, (1000, 64000): 19}
    ribbed(row, MOST, "64 times 1,000 and 63 times 20.", [(1000, 65260)], [1], fits)
    apart = [(1, 1001 * i, 0) for i in range(64)]
    ribbed(row, 1, "63 ribs of 1.", [(1000, 64063)], [1], {(1000, 64063): apart, (1000, 64062): 19})
for pile in ("highest", "highest-back"):
    apart = [(1, 0, 1020 * i) for i in range(64)]
    fits = {ANY: apart, (LARGEST, 1000): apart, (LARGEST - 1, 1000): 19, (LARGEST, 999): 19, (64000, 1000): 19}
    ribbed(pile, MOST, "64 times 1,000 and 63 times 20.", [(65260, 1000)], [1], fits)
    apart = [(1, 0, 1001 * i) for i in range(64)]
    ribbed(pile, 1, "63 ribs of 1.", [(64063, 1000)], [1], {(64063, 1000): apart, (64062, 1000): 19})

# Eight by eight of them. A gauge stands as far across as the 32s, 8s and 2s of its index from 0 say, and as far up as the
# 16s, 4s and 1s.
new("square-of-64", tree_face(balanced(CUBES, [BESIDE, STACKED])), "Halves of halves, side by side and stacked in turn.")
SQUARE = [
    (1, 1020 * (i // 32 * 4 + i // 8 % 2 * 2 + i // 2 % 2), 1020 * (i // 16 % 2 * 4 + i // 4 % 2 * 2 + i % 2))
    for i in range(64)
]
ribbed(
    "square-of-64",
    MOST,
    "8 times 1,000 and 7 times 20 either way.",
    [(8140, 8140)],
    [1],
    {ANY: SQUARE, (8140, 8140): SQUARE, (8139, 8140): 19, (8140, 8139): 19},
)


# ---------------------------------------------------------------------------------------------------------------
# Models and hand-written answers

# Of these two every rib has its list and its smallest face by hand.
EVERY = range(MOST + 1)

# The tiny faces, with the ribs and the openings in which all places of their gauges are tried.
TINY = list(fit_files.TINY) + ["printed-tiny"]
TINY_RIBS = (1, 2)
TINY_OPENING = 6


def every_rib():
    """Document 01's file, and its stacked form, with each rib: the list, and where its smallest face has the gauges. Up to
    a rib of 10 and of 9 it is the one that is picked without a rib."""
    found = []
    for rib in EVERY:
        first = [(1, 0, 0), (1, 40 + rib, 0)] if rib <= 10 else [(2, 0, 0), (2, 60 + rib, 0)]
        answers = {"list": {"items": [(60, 70 + rib), (50, 90 + rib), (40, 110 + rib)]}, "fits": {ANY: first}}
        found.append(Ribbed("example", FACES["example"], 0, "", answers, rib))
        first = [(2, 0, 0), (2, 0, 40 + rib)] if rib <= 9 else [(1, 0, 0), (1, 0, 60 + rib)]
        answers = {"list": {"items": [(110 + rib, 40), (90 + rib, 50), (70 + rib, 60)]}, "fits": {ANY: first}}
        found.append(Ribbed("example-stacked", FACES["example-stacked"], 0, "", answers, rib))
    return found


def ribbed_faults(stored):
    """What is wrong with the models' answers on a face with a rib."""
    listed = Stored(f"{stored.name} with rib {stored.rib}", stored.file, 0, "", stored.answers["list"])
    fitted = Stored(listed.name, stored.file, 0, "", stored.answers["fits"])
    by_openings = [fault for opening in fitted.answers for fault in fit_files.opening_faults(fitted, opening, stored.rib)]
    return list_files.taken_faults(listed, stored.rib) + by_openings


def tiny_faults():
    """What all places say otherwise than the model on the tiny faces with ribs."""
    openings = [(height, width) for height in range(1, TINY_OPENING + 1) for width in range(1, TINY_OPENING + 1)]
    return [
        fault
        for name in TINY
        for rib in TINY_RIBS
        for opening in openings
        for fault in fit_files.opening_faults(Stored(f"{name} with rib {rib}", FACES[name], 0, "", {}), opening, rib)
    ]


def faults():
    by_ribs = [fault for stored in RIBBED + every_rib() for fault in ribbed_faults(stored)]
    return by_hand.faults_of(FILES, lambda stored: []) + by_ribs + tiny_faults()
