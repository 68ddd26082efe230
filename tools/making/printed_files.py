"""Faces of version 2, with sizes as the makers print them: in any order, with repeats and with sizes that are inferior. What
documents 01 and 02 say of each was worked out by hand.

A hand-sized face has its list, the records that hold it, and what some openings give, one also its text; a large one how
many items it has, where that can be said without a merge. What the models say otherwise are `faults`, and so is a face of
few choices with another list, or another least area, than the one that all its printed sizes make.
"""

from making import by_hand, fit_files, list_files
from making.by_hand import Stored
from making.face_bytes import BESIDE, STACKED, face, gauge, tree_face
from making.gauges import all_printed, all_shuffled, any_gauge, any_gauges, any_pairs, long_both_ways, long_by_height
from making.trees import Numbers, balanced, lopsided, mixed
from models import fit_model, text_model

LARGEST = text_model.OPENING
FILES = []


def taken(name, file, reason, items=None, records=None, count=None, fits=None):
    """A file of version 2. items, records and count are as in list_files.py, fits as in fit_files.py."""
    answers = {"list": {"items": items, "records": records, "count": count}, "fits": fits or {}}
    FILES.append(Stored(name, file, 0, reason, answers))


def printed_face(*entries):
    return face(*entries, version=2)


def printed_tree(tree):
    return tree_face(tree, version=2)


# --- One gauge. The number that is written is the size's own, of equal pairs the lowest.
taken(
    "printed-lone",
    printed_face(gauge((40, 60), (60, 40), (70, 50), (60, 40), (50, 60), (30, 90), (60, 45), (40, 60))),
    "4 repeats 2, and 8 repeats 1. 3 is taller and wider than 2, 5 is taller than 1, 7 is wider than 2.",
    [(60, 40), (40, 60), (30, 90)],
    [2, 1, 6],
    fits={
        (LARGEST, LARGEST): [(2, 0, 0)],  # 60 by 40 and 40 by 60 are 2,400, and 30 by 90 is 2,700.
        (70, 50): [(2, 0, 0)],  # 3 fills it, and 2 is smaller.
        (59, 89): [(1, 0, 0)],
        (50, 60): [(1, 0, 0)],
        (39, 90): [(6, 0, 0)],
        (39, 89): 19,
        (59, 59): 19,
    },
)
EQUAL = gauge(*[(60, 40)] * 8)
taken(
    "printed-all-equal",
    printed_face(EQUAL),
    "All eight are equal: the lowest number stays.",
    [(60, 40)],
    [1],
    fits={(LARGEST, LARGEST): [(1, 0, 0)], (60, 40): [(1, 0, 0)], (59, 40): 19, (60, 39): 19},
)
taken(
    "printed-rising",
    printed_face(gauge((10, 8), (20, 7), (30, 6), (40, 5), (50, 4), (60, 3), (70, 2), (80, 1))),
    "All are useful, and the walk is from the last to the first.",
    [(80, 1), (70, 2), (60, 3), (50, 4), (40, 5), (30, 6), (20, 7), (10, 8)],
    [8, 7, 6, 5, 4, 3, 2, 1],
    fits={(LARGEST, LARGEST): [(8, 0, 0)], (79, 8): [(1, 0, 0)], (79, 7): [(7, 0, 0)], (9, 8): 19},
)
taken(
    "printed-last-as-wide",
    printed_face(gauge((80, 1), (70, 2), (60, 3), (50, 4), (40, 5), (30, 6), (20, 7), (10, 7))),
    "In order but for the last, which leaves 7 inferior.",
    [(80, 1), (70, 2), (60, 3), (50, 4), (40, 5), (30, 6), (10, 7)],
    [1, 2, 3, 4, 5, 6, 8],
    fits={(LARGEST, LARGEST): [(8, 0, 0)], (80, 6): [(1, 0, 0)], (30, 6): [(6, 0, 0)], (29, 6): 19},
)

# --- Document 01's file as printed. Gauge 1 has (60, 40) as 2 and (40, 60) as 1; 3 repeats 2, and 4 is inferior to it.
# Gauge 2 has (50, 30) as 7, its third, and (30, 50) as 5, its first; 8 and 9 repeat them; 6 and 10 are equal, and inferior.
FIRST = gauge((40, 60), (60, 40), (60, 40), (70, 50))
SECOND = gauge((30, 50), (50, 60), (50, 30), (30, 50), (50, 30), (50, 60))
PRINTED_BESIDE = printed_face(FIRST, SECOND, BESIDE)
taken(
    "printed-beside",
    PRINTED_BESIDE,
    "60: size 2 with 7. 50: size 7 with 1. 40: size 1 with 5.",
    [(60, 70), (50, 90), (40, 110)],
    [2, 7, 1],
    fits={
        (LARGEST, LARGEST): [(2, 0, 0), (3, 40, 0)],
        (59, 90): [(1, 0, 0), (3, 60, 0)],
        (55, LARGEST): [(1, 0, 0), (1, 60, 0)],  # 40 by 110 is 4,400, and 50 by 90 is 4,500.
        (40, 109): 19,
        (59, 89): 19,
    },
)
PRINTED_BESIDE_TEXT = """faces 3
60 70
50 90
40 110
best 60 70 4200
gauge 1 size 2 at 0 0
gauge 2 size 3 at 40 0
"""
taken(
    "printed-stacked",
    printed_face(FIRST, SECOND, STACKED),
    "By width, 60: size 1 with 5. 50: size 5 with 2. 40: size 2 with 7.",
    [(110, 40), (90, 50), (70, 60)],
    [1, 5, 2],
    fits={
        (LARGEST, LARGEST): [(1, 0, 0), (1, 0, 40)],
        (110, 40): [(2, 0, 0), (3, 0, 60)],
        (109, 59): [(2, 0, 0), (1, 0, 60)],
        (69, 60): 19,
    },
)

# --- One useful size in each gauge.
taken(
    "printed-nearly-in-order",
    printed_tree(lopsided([[(60, 40), (60, 41)], [(60, 40), (59, 40)], [(60, 40), (59, 39)], [(60, 40), (61, 41)]])),
    "1, 4, 6 and 7 are useful: the first size, the second, the second, the first. 1 and 7 have equal m.",
    [(60, 159)],
    [1],
    fits={(LARGEST, LARGEST): [(1, 0, 0), (2, 40, 0), (2, 80, 0), (1, 119, 0)], (60, 158): 19, (59, LARGEST): 19},
)
taken(
    "printed-tie",
    printed_face(gauge((70, 40), (60, 40), (61, 40), (60, 40)), gauge((60, 70), (60, 41), (60, 30), (60, 30)), BESIDE),
    "1 and 3 are as wide as 2 and taller, 5 and 6 as high as 7 and wider. 2 and 7 have equal m: the older part's stays.",
    [(60, 70)],
    [2],
    fits={(LARGEST, LARGEST): [(2, 0, 0), (3, 40, 0)], (60, 69): 19, (59, 70): 19},
)
FALLING = gauge((80, 80), (70, 70), (60, 60), (50, 50), (40, 40), (30, 30), (20, 20), (10, 10))
taken(
    "printed-equal-and-falling",
    printed_face(EQUAL, FALLING, STACKED),
    "Of eight equal sizes the first is useful, of eight of which each is taller and wider than the next the last.",
    [(70, 40)],
    [1],
    fits={(LARGEST, LARGEST): [(1, 0, 0), (8, 0, 60)], (69, 40): 19, (70, 39): 19},
)

# --- Three gauges, joined both ways. The useful sizes are (10, 2) in 2, (6, 5) in 1; (8, 3) in 6, (4, 7) in 5; (6, 1) in 9,
# (2, 9) in 8. Within their gauges 6 is the third, 5 the second, 9 the second and 8 the first.
THREE = gauge((6, 5), (10, 2), (10, 3)), gauge((9, 7), (4, 7), (8, 3), (8, 3)), gauge((2, 9), (6, 1), (6, 9))
taken(
    "printed-beside-then-stacked",
    printed_face(THREE[0], THREE[1], BESIDE, THREE[2], STACKED),
    "The first two make 10 5, 8 8, 6 12 in 2, 6, 1: by width 12 6, 8 8, 5 10 in 1, 6, 2.",
    [(16, 5), (14, 8), (10, 9), (8, 12)],
    [1, 8, 6, 2],
    fits={
        (LARGEST, LARGEST): [(2, 0, 0), (3, 2, 0), (2, 0, 10)],
        (15, 8): [(1, 0, 0), (3, 5, 0), (2, 0, 8)],
        (13, 9): [(1, 0, 0), (3, 5, 0), (1, 0, 8)],
        (9, 12): [(1, 0, 0), (2, 5, 0), (1, 0, 6)],
        (8, 11): 19,
    },
)
taken(
    "printed-stacked-then-beside",
    printed_face(THREE[0], THREE[1], STACKED, THREE[2], BESIDE),
    "The first two make 18 3, 14 5, 10 7 in 6, 1, 5; height 6 of the third is below all.",
    [(18, 4), (14, 6), (10, 8)],
    [6, 1, 5],
    fits={
        (LARGEST, LARGEST): [(2, 0, 0), (3, 0, 10), (2, 3, 0)],
        (17, 7): [(1, 0, 0), (3, 0, 6), (2, 5, 0)],
        (10, 8): [(1, 0, 0), (2, 0, 6), (2, 7, 0)],
        (10, 7): 19,
    },
)

# --- Tiny sizes, so that all places of all printed sizes in an opening can be tried.
TINY = gauge((1, 2), (3, 1), (3, 2), (1, 2)), gauge((2, 2), (1, 3), (2, 1)), gauge((2, 2), (1, 2), (2, 1))
taken("printed-tiny", printed_face(TINY[0], TINY[1], TINY[2], BESIDE, STACKED), "Joined both ways.")

# --- Larger trees. Sizes in any order make the list that they make in order: with the gauges of long_by_height 449 items.
taken("printed-row-of-16", printed_tree(lopsided(all_printed(31, any_gauges(1, 16)), [BESIDE])), "All side by side.")
taken("printed-pile-of-16", printed_tree(balanced(all_printed(32, any_gauges(2, 16)), [STACKED])), "All stacked.")
taken("printed-mixed-6", printed_tree(mixed(any_pairs(48, 6, 4, 9), Numbers(6))), "Small lengths: equal pairs and ties.")
taken("printed-mixed-20", printed_tree(mixed(any_pairs(46, 20, 8, 12), Numbers(7))), "Small lengths: equal pairs and ties.")
taken("printed-row-of-64", printed_tree(lopsided(all_shuffled(35, long_by_height()))), "All are useful.", count=449)
TURNS = all_shuffled(37, long_both_ways(5))
taken("printed-alternating-64", printed_tree(lopsided(TURNS, [BESIDE, STACKED])), "A long list, turned at each join.")
EIGHTS = all_printed(36, [any_gauge(Numbers(start), 4) for start in range(64)])
taken("printed-mixed-64", printed_tree(mixed(EIGHTS, Numbers(3))), "64 gauges of 8 sizes, of which 4 are useful.")


# ---------------------------------------------------------------------------------------------------------------
# Openings


def openings(stored):
    """The largest one, and those with a hand-written answer, or those of items where there is none."""
    items = fit_files.some_items(fit_model.root_part(stored.file, 0).items)
    others = list(stored.answers["fits"]) or [(item.height, item.width) for item in items]
    return list(dict.fromkeys([(LARGEST, LARGEST)] + others))


def openings_tried(stored):
    """Those that the models' least area is held against all choices and places in."""
    tiny = range(1, 6) if stored.name.startswith("printed-tiny") else []
    return openings(stored) + [(height, width) for height in tiny for width in tiny]


# ---------------------------------------------------------------------------------------------------------------
# Models and hand-written answers


def taken_faults(stored):
    listed = Stored(stored.name, stored.file, 0, stored.reason, stored.answers["list"])
    fitted = Stored(stored.name, stored.file, 0, stored.reason, stored.answers["fits"])
    by_openings = [fault for opening in openings_tried(stored) for fault in fit_files.opening_faults(fitted, opening)]
    return list_files.taken_faults(listed) + by_openings


def faults():
    found = by_hand.faults_of(FILES, taken_faults)
    if text_model.text_of(PRINTED_BESIDE) != PRINTED_BESIDE_TEXT:
        found.append("printed-beside: by the models another text than by hand")
    return found
