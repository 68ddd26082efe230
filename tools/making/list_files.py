"""Files for the list call, with what document 01 says of each, worked out by hand.

A hand-sized face has its list and the records that hold it; a large one how many items it has, where that can be said
without a merge; a refused file its number. What the model says otherwise are `faults`, and so is a face of few choices
with another list than the one that all its choices make.
"""

from making import by_hand
from making.by_hand import Stored
from making.face_bytes import BESIDE, EXAMPLE, STACKED, face, gauge, header, tree_face
from making.gauges import alternating_many, any_gauges, eights, few_heights, long_by_height, turned
from making.trees import Numbers, balanced, lopsided, lopsided_back, mixed
from models import face_model, list_model

FILES = []


def refused(name, file, number, reason):
    FILES.append(Stored(name, file, number, reason))


def taken(name, file, reason, items=None, records=None, count=None):
    """A file that the list call takes. items are (height, width) by falling height, records the numbers of the sizes
    that hold them in the order of the walk, count the number of items."""
    FILES.append(Stored(name, file, 0, reason, {"items": items, "records": records, "count": count}))


# --- One gauge: its own list, by falling height.
taken("lone-1-1", face(gauge((1, 1))), "A lone (1, 1).", [(1, 1)], [1])
taken("lone-of-2", face(gauge((60, 40), (40, 60))), "A lone (60, 40), (40, 60).", [(60, 40), (40, 60)], [1, 2])
taken(
    "lone-of-8",
    face(gauge((80, 1), (70, 2), (60, 3), (50, 4), (40, 5), (30, 6), (20, 7), (10, 8))),
    "m is height where the root is a gauge.",
    [(80, 1), (70, 2), (60, 3), (50, 4), (40, 5), (30, 6), (20, 7), (10, 8)],
    [1, 2, 3, 4, 5, 6, 7, 8],
)
taken("lone-last-byte-3", face(gauge((60, 3))), "The last byte is a width of 3, no stacked join.", [(60, 3)], [1])
taken(
    "lone-last-byte-3-of-259",
    face(gauge((60, 40), (40, 259))),
    "The last byte is the low byte of the width 259, no stacked join: the walk is by height.",
    [(60, 40), (40, 259)],
    [1, 2],
)
taken("lone-last-byte-2-of-258", face(gauge((60, 40), (40, 258))), "No join.", [(60, 40), (40, 258)], [1, 2])

# --- Document 01's file, and its stacked form. Sizes 1 and 2 are (60, 40), (40, 60); 3 and 4 are (50, 30), (30, 50).
taken(
    "example",
    EXAMPLE,
    "60: size 1 with 3. 50: size 3 with 2. 40: size 2 with 4. 30: no size of gauge 1 is so low.",
    [(60, 70), (50, 90), (40, 110)],
    [1, 3, 2],
)
taken(
    "example-stacked",
    EXAMPLE[:27] + STACKED,
    "By width, 60: size 2 with 4. 50: size 4 with 1. 40: size 1 with 3. The walk starts with the widest.",
    [(110, 40), (90, 50), (70, 60)],
    [2, 4, 1],
)

# --- Ties: one item is kept, in the older part's record.
taken("tie", face(gauge((60, 40)), gauge((60, 30)), BESIDE), "(60, 40) and (60, 30): only 60 70.", [(60, 70)], [1])
taken("tie-stacked", face(gauge((40, 60)), gauge((30, 60)), STACKED), "Both have width 60.", [(70, 60)], [1])
taken(
    "tie-twice",
    face(gauge((60, 40), (50, 45)), gauge((60, 30), (50, 35)), BESIDE),
    "Both heights are in both gauges.",
    [(60, 70), (50, 80)],
    [1, 2],
)
taken(
    "tie-at-last",
    face(gauge((60, 40), (40, 60)), gauge((50, 30), (40, 50)), BESIDE),
    "60: size 1 with 3. 50: size 3 with 2. 40: size 2 with 4, both of height 40.",
    [(60, 70), (50, 90), (40, 110)],
    [1, 3, 2],
)
taken(
    "tie-with-turned",
    face(gauge((20, 50)), gauge((30, 40)), STACKED, gauge((50, 8), (10, 90)), BESIDE),
    "Stacked, the first two are (50, 50) in size 1's record. Beside (50, 8) the older part's record stays.",
    [(50, 58)],
    [1],
)
taken(
    "tie-newer-turned",
    face(gauge((50, 8), (10, 90)), gauge((20, 50)), gauge((30, 40)), STACKED, BESIDE),
    "The same with the stacked part as the newer: size 1 is the older part's.",
    [(50, 58)],
    [1],
)

# --- Three gauges. Sizes 1 and 2 are (10, 2), (6, 5); 3 and 4 are (8, 3), (4, 7); 5 and 6 are (6, 1), (2, 9).
FIRST, SECOND, THIRD = gauge((10, 2), (6, 5)), gauge((8, 3), (4, 7)), gauge((6, 1), (2, 9))
taken(
    "three-beside",
    face(FIRST, SECOND, BESIDE, THIRD, BESIDE),
    "The first two make 10 5, 8 8, 6 12 in 1, 3, 2. Height 6 is then in both parts.",
    [(10, 6), (8, 9), (6, 13)],
    [1, 3, 2],
)
taken(
    "three-beside-back",
    face(FIRST, SECOND, THIRD, BESIDE, BESIDE),
    "The last two make 8 4, 6 8, 4 16 in 3, 5, 4. Height 6 is then in both parts.",
    [(10, 6), (8, 9), (6, 13)],
    [1, 3, 2],
)
taken(
    "three-stacked",
    face(FIRST, SECOND, STACKED, THIRD, STACKED),
    "By width the first two make 7 10, 5 14, 3 18 in 4, 2, 3.",
    [(24, 3), (20, 5), (16, 7), (12, 9)],
    [6, 4, 2, 3],
)
taken(
    "three-beside-then-stacked",
    face(FIRST, SECOND, BESIDE, THIRD, STACKED),
    "The first two make 10 5, 8 8, 6 12 in 1, 3, 2: by width 12 6, 8 8, 5 10 in 2, 3, 1.",
    [(16, 5), (14, 8), (10, 9), (8, 12)],
    [2, 6, 3, 1],
)
taken(
    "three-stacked-then-beside",
    face(FIRST, SECOND, STACKED, THIRD, BESIDE),
    "The first two make 18 3, 14 5, 10 7 in 3, 2, 4; height 6 of the third is below all.",
    [(18, 4), (14, 6), (10, 8)],
    [3, 2, 4],
)

# --- Larger trees, all joins one way. With the gauges of long_by_height all sizes but 63 of the last ones stay.
taken("row-of-16", tree_face(lopsided(any_gauges(1, 16), [BESIDE])), "All side by side.")
taken("pile-of-16", tree_face(lopsided(any_gauges(2, 16), [STACKED])), "All stacked.")
taken("row-of-64", tree_face(lopsided(long_by_height(), [BESIDE])), "n - g + 1 items are the most.", count=449)
taken("row-of-64-back", tree_face(lopsided_back(long_by_height(), [BESIDE])), "The same from the other end.", count=449)
taken("row-of-64-balanced", tree_face(balanced(long_by_height(), [BESIDE])), "The same by halves.", count=449)
taken("pile-of-64", tree_face(lopsided(turned(long_by_height()), [STACKED])), "The same lying.", count=449)
taken("pile-of-64-balanced", tree_face(balanced(turned(long_by_height()), [STACKED])), "By halves.", count=449)

# --- Trees of both joins.
taken("alternating-16", tree_face(lopsided(any_gauges(3, 16), [BESIDE, STACKED])), "The root is side by side.")
taken("alternating-17", tree_face(lopsided(any_gauges(4, 17), [BESIDE, STACKED])), "The root is stacked.")
taken("alternating-16-back", tree_face(lopsided_back(any_gauges(5, 16), [STACKED, BESIDE])), "From the other end.")
taken("balanced-16", tree_face(balanced(any_gauges(6, 16), [BESIDE, STACKED])), "Halves of halves, root side by side.")
taken("balanced-16-stacked", tree_face(balanced(any_gauges(7, 16), [STACKED, BESIDE])), "The root is stacked.")
taken("mixed-6", tree_face(mixed(any_gauges(16, 6, 3, 1, 9), Numbers(16))), "Small lengths: ties and inferior pairs.")
taken("mixed-5", tree_face(mixed(any_gauges(9, 5, 4, 1, 9), Numbers(9))), "Small lengths: ties and inferior pairs.")
taken("mixed-7", tree_face(mixed(any_gauges(16, 7, 3, 1, 12), Numbers(16))), "Small lengths: ties and inferior pairs.")
taken("mixed-20", tree_face(mixed(any_gauges(10, 20), Numbers(10))), "Cut anywhere, any joins.")
taken("mixed-40-small", tree_face(mixed(any_gauges(11, 40, 8, 1, 20), Numbers(11))), "Many ties.")
taken("mixed-64", tree_face(mixed(eights(12), Numbers(12))), "64 gauges of 8 sizes.")
taken("equal-heights-24", tree_face(lopsided(few_heights(13, 24), [BESIDE])), "At most 8 heights, so many equal m.")
taken("equal-widths-24", tree_face(lopsided(turned(few_heights(14, 24)), [STACKED])), "The same lying.")
taken("equal-heights-mixed", tree_face(balanced(few_heights(15, 32), [STACKED, BESIDE, BESIDE])), "Ties, then turns.")
taken("lopsided-64", tree_face(lopsided(eights(16), [BESIDE, BESIDE, STACKED])), "64 gauges of 8 sizes.")
taken("lopsided-64-back", tree_face(lopsided_back(eights(17), [STACKED, BESIDE, BESIDE])), "64 gauges of 8 sizes.")
taken("balanced-64", tree_face(balanced(eights(18), [BESIDE, STACKED])), "64 gauges of 8 sizes.")
taken("balanced-64-stacked", tree_face(balanced(eights(19), [STACKED, BESIDE])), "64 gauges of 8 sizes.")
taken("alternating-64", tree_face(lopsided(eights(20), [STACKED, BESIDE])), "64 gauges of 8 sizes, the root stacked.")
taken("alternating-64-back", tree_face(lopsided_back(eights(21), [BESIDE, STACKED])), "The root is side by side.")
taken("alternating-64-many", tree_face(alternating_many()), "A long list, turned at each join.")

# --- Refused files: 1 to 13. face_files.py has more of each.
ONE = gauge((60, 40))
refused("no-1", b"FCE\x00\x01\x00", 1, "7 bytes or more? 6.")
refused("no-2", b"FCX" + face(ONE)[3:], 2, "First three FCE? FCX.")
refused("no-3", header(1, version=3) + ONE, 3, "Version 1 or 2? 3.")
refused("no-4", header(0), 4, "Entries 1 to 127? 0.")
refused("no-5", face(ONE)[:12], 5, "All bytes of its sizes present? 3 of 4.")
refused("no-6", header(1) + b"\x04" + ONE[1:], 6, "Kind 01, 02 or 03? 04.")
refused("no-7", header(1) + b"\x01\x09", 7, "Count 1 to 8? 9.")
refused("no-8", face(gauge((1001, 40))), 8, "Height 1 to 1,000? 1,001.")
refused("no-9", face(gauge((60, 40), (60, 41))), 9, "Height less? Equal.")
refused("no-10", face(*[ONE] * 65), 10, "At most the 64th? The 65th.")
refused("no-11", face(ONE, BESIDE), 11, "Two parts on the stack? One.")
refused("no-12", face(ONE, ONE), 12, "One part left? Two.")
refused("no-13", face(ONE) + b"\x00", 13, "File at its end? A byte more.")
refused("no-13-after-join", EXAMPLE + STACKED, 13, "File at its end? A join that is not announced.")


# ---------------------------------------------------------------------------------------------------------------
# Model and hand-written answers


def taken_faults(stored, rib=0):
    """What the model says of a taken face, with a rib, otherwise than the hand-written answer, or than all choices where
    they are few."""
    face_read = face_model.read(stored.file)
    listed = list_model.list_call(stored.file, [1] * face_read.size_count(), rib)
    items = [(item.height, item.width) for item in listed.items]
    found = {"items": items, "records": [walked.record for walked in listed.walked], "count": len(items)}
    faults = [
        f"{stored.name}: {what} by hand {answer}, by the model {found[what]}"
        for what, answer in stored.answers.items()
        if answer is not None and answer != found[what]
    ]
    if list_model.choices(face_read) <= 2000 and list_model.sizes_by_choices(face_read, rib) != items:
        faults.append(f"{stored.name}: the choices have another list than {items}")
    return faults


def faults():
    return by_hand.faults_of(FILES, taken_faults)
