"""Files for the fit call: most of those of list_files.py, and some more; and the openings that each face is fitted to.

Each face is fitted to 64,000 by 64,000 and, for each item of its list or some of a long one, to an opening of the item's
height and width, of one less in height, and of one less in width. Hand-written answers stand with the hand-sized faces:
for an opening 19, or the size and the place of each gauge. What the model says otherwise are `faults`, and so is a face of
few choices that has a layout of another least area than the one that is picked, over all choices of sizes and, where the
opening is small, over all places.
"""

from making import by_hand, list_files
from making.by_hand import Stored
from making.face_bytes import BESIDE, STACKED, face, gauge
from models import face_model, fit_model, list_model, text_model

# The opening that `faces` fits to. No face without ribs is larger.
LARGEST = text_model.OPENING

# By hand what openings give, by the name of a face. An opening is (height, width). What it gives is 19, or for each gauge
# the number of its size, across and up.
BY_HAND = {}
NEW = []


def fits(name, answers, file=None):
    """What openings give on a face by hand: one of list_files.py, or the file that is given."""
    if file is not None:
        NEW.append(Stored(name, file, 0, answers=answers))
    else:
        BY_HAND[name] = answers


# --- One gauge, in the lower left corner.
CORNER = [(1, 0, 0)]
fits("lone-1-1", {(LARGEST, LARGEST): CORNER, (1, 1): CORNER, (1, LARGEST): CORNER, (LARGEST, 1): CORNER})
fits(
    "lone-of-2",  # (60, 40), (40, 60): of equal areas the least width, so height 60 wins.
    {
        (LARGEST, LARGEST): [(1, 0, 0)],
        (60, 60): [(1, 0, 0)],
        (60, 40): [(1, 0, 0)],
        (59, 60): [(2, 0, 0)],
        (40, 60): [(2, 0, 0)],
        (59, 59): 19,
        (60, 39): 19,
        (39, 60): 19,
        (40, 59): 19,
    },
)
fits(
    "lone-equal-areas",  # All of area 2,400.
    {
        (LARGEST, LARGEST): [(1, 0, 0)],
        (119, LARGEST): [(2, 0, 0)],
        (59, LARGEST): [(3, 0, 0)],
        (39, LARGEST): [(4, 0, 0)],
        (19, LARGEST): 19,
        (LARGEST, 19): 19,
        (60, 60): [(2, 0, 0)],
        (59, 119): [(3, 0, 0)],
    },
    face(gauge((120, 20), (60, 40), (40, 60), (20, 120))),
)
fits(
    "lone-least-in-middle",  # Areas 100, 99, 98, 99, 100.
    {
        (LARGEST, LARGEST): [(3, 0, 0)],
        (100, 6): [(2, 0, 0)],
        (100, 2): [(1, 0, 0)],
        (13, 100): [(4, 0, 0)],
        (9, 11): [(4, 0, 0)],
        (8, 100): [(5, 0, 0)],
        (8, 99): 19,
    },
    face(gauge((100, 1), (33, 3), (14, 7), (9, 11), (1, 100))),
)

# --- Document 01's file: sizes (60, 40), (40, 60) beside (50, 30), (30, 50); items 60 70, 50 90, 40 110.
fits(
    "example",
    {
        (LARGEST, LARGEST): [(1, 0, 0), (1, 40, 0)],
        (60, 70): [(1, 0, 0), (1, 40, 0)],
        (59, 70): 19,
        (60, 69): 19,
        (59, 90): [(2, 0, 0), (1, 60, 0)],  # (40, 60) is lower than 50: gauge 1 has no size of height 50.
        (55, 90): [(2, 0, 0), (1, 60, 0)],
        (55, LARGEST): [(2, 0, 0), (2, 60, 0)],  # 40 by 110 is 4,400, and 50 by 90 is 4,500.
        (40, 110): [(2, 0, 0), (2, 60, 0)],
        (40, 109): 19,
        (39, 110): 19,
        (39, LARGEST): 19,
        (LARGEST, 69): 19,
    },
)
fits(
    "example-stacked",
    {
        (LARGEST, LARGEST): [(2, 0, 0), (2, 0, 40)],  # 70 60 is 4,200: widths 60 and 50, heights 40 and 30.
        (110, 40): [(1, 0, 0), (1, 0, 60)],
        (110, 39): 19,
        (109, 40): 19,
        (90, 50): [(1, 0, 0), (2, 0, 60)],  # Gauge 1 has no size of width 50.
        (70, 60): [(2, 0, 0), (2, 0, 40)],
        (69, 60): 19,
        (70, 59): 19,
    },
)

# --- A side has no item of equal height, and takes a lower and narrower one.
fits(
    "lower-side",
    {
        (LARGEST, LARGEST): [(1, 0, 0), (1, 10, 0)],
        (90, 20): [(1, 0, 0), (1, 10, 0)],
        (90, 19): 19,
        (89, 20): 19,
        (89, LARGEST): 19,
    },
    face(gauge((90, 10)), gauge((20, 10), (10, 30)), BESIDE),
)
fits(
    "lower-side-of-two",  # (30, 10) is inferior beside height 90. The item is 90 21, with sizes 80 and 20 high beside it.
    {
        (LARGEST, LARGEST): [(1, 0, 0), (2, 10, 0), (1, 16, 0)],
        (90, 21): [(1, 0, 0), (2, 10, 0), (1, 16, 0)],
        (99, 20): 19,
        (100, 20): [(1, 0, 0), (1, 10, 0), (1, 15, 0)],
    },
    face(gauge((90, 10)), gauge((100, 5), (80, 6), (30, 10)), BESIDE, gauge((20, 5), (10, 30)), BESIDE),
)

# --- Ties of area at a join: both items have area 2,400, and the least width is picked.
fits(
    "equal-areas-beside",  # 60 40 and 40 60.
    {
        (LARGEST, LARGEST): [(1, 0, 0), (1, 30, 0)],
        (60, 60): [(1, 0, 0), (1, 30, 0)],
        (59, 60): [(2, 0, 0), (1, 50, 0)],
        (59, 59): 19,
    },
    face(gauge((60, 30), (40, 50)), gauge((40, 10)), BESIDE),
)
fits(
    "equal-areas-stacked",  # 60 40 and 40 60.
    {
        (LARGEST, LARGEST): [(1, 0, 0), (1, 0, 50)],
        (60, 60): [(1, 0, 0), (1, 0, 50)],
        (60, 59): [(1, 0, 0), (1, 0, 50)],
        (59, 60): [(2, 0, 0), (1, 0, 30)],
        (59, 59): 19,
    },
    face(gauge((50, 40), (30, 60)), gauge((10, 40)), STACKED),
)

# --- Three gauges, joined both ways. Sizes (10, 2), (6, 5); (8, 3), (4, 7); (6, 1), (2, 9).
fits(
    "three-beside-then-stacked",  # Items 16 5, 14 8, 10 9, 8 12.
    {
        (LARGEST, LARGEST): [(1, 0, 0), (1, 2, 0), (1, 0, 10)],
        (16, 5): [(1, 0, 0), (1, 2, 0), (1, 0, 10)],
        (15, 8): [(2, 0, 0), (1, 5, 0), (1, 0, 8)],
        (13, 9): [(2, 0, 0), (1, 5, 0), (2, 0, 8)],
        (9, 12): [(2, 0, 0), (2, 5, 0), (2, 0, 6)],
        (7, 12): 19,
        (8, 11): 19,
    },
)
fits(
    "three-stacked-then-beside",  # Items 18 4, 14 6, 10 8.
    {
        (LARGEST, LARGEST): [(1, 0, 0), (1, 0, 10), (1, 3, 0)],
        (17, 7): [(2, 0, 0), (1, 0, 6), (1, 5, 0)],
        (10, 8): [(2, 0, 0), (2, 0, 6), (1, 7, 0)],
        (10, 7): 19,
    },
)
fits(
    "tie-with-turned",
    {(LARGEST, LARGEST): [(1, 0, 0), (1, 0, 20), (1, 50, 0)], (50, 58): [(1, 0, 0), (1, 0, 20), (1, 50, 0)], (50, 57): 19},
)

# --- The widest face and the highest without ribs: 64 gauges of 1,000 either way.
LARGE = gauge((1000, 1000))
WIDEST = [(1, 1000 * i, 0) for i in range(64)]
HIGHEST = [(1, 0, 1000 * i) for i in range(64)]
fits(
    "widest",
    {(LARGEST, LARGEST): WIDEST, (1000, LARGEST): WIDEST, (1000, LARGEST - 1): 19, (999, LARGEST): 19},
    face(LARGE, *[LARGE, BESIDE] * 63),
)
fits(
    "highest",
    {(LARGEST, LARGEST): HIGHEST, (LARGEST, 1000): HIGHEST, (LARGEST - 1, 1000): 19, (LARGEST, 999): 19},
    face(LARGE, *[LARGE, STACKED] * 63),
)

# --- Faces of tiny sizes, so that all places in an opening can be tried.
TINY = {
    "tiny-beside": face(gauge((3, 1), (1, 2)), gauge((2, 1), (1, 3)), BESIDE),
    "tiny-stacked": face(gauge((3, 1), (1, 2)), gauge((2, 1), (1, 3)), STACKED),
    "tiny-row": face(gauge((2, 1), (1, 2)), gauge((2, 1), (1, 2)), BESIDE, gauge((3, 1), (1, 2)), BESIDE),
    "tiny-turned": face(gauge((2, 1), (1, 2)), gauge((3, 1), (2, 2), (1, 3)), STACKED, gauge((3, 1), (1, 2)), BESIDE),
    "tiny-turned-newer": face(gauge((2, 1), (1, 2)), gauge((3, 1), (1, 2)), gauge((2, 1), (1, 3)), BESIDE, STACKED),
}
for tiny_name, tiny_file in TINY.items():
    fits(tiny_name, {}, tiny_file)

# Every opening from 1 by 1 to this much either way is tried on a tiny face.
TINY_OPENING = 5

# Files of list_files.py that try nothing more here.
LEFT_OUT = {
    "row-of-64-back",
    "row-of-64-balanced",
    "pile-of-64-balanced",
    "lone-last-byte-3",
    "lone-last-byte-2-of-258",
}

FILES = [
    Stored(stored.name, stored.file, stored.number, stored.reason, BY_HAND.get(stored.name, {}))
    for stored in list_files.FILES
    if stored.name not in LEFT_OUT
] + NEW

# ---------------------------------------------------------------------------------------------------------------
# Openings


def some_items(items):
    """The items whose openings are tried: all of a short list; else the first, the last, the one of least area, and
    two between."""
    if len(items) <= 6:
        return items
    least = min(items, key=lambda item: item.height * item.width)
    return list(dict.fromkeys([items[0], items[len(items) // 3], least, items[2 * len(items) // 3], items[-1]]))


def openings(stored):
    """Those with a hand-written answer, the largest, and those at items."""
    if stored.number != 0:
        return []
    items = fit_model.root_part(stored.file, 0).items
    found = list(stored.answers) + [(LARGEST, LARGEST)]
    for item in some_items(items):
        h, w = item.height, item.width
        found += [(h, w), (h - 1, w), (h, w - 1)]
    if stored.name in TINY:
        found += [(h, w) for h in range(1, TINY_OPENING + 1) for w in range(1, TINY_OPENING + 1)]
    else:
        # Of two items one is no higher and the other no wider, and neither is inside.
        found += [(items[0].height - 1, items[-1].width - 1), (items[-1].height, items[0].width)]
    return list(dict.fromkeys(found))


# ---------------------------------------------------------------------------------------------------------------
# Model and hand-written answers

# A face of no more choices is held against all of them, and no more ways to place its gauges are tried.
CHOICES = 2000
PLACES = 200_000


def in_range(opening):
    return all(1 <= length <= fit_model.OPENING for length in opening)


def by_hand_fault(stored, opening, fitted):
    """What the model says otherwise than the hand-written answer of an opening."""
    if opening not in stored.answers:
        return []
    places = [tuple(fitted.words[i : i + 3]) for i in range(0, len(fitted.words), 5)]
    found = 19 if fitted.number == 19 else places
    if found == stored.answers[opening]:
        return []
    return [f"{stored.name} in {opening}: by hand {stored.answers[opening]}, by the model {found}"]


def least_faults(stored, face_read, opening, fitted, rib):
    """What all choices, and all places, say otherwise than the model on the least area in an opening."""
    area = None if fitted.number == 19 else fitted.area
    found = []
    if list_model.choices(face_read) <= CHOICES:
        found.append(("choices", fit_model.best_by_choices(face_read, *opening, rib)))
    if max(opening) <= 12 and fit_model.places(face_read, *opening) <= PLACES:
        found.append(("places", fit_model.best_by_places(face_read, *opening, rib)))
    return [f"{stored.name} in {opening}: the model {area}, all {what} {least}" for what, least in found if least != area]


def opening_faults(stored, opening, rib=0):
    """What is wrong with the model's answer in an opening, with a rib."""
    face_read = face_model.read(stored.file)
    fitted = fit_model.fit_call(stored.file, [1] * face_read.size_count(), rib, *opening)
    if not in_range(opening):
        return [] if fitted.number == 16 else [f"{stored.name} in {opening}: {fitted.number}"]
    return by_hand_fault(stored, opening, fitted) + least_faults(stored, face_read, opening, fitted, rib)


def taken_faults(stored):
    return [fault for opening in openings(stored) for fault in opening_faults(stored, opening)]


def faults():
    names = [stored.name for stored in FILES]
    return by_hand.faults_of(FILES, taken_faults) + [f"{name}: no such face" for name in BY_HAND if name not in names]
