"""Heights for the catalogue call, with what document 02's paper 5 says of each, worked out by hand.

Heights are asked of a face of the other modules, with a rib. Those that are taken have the width for each and the
looks, and the reason says at which items the looks for each height are; those that are refused have their number. What
the model says otherwise are `faults`, and so is another width of a face of few choices than these make. height_calls.py
has the calls that are made.
"""

import dataclasses
import itertools

from making.rib_files import FACES, MOST
from models import catalogue_model, face_model, list_model

BIG = 4_294_967_295

# The number of the heights that are refused.
REFUSED = 23


@dataclasses.dataclass
class Asked:
    """Heights of a face with a rib, and by hand the number with the reason; of taken ones the widths and the looks."""

    name: str
    rib: int
    heights: list
    number: int
    reason: str
    widths: tuple
    looks: int

    def what(self):
        """The heights as a name: equal ones once, and of many others the first and the last."""
        runs = [(height, len(list(same))) for height, same in itertools.groupby(self.heights)]
        if len(runs) > 10:
            return f"{len(self.heights)} from {self.heights[0]} to {self.heights[-1]}"
        return " ".join(str(height) if times == 1 else f"{times} of {height}" for height, times in runs) or "none"


ASKED = []


def taken(name, rib, heights, widths, looks, reason):
    ASKED.append(Asked(name, rib, list(heights), 0, reason, tuple(widths), looks))


def refused(heights, reason, name="example"):
    ASKED.append(Asked(name, 0, list(heights), REFUSED, reason, (), 0))


# --- Document 01's file: 60 70, 50 90, 40 110.
taken("example", 0, [60, 60, 59], [70, 70, 90], 4, "1 at 60, 1 at 60 again, then 60 and 50.")
taken("example", 0, [39, 39], [0, 0], 3, "All three, and then the list has run out.")
taken("example", 0, [], [], 0, "No height, no look.")
taken("example", 0, [61], [70], 1, "60 is no taller.")
taken("example", 0, [60], [70], 1, "60 is no taller.")
taken("example", 0, [59], [90], 2, "60, 50.")
taken("example", 0, [50], [90], 2, "60, 50.")
taken("example", 0, [49], [110], 3, "60, 50, 40.")
taken("example", 0, [40], [110], 3, "60, 50, 40.")
taken("example", 0, [39], [0], 3, "All three, and the end is no look.")
taken("example", 0, [1], [0], 3, "All three.")
taken("example", 0, [60, 50, 40], [70, 90, 110], 5, "60; 60, 50; 50, 40.")
taken("example", 0, [50, 49], [90, 110], 4, "60, 50; 50, 40.")
taken("example", 0, [40, 40, 40], [110, 110, 110], 5, "All three; 40; 40.")
taken("example", 0, [60, 39, 39], [70, 0, 0], 4, "60; all three; none.")
taken("example", 0, [60, 60, 39], [70, 70, 0], 5, "60; 60; all three. One less than items and heights together.")
taken(
    "example",
    0,
    [1000, 60, 59, 50, 49, 40, 39, 1],
    [70, 70, 90, 90, 110, 110, 0, 0],
    9,
    "60; 60; 60, 50; 50; 50, 40; 40; 40, the last; none.",
)
taken("example", 0, [BIG, BIG, 1], [70, 70, 0], 5, "60; 60; all three.")
taken("example", 0, [65596, 65536, 256, 60], [70, 70, 70, 70], 4, "60 each time. Two low bytes or one are 60, 0 and 0.")
taken("example", 0, [BIG, 2_147_483_648, 2_147_483_647], [70, 70, 70], 3, "60 each time.")
taken("example", 0, [60] * 256, [70] * 256, 256, "60 each time.")
taken("example", 0, [1] * 256, [0] * 256, 3, "All three, and then none.")
EVERY = [70] * 197 + [90] * 10 + [110] * 10 + [0] * 39
taken("example", 0, range(256, 0, -1), EVERY, 220, "One for each of 217 heights that are met, and 3 that pass an item.")
taken("example", 1, [55, 45], [91, 111], 4, "60, 50; 50, 40. Every width is the rib more.")
taken("example", MOST, [60, 59, 40, 39], [90, 110, 130, 0], 6, "60; 60, 50; 50, 40; 40.")

# --- Stacked: 110 40, 90 50, 70 60, and the arena's list runs from the lowest. A rib moves the heights.
taken("example-stacked", 0, [110, 90, 70], [40, 50, 60], 5, "110; 110, 90; 90, 70.")
taken(
    "example-stacked",
    0,
    [111, 110, 109, 90, 89, 70, 69],
    [40, 40, 50, 50, 60, 60, 0],
    9,
    "110; 110; 110, 90; 90; 90, 70; 70; 70, the last.",
)
taken("example-stacked", 0, [70], [60], 3, "110, 90, 70.")
taken("example-stacked", 1, [110, 91, 71, 70], [50, 50, 60, 0], 6, "111, 91; 91; 91, 71; 71.")
taken("example-stacked", MOST, [130, 129, 110, 90, 89], [40, 50, 50, 60, 0], 7, "130; 130, 110; 110; 110, 90; 90.")
taken("three-stacked", 0, [23, 15, 12, 11], [5, 9, 9, 0], 7, "24, 20; 20, 16, 12; 12; 12.")
taken("three-beside-then-stacked", 1, [16, 11, 10, 9], [9, 9, 13, 13], 6, "17, 11; 11; 11, 9; 9.")

# --- One gauge, which no rib moves, and one item.
taken("lone-1-1", MOST, [BIG, 1, 1], [1, 1, 1], 3, "The one item each time.")
taken("lone-of-8", 0, [80, 75, 70, 35, 10, 9], [1, 2, 2, 6, 8, 0], 13, "80; 80, 70; 70; 70 to 30; 30, 20, 10; 10.")
taken("tie", 0, [60, 59], [70, 0], 2, "60; 60.")

# --- Version 2: inferior sizes and repeats are on no list, so that no look is at them.
taken(
    "printed-lone",
    0,
    [70, 60, 50, 45, 40, 39, 30, 29],
    [40, 40, 60, 60, 60, 90, 90, 0],
    10,
    "60; 60; 60, 40; 40; 40; 40, 30; 30; 30. 70 by 50 and 50 by 60 are on no list.",
)
taken("printed-all-equal", 0, [60, 60, 59], [40, 40, 0], 3, "60; 60; 60.")
taken("printed-rising", 0, [80, 75, 70, 35, 10, 9], [1, 2, 2, 6, 8, 0], 13, "As of lone-of-8.")
taken("printed-beside", 5, [60, 60, 59], [75, 75, 95], 4, "60; 60; 60, 50.")
taken("printed-stacked", MOST, [130, 129, 110, 90, 89], [40, 50, 50, 60, 0], 7, "As of example-stacked.")

# --- The highest face and the widest: 64 of 1,000 by 1,000.
taken("highest", 0, [64000, 63999], [1000, 0], 2, "64,000; 64,000.")
taken("highest", MOST, [65536, 65260, 65259], [1000, 1000, 0], 3, "65,260 each time.")
taken("widest", MOST, [1000, 999], [65260, 0], 2, "1,000; 1,000.")

# --- 449 items of every height from 449 to 1. The widths of the first sizes are 1 to 64, those of the last 701 to 764.
taken("row-of-64", 0, [450] * 256, [2080] * 256, 256, "449 each time.")
taken("row-of-64", 0, [449, 1], [2080, 46880], 450, "449; all 449.")
taken("row-of-64", MOST, [1] * 256, [48140] * 256, 704, "All 449, then 1 for each height more. There are 63 ribs.")
taken("printed-row-of-64", 0, [1] * 256, [46880] * 256, 704, "As of row-of-64.")
taken("pile-of-64", 0, [46880, 46879, 2080, 2079], [1, 2, 449, 0], 452, "1; 2; from the second to the last, 448; 1.")

# --- 23: a height is 0.
refused([0], "A height is 0? The only one.")
refused([0, 0], "Both.")
refused([60, 0], "The last.")
refused([0, 60], "The first.")
refused([60, 0, 40], "The second.")
refused([60] * 255 + [0], "The 256th.")

# --- 23: more than the one before.
refused([60, 61], "The second is one more.")
refused([59, 60], "The second is one more.")
refused([60, 50, 51, 40], "The third is one more.")
refused([60, 59, 58, 57, 58], "The last is one more.")
refused([1, BIG], "The second is the largest.")
refused([BIG - 1, BIG], "The second is one more.")
refused([2_147_483_647, 2_147_483_648], "The second is one more.")
refused([255, 256], "The second is one more.")
refused([60] * 255 + [61], "The 256th is one more.")
refused([60, 61], "The second is one more.", "printed-stacked")

# --- 23: past the 256th.
refused([60] * 257, "The 257th.")
refused([60, 60, 0] + [60] * 254, "The third is 0, and there are 257.")
refused([60] * 512, "512, whose low byte is 0.")
refused([1] * 16400, "16,400.")
refused([60] * 257, "The 257th.", "row-of-64")


# ---------------------------------------------------------------------------------------------------------------
# Model and hand-written answers


def asked_faults(asked):
    """What the model says otherwise than the hand-written answer."""
    file = FACES[asked.name]
    levels = [1] * face_model.read(file).size_count()
    lent = [list_model.WORDS, list_model.WORDS, len(asked.heights)]
    found = catalogue_model.width_call(file, levels, asked.rib, asked.heights, *lent)
    answers = {"number": asked.number, "looks": asked.looks, "widths": asked.widths}
    return [
        f"{asked.name}, rib {asked.rib}, {asked.what()}: {what} by hand {answer}, by the model {getattr(found, what)}"
        for what, answer in answers.items()
        if answer != getattr(found, what)
    ]


def choice_faults(name, rib):
    """What all choices say otherwise than the model: of every height to one above the tallest item."""
    file = FACES[name]
    items = list_model.outer_sizes(file, rib)
    sizes = catalogue_model.choice_sizes(face_model.read(file), rib)
    return [
        f"{name}, rib {rib}: the choices have another width for {height} than the model"
        for height in range(items[0].height + 2)
        if catalogue_model.least_by_choices(sizes, height) != catalogue_model.least_width(items, height)
    ]


def faults():
    few = {asked.name for asked in ASKED if list_model.choices(face_model.read(FACES[asked.name])) <= 2000}
    tried = sorted({(asked.name, asked.rib) for asked in ASKED if asked.name in few})
    by_choices = [fault for name, rib in tried for fault in choice_faults(name, rib)]
    return [fault for asked in ASKED for fault in asked_faults(asked)] + by_choices
