"""A model of the fit call, for making tests: document 01's "Fit" and the fit call's checks, with the sizes of document
02's paper 1 and the rib of its paper 2.

It is written from the text of document 01, "Milled instrument faces", of paper 1, "Sizes as the makers print them", and of
paper 2, "Ribs between parts", and shares nothing with the Rattle code. Checks 1 to 13 and the tree are those of
face_model.py, the list of each part is that of list_model.py. Words between quotation marks are the documents'.

A layout is a row of places in file order, one for each gauge. `is_layout` says what a layout is, and `best_by_choices`
and `best_by_places` look for the smallest area without any list, "among layouts from every printed size, useful or not" and
"among layouts with such strips": over all choices of sizes with their parts pushed together to the rib, and, for the
smallest faces, over all sizes and all places in the opening.
"""

import dataclasses
import functools
import itertools

from models import face_model
from models import list_model

# "Opening height and width both 1 to 64,000?"; "Sums now reach 65,260, and the opening limit rises to it in check 16."
OPENING = 65260


@dataclasses.dataclass
class Part:
    """A part of the face: its join or "gauge", its list by falling height, of a gauge its sizes as printed, of a join its
    two parts, and the number from 0 of the gauge after its last."""

    join: str
    items: list
    sizes: list
    older: "Part"
    newer: "Part"
    end: int


@dataclasses.dataclass
class Placed:
    """Where a gauge stands: the number of its size within the gauge, across, up, width and height."""

    size: int
    across: int
    up: int
    width: int
    height: int

    def words(self):
        # "Output, per gauge: size number within the gauge, across, up, width, height."
        return [self.size, self.across, self.up, self.width, self.height]


# ---------------------------------------------------------------------------------------------------------------
# The face that is picked, and its layout


def parts_of(tree, face, lists, rib, first=0):
    """The tree with the list of each part. Gauges are counted in file order, from `first` on."""
    if tree[0] == "gauge":
        _, sizes = face.gauges[first]
        return Part("gauge", lists[first], sizes, None, None, first + 1)
    join, older_tree, newer_tree = tree
    older = parts_of(older_tree, face, lists, rib, first)
    newer = parts_of(newer_tree, face, lists, rib, older.end)
    return Part(join, list_model.joined(older.items, newer.items, join, rib), [], older, newer, newer.end)


@functools.lru_cache(maxsize=None)
def root_part(file, rib):
    """The root of a taken file."""
    face = face_model.read(file)
    return parts_of(face.tree, face, list_model.gauge_lists(face), rib)


def picked(items, height, width):
    """The item of the picked face, or None where none is inside the opening."""
    # "The face is the root item of least area inside the opening; of equal areas, the least width."
    inside = [item for item in items if item.height <= height and item.width <= width]
    if not inside:
        return None
    least = min(item.height * item.width for item in inside)
    equal = [item for item in inside if item.height * item.width == least]
    return min(equal, key=lambda item: item.width)


def narrowest(items, height):
    # "In a side-by-side part of height h, each side takes its narrowest item no taller than h"
    return min((item for item in items if item.height <= height), key=lambda item: item.width)


def lowest(items, width):
    # "Stacked: the same with width for height, upward."
    return min((item for item in items if item.width <= width), key=lambda item: item.height)


def layout(part, item, across, up, rib):
    """The places of a part's gauges, where the part has this item and its lower left corner stands there."""
    # "The layout goes down the tree: first the left or lower part, then the other, down to the gauges."
    if part.join == "gauge":
        # "A gauge sits in the lower left corner of its part."; "of equal pairs the lowest number stays"
        size = 1 + part.sizes.index((item.height, item.width))
        return [Placed(size, across, up, item.width, item.height)]
    if part.join == "stacked":
        lower, upper = lowest(part.older.items, item.width), lowest(part.newer.items, item.width)
        start = up + lower.height + rib
        return layout(part.older, lower, across, up, rib) + layout(part.newer, upper, across, start, rib)
    # "the right part starts at the left item's width"; "The second part of a join starts that many half-millimetres
    # after the first."
    left, right = narrowest(part.older.items, item.height), narrowest(part.newer.items, item.height)
    start = across + left.width + rib
    return layout(part.older, left, across, up, rib) + layout(part.newer, right, start, up, rib)


def edges(placed):
    """Height and width of a layout."""
    # "A layout's width and height are the furthest right and upper edges of its gauges"
    return max(place.up + place.height for place in placed), max(place.across + place.width for place in placed)


# ---------------------------------------------------------------------------------------------------------------
# What a layout is


def takes_printed_sizes(face, placed):
    # "A layout gives each gauge one of its sizes and a place, the whole numbers across and up of its lower left
    # corner, from zero."
    if len(placed) != face.gauge_count():
        return False
    for (_, sizes), place in zip(face.gauges, placed):
        if not 1 <= place.size <= len(sizes) or place.across < 0 or place.up < 0:
            return False
        if (place.height, place.width) != sizes[place.size - 1]:
            return False
    return True


def gauges_in(tree):
    return 1 if tree[0] == "gauge" else gauges_in(tree[1]) + gauges_in(tree[2])


def has_strips(tree, placed, rib):
    """Whether each join of the tree has its strip."""
    # "At a side-by-side join some whole number across has every right edge of the left part at or below it, and every
    # left edge of the right part at or above it; stacked likewise, upward."; "The line of a layout becomes a strip of that
    # width, with the first part's gauges at or before it and the second part's at or after it; gauges outside the join may
    # cross its prolongation."
    if tree[0] == "gauge":
        return True
    join, older_tree, newer_tree = tree
    cut = gauges_in(older_tree)
    older, newer = placed[:cut], placed[cut:]
    if join == "stacked":
        strip = max(place.up + place.height for place in older) + rib <= min(place.up for place in newer)
    else:
        strip = max(place.across + place.width for place in older) + rib <= min(place.across for place in newer)
    return strip and has_strips(older_tree, older, rib) and has_strips(newer_tree, newer, rib)


def is_layout(face, placed, rib):
    return takes_printed_sizes(face, placed) and has_strips(face.tree, placed, rib)


# ---------------------------------------------------------------------------------------------------------------
# The least area without lists


def best_by_choices(face, height, width, rib):
    """The least area of a face of one printed size per gauge, its parts pushed together to the rib, that is inside the
    opening; None where none is. No layout of a choice is lower or narrower than its parts so pushed together."""
    every = itertools.product(*(sizes for _, sizes in face.gauges))
    found = [list_model.extent(face.tree, iter(choice), rib) for choice in every]
    return min((h * w for h, w in found if h <= height and w <= width), default=None)


def gauge_places(sizes, height, width):
    """Each size at each place at which it is inside the opening."""
    return [
        Placed(number, across, up, w, h)
        for number, (h, w) in enumerate(sizes, 1)
        for across in range(width - w + 1)
        for up in range(height - h + 1)
    ]


def places(face, height, width):
    """How many ways there are to place the gauges one by one inside the opening."""
    count = 1
    for _, sizes in face.gauges:
        count *= len(gauge_places(sizes, height, width))
    return count


def best_by_places(face, height, width, rib):
    """The least area of all layouts inside the opening, whatever sizes and places they take; None where there is none.
    Only for a face and an opening of few places."""
    ways = itertools.product(*(gauge_places(sizes, height, width) for _, sizes in face.gauges))
    areas = []
    for placed in ways:
        if has_strips(face.tree, placed, rib):
            h, w = edges(placed)
            areas.append(h * w)
    return min(areas, default=None)


# ---------------------------------------------------------------------------------------------------------------
# The fit call


@dataclasses.dataclass
class Fitted:
    """What the fit call gives: its number; where that is 0 also the fields and the output's words; where that is 0 or
    19 the walk of the list in the arena."""

    number: int
    height: int = 0
    width: int = 0
    area: int = 0
    count: int = 0
    words: tuple = ()
    walked: tuple = ()

    def fields(self):
        return [self.number, self.height, self.width, self.area, self.count]


def output_words(face):
    # "the fit call 5g"
    return 5 * face.gauge_count()


def fit_call(file, levels, rib, height, width, arena=list_model.WORDS, scratch=list_model.WORDS, output=None):
    """The fit call on a file, levels, a rib and an opening, lent buffers of so many words; no output given is one that is
    long enough. It makes checks 1 to 19, and 22."""
    try:
        face = face_model.read(file)
        # "As many levels as sizes? 14. Each level 1 to 8? 15."
        face_model.ask(len(levels) == face.size_count(), 14)
        face_model.ask(all(1 <= level <= 8 for level in levels), 15)
        # "22 when the rib is above 20, right after 15"
        face_model.ask(rib <= list_model.RIB, 22)
        # "Opening height and width both 1 to 64,000? 16."; "the opening limit rises to it in check 16"
        face_model.ask(1 <= height <= OPENING and 1 <= width <= OPENING, 16)
        # "Arena and scratch, each 16,384 32-bit words or more? 17. Output long enough? 18."
        face_model.ask(arena >= list_model.WORDS and scratch >= list_model.WORDS, 17)
        face_model.ask(output is None or output >= output_words(face), 18)
    except face_model.Refused as refusal:
        return Fitted(refusal.number)
    root = root_part(file, rib)
    walked = list_model.walk(face, root.items, levels)
    # "Does a layout fit? 19."; "Fields beside the number are then zero."; "19 leaves the output, and the arena as on
    # success."
    item = picked(root.items, height, width)
    if item is None:
        return Fitted(19, walked=walked)
    # "Places run right and up from 0, 0."
    placed = layout(root, item, 0, 0, rib)
    # "Returned: height and width of the layout written, area as their product, item count as the length of the root's
    # list."
    own_height, own_width = edges(placed)
    assert is_layout(face, placed, rib) and (own_height, own_width) == (item.height, item.width)
    words = [word for place in placed for word in place.words()]
    return Fitted(0, own_height, own_width, own_height * own_width, len(root.items), words, walked)
