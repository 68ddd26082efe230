"""A model of the catalogue call, for making tests: document 02's paper 5, "A catalogue of heights".

It is written from the text of paper 5 and shares nothing with the Rattle code: the width for each height is the least
of all outer sizes no taller, and the walk is gone through only to count its looks. The outer sizes, the arena's list and
the checks before 23 are those of list_model.py. Words between quotation marks are the documents'. `least_by_choices`
looks for a width without any list, over all choices of sizes.
"""

import dataclasses
import itertools

from models import list_model

# "The sales sheet lists up to 256 opening heights"
HEIGHTS = 256


@dataclasses.dataclass
class Catalogued:
    """What the catalogue call gives: its number; where that is 0 also the looks, the output's words and the walk of the
    list in the arena."""

    number: int
    looks: int = 0
    widths: tuple = ()
    walked: tuple = ()


def least_width(items, height):
    # "Each width must be the least among the outer sizes no taller than that height, found for it by itself."; "0
    # stands for a height that no face meets"
    return min((item.width for item in items if item.height <= height), default=0)


def choice_sizes(face, rib):
    """The (height, width) of each choice of one printed size per gauge. Only for a face of few choices."""
    every = itertools.product(*(sizes for _, sizes in face.gauges))
    return [list_model.extent(face.tree, iter(choice), rib) for choice in every]


def least_by_choices(sizes, height):
    """The least width of a choice that is no taller than a height, and 0 where none is."""
    return min((width for own, width in sizes if own <= height), default=0)


def looks_at(items, heights):
    """How many looks the walk takes for all heights."""
    # "Walk the root's list of outer sizes once, tallest first. For each height the walk looks at items from its present
    # one until one is no taller, and the next height starts at that item; once the list has run out, later heights take
    # no look."
    ahead = sorted((item.height for item in items), reverse=True)
    looks = 0
    for height in heights:
        while ahead:
            looks += 1
            if ahead[0] <= height:
                break
            ahead.pop(0)
    # "at most the items plus the heights": an item that is taller than the last height is passed by one look, and a
    # height that an item meets has one look at that item.
    met = [height for height in heights if least_width(items, height) != 0]
    passed = [item for item in items if heights and item.height > heights[-1]]
    assert looks == len(met) + len(passed)
    return looks


def are_right(heights):
    # "23 when a height is 0, more than the one before, or past the 256th"
    for place, height in enumerate(heights, 1):
        if height == 0 or place > HEIGHTS:
            return False
        if place > 1 and height > heights[place - 2]:
            return False
    return True


def width_call(file, levels, rib, heights, arena, scratch, output):
    """The catalogue call on a file, levels, a rib and heights, lent buffers of so many words. It makes checks 1 to 15,
    22, 17, 23 and 18."""
    # "Other checks and the arena are the list call's". Without an output it asks all of them but 18.
    listed = list_model.list_call(file, levels, rib, arena, scratch)
    if listed.number != 0:
        return Catalogued(listed.number)
    # "Checks: 23 .., after 17; then 18 for fewer words than heights."
    if not are_right(heights):
        return Catalogued(23)
    if output < len(heights):
        return Catalogued(18)
    widths = tuple(least_width(listed.items, height) for height in heights)
    return Catalogued(0, looks_at(listed.items, heights), widths, listed.walked)
