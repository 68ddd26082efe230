"""A model of the list call and of the reading call after it, for making tests: document 01's "Outer sizes", "Lazy
lists" and the list call's checks, and of document 02 paper 1's list of a gauge and paper 2's rib.

It is written from the text of document 01, "Milled instrument faces", of paper 1, "Sizes as the makers print them", and of
paper 2, "Ribs between parts", and shares nothing with the Rattle code: a part's list is every pair of its parts' items,
with the inferior ones taken out. Checks 1 to 13 and the tree are those of face_model.py. Words between quotation marks are
the documents'.
"""

import dataclasses
import functools
import itertools

from models import face_model

# "Arena and scratch, each 16,384 32-bit words or more?"
WORDS = 16384

# "22 when the rib is above 20"
RIB = 20


@dataclasses.dataclass(frozen=True)
class Item:
    """An outer size, with the number of the size whose record holds it."""

    height: int
    width: int
    record: int


# ---------------------------------------------------------------------------------------------------------------
# Outer sizes


def m_and_p(item, join):
    # "For side by side, m is height and p width; for stacked, m is width and p height."
    if join == "stacked":
        return item.width, item.height
    return item.height, item.width


def paired(older, newer, join, rib):
    """What one item of the older part and one of the newer make: (m, p, record)."""
    # "Items of parts A and B make (max of the m, sum of the p)."; "the outer sizes are the merge with the rib added to
    # each sum"; "A merged item keeps the record and level of the item whose m it has; where both have it, the older
    # part's."
    older_m, older_p = m_and_p(older, join)
    newer_m, newer_p = m_and_p(newer, join)
    record = older.record if older_m >= newer_m else newer.record
    return max(older_m, newer_m), older_p + rib + newer_p, record


def least_of_each_m(pairs):
    """For each m the pair of least p. Every other pair of that m is inferior to it."""
    of_m = {}
    for pair in pairs:
        of_m.setdefault(pair[0], []).append(pair)
    least = []
    for same_m in of_m.values():
        p = min(pair[1] for pair in same_m)
        [pair] = [pair for pair in same_m if pair[1] == p]
        least.append(pair)
    return least


def is_inferior(pair, pairs):
    # "An item is inferior where another is no taller and no wider."
    m, p, _ = pair
    return any(other is not pair and other[0] <= m and other[1] <= p for other in pairs)


def joined(older, newer, join, rib):
    """The list of a join of two parts, from the lists of the two."""
    pairs = least_of_each_m(paired(a, b, join, rib) for a, b in itertools.product(older, newer))
    kept = [pair for pair in pairs if not is_inferior(pair, pairs)]
    if join == "stacked":
        return in_order([Item(p, m, record) for m, p, record in kept])
    return in_order([Item(m, p, record) for m, p, record in kept])


def in_order(items):
    # "The list of a part is ordered by strictly falling height and strictly rising width."
    ordered = sorted(items, key=lambda item: -item.height)
    for before, after in zip(ordered, ordered[1:]):
        assert before.height > after.height and before.width < after.width
    return ordered


def gauge_list(sizes, before):
    """The list of a gauge from its sizes as printed, which come after so many others in the file: those that are useful,
    with their numbers over the whole file."""
    # "The list of a gauge is then its sizes without inferior ones; of equal pairs the lowest number stays. The sizes left
    # out keep their numbers and levels but are on no list."
    lowest = {}
    for number, size in enumerate(sizes, before + 1):
        lowest.setdefault(size, number)
    different = [(height, width, number) for (height, width), number in lowest.items()]
    return in_order([Item(*size) for size in different if not is_inferior(size, different)])


def gauge_lists(face):
    """The list of each gauge in file order."""
    lists = []
    before = 0
    for _, sizes in face.gauges:
        lists.append(gauge_list(sizes, before))
        before += len(sizes)
    return lists


def part_list(tree, gauges, rib):
    """The list of a part. The part's gauges are the next ones of an iterator over the gauges' lists."""
    if tree[0] == "gauge":
        return next(gauges)
    join, older_tree, newer_tree = tree
    older = part_list(older_tree, gauges, rib)
    newer = part_list(newer_tree, gauges, rib)
    return joined(older, newer, join, rib)


@functools.lru_cache(maxsize=None)
def outer_sizes(file, rib):
    """The root's list of a taken file."""
    face = face_model.read(file)
    return tuple(part_list(face.tree, iter(gauge_lists(face)), rib))


# ---------------------------------------------------------------------------------------------------------------
# The same sizes by choices, for faces that have few


def extent(tree, sizes, rib):
    """The outer size of one choice: an iterator over the size that each gauge takes. The two parts of a join stand a rib
    apart."""
    if tree[0] == "gauge":
        return next(sizes)
    join, older_tree, newer_tree = tree
    older_height, older_width = extent(older_tree, sizes, rib)
    newer_height, newer_width = extent(newer_tree, sizes, rib)
    # "The second part of a join starts that many half-millimetres after the first."
    if join == "stacked":
        return older_height + rib + newer_height, max(older_width, newer_width)
    return max(older_height, newer_height), older_width + rib + newer_width


def choices(face):
    count = 1
    for _, sizes in face.gauges:
        count *= len(sizes)
    return count


def sizes_by_choices(face, rib):
    """The (height, width) of every choice of one printed size per gauge, without those that another is no taller and no
    wider than, by falling height."""
    every = {extent(face.tree, iter(choice), rib) for choice in itertools.product(*(sizes for _, sizes in face.gauges))}
    kept = [a for a in every if not any(b != a and b[0] <= a[0] and b[1] <= a[1] for b in every)]
    return sorted(kept, reverse=True)


# ---------------------------------------------------------------------------------------------------------------
# Lazy lists


@dataclasses.dataclass
class Walked:
    """What stands at a place of the walk by forward 1: the record, its level, its m and its true p."""

    record: int
    level: int
    m: int
    p: int


def walk(face, items, levels):
    """The root's list as the arena has it, in the order of the walk."""
    # "m is height where the root is a gauge or side by side, width where it is stacked."; "m falls and true p rises
    # strictly"; "Records 1 to n are the file's sizes, each with its lent level"
    found = []
    for item in items:
        m, p = m_and_p(item, face.tree[0])
        found.append(Walked(item.record, levels[item.record - 1], m, p))
    found.sort(key=lambda walked: -walked.m)
    return found


def read_call(walked, place):
    """The reading call on an arena that holds this list: number, m, p."""
    # "Is the place from 1 to its length? 21."
    if 1 <= place <= len(walked):
        return 0, walked[place - 1].m, walked[place - 1].p
    return 21, 0, 0


def read_low_call(walked, place):
    """The same from the low end."""
    # "the k-th from the low end is the item that a full reading from the top puts there"
    return read_call(walked[::-1], place)


# ---------------------------------------------------------------------------------------------------------------
# The list call


@dataclasses.dataclass
class Listed:
    """What the list call gives: its number; where that is 0 also the items and the walk."""

    number: int
    items: tuple = ()
    walked: tuple = ()


def output_words(face):
    # "The list call needs 2(n - g + 1) words"
    return 2 * (face.size_count() - face.gauge_count() + 1)


def list_call(file, levels, rib, arena=WORDS, scratch=WORDS, output=None):
    """The list call on a file, levels and a rib, lent buffers of so many words; no output given is one that is long enough.
    It makes checks 1 to 15, 22, 17 and 18."""
    try:
        face = face_model.read(file)
        # "As many levels as sizes? 14. Each level 1 to 8? 15."
        face_model.ask(len(levels) == face.size_count(), 14)
        face_model.ask(all(1 <= level <= 8 for level in levels), 15)
        # "22 when the rib is above 20, right after 15"
        face_model.ask(rib <= RIB, 22)
        # "Arena and scratch, each 16,384 32-bit words or more? 17. Output long enough? 18."
        face_model.ask(arena >= WORDS and scratch >= WORDS, 17)
        face_model.ask(output is None or output >= output_words(face), 18)
    except face_model.Refused as refusal:
        return Listed(refusal.number)
    items = outer_sizes(file, rib)
    return Listed(0, items, walk(face, items, levels))
