"""Arenas for the reading call, made word by word, with what documents 01 and 02 say of each, worked out by hand: the
number, m and p, from the top and from the low end. What the model says otherwise are `faults`. Each word that is not
named is 0."""

import dataclasses

from making.case import file_case, low_case, read_case
from models import read_model
from models.read_model import ADJUST, BACK, FORWARD, LEVEL, M, P, place_of

WORDS = read_model.WORDS
BIG = 4_294_967_295


@dataclasses.dataclass
class Reading:
    """An arena and a place, and the answers there from the top and from the low end."""

    name: str
    arena: read_model.Arena
    place: int
    top: tuple
    low: tuple


READINGS = []


def head(level=8, **words):
    return record(0, level, **words)


def record(number, level, m=0, p=0, forwards=(), adjusts=None, back=0):
    """The words of a record by their places: the forwards from the first on, and some adjusts by their levels."""
    words = {LEVEL: level, M: m, P: p, BACK: back}
    words |= {FORWARD + i: forward for i, forward in enumerate(forwards, 1)}
    words |= {ADJUST + i: adjust for i, adjust in (adjusts or {}).items()}
    return {place_of(number, word): value for word, value in words.items()}


def reads(name, place, top, *records, low=None, length=WORDS):
    """The reading call at a place of an arena of these records. The answers from both ends are one if one is given."""
    words = {at: word for found in records for at, word in found.items()}
    READINGS.append(Reading(name, read_model.Arena(length, 0, words), place, top, top if low is None else low))


NO_WORDS = (17, 0, 0)
NO_LIST = (20, 0, 0)
NO_ITEM = (21, 0, 0)

# The head of a list of record 1 alone.
TO_ONE = head(forwards=[1], back=1)

# --- "p 35 under adjust 4,294,967,291: true 30". The record has level 1, the head an adjust 2.
UNDER = {2: 4_294_967_291}
ALL = {i: 4 for i in range(2, 9)}
ONE = record(1, 1, 60, 35)
reads("p 35 under adjust 4294967291", 1, (0, 60, 30), head(forwards=[1], adjusts=UNDER, back=1), ONE)
reads("p 35 under adjusts of all levels", 1, (0, 60, 63), head(forwards=[1], adjusts=ALL, back=1), ONE)
reads("adjust 1 counts for no record", 1, (0, 60, 35), head(forwards=[1], adjusts={1: 7}, back=1), ONE)
TO_HIGH = head(forwards=[1] * 8, adjusts=UNDER, back=1)
reads("p 35 at level 8 under no adjust", 1, (0, 60, 35), TO_HIGH, record(1, 8, 60, 35))

# --- "is the arena 16,384 words or more? 17. Does it hold a lazy list? 20. Is the place from 1 to its length? 21."
reads("16383 words", 1, NO_WORDS, head(), length=WORDS - 1)
reads("16384 words, an empty list", 1, NO_ITEM, head())
reads("16383 words, one record", 1, NO_WORDS, TO_ONE, ONE, length=WORDS - 1)
reads("16400 words, one record", 1, (0, 60, 35), TO_ONE, ONE, length=WORDS + 16)
reads("no words", 1, NO_WORDS, length=0)
reads("16383 words and no list", 1, NO_WORDS, head(7), length=WORDS - 1)
reads("16383 words and a wrong back word", 1, NO_WORDS, head(back=1), length=WORDS - 1)
reads("no list and place 0", 0, NO_LIST, head(7))
reads("a wrong back word and place 0", 0, NO_LIST, head(back=1))
reads("a wrong back word and place 2", 2, NO_LIST, head(forwards=[1]), ONE)
reads("an empty list, place 0", 0, NO_ITEM, head())
reads("an empty list, place 4294967295", BIG, NO_ITEM, head())
reads("one record, place 0", 0, NO_ITEM, TO_ONE, ONE)
reads("one record, place 1", 1, (0, 60, 35), TO_ONE, ONE)
reads("one record, place 2", 2, NO_ITEM, TO_ONE, ONE)
reads("one record, place 4294967295", BIG, NO_ITEM, TO_ONE, ONE)

# --- "An arena holds a lazy list if record 0 has level 8"
reads("level 7 at record 0", 1, NO_LIST, head(7, forwards=[1], adjusts=UNDER, back=1), ONE)
reads("level 9 at record 0", 1, NO_LIST, head(9, forwards=[1], back=1), ONE)
reads("level 0 at record 0", 1, NO_LIST, head(0, forwards=[1], back=1), ONE)

# --- "the walk by forward 1 meets at most 512 records numbered 1 to 512 and ends at 0"
reads("record 512", 1, (0, 60, 35), head(forwards=[512], back=512), record(512, 1, 60, 35))
reads("record 513", 1, NO_LIST, head(forwards=[513], back=513), record(513, 1, 60, 35))
reads("record 4294967295", 1, NO_LIST, head(forwards=[BIG], back=BIG))
reads("a walk back to its first record", 1, NO_LIST, TO_ONE, record(1, 1, 60, 35, [1]))
reads(
    "a walk that turns in a circle",
    1,
    NO_LIST,
    head(forwards=[1], back=2),
    record(1, 1, 60, 35, [2]),
    record(2, 1, 50, 40, [1], back=1),
)

# As many records as there can be, m from 512 down and p from 1 up. Back words are those that are named, or right ones.
MOST = 512


def full(backs=None):
    found = [head(forwards=[1], back=(backs or {}).get(0, MOST))]
    for r in range(1, MOST + 1):
        found.append(record(r, 1, 513 - r, r, [r + 1 if r < MOST else 0], back=(backs or {}).get(r, r - 1)))
    return found


reads("512 records, place 1", 1, (0, 512, 1), *full(), low=(0, 1, 512))
reads("512 records, place 200", 200, (0, 313, 200), *full(), low=(0, 200, 313))
reads("512 records, place 512", 512, (0, 1, 512), *full(), low=(0, 512, 1))
reads("512 records, place 513", 513, NO_ITEM, *full())

# --- "their levels are 1 to 8"
reads("level 0 of a record", 1, NO_LIST, TO_ONE, record(1, 0, 60, 35))
reads("level 9 of a record", 1, NO_LIST, head(forwards=[1] * 8, back=1), record(1, 9, 60, 35))
TO_TWO = head(forwards=[1], back=2)
FIRST = record(1, 1, 60, 35, [2])
reads("level 9 of the last of two", 1, NO_LIST, TO_TWO, FIRST, record(2, 9, 50, 40, back=1))

# --- "every forward up to a record's level is as said"; "Words above a record's level are free."
reads("forward 2 to a record of level 1", 1, NO_LIST, head(forwards=[1, 1], back=1), ONE)
reads("forward 8 to a record of level 7", 1, NO_LIST, head(forwards=[1] * 8, back=1), record(1, 7, 60, 35))
reads("no forward 2 to a record of level 2", 1, NO_LIST, TO_ONE, record(1, 2, 60, 35))
reads("a forward 2 above the level", 1, (0, 60, 35), TO_ONE, record(1, 1, 60, 35, [0, 7]))
LAST_HIGH = [FIRST, record(2, 2, 50, 40, back=1)]
reads("forward 2 past a record of level 1", 2, (0, 50, 40), head(forwards=[1, 2], back=2), *LAST_HIGH, low=(0, 60, 35))
reads("forward 2 to the first of them", 2, NO_LIST, head(forwards=[1, 1], back=2), *LAST_HIGH)
reads("forward 2 of 0 before it", 2, NO_LIST, TO_TWO, *LAST_HIGH)

# --- "m falls and true p rises strictly"
reads("m falls by one, p rises by one", 2, (0, 59, 36), TO_TWO, FIRST, record(2, 1, 59, 36, back=1), low=(0, 60, 35))
reads("equal m", 1, NO_LIST, TO_TWO, FIRST, record(2, 1, 60, 36, back=1))
reads("rising m", 1, NO_LIST, TO_TWO, FIRST, record(2, 1, 61, 36, back=1))
reads("equal p", 1, NO_LIST, TO_TWO, FIRST, record(2, 1, 59, 35, back=1))
reads("falling p", 1, NO_LIST, TO_TWO, FIRST, record(2, 1, 59, 34, back=1))

# The second record is under adjust 2 of the first, which is one below zero.
TO_HIGHER = head(forwards=[1, 1], back=2)
LOWERED = [TO_HIGHER, record(1, 2, 60, 35, [2], {2: BIG})]
reads("p that rises by its adjust only", 2, (0, 59, 36), *LOWERED, record(2, 1, 59, 37, back=1), low=(0, 60, 35))
reads("p that its adjust makes equal", 2, NO_LIST, *LOWERED, record(2, 1, 59, 36, back=1))
RAISED = [TO_HIGHER, record(1, 2, 60, 35, [2], {2: 10})]
RISING = [*RAISED, record(2, 1, 59, 30, back=1)]
reads("a lower p that its adjust raises", 2, (0, 59, 40), *RISING, low=(0, 60, 35))
reads("a lower p that its adjust raises, place 1", 1, (0, 60, 35), *RISING, low=(0, 59, 40))

# ---------------------------------------------------------------------------------------------------------------
# Back words

# --- "Word 19 is the record before it on the list; in the first item it is 0, and in the head it is the last item, or 0
# for an empty list." The walk meets records 4, 2, 7, 1 and 5, of levels 1, 3, 8, 1 and 2; 3 is on no list. Each p is
# true as it is stored, but that of record 1, which adjust 2 of record 7 raises by 7.
FIVE_BACKS = {0: 5, 4: 0, 2: 4, 7: 2, 1: 7, 5: 1}
UNLISTED = 3


def five(backs=None):
    """The five records and their head, with these back words of some, and right ones of the others."""
    back = FIVE_BACKS | (backs or {})
    return [
        head(forwards=[4, 2, 2, 7, 7, 7, 7, 7], back=back[0]),
        record(4, 1, 60, 10, [2], back=back[4]),
        record(2, 3, 50, 20, [7, 7, 7], back=back[2]),
        record(7, 8, 40, 30, [1, 5], {2: 7}, back=back[7]),
        record(1, 1, 30, 33, [5], back=back[1]),
        record(5, 2, 20, 50, back=back[5]),
    ]


FIVE_ITEMS = [(0, 60, 10), (0, 50, 20), (0, 40, 30), (0, 30, 40), (0, 20, 50)]
for number, (top, low) in enumerate(zip(FIVE_ITEMS, FIVE_ITEMS[::-1]), 1):
    reads(f"five records, place {number}", number, top, *five(), low=low)
reads("five records, place 0", 0, NO_ITEM, *five())
reads("five records, place 6", 6, NO_ITEM, *five())
reads("five records, place 4294967295", BIG, NO_ITEM, *five())

# One back word is wrong: the head (0), any record on the list, the record itself, the unlisted one, ones that no record
# has, or the right one but for a bit that a byte or two bytes would cut off.
for number, right in FIVE_BACKS.items():
    for wrong in [*FIVE_BACKS, UNLISTED, 513, BIG, right + 256, right + 65_536]:
        if wrong != right:
            reads(f"five records, back word of {number} is {wrong}", 1, NO_LIST, *five({number: wrong}))

# The same at the other places, of the first item, of one in the middle, of the last and of the head.
for number in (4, 7, 5, 0):
    for place in (3, 5, 6):
        wrong = five({number: UNLISTED})
        reads(f"five records, place {place}, back word of {number} is {UNLISTED}", place, NO_LIST, *wrong)

# Two back words that are wrong together: exchanged ones, a ring through the head, and back words from the other end.
reads("five records, two back words exchanged", 1, NO_LIST, *five({7: 4, 2: 2}))
reads("five records, back words in a ring", 1, NO_LIST, *five({4: 5, 0: 0}))
reads("five records, each back word its forward 1", 1, NO_LIST, *five({0: 4, 4: 2, 2: 7, 7: 1, 1: 5, 5: 0}))
reads("five records, no back words", 1, NO_LIST, *five(dict.fromkeys(FIVE_BACKS, 0)))

# An empty list, and a list of one record.
for wrong in (1, 512, 513, 256, 65_536, BIG):
    reads(f"an empty list, back word of 0 is {wrong}", 1, NO_LIST, head(back=wrong))
for wrong in (0, 2, 513, 257, BIG):
    reads(f"one record, back word of 0 is {wrong}", 1, NO_LIST, head(forwards=[1], back=wrong), ONE)
for wrong in (1, 2, 513, 256, BIG):
    reads(f"one record, back word of 1 is {wrong}", 1, NO_LIST, TO_ONE, record(1, 1, 60, 35, back=wrong))

# As many records as there can be.
for number, wrong in {1: 512, 256: 256, 257: 0, 512: 510, 0: 511}.items():
    reads(f"512 records, back word of {number} is {wrong}", 1, NO_LIST, *full({number: wrong}))

# Back words of records that are on no list are free, and so is the word 19 of a record that cannot be on one.
for number, word in {3: 5, 6: BIG, 8: 8, 512: 1, 513: 7}.items():
    free = {place_of(number, BACK): word}
    reads(f"five records, free back word of {number} is {word}", 2, (0, 50, 20), *five(), free, low=(0, 30, 40))
reads("an empty list, free back words", 1, NO_ITEM, head(), record(1, 1, 60, 35, back=1), record(2, 1, 50, 40, back=1))

# Records of 19 words, as document 01 lays them out without paper 6: the word that would be record 1's level is its m.
reads("a record of 19 words", 1, NO_LIST, {0: 8, 3: 1, 19: 1, 20: 60, 21: 35})


def answers(reading):
    """The model's answers of a reading."""
    arena, place = reading.arena, reading.place
    return read_model.read_call(arena, place), read_model.read_low_call(arena, place)


def faults():
    found = [(reading, *answers(reading)) for reading in READINGS]
    return [
        f"arena, {reading.name}: by hand {reading.top} and {reading.low}, by the model {top} and {low}"
        for reading, top, low in found
        if (reading.top, reading.low) != (top, low)
    ]


def cases():
    """The cases. The list call, which is made first, refuses the empty file and leaves each arena as it is."""
    found = [file_case("arenas", b"")]
    for reading in READINGS:
        arena, place = reading.arena, reading.place
        found.append(read_case(f"arena, {reading.name}", arena, place, arena.words))
        found.append(low_case(f"arena, {reading.name}, from the low end", arena, place, arena.words))
    return found
