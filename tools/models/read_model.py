"""A model of the reading call, from either end, on an arena of any contents, for making tests: document 01's "Lazy
lists" and checks 17, 20 and 21, and of document 02 paper 6's back words.

It is written from the text of document 01, "Milled instrument faces", and of paper 6, "Reading a list from its low
end", and shares nothing with the Rattle code: each forward, each back word and each true p is worked out from the whole
walk. Words between quotation marks are the documents'.
"""

import dataclasses

# "is the arena 16,384 words or more?"
WORDS = 16384
MODULUS = 4_294_967_296

# "An arena record grows to 20 words."
RECORD = 20

# "Word 0 is the level, 1 is m, 2 is p, 3 to 10 are forward 1 to 8, 11 to 18 are adjust 1 to 8."; "Word 19 is the record
# before it on the list". Forward i is word FORWARD + i, and adjust i is word ADJUST + i.
LEVEL, M, P, FORWARD, ADJUST, BACK = 0, 1, 2, 2, 10, 19


def place_of(record, word):
    """The place in an arena of a record's word."""
    # "Record r starts at word 20r."
    return RECORD * record + word


class Arena:
    """An arena of so many words, of which each is `fill` but those that are named."""

    def __init__(self, length, fill=0, words=None):
        self.length = length
        self.fill = fill
        self.words = dict(words or {})

    def word(self, record, word):
        return self.words.get(place_of(record, word), self.fill)

    def level(self, record):
        return self.word(record, LEVEL)

    def m(self, record):
        return self.word(record, M)

    def p(self, record):
        return self.word(record, P)

    def forward(self, record, i):
        return self.word(record, FORWARD + i)

    def adjust(self, record, i):
        return self.word(record, ADJUST + i)

    def back(self, record):
        return self.word(record, BACK)


@dataclasses.dataclass
class Item:
    """A record of the walk, with its level, m and true p."""

    record: int
    level: int
    m: int
    p: int

    def fields(self):
        return self.record, self.level, self.m, self.p


def walk(arena):
    """The records of the walk by forward 1, or None where it is not as it should be."""
    # "the walk by forward 1 meets at most 512 records numbered 1 to 512 and ends at 0"
    records = []
    record = arena.forward(0, 1)
    while record != 0:
        if not 1 <= record <= 512 or len(records) == 512:
            return None
        records.append(record)
        record = arena.forward(record, 1)
    return records


def next_of_level(arena, records, place, i):
    # "Forward i is the number of the next record on the list with level i or more, and 0 for none."
    return next((record for record in records[place:] if arena.level(record) >= i), 0)


def true_p(arena, records, place):
    # "The true p of an item is its stored p plus, for every i above its level, adjust i of the last record before it
    # with level i or more, the head included. These sums are taken modulo 4,294,967,296"
    record = records[place]
    before = [0] + records[:place]
    total = arena.p(record)
    for i in range(arena.level(record) + 1, 9):
        last = next(other for other in reversed(before) if arena.level(other) >= i)
        total += arena.adjust(last, i)
    return total % MODULUS


def backs_of(records):
    """The back word that each record on a list has, and the head, whose number is 0."""
    # "Word 19 is the record before it on the list; in the first item it is 0, and in the head it is the last item, or 0
    # for an empty list."
    return dict(zip([*records, 0], [0, *records]))


def lazy_list(arena):
    """The items of the lazy list that the arena holds, or None where it holds none."""
    # "An arena holds a lazy list if record 0 has level 8"
    if arena.level(0) != 8:
        return None
    records = walk(arena)
    # "their levels are 1 to 8"
    if records is None or not all(1 <= arena.level(record) <= 8 for record in records):
        return None
    # "every forward up to a record's level is as said"
    for place, record in enumerate([0] + records):
        for i in range(1, arena.level(record) + 1):
            if arena.forward(record, i) != next_of_level(arena, records, place, i):
                return None
    # "A lazy list in check 20 now has right back words as well."
    if any(arena.back(record) != back for record, back in backs_of(records).items()):
        return None
    items = [
        Item(record, arena.level(record), arena.m(record), true_p(arena, records, place))
        for place, record in enumerate(records)
    ]
    # "m falls and true p rises strictly"
    if all(a.m > b.m and a.p < b.p for a, b in zip(items, items[1:])):
        return items
    return None


def asked(arena, place):
    """The number of a reading call, and the items of the arena's list where that is 0."""
    # "is the arena 16,384 words or more? 17. Does it hold a lazy list? 20. Is the place from 1 to its length? 21."
    if arena.length < WORDS:
        return 17, []
    items = lazy_list(arena)
    if items is None:
        return 20, []
    if not 1 <= place <= len(items):
        return 21, []
    return 0, items


def read_call(arena, place):
    """The reading call from the top: number, m, p."""
    number, items = asked(arena, place)
    if number != 0:
        return number, 0, 0
    return 0, items[place - 1].m, items[place - 1].p


def read_low_call(arena, place):
    """The reading call from the low end: number, m, p."""
    number, items = asked(arena, place)
    if number != 0:
        return number, 0, 0
    # "starts with the face of least m"; "the k-th from the low end is the item that a full reading from the top puts
    # there"
    item = sorted(items, key=lambda item: item.m)[place - 1]
    assert item == items[-place]
    return 0, item.m, item.p
