"""The reading calls, from both ends, on the arenas that the list call leaves of stored faces. Before it each word of an
arena is the largest one. What a model says otherwise than an answer that was worked out by hand are `faults`."""

from making.calls import SHORT, WORDS, Levels
from making.case import LONGER, Case, file_case, given, lines, low_case, read_case, replaced, row
from making.rib_calls import TOO_LARGE
from making.rib_files import FACES, MOST
from models import face_model, list_model, read_model

BIG = 4_294_967_295
NO_LIST = (20, 0, 0)

# By hand m and p of each item, from the top, of a face with a rib. Of a stacked root m is the width, so that the item
# at the low end is the tallest one.
BY_HAND = {
    ("lone-1-1", 0): [(1, 1)],
    ("example", 0): [(60, 70), (50, 90), (40, 110)],
    ("example", 5): [(60, 75), (50, 95), (40, 115)],
    ("example-stacked", 0): [(60, 70), (50, 90), (40, 110)],
    ("example-stacked", 5): [(60, 75), (50, 95), (40, 115)],
    ("printed-lone", 0): [(60, 40), (40, 60), (30, 90)],
}

# Faces at every place, with ribs so that each table of levels is there; and large ones at some places.
SMALL = """lone-1-1 lone-of-8 example example-stacked rib-ties tie-with-turned three-beside-then-stacked tiny-stacked
printed-lone printed-beside-then-stacked""".split()
LARGE = "mixed-20 pile-of-16 row-of-64 pile-of-64 alternating-64-many printed-alternating-64 widest".split()
RIBS = {name: (0, 1, 5, 6, 7, MOST) for name in SMALL} | {name: (0, 5, 6, 7) for name in LARGE}

# The words of document 01's example under a rib of 5 that are replaced, a place, and the answers there from the top and
# from the low end, by hand. Records 1, 3 and 2 hold 60 75, 50 95 and 40 115, and record 4 is on no list. Words 21, 61
# and 41 are their m; 19, 39, 79, 59 and 99 are the back words of the head, of these three and of record 4.
REPLACED = [
    ({21: 61}, 1, (0, 61, 75), (0, 40, 115)),
    ({21: 50}, 1, NO_LIST, NO_LIST),
    ({41: 49}, 3, (0, 49, 115), (0, 60, 75)),
    ({0: 8, 21: 60, 61: 50, 41: 40}, 2, (0, 50, 95), (0, 50, 95)),
    ({19: 2, 39: 0, 79: 1, 59: 3}, 1, (0, 60, 75), (0, 40, 115)),
    ({99: 2}, 3, (0, 40, 115), (0, 60, 75)),
    ({19: 0}, 1, NO_LIST, NO_LIST),
    ({19: 3}, 1, NO_LIST, NO_LIST),
    ({39: 1}, 1, NO_LIST, NO_LIST),
    ({39: 4}, 1, NO_LIST, NO_LIST),
    ({79: 0}, 1, NO_LIST, NO_LIST),
    ({79: 3}, 1, NO_LIST, NO_LIST),
    ({59: 1}, 1, NO_LIST, NO_LIST),
    ({59: 0}, 1, NO_LIST, NO_LIST),
]


class ReadCalls:
    """Reading calls after a list call on a face that is taken, each from the top and from the low end."""

    def __init__(self, name):
        self.name, self.file = name, FACES[name]
        self.levels = Levels(self.file, face_model.read(self.file).size_count())
        self.found = []

    def walked(self, rib):
        return list_model.list_call(self.file, self.levels.of_rib(rib), rib).walked

    def add(self, what, rib, place, words, length, top, low):
        """The cases of a place, with the words that are replaced and the answers."""
        for letter, call, answer in (("r", "read", top), ("b", "low", low)):
            text = given(letter, self.levels.of_rib(rib), BIG, place, length, 0, 0, rib, after=replaced(words))
            name = f"{self.name}, {call}, rib {rib}, place {place}{what}"
            self.found.append(Case(name, text, lines(call + row(answer))))

    def call(self, rib, place):
        walked = self.walked(rib)
        top, low = list_model.read_call(walked, place), list_model.read_low_call(walked, place)
        self.add("", rib, place, {}, WORDS, top, low)

    def cases(self):
        return [file_case(f"{self.name}, read", self.file)] + self.found


def some_places(count):
    return sorted({0, 1, 2, count // 2, count - 1, count, count + 1, 512, 513, BIG})


def place_calls(calls):
    """The places of a small face, all of them, and of a large one some; and of each ones that no list has."""
    for rib in RIBS[calls.name]:
        count = len(calls.walked(rib))
        places = set(some_places(count)) | set(range(count) if calls.name in SMALL else [])
        for place in sorted(places):
            calls.call(rib, place)


def length_calls(calls):
    """Arenas that are too short, and longer ones, at the first and the last place."""
    walked = calls.walked(5)
    first, last = list_model.read_call(walked, 1), list_model.read_low_call(walked, 1)
    for length in (0, SHORT):
        calls.add(f" of {length} words", 5, 1, {}, length, (17, 0, 0), (17, 0, 0))
    for length in (WORDS + 1, LONGER):
        calls.add(f" of {length} words", 5, 1, {}, length, first, last)


def replaced_calls(calls):
    """Words of the arena that are fixed after the list call, replaced."""
    for words, place, top, low in REPLACED:
        changed = " ".join(f"{at} is {word}" for at, word in words.items())
        calls.add(f", {changed}", 5, place, words, WORDS, top, low)


def refused_calls(calls):
    """Ribs that the list call refuses, which leaves an arena of zeros but for its first word."""
    for rib in TOO_LARGE:
        for what, words, number in (("an empty list", {0: 8}, 21), ("no list", {}, 20)):
            for call, maker in (("read", read_case), ("low", low_case)):
                name = f"{calls.name}, {call}, rib {rib}, {what}"
                case = maker(name, read_model.Arena(WORDS, 0, words), 1, words, calls.levels.ones, rib)
                assert case.wanted == lines(f"{call} {number} 0 0"), name
                calls.found.append(case)


GROUPS = [
    (SMALL + LARGE, place_calls),
    (["example-stacked", "rib-ties", "mixed-20", "printed-alternating-64"], length_calls),
    (["example"], replaced_calls),
    (["example"], refused_calls),
]


def faults():
    found = []
    for (name, rib), wanted in BY_HAND.items():
        walked = ReadCalls(name).walked(rib)
        places = range(1, len(wanted) + 1)
        top = [list_model.read_call(walked, place)[1:] for place in places]
        low = [list_model.read_low_call(walked, place)[1:] for place in places]
        if (len(walked), top, low) != (len(wanted), wanted, wanted[::-1]):
            found.append(f"{name}, rib {rib}: by hand {wanted}, by the model {top}, from the low end {low}")
    return found


def cases():
    found = []
    for name in SMALL + LARGE:
        calls = ReadCalls(name)
        for names, maker in GROUPS:
            if name in names:
                maker(calls)
        found += calls.cases()
    return found
