"""Pseudo-random arenas for the reading call, from either end: made word by word, or left by the list call, and then
words replaced."""

from making import random_faces
from making.case import file_case, low_case, read_case, words_case
from models import face_model, list_model, read_model
from models.read_model import ADJUST, BACK, FORWARD, LEVEL, M, P, RECORD, place_of

WORDS = list_model.WORDS
UNTOUCHED = 2_863_311_530
BIG = 4_294_967_295

# ---------------------------------------------------------------------------------------------------------------
# Arenas that are made word by word


def some_word(rng, arena, old):
    """A word to put into an arena: near what it was, a record, or a number at an end."""
    return rng.choice(
        [
            (old + 1) % (BIG + 1),
            (old - 1) % (BIG + 1),
            rng.randint(0, 9),
            rng.randint(0, 9),
            rng.randint(0, 512),
            arena.forward(0, rng.randint(1, 8)),
            arena.forward(rng.randint(0, 60), 1),
            rng.choice([513, 862, 65536, BIG, 2_147_483_648]),
            rng.randint(0, BIG),
        ]
    )


def some_back(rng, records, old):
    """A back word to put into a record: a record on the list, any record, or the old word but for a bit."""
    listed = rng.choice([0] + records)
    return rng.choice([listed, listed, listed, 0, rng.randint(0, 513), BIG, old ^ (1 << rng.randrange(32))])


def put_back(rng, arena, records):
    """Changes the back word of a record, mostly of one on the list or of the head. Returns the word by its place."""
    record = rng.choice([0, *records[:1], *records[-1:], *records]) if rng.random() < 0.9 else rng.randint(0, 513)
    place = place_of(record, BACK)
    arena.words[place] = some_back(rng, records, arena.back(record))
    return {place: arena.words[place]}


# The words of a record of which one is drawn to be changed. Any may be, and some are more often.
DRAWN = [LEVEL, M, P, FORWARD + 1, FORWARD + 1, FORWARD + 2, FORWARD + 3, FORWARD + 8]
DRAWN += [ADJUST + 1, ADJUST + 2, ADJUST + 3, ADJUST + 8, BACK]


def scramble(rng, arena, records, count):
    """Changes so many words, mostly of records on the list, or one back word. Returns the words by their places."""
    if count > 0 and rng.random() < 0.25:
        return put_back(rng, arena, records)
    words = {}
    for _ in range(count):
        record = rng.choice([0] + records) if rng.random() < 0.9 else rng.randint(0, 512)
        place = place_of(record, rng.choice(DRAWN + [rng.randrange(RECORD)]))
        old = arena.words.get(place, arena.fill)
        words[place] = some_word(rng, arena, old)
        arena.words[place] = words[place]
    return words


def rising(rng, count):
    """A row of p, or of m from its end: mostly strictly rising, at either end of what a word holds."""
    step = rng.choice([1, 1, 3, 1000, 4_000_000])
    value = rng.choice([0, 1, 5, 100, BIG - step * count - count])
    found = []
    for _ in range(count):
        found.append(value % (BIG + 1))
        value += rng.randint(1, step)
    if count > 1 and rng.random() < 0.1:
        place = rng.randrange(1, count)
        found[place] = found[place - 1]
    return found


def put_list(rng, arena, records, levels):
    """Puts a list of these records in an arena: its links as they should be, and adjusts at random."""
    level_of = dict(zip(records, levels))
    level_of[0] = 8
    count = len(records)
    small = rng.random() < 0.5
    adjust = {}
    for place, record in enumerate([0] + records):
        arena.words[place_of(record, LEVEL)] = level_of[record]
        for i in range(1, level_of[record] + 1):
            arena.words[place_of(record, FORWARD + i)] = next((r for r in records[place:] if level_of[r] >= i), 0)
            if i > 1:
                adjust[record, i] = rng.choice([0, 5, BIG, BIG - 4]) if small else rng.randint(0, BIG)
                arena.words[place_of(record, ADJUST + i)] = adjust[record, i]
    arena.words |= {place_of(record, BACK): back for record, back in read_model.backs_of(records).items()}
    m, p = rising(rng, count)[::-1], rising(rng, count)
    last = {i: 0 for i in range(1, 9)}
    for place, record in enumerate(records):
        added = sum(adjust[last[i], i] for i in range(level_of[record] + 1, 9))
        arena.words[place_of(record, M)] = m[place]
        arena.words[place_of(record, P)] = (p[place] - added) % (BIG + 1)
        for i in range(1, level_of[record] + 1):
            last[i] = record


def some_place(rng, count):
    return rng.choice([rng.randint(1, max(1, count))] * 5 + [0, 1, count, count + 1, 512, 513, BIG])


def arena_length(rng):
    return rng.choice([WORDS] * 20 + [WORDS + 16, WORDS - 1, 0])


def made(rng, name, maker):
    """The reading call, of the end whose case is made so, on an arena that is made word by word."""
    count = rng.choice([0, 1, 2, 3, 5, 8, 13, 30]) if rng.random() < 0.97 else rng.choice([64, 200, 511, 512])
    records = rng.sample(range(1, 513), count)
    if rng.random() < 0.5:
        records = sorted(records)
    top = 8 if count <= 64 else 2
    levels = [min(top, 1 + int(rng.expovariate(0.5))) for _ in records]
    arena = read_model.Arena(arena_length(rng), rng.choice([UNTOUCHED, 0, 1, BIG]))
    put_list(rng, arena, records, levels)
    if rng.random() < 0.6:
        scramble(rng, arena, records, rng.choice([1, 1, 1, 2, 3]))
    place = some_place(rng, count)
    return [file_case(name, b""), maker(f"{name}, call", arena, place, arena.words)]


def make_read(rng, name):
    return made(rng, name, read_case)


def make_low(rng, name):
    return made(rng, name, low_case)


# ---------------------------------------------------------------------------------------------------------------
# Arenas that the list call left


def some_rib(rng):
    """A rib: for half of the cases 0, for most others 0 to 20, and for some one that is too large."""
    kind = rng.random()
    if kind < 0.45:
        return 0
    if kind < 0.95:
        return rng.choice([1, 20, rng.randint(0, 20), rng.randint(0, 20)])
    return rng.choice([21, 21, 22, 40, 255, 256, 65_536, 2_147_483_648, BIG])


class Left:
    """A file with levels and a rib, and the words of the arena that the list call leaves."""

    def __init__(self, file, levels, rib):
        self.file = file
        self.levels = levels
        self.rib = rib
        self.length = RECORD * (len(levels) + 1)
        self.walked = list_model.list_call(file, levels, rib).walked
        self.words = {}

    def cases(self, name):
        return [file_case(name, self.file), words_case(f"{name}, call", self.levels, self.rib, self.length)]

    def take(self, answer):
        """Takes the words from the program's answer. Answers whether what is fixed of them is as it should be."""
        what, *words = answer.partition(": ")[2].split()
        self.words = {place: int(word) for place, word in enumerate(words)}
        if what != "words" or len(words) != self.length:
            return False
        items = read_model.lazy_list(read_model.Arena(WORDS, UNTOUCHED, self.words))
        wanted = [(item.record, item.level, item.m, item.p) for item in self.walked]
        return items is not None and [item.fields() for item in items] == wanted


def lefts(rng, count):
    found = []
    for _ in range(count):
        file = random_faces.face(rng, large=0)
        sizes = face_model.read(file).size_count()
        levels = [min(8, 1 + int(rng.expovariate(0.5))) for _ in range(sizes)]
        found.append(Left(file, levels, min(list_model.RIB, some_rib(rng))))
    return found


def scrambled(rng, name, left):
    """The reading call, from either end, on an arena that the list call left, with words replaced."""
    arena = read_model.Arena(arena_length(rng), UNTOUCHED, left.words)
    records = [item.record for item in left.walked]
    words = scramble(rng, arena, records, rng.choice([0, 1, 1, 1, 2, 3]))
    place = some_place(rng, len(records))
    maker = rng.choice([read_case, low_case])
    return [file_case(name, left.file), maker(f"{name}, call", arena, place, words, left.levels, left.rib)]
