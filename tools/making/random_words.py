"""Pseudo-random words for the writing call: those of faces, and ones that are damaged."""

from making import random_faces
from models import words_model

BIG = 4_294_967_295


def good(rng, large=0.04):
    """Words that are taken: those of a face."""
    return words_model.read_words(random_faces.face(rng, large), 1216)[2]


def odd_word(rng, word):
    """A word in place of another: one at an end of a question's limits, or the same one with higher bits."""
    ends = [0, 1, 2, 3, 4, 8, 9, 64, 65, 127, 128, 257, 1000, 1001, 65537, BIG]
    higher = [word + 256, word + 65536, word + 2**24, word + 2**31]
    return rng.choice(ends + higher + [word + 1, max(0, word - 1)]) % 2**32


def damaged(rng, words):
    """The words changed at a random place, cut short, lengthened, or with another number of entries."""
    kind = rng.randrange(8)
    place = rng.randrange(len(words))
    if kind <= 2:
        return words[:place] + [odd_word(rng, words[place])] + words[place + 1 :]
    if kind == 3:
        return words[:place]
    if kind == 4:
        return words + [rng.randint(0, 4) for _ in range(rng.choice([1, 1, 2, 7, 300]))]
    if kind == 5:
        return words[:place] + words[place + 1 :]
    if kind == 6:
        return words[:place] + [odd_word(rng, words[place])] + words[place:]
    return [max(0, words[0] + rng.choice([-1, 1, -2, 2, 127]))] + words[1:]


def too_many(rng):
    """Gauges to the 65th, or parts that are not joined."""
    count = rng.choice([2, 3, 64, 65, 66, 127])
    joins = [rng.randint(2, 3) for _ in range(rng.randint(0, min(count, 127 - count)))]
    return [count + len(joins)] + [1, 1, rng.randint(1, 1000), rng.randint(1, 1000)] * count + joins


def noise(rng):
    """Small words, after a number of entries or not."""
    start = rng.choice([[], [1], [rng.randint(0, 130)]])
    return start + [rng.randint(0, 4) for _ in range(rng.randint(0, 30))]


def any_words(rng):
    """Words, of which half are taken before they are damaged."""
    kind = rng.random()
    if kind < 0.5:
        return good(rng)
    if kind < 0.9:
        words = damaged(rng, good(rng, 0.02))
        return damaged(rng, words) if words and rng.random() < 0.2 else words
    return noise(rng) if kind < 0.96 else too_many(rng)
