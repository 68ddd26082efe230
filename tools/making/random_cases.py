"""Pseudo-random cases of every call: a file, and a call on it."""

import random

from making import random_faces, random_heights, random_sheets, random_words
from making.case import FACE_BYTES, FACE_WORDS, OUTPUT, TEXT, TEXT_LEAST, again_case, file_case, fit_case, gauge_case
from making.case import levels_case, list_case, material_case, saved_case, sheet_case, text_case, widths_case, word_bytes
from making.case import worded_case
from making.random_arenas import make_low, make_read, some_rib
from models import face_model, fit_model, list_model, words_model

WORDS = list_model.WORDS
BIG = 4_294_967_295

# ---------------------------------------------------------------------------------------------------------------
# Calls on a file


def some_levels(rng, file, count):
    """Levels for so many sizes: mostly right."""
    kind = rng.randrange(20)
    levels = [rng.randint(1, 8) for _ in range(count)]
    if kind < 3:
        levels = face_model.fill_levels(file, count)[1] or levels
    elif kind < 5:
        levels = [rng.choice([1, 8])] * count
    elif kind < 8:
        levels = [min(8, 1 + int(rng.expovariate(0.7))) for _ in range(count)]
    elif kind == 17:
        levels = rng.choice([levels[:-1], levels + [1], [], levels + levels])
    elif kind == 18 and levels:
        levels[rng.randrange(count)] = rng.choice([0, 9, 255])
    elif kind == 19:
        levels = rng.choice([[9] * (count + 1), [0] * count])
    return levels[:600]


def words_lent(rng):
    """The words of an arena or a scratch: mostly enough."""
    return rng.choice([WORDS] * 12 + [WORDS + 16, WORDS + 1, WORDS - 1, 0]) if rng.random() < 0.5 else WORDS


def output_lent(rng, need, most):
    wanted = rng.choice([need, need, need, need + 1, need + 4, need + 30, need - 1, 0, most])
    return max(0, min(most, wanted))


def counts(file):
    """The gauges and sizes of a file, and 2 and 3 of one that is refused."""
    try:
        face = face_model.read(file)
    except face_model.Refused:
        return 2, 3
    return face.gauge_count(), face.size_count()


def opening(rng, file, rib):
    kind = rng.randrange(12)
    most = fit_model.OPENING
    odd = [0, 1, 63999, 64000, 64001, most - 1, most, most + 1, 65536, BIG]
    if face_model.number_of(file) == 0 and rib <= list_model.RIB and kind < 10:
        item = rng.choice(fit_model.root_part(file, rib).items)
        height, width = item.height, item.width
        return [
            (height, width),
            (height, width),
            (height - 1, width),
            (height, width - 1),
            (height + 1, width + 1),
            (height + rng.randint(0, 40), width + rng.randint(0, 40)),
            (height, most),
            (most, width),
            (height - 1, most),
            (64000, 64000),
        ][kind]
    return (most, most) if kind == 10 else (rng.choice(odd), rng.choice(odd))


def some_list(rng, name, file):
    gauges, sizes = counts(file)
    output = output_lent(rng, 2 * (sizes - gauges + 1), OUTPUT)
    levels, rib = some_levels(rng, file, sizes), some_rib(rng)
    return list_case(name, file, levels, rib, words_lent(rng), words_lent(rng), output)


def some_fit(rng, name, file):
    gauges, sizes = counts(file)
    rib = some_rib(rng)
    height, width = opening(rng, file, rib)
    output = output_lent(rng, 5 * gauges, 330)
    levels = some_levels(rng, file, sizes)
    return fit_case(name, file, levels, rib, height, width, words_lent(rng), words_lent(rng), output)


def some_sheet(rng, name, file):
    """The sheet call."""
    gauges, sizes = counts(file)
    rib = some_rib(rng)
    height, width = opening(rng, file, rib)
    output = random_sheets.some_room(rng, gauges)
    levels = some_levels(rng, file, sizes)
    return sheet_case(name, file, levels, rib, height, width, words_lent(rng), words_lent(rng), output)


def some_material(rng, name, file):
    """The text of `material`."""
    return material_case(name, file, random_sheets.material_room(rng))


def some_widths(rng, name, file):
    """The catalogue call. Of a file or a rib that is refused the heights are near any."""
    _, sizes = counts(file)
    levels, rib = some_levels(rng, file, sizes), some_rib(rng)
    taken = face_model.number_of(file) == 0 and rib <= list_model.RIB
    own = [item.height for item in list_model.outer_sizes(file, rib)] if taken else [60, 50, 40]
    heights = random_heights.some_heights(rng, own)
    output = output_lent(rng, len(heights), OUTPUT)
    return widths_case(name, file, levels, rib, heights, words_lent(rng), words_lent(rng), output)


def some_fill(rng, name, file):
    _, sizes = counts(file)
    length = rng.choice([sizes] * 6 + [sizes + 1, max(0, sizes - 1), 0])
    return levels_case(name, file, length)


def some_gauge(rng, name, file):
    gauges, _ = counts(file)
    gauge = rng.choice([rng.randint(1, gauges)] * 5 + [0, 1, gauges, gauges + 1, 64, 65, 256, BIG])
    return gauge_case(name, file, gauge)


def room_lent(rng, need, most):
    """Bytes or words for an output of which so many are needed: mostly enough. Of what is refused none are needed."""
    return max(0, rng.choice([need, need, need + 1, need + 4, most, most, need - 1, need - 1, need // 2, 0]))


def some_words(rng, name, file):
    """The reading call of a file to words."""
    count = words_model.read_words(file, FACE_WORDS)[1]
    return worded_case(name, file, room_lent(rng, count, FACE_WORDS))


def some_again(rng, name, file):
    """The round trip of a file."""
    return again_case(name, file)


# ---------------------------------------------------------------------------------------------------------------
# Files with a call


def make_list(rng, name):
    file = random_faces.any_file(rng, 0.85)
    return [file_case(name, file), some_list(rng, f"{name}, call", file)]


def make_fit(rng, name):
    file = random_faces.any_file(rng, 0.9)
    return [file_case(name, file), some_fit(rng, f"{name}, call", file)]


def make_sheet(rng, name):
    file = random_faces.any_file(rng, 0.9)
    return [file_case(name, file), some_sheet(rng, f"{name}, call", file)]


def make_material(rng, name):
    file = random_faces.any_file(rng, 0.7)
    return [file_case(name, file), some_material(rng, f"{name}, call", file)]


def make_widths(rng, name):
    file = random_faces.any_file(rng, 0.9)
    return [file_case(name, file), some_widths(rng, f"{name}, call", file)]


def make_levels(rng, name):
    deep = rng.random() < 0.5
    file = random_faces.lopsided(rng) if deep else random_faces.any_file(rng, 0.8, large=0.3)
    return [file_case(name, file), some_fill(rng, f"{name}, call", file)]


def make_gauge(rng, name):
    file = random_faces.any_file(rng, 0.8, large=0.2)
    return [file_case(name, file), some_gauge(rng, f"{name}, call", file)]


def make_text(rng, name):
    room = rng.choice([TEXT_LEAST, TEXT, TEXT_LEAST + 1, TEXT_LEAST - 1, 0]) if rng.random() < 0.3 else TEXT
    file = random_faces.any_file(rng, 0.7)
    return [file_case(name, file), text_case(f"{name}, call", file, room)]


def make_words(rng, name):
    file = random_faces.any_file(rng, 0.7, large=0.1)
    return [file_case(name, file), some_words(rng, f"{name}, call", file)]


def make_again(rng, name):
    file = random_faces.any_file(rng, 0.8, large=0.1)
    return [file_case(name, file), some_again(rng, f"{name}, call", file)]


def make_saved(rng, name):
    """Words, which are the file of the case, and the writing call on them."""
    words = random_words.any_words(rng)
    length = words_model.write_file(words, FACE_BYTES)[1]
    room = room_lent(rng, length, FACE_BYTES)
    return [file_case(name, word_bytes(words)), saved_case(f"{name}, call", words, room)]


# What makes a file and a call on it, which need no other case, by the call, and how often it is drawn.
MAKERS = {
    "list": (make_list, 5),
    "fit": (make_fit, 6),
    "levels": (make_levels, 2),
    "gauge": (make_gauge, 2),
    "text": (make_text, 2),
    "read": (make_read, 5),
    "low": (make_low, 5),
    "save": (make_saved, 4),
    "words": (make_words, 2),
    "again": (make_again, 1),
    "widths": (make_widths, 5),
    "sheet": (make_sheet, 6),
    "material": (make_material, 1),
}

# The rows of stored cases by what their names begin with: how many files with a call on each, and of which calls. Each
# row starts from the same seed.
STORED = {
    "random": (240, ["list", "fit", "levels", "gauge", "text", "save", "words", "again"]),
    "random widths": (300, ["widths"]),
    "random reading": (300, ["read", "low"]),
    "random sheet": (200, ["sheet", "material"]),
}
SEED = 7


def made(rng, name, calls=MAKERS):
    """A file and a call on it, of these calls."""
    drawn = [MAKERS[call][0] for call in calls for _ in range(MAKERS[call][1])]
    return rng.choice(drawn)(rng, name)


def stored():
    """The cases of all rows."""
    found = []
    for row, (count, calls) in STORED.items():
        rng = random.Random(SEED)
        found += [case for i in range(1, count + 1) for case in made(rng, f"{row} {i}", calls)]
    return found
