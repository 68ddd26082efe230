"""The calls that are made on each stored file. A call is given what a right one is, but for what its name says."""

from making.case import LONGER, TEXT, TEXT_LEAST, file_case, fit_case, gauge_case, levels_case, list_case, text_case
from models import face_model, fit_model, list_model, text_model

WORDS = list_model.WORDS
SHORT = WORDS - 1

# The opening that `faces` fits to. No face without ribs is larger.
LARGEST = text_model.OPENING


def scattered(size):
    """The level of a size in a table that follows no rule that a list could use."""
    return 1 + 181 * (size % 509) % 509 % 8


class Levels:
    """Tables of levels for a face of so many sizes."""

    def __init__(self, file, sizes):
        self.ones = [1] * sizes
        self.eights = [8] * sizes
        self.own = face_model.fill_levels(file, sizes)[1]
        self.scattered = [scattered(size) for size in range(1, sizes + 1)]
        self.last_9 = self.ones[:-1] + [9]

    def of_rib(self, rib):
        """A table for a rib: one of four."""
        return [self.ones, self.eights, self.own, self.scattered][rib % 4]

    def wrong(self):
        """Levels that are refused by 14 or 15, by their names."""
        return {
            "one level less": self.ones[:-1],
            "one level more": self.ones + [1],
            "no levels": [],
            "first level 0": [0] + self.ones[1:],
            "last level 0": self.ones[:-1] + [0],
            "first level 9": [9] + self.ones[1:],
            "last level 9": self.last_9,
        }


# ---------------------------------------------------------------------------------------------------------------
# The reader, gauge bytes, levels


def gauges_asked(count):
    """The gauges whose bytes are asked for, of a face of so many: the first four, the middle one and the last ones, and
    numbers that no gauge has."""
    return sorted({0, 1, 2, count // 2, count - 1, count, count + 1, 4294967295} | set(range(min(count, 5))))


def reader_calls(name, file):
    """The calls on every file."""
    if face_model.number_of(file) != 0:
        lengths, gauges = [8], [1]
    else:
        face = face_model.read(file)
        sizes = face.size_count()
        lengths, gauges = [sizes, sizes + 1, sizes - 1], gauges_asked(face.gauge_count())
    return (
        [file_case(name, file)]
        + [gauge_case(f"{name}, gauge {gauge}", file, gauge) for gauge in gauges]
        + [levels_case(f"{name}, a buffer of {length} levels", file, length) for length in lengths]
    )


# ---------------------------------------------------------------------------------------------------------------
# The list call


class ListCalls:
    """List calls on a face. Where nothing else is said, they are lent levels that are all 1 and as many words as are asked."""

    def __init__(self, name, file):
        self.name, self.file = name, file
        self.face = face_model.read(file)
        self.need = list_model.output_words(self.face)
        self.levels = Levels(file, self.face.size_count())
        self.found = []

    def call(self, what, table=None, arena=WORDS, scratch=WORDS, output=None):
        table = self.levels.ones if table is None else table
        output = self.need if output is None else output
        self.found.append(list_case(f"{self.name}, list, {what}", self.file, table, 0, arena, scratch, output))

    def under_each_table(self):
        """Calls that are taken, under each table of levels."""
        longer = self.need + 4
        self.call("all 1, exact output")
        self.call("all 8", self.levels.eights, output=longer)
        self.call("own", self.levels.own, output=longer)
        self.call("scattered, longer buffers", self.levels.scattered, LONGER, LONGER, longer)


def list_calls(name, file):
    """The calls on a face: under each table of levels, those that are refused by 14 to 18, and which no is first."""
    calls = ListCalls(name, file)
    levels, short = calls.levels, calls.need - 1
    calls.under_each_table()
    for what, table in levels.wrong().items():
        calls.call(what, table)
    calls.call("short arena", arena=SHORT)
    calls.call("short scratch", scratch=SHORT)
    calls.call("short output", output=short)
    calls.call("no arena", arena=0)
    calls.call("no scratch", scratch=0)
    calls.call("no output", output=0)
    calls.call("14 to 18 fail", [9] * (calls.face.size_count() + 1), SHORT, SHORT, short)
    calls.call("15 to 18 fail", levels.last_9, SHORT, SHORT, short)
    calls.call("17 and 18 fail", levels.ones, SHORT, SHORT, short)
    return calls.found


# ---------------------------------------------------------------------------------------------------------------
# The fit call


def opening_word(opening):
    height, width = opening
    return f"{height}x{width}"


def fit_calls(name, file, openings):
    """The calls on a face: under each table of levels, those that are refused by 14 to 18, which no is first, and those
    with some openings under document 01's own levels."""
    face = face_model.read(file)
    sizes, need = face.size_count(), fit_model.output_words(face)
    levels = Levels(file, sizes)
    found = []

    def call(what, table=levels.ones, opening=(LARGEST, LARGEST), arena=WORDS, scratch=WORDS, output=need):
        found.append(fit_case(f"{name}, fit, {what}", file, table, 0, *opening, arena, scratch, output))

    call("all 1, exact output")
    call("all 8", levels.eights, output=need + 4)
    call("own", levels.own, output=need + 4)
    call("scattered, longer buffers", levels.scattered, arena=LONGER, scratch=LONGER, output=need + 4)
    call("scattered, 1 by 1", levels.scattered, (1, 1), output=need + 4)
    for what, table in levels.wrong().items():
        call(what, table)
    for length in (0, fit_model.OPENING + 1, 65536, 4294967295):
        call(f"height {length}", opening=(length, LARGEST))
        call(f"width {length}", opening=(LARGEST, length))
    call("0 by 64001", opening=(0, 64001))
    call("short arena", arena=SHORT)
    call("short scratch", scratch=SHORT)
    call("short output", output=need - 1)
    call("no arena", arena=0)
    call("no scratch", scratch=0)
    call("no output", output=0)
    call("14 to 18 fail", [9] * (sizes + 1), (0, 0), SHORT, SHORT, need - 1)
    call("15 to 18 fail", levels.last_9, (0, 0), SHORT, SHORT, need - 1)
    call("16 to 18 fail", levels.ones, (fit_model.OPENING + 1, 1), SHORT, SHORT, need - 1)
    call("17 to 19 fail", levels.ones, (1, 1), SHORT, SHORT, need - 1)
    call("18 and 19 fail", levels.ones, (1, 1), output=need - 1)
    for opening in openings:
        call(opening_word(opening), levels.own, opening, output=need + 4)
    return found


# ---------------------------------------------------------------------------------------------------------------
# Faces of version 2


def left_out(face):
    """The numbers of the sizes that are on no list."""
    listed = {item.record for items in list_model.gauge_lists(face) for item in items}
    return [size for size in range(1, face.size_count() + 1) if size not in listed]


def printed_wrong(face, levels):
    """Levels that are refused by 14 or 15, by their names: where sizes are on no list, by the levels of these."""
    out = left_out(face)
    if not out:
        return {"one level less": levels.ones[:-1], "last level 9": levels.last_9}
    size = out[0]
    return {
        "levels for the useful sizes alone": levels.ones[len(out) :],
        f"level 9 of size {size}": levels.ones[: size - 1] + [9] + levels.ones[size:],
    }


def printed_list_calls(name, file):
    """The calls on a face of version 2: under each table of levels, and those that are refused by 14, 15 and 18, which count
    every printed size."""
    calls = ListCalls(name, file)
    listed = 2 * len(list_model.outer_sizes(file, 0))
    calls.under_each_table()
    for what, table in printed_wrong(calls.face, calls.levels).items():
        calls.call(what, table)
    calls.call("short output", output=calls.need - 1)
    if listed < calls.need:
        calls.call("output for the list alone", output=listed)
    return calls.found


def printed_fit_calls(name, file, openings):
    """The calls on a face of version 2: under each table of levels, those that are refused by 14 and 15, and those with some
    openings under document 01's own levels."""
    face = face_model.read(file)
    need = fit_model.output_words(face)
    levels = Levels(file, face.size_count())
    found = []

    def call(what, table, height=LARGEST, width=LARGEST):
        found.append(fit_case(f"{name}, fit, {what}", file, table, 0, height, width, WORDS, WORDS, need + 4))

    call("all 1", levels.ones)
    call("all 8", levels.eights)
    call("scattered", levels.scattered)
    for what, table in printed_wrong(face, levels).items():
        call(what, table)
    for opening in openings:
        call(opening_word(opening), levels.own, *opening)
    return found


def printed_calls(name, file, openings):
    """The calls on a face of version 2."""
    text = text_case(f"{name}, text", file, TEXT_LEAST)
    return printed_list_calls(name, file) + printed_fit_calls(name, file, openings) + [text]


# ---------------------------------------------------------------------------------------------------------------
# Texts, and refused files


def text_calls(name, file):
    """The text of `faces` in buffers just long enough, one byte shorter, longer, and empty."""
    rooms = {"": TEXT_LEAST, ", a byte too short": TEXT_LEAST - 1, ", longer": TEXT, ", no buffer": 0}
    return [text_case(f"{name}, text{what}", file, room) for what, room in rooms.items()]


def refused_calls(name, file):
    """Each call on a file that the reader refuses: with levels, an opening and buffers that are right, and with all that
    can be wrong."""
    return [
        list_case(f"{name}, list, 1 level", file, [1], 0, WORDS, WORDS, 4),
        list_case(f"{name}, list, all fail", file, [9, 9], 21, SHORT, SHORT, 0),
        fit_case(f"{name}, fit, 1 level", file, [1], 0, LARGEST, LARGEST, WORDS, WORDS, 5),
        fit_case(f"{name}, fit, all fail", file, [9, 9], 21, 0, 0, SHORT, SHORT, 0),
        text_case(f"{name}, text", file, TEXT_LEAST),
    ]
