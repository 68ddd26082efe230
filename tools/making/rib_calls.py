"""The calls that are made with a rib. A call is given what a right one is, but for what its name says."""

from making import rib_files
from making.calls import SHORT, WORDS, Levels, opening_word
from making.case import fit_case, list_case
from making.rib_files import ANY, FACES, LARGEST, MOST
from models import face_model, fit_model, list_model

TOO_LARGE = (MOST + 1, 4_294_967_295)

# Their low byte, or their low two, are 0.
LOW_ZERO = (256, 65_536)

# Small faces with every rib.
EVERY = ["example", "example-stacked", "three-beside-then-stacked"]

# Faces of rows in piles and piles in rows, with other ribs under each table of levels.
TURNED = """mixed-5 mixed-7 alternating-17 balanced-16-stacked mixed-20 equal-heights-mixed alternating-64-many
printed-mixed-6 printed-mixed-20 printed-alternating-64""".split()

# Openings at both sides of check 16's limit, and above the limit of document 01, by their numbers. The faces are smaller.
OPENINGS = {
    (64001, 64001): 0,
    ANY: 0,
    (LARGEST + 1, LARGEST): 16,
    (LARGEST, LARGEST + 1): 16,
    (0, LARGEST): 16,
}


class RibCalls:
    """Calls on a face, each under one name."""

    def __init__(self, name, file):
        self.name, self.file = name, file
        self.face = face_model.read(self.file)
        self.levels = Levels(self.file, self.face.size_count())
        self.found = {}

    def add(self, case, number=None):
        """Adds a case. A number that was worked out by hand is that of its answer."""
        assert number is None or case.wanted.split()[1] == str(number), case.name
        self.found.setdefault(case.name, case)

    def list(self, rib, table=None, what="", number=None, arena=WORDS, output=None):
        table = self.levels.of_rib(rib) if table is None else table
        output = list_model.output_words(self.face) + 4 if output is None else output
        name = f"{self.name}, list, rib {rib}{what}"
        self.add(list_case(name, self.file, table, rib, arena, WORDS, output), number)

    def fit(self, rib, opening=ANY, table=None, what=None, number=None, arena=WORDS, output=None):
        table = self.levels.of_rib(rib) if table is None else table
        output = fit_model.output_words(self.face) + 4 if output is None else output
        what = f" in {opening_word(opening)}" if what is None else what
        name = f"{self.name}, fit, rib {rib}{what}"
        self.add(fit_case(name, self.file, table, rib, *opening, arena, WORDS, output), number)


# ---------------------------------------------------------------------------------------------------------------
# Ribs that are taken


def by_hand_calls(calls):
    """The faces and the openings that have hand-written answers."""
    for stored in rib_files.RIBBED:
        if stored.file == calls.file:
            calls.list(stored.rib)
            for opening in stored.answers["fits"]:
                calls.fit(stored.rib, opening)


def every_rib_calls(calls):
    for rib in [*range(MOST + 1), *TOO_LARGE, *LOW_ZERO]:
        number = 0 if rib <= MOST else 22
        calls.list(rib, number=number)
        calls.fit(rib, number=number)


def turned_calls(calls):
    """Each table of levels with another rib; and openings of the smallest face with a rib, and of one less either way."""
    for rib in (MOST, 13, 6, 3):
        calls.list(rib)
    for rib in (MOST, 7):
        least = fit_model.picked(fit_model.root_part(calls.file, rib).items, *ANY)
        calls.fit(rib, (least.height, least.width))
    calls.fit(7, (least.height - 1, least.width))
    calls.fit(7, (least.height, least.width - 1))


def opening_calls(calls):
    """Check 16's limit, which no rib moves."""
    for opening, number in OPENINGS.items():
        calls.fit(0, opening, number=number)
        calls.fit(MOST, opening, number=number)


# ---------------------------------------------------------------------------------------------------------------
# Ribs that are refused, and what else may be


def refused_calls(calls):
    """Check 22 with each other one that fails: those of the levels come before it, and all later numbers after it."""
    short_list, short_fit = list_model.output_words(calls.face) - 1, fit_model.output_words(calls.face) - 1
    ones, fewer, wrong = calls.levels.ones, calls.levels.ones[:-1], calls.levels.last_9
    for rib in TOO_LARGE:
        for call, output in ((calls.list, short_list), (calls.fit, short_fit)):
            call(rib, table=fewer, what=" and 14", number=14)
            call(rib, table=wrong, what=" and 15", number=15)
            call(rib, table=ones, what=" and 17", number=22, arena=SHORT)
            call(rib, table=ones, what=" and 18", number=22, output=output)
            call(rib, table=ones, what=" and 17 and 18", number=22, arena=0, output=0)
        calls.fit(rib, (0, 1), ones, " and 16", 22)
        calls.fit(rib, (LARGEST + 1, 1), ones, " and 16, high", 22)
        calls.fit(rib, (1, 1), ones, " and 19", 22)
        calls.fit(rib, (0, 0), ones, " and 16 to 18", 22, SHORT, short_fit)


GROUPS = [
    (EVERY, every_rib_calls),
    ([stored.name for stored in rib_files.RIBBED], by_hand_calls),
    (TURNED, turned_calls),
    (["example", "lone-1-1", "mixed-7"], opening_calls),
    (["example", "printed-beside-then-stacked"], refused_calls),
]


def cases(name, file):
    """The cases of a face that is taken, under its name."""
    makers = [maker for names, maker in GROUPS if file in {FACES[other] for other in names}]
    if not makers:
        return []
    calls = RibCalls(name, file)
    for maker in makers:
        maker(calls)
    return list(calls.found.values())
