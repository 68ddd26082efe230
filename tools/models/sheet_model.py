"""A model of the sheet call and of what `material` prints, for making tests: document 02's paper 7, "The material sheet".

It is written from the text of paper 7 and shares nothing with the Rattle code. The layout, the arena's list and the checks
but for 18 are those of fit_model.py: "The sheet's layout, its other checks and its arena are the fit's". Words between
quotation marks are the documents'.

Blank is counted and never taken as a difference: on a small face square by square, and on every face by the cells between
the gauges' edges. Where both are made they have to agree, and used and blank have to add up to the face.
"""

import dataclasses
import functools

from models import face_model
from models import fit_model
from models import list_model
from models import text_model

# "which check 18 wants 64 bytes long and 32 more a gauge"
OUTPUT = 64
OUTPUT_A_GAUGE = 32

# A face of no more unit squares is gone through square by square.
SQUARES = 40_000


# ---------------------------------------------------------------------------------------------------------------
# The unit squares that no gauge covers


def blank_by_squares(placed, height, width):
    """How many unit squares of a face no gauge covers, one by one. A square is named by its lower left corner."""
    # "Blank is the number of unit squares of the face that no gauge covers, ribs included."
    covered = {
        (x, y)
        for place in placed
        for x in range(place.across, place.across + place.width)
        for y in range(place.up, place.up + place.height)
    }
    return sum((x, y) not in covered for x in range(width) for y in range(height))


def stretches(ends):
    """The stretches between each two of some numbers that are next to each other: (start, end)."""
    ordered = sorted(set(ends))
    return list(zip(ordered, ordered[1:]))


def inside(stretch, start, length):
    """Whether a stretch lies in the one of this length."""
    return start <= stretch[0] and stretch[1] <= start + length


def blank_by_cells(placed, height, width):
    """The same by the cells that the gauges' edges make of the face. No edge goes through a cell, so that a gauge covers
    all of its squares or none."""
    across = stretches([0, width] + [end for place in placed for end in (place.across, place.across + place.width)])
    up = stretches([0, height] + [end for place in placed for end in (place.up, place.up + place.height)])
    covered = {
        (column, row)
        for place in placed
        for column in across
        if inside(column, place.across, place.width)
        for row in up
        if inside(row, place.up, place.height)
    }
    open_cells = [(column, row) for column in across for row in up if (column, row) not in covered]
    return sum((column[1] - column[0]) * (row[1] - row[0]) for column, row in open_cells)


def blank(placed, height, width):
    found = blank_by_cells(placed, height, width)
    if height * width <= SQUARES:
        assert found == blank_by_squares(placed, height, width)
    return found


# ---------------------------------------------------------------------------------------------------------------
# The text


@functools.lru_cache(maxsize=None)
def layout_text(words):
    """The sheet of a layout, given by its words in the fit call's output."""
    placed = [fit_model.Placed(*words[i : i + 5]) for i in range(0, len(words), 5)]
    height, width = fit_model.edges(placed)
    areas = [place.width * place.height for place in placed]
    # "It has one line a gauge, in gauge order: number, width, height, area."
    rows = [(number, place.width, place.height, area) for number, (place, area) in enumerate(zip(placed, areas), 1)]
    # "Then come the lines `used`, `blank` and `face`, each with its number. Used is the sum of the areas above it."
    used, open_squares, face = sum(areas), blank(placed, height, width), height * width
    # "Used and blank must add up to the face on every sheet."
    assert used + open_squares == face
    rows += [("used", used), ("blank", open_squares), ("face", face)]
    # "Fields stand in base ten, no leading zeros, with one space between, and each line ends with byte 0A."
    return b"".join(" ".join(map(str, row)).encode() + b"\x0a" for row in rows)


# ---------------------------------------------------------------------------------------------------------------
# The sheet call


@dataclasses.dataclass
class Sheet:
    """What the sheet call gives: its number; where that is 0 also the length of the text and its bytes; where that is 0 or
    19 the walk of the list in the arena."""

    number: int
    length: int = 0
    text: bytes = b""
    walked: tuple = ()


def output_bytes(face):
    return OUTPUT + OUTPUT_A_GAUGE * face.gauge_count()


def sheet_call(file, levels, rib, height, width, arena=list_model.WORDS, scratch=list_model.WORDS, output=None):
    """The sheet call on a file, levels, a rib and an opening, lent an arena and a scratch of so many words and an output of
    so many bytes; no output given is one that is long enough. It makes checks 1 to 19, and 22."""
    # "its other checks and its arena are the fit's". Without an output the fit call asks all of them but 18.
    fitted = fit_model.fit_call(file, levels, rib, height, width, arena, scratch)
    if fitted.number not in (0, 19):
        return Sheet(fitted.number)
    # 18 stands before 19.
    if output is not None and output < output_bytes(face_model.read(file)):
        return Sheet(18)
    # "Fields beside the number are then zero."; "19 leaves the output, and the arena as on success."
    if fitted.number == 19:
        return Sheet(19, walked=fitted.walked)
    # "the length of the text is returned"
    text = layout_text(tuple(fitted.words))
    return Sheet(0, len(text), text, fitted.walked)


# ---------------------------------------------------------------------------------------------------------------
# The program


def text_of(file):
    """What `material` prints for a file: the sheet of the face that `faces` finds best, or the line of a refusal, as
    `faces` has it."""
    try:
        face = face_model.read(file)
    except face_model.Refused as no:
        return f"refused {no.number}\n".encode()
    opening = text_model.OPENING
    return sheet_call(file, [1] * face.size_count(), text_model.RIB, opening, opening).text
