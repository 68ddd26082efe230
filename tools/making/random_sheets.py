"""Pseudo-random lengths of the buffers for the sheet call's output and for the text of `material`: mostly enough."""

from making.case import MATERIAL_LEAST, TEXT
from models import sheet_model


def some_room(rng, gauges):
    """The bytes that the sheet call is lent for so many gauges. Of those that are too few some would hold the text, and
    some are what five words a gauge take, counted as words or as bytes."""
    need = sheet_model.OUTPUT + sheet_model.OUTPUT_A_GAUGE * gauges
    if rng.random() < 0.75:
        return rng.choice([need, need, need + 1, need + rng.randint(2, 40), MATERIAL_LEAST, TEXT])
    return max(0, rng.choice([need - 1, need - 1, need - 32, need // 2, rng.randrange(need), 5 * gauges, 20 * gauges, 0]))


def material_room(rng):
    """The bytes that the text of `material` is lent."""
    if rng.random() < 0.7:
        return rng.choice([MATERIAL_LEAST, MATERIAL_LEAST + 1, TEXT])
    return rng.choice([MATERIAL_LEAST - 1, rng.randrange(MATERIAL_LEAST), 0])
