"""Stored files, with what was worked out of each by hand; and what the models say otherwise."""

import dataclasses

from models import face_model


@dataclasses.dataclass
class Stored:
    """A stored file: its name, its bytes, and by hand its number with the reason, and further answers, which the modules
    that list the files say the form of."""

    name: str
    file: bytes
    number: int
    reason: str = ""
    answers: object = None


def file_faults(stored, taken_faults):
    """What the model says otherwise than the hand-written number of a file, and where that is 0 its further faults."""
    number = face_model.number_of(stored.file)
    if number != stored.number:
        return [f"{stored.name}: by hand {stored.number}, by the model {number}"]
    return taken_faults(stored) if number == 0 else []


def faults_of(files, taken_faults):
    """What is wrong with some files: the faults of each one, and names that two of them have."""
    names = [stored.name for stored in files]
    same = [f"{name}: two files have this name" for name in sorted(set(names)) if names.count(name) > 1]
    return [fault for stored in files for fault in file_faults(stored, taken_faults)] + same
