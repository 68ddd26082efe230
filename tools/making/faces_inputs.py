"""What the gate runs the programs `faces` and `material` on, and what they must print: stdin and stdout of crates/faces,
crates/faces_long and crates/material, and document 01's example as crates/faces/data/example.

`faces` is run on the largest face that there is, 64 gauges of 8 sizes in 2,246 bytes, side by side, whose list is as
long as a list can be. `faces_long` is run on the same face with bytes after it, more than the program reads, which check
13 refuses: a program that reads no more than the face would print it. `material` is run on a face of as many gauges and
sizes in rows and piles, a part of which is blank. The texts come from the models.
"""

from making.face_bytes import BESIDE, EXAMPLE, tree_face
from making.gauges import eights, long_by_height
from making.trees import Numbers, lopsided, mixed
from models import sheet_model, text_model

LARGEST = tree_face(lopsided(long_by_height(), [BESIDE]))
MIXED = tree_face(mixed(eights(12), Numbers(12)))
assert len(LARGEST) == len(MIXED) == 2_246


def of_input(crate, file, text):
    return {f"{crate}/stdin": file, f"{crate}/stdout": text}


def files():
    """The bytes of each file by its path below crates/."""
    longer = LARGEST + bytes(4_096)
    of_faces = of_input("faces", LARGEST, text_model.text_of(LARGEST).encode())
    of_long = of_input("faces_long", longer, text_model.text_of(longer).encode())
    of_material = of_input("material", MIXED, sheet_model.text_of(MIXED))
    return of_faces | of_long | of_material | {"faces/data/example": EXAMPLE}
