"""Writes the faces that tools/bench.sh measures, and their levels, into a folder.

    PYTHONPATH=tools python3 -B -m making.bench_faces FOLDER NAME ...

Each NAME is a face of list_files.py, FAMILY-of-GAUGES with a family below, or FACE-PRINTED, a face of list_files.py as a file
of version 2 with the sizes of each gauge printed in one of the ways below. Beside NAME.fce stand its levels, one byte a
size: NAME.own (document 01's), NAME.uncut (one in four, not cut to a top level), NAME.ones, NAME.eights, and
NAME.scattered.
"""

import pathlib
import sys

from making import list_files
from making.calls import scattered
from making.face_bytes import BESIDE, STACKED, header, tree_face
from making.gauges import alternating_many, eights, long_by_height
from making.trees import Numbers, balanced, lopsided
from models import face_model

# A tree by the number of its gauges, each of eight sizes. With 64 gauges they are row-of-64, balanced-64 and
# alternating-64-many.
FAMILIES = {
    "lopsided": lambda gauges: lopsided(long_by_height(gauges), [BESIDE]),
    "balanced": lambda gauges: balanced(eights(18, gauges), [BESIDE, STACKED]),
    "alternating": alternating_many,
}


def shuffled(sizes, numbers):
    """The sizes in an order that looks like chance."""
    left = list(sizes)
    return [left.pop(numbers.below(len(left))) for _ in sizes]


def repeated(sizes, numbers):
    """Every other size is the size before it once more, and so of no use."""
    return shuffled([sizes[i - i % 2] for i in range(len(sizes))], numbers)


# A gauge's sizes, which stand in order, as they are printed.
PRINTED = {
    "ordered": lambda sizes, numbers: sizes,
    "shuffled": shuffled,
    "repeated": repeated,
}


def printed_face(file, printed):
    """The file in version 2, with the sizes of each gauge as they are printed."""
    numbers = Numbers(14)
    entries = int.from_bytes(file[5:7], "big")
    whole = header(entries, version=2)
    at = len(whole)
    for _ in range(entries):
        end = at + 1
        if file[at:end] in (BESIDE, STACKED):
            whole += file[at:end]
        else:
            end = at + 2 + 4 * file[at + 1]
            sizes = [file[place : place + 4] for place in range(at + 2, end, 4)]
            whole += file[at : at + 2] + b"".join(printed(sizes, numbers))
        at = end
    return whole


def stored_face(name):
    return next(stored.file for stored in list_files.FILES if stored.name == name)


def face_of(name):
    family, _, gauges = name.partition("-of-")
    if family in FAMILIES:
        return tree_face(FAMILIES[family](int(gauges)))
    face, _, way = name.rpartition("-")
    if way in PRINTED:
        return printed_face(stored_face(face), PRINTED[way])
    return stored_face(name)


def levels_of(file):
    """The tables of levels by their names."""
    count = face_model.read(file).size_count()
    sizes = range(1, count + 1)
    return {
        "own": face_model.fill_levels(file, count)[1],
        "uncut": [face_model.uncut_level(size) for size in sizes],
        "ones": [1] * count,
        "eights": [8] * count,
        "scattered": [scattered(size) for size in sizes],
    }


def main():
    folder = pathlib.Path(sys.argv[1])
    for name in sys.argv[2:]:
        file = face_of(name)
        (folder / f"{name}.fce").write_bytes(file)
        for table, levels in levels_of(file).items():
            (folder / f"{name}.{table}").write_bytes(bytes(levels))


if __name__ == "__main__":
    main()
