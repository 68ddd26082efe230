"""Files for the text of `faces`: some of those of fit_files.py, and files longer than any face. The text of document 01's
own example stands here as the document has it; `faults` says where the models give another."""

from making import by_hand, fit_files
from making.by_hand import Stored
from making.face_bytes import EXAMPLE
from models import text_model

# Files of fit_files.py.
NAMES = """example example-stacked lone-1-1 lone-of-8 lone-equal-areas tie tie-stacked lower-side three-beside
three-stacked-then-beside mixed-7 mixed-20 alternating-17 balanced-16 equal-areas-stacked pile-of-16 row-of-64
alternating-64 mixed-64 lone-last-byte-3-of-259 widest highest
no-1 no-2 no-3 no-4 no-5 no-6 no-7 no-8 no-9 no-10 no-11 no-12 no-13""".split()
BY_NAME = {stored.name: stored for stored in fit_files.FILES}

# Files longer than any face, which is 2,246 bytes at most: the answer is that of the first check that fails.
LONG = [
    Stored("long-after-end", EXAMPLE + bytes(6000), 13, "File at its end? 6,000 bytes more."),
    Stored("long-row-after-end", BY_NAME["row-of-64"].file + bytes(9000), 13, "File at its end? 9,000 bytes more."),
    Stored("long-wrong-mark", b"FCF" + bytes(7000), 2, "First three FCE? FCF."),
    Stored("long-empty", bytes(5000), 2, "First three FCE? 00 00 00."),
]

FILES = [BY_NAME[name] for name in NAMES] + LONG

# Document 01, "Benchmarks for a face".
EXAMPLE_TEXT = """faces 3
60 70
50 90
40 110
best 60 70 4200
gauge 1 size 1 at 0 0
gauge 2 size 1 at 40 0
"""


def faults():
    found = by_hand.faults_of(FILES, lambda stored: [])
    if text_model.text_of(EXAMPLE) != EXAMPLE_TEXT:
        found.append("the models and document 01 differ on the example")
    return found
