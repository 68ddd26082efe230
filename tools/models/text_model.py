"""A model of what `faces` prints, for making tests: document 01's text of a face, or the line of a refusal.

It is written from the text of document 01, "Milled instrument faces", and of paper 2, "Ribs between parts", and shares
nothing with the Rattle code. The checks are those of face_model.py, the list and the layout those of fit_model.py. Words
between quotation marks are the documents'.
"""

from models import face_model
from models import fit_model

# "fits it to 64,000 by 64,000"; "The program `faces` has rib 0."
OPENING = 64000
RIB = 0


def text_of(file):
    """What `faces` prints for a file."""
    # "A program `faces` reads a file from standard input, fits it to 64,000 by 64,000 and prints as below, or one line
    # such as `refused 4`."
    try:
        face_model.read(file)
    except face_model.Refused as no:
        return f"refused {no.number}\n"
    root = fit_model.root_part(file, RIB)
    best = fit_model.picked(root.items, OPENING, OPENING)
    # "The first line has the item count; item lines are height, width; `best` is height, width, area; gauge lines are
    # number, size, across, up."
    lines = [f"faces {len(root.items)}"]
    lines += [f"{item.height} {item.width}" for item in root.items]
    lines.append(f"best {best.height} {best.width} {best.height * best.width}")
    for number, place in enumerate(fit_model.layout(root, best, 0, 0, RIB), 1):
        lines.append(f"gauge {number} size {place.size} at {place.across} {place.up}")
    return "".join(line + "\n" for line in lines)
