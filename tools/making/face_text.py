"""A face as a text that a person types, an entry a line:

    face 2
    gauge 60x40 40x60    # speedometer
    gauge 50x30 30x50    # rev counter
    beside

`gauge` has its sizes after it, HEIGHTxWIDTH in half-millimetres, in printed order. `beside` joins the two newest parts
side by side, the older one left; `stacked` joins them with the older one below. `#` starts a comment, words have blanks
or tabs between them, and a line may be empty. `face 2` names the version of the file; it stands before the entries, or
is left out.

Entries are those of words_model.py: a Gauge with its sizes, or a Join by its kind.
"""

import re

from models.words_model import Gauge, Join

KINDS = {"beside": 2, "stacked": 3}
JOINS = {kind: word for word, kind in KINDS.items()}
VERSION = "2"

# The digits are the ten of ASCII: int would read those of other scripts too, and signs.
SIZE = re.compile("([0-9]+)x([0-9]+)")


class Wrong(Exception):
    """What is wrong with a text and what to do, and the number of its line, counted from 1."""

    line = None


def ask(is_yes, what):
    """Asks a question of a text, with what is told where it is answered by no."""
    if not is_yes:
        raise Wrong(what)


def shown(word):
    """A word between quotation marks, cut short where it is long. What cannot be printed is written as an escape."""
    return repr(word if len(word) <= 40 else word[:40] + "...")


# ---------------------------------------------------------------------------------------------------------------
# A text to entries


def words_of(line):
    """The words of a line before its comment. Some editors end a line with a carriage return."""
    return re.findall("[^ \t]+", line.removesuffix("\r").partition("#")[0])


def length_of(digits):
    """The number that the digits write. The first six are enough: a number of as many is too large in any case."""
    return int(digits.lstrip("0")[:6] or "0")


def size_of(word):
    form = SIZE.fullmatch(word)
    ask(form, f"{shown(word)} is not a size; write HEIGHTxWIDTH in half-millimetres, such as 60x40")
    height, width = [length_of(digits) for digits in form.groups()]
    is_inside = 1 <= height <= 1000 and 1 <= width <= 1000
    ask(is_inside, f"the size {shown(word)} is outside the limits; take a height and a width of 1 to 1,000 (check 8)")
    return height, width


class Reader:
    """The entries of the lines that were read, and the number of parts that they leave on the stack."""

    def __init__(self):
        self.has_version = False
        self.entries = []
        self.gauges = 0
        self.parts = 0

    def take(self, word, others):
        """Reads a line: its first word and the others."""
        if word == "gauge":
            self.take_gauge(others)
        elif word in KINDS:
            self.take_join(word, others)
        elif word == "face":
            self.take_version(others)
        else:
            raise Wrong(f"{shown(word)} is not known; begin a line with gauge, beside or stacked, and a comment with #")

    def take_version(self, others):
        first = not self.has_version and not self.entries
        ask(first, "'face' stands once, before all entries; take this line out")
        ask(others == [VERSION], f"only version {VERSION} is written; write 'face {VERSION}', or leave the line out")
        self.has_version = True

    def take_gauge(self, others):
        self.gauges += 1
        ask(self.gauges <= 64, f"this is gauge {self.gauges}; a face has at most 64, so take some out (check 10)")
        ask(1 <= len(others) <= 8, f"this gauge has {len(others)} sizes; write 1 to 8 after the word (check 7)")
        self.entries.append(Gauge([size_of(word) for word in others]))
        self.parts += 1

    def take_join(self, word, others):
        ask(not others, f"'{word}' stands alone on its line; take out {shown(' '.join(others))}, or put # before it")
        found = f"'{word}' joins the two newest parts and finds {self.parts}"
        ask(self.parts >= 2, f"{found}; write both parts before it, or take it out (check 11)")
        self.entries.append(Join(KINDS[word]))
        self.parts -= 1

    def end(self):
        """What is asked of the entries once all are there."""
        count = len(self.entries)
        ask(1 <= count <= 127, f"the text has {count} entries; a face has 1 to 127, and the first is a gauge (check 4)")
        ask(self.parts == 1, f"{self.parts} parts are left at the end; join them with beside or stacked (check 12)")


def entries_of(text):
    """The entries of a text, or Wrong is raised. What is wrong at the end is told of the last line that has words."""
    reader = Reader()
    line = 1
    try:
        for number, written in enumerate(text.split("\n"), 1):
            if words := words_of(written):
                line = number
                reader.take(words[0], words[1:])
        reader.end()
    except Wrong as wrong:
        wrong.line = line
        raise
    return reader.entries


# ---------------------------------------------------------------------------------------------------------------
# Entries to a text


def line_of(entry):
    if isinstance(entry, Join):
        return JOINS[entry.kind]
    return " ".join(["gauge", *(f"{height}x{width}" for height, width in entry.sizes)])


def text_of(entries):
    return "".join(f"{line}\n" for line in [f"face {VERSION}", *map(line_of, entries)])
