"""A model of the calls between words and files, for making tests: document 02's paper 3, "Saving a face".

It is written from the text of document 01, "Milled instrument faces", and of paper 3, and shares nothing with the Rattle
code: words are taken to the entries that they name, and a file or words are put together from these alone. The checks of a
file are those of face_model.py. Words between quotation marks are the documents'.
"""

import dataclasses

from models import face_model
from models.face_model import Refused, ask


@dataclasses.dataclass
class Gauge:
    """A gauge entry with its sizes, (height, width) each."""

    sizes: list


@dataclasses.dataclass
class Join:
    """A join entry by its kind: 2 is side by side, 3 stacked."""

    kind: int


# ---------------------------------------------------------------------------------------------------------------
# Words to entries


class Words:
    """Words that are taken one after the other. "5 when the words stop early (the first word included)"."""

    def __init__(self, words):
        self.words = list(words)

    def take(self):
        ask(self.words, 5)
        return self.words.pop(0)

    def take_all(self, count):
        ask(len(self.words) >= count, 5)
        return [self.words.pop(0) for _ in range(count)]


def read(words):
    """The checks on words, in the order of document 01's text. Returns the entries in turn, or raises Refused."""
    left = Words(words)
    # "It hands over 32-bit words: the number of entries, then for each its kind"; "Entries 1 to 127? 4."
    count = left.take()
    ask(1 <= count <= 127, 4)
    entries = []
    gauges = 0
    parts = 0
    for _ in range(count):
        # "Kind byte present? 5. Kind 01, 02 or 03? 6."
        kind = left.take()
        ask(kind in (1, 2, 3), 6)
        if kind == 1:
            # "at most the 64th? 10."
            gauges += 1
            ask(gauges <= 64, 10)
            entries.append(Gauge(read_gauge(left)))
            parts += 1
        else:
            # "two parts on the stack? 11."; "It takes the two newest parts off a stack and leaves one part."
            ask(parts >= 2, 11)
            entries.append(Join(kind))
            parts -= 1
    # "After the last entry: one part left? 12. File at its end? 13."; "13 when words are left"
    ask(parts == 1, 12)
    ask(not left.words, 13)
    return entries


def read_gauge(left):
    # "and for a gauge the number of sizes and each height and width"; "Size-count byte present? 5. Count 1 to 8? 7. All
    # bytes of its sizes present? 5. For each size in turn: height and width both 1 to 1,000? 8." Check 9 is not among
    # those that "apply to the words".
    count = left.take()
    ask(1 <= count <= 8, 7)
    lengths = left.take_all(2 * count)
    sizes = list(zip(lengths[0::2], lengths[1::2]))
    for height, width in sizes:
        ask(1 <= height <= 1000 and 1 <= width <= 1000, 8)
    return sizes


def number_of(words):
    """The number that the checks on words answer: 0 for words that are taken."""
    try:
        read(words)
    except Refused as refusal:
        return refusal.number
    return 0


# ---------------------------------------------------------------------------------------------------------------
# Entries to a file


def field(number):
    # "16-bit fields have the high byte first"
    return [number // 256, number % 256]


def entry_bytes(entry):
    # "An entry starts with a kind byte: 01 a gauge, 02 side by side, 03 stacked. A gauge goes on with one byte, the number
    # of its sizes, then for each a 16-bit height and a 16-bit width. A join has its kind byte only."
    if isinstance(entry, Join):
        return [entry.kind]
    return [1, len(entry.sizes)] + [byte for size in entry.sizes for length in size for byte in field(length)]


def file_of(entries):
    # "Three bytes `FCE` (46 43 45), a 16-bit version, a 16-bit number of entries, then the entries."; "Out comes version 2
    # of the file"
    header = [0x46, 0x43, 0x45] + field(2) + field(len(entries))
    return bytes(header + [byte for entry in entries for byte in entry_bytes(entry)])


def write_file(words, room):
    """The writing call on words, lent a buffer of so many bytes: its number, the length and the bytes that it writes from
    the buffer's start, or its number, 0 and None where the buffer stays as it was."""
    try:
        file = file_of(read(words))
        # "and 18 last"
        ask(room >= len(file), 18)
    except Refused as refusal:
        return refusal.number, 0, None
    return 0, len(file), file


# ---------------------------------------------------------------------------------------------------------------
# A file to words


def entries_of(tree, gauges):
    """The entries of a tree in file order: of a join its older part's, its newer part's and its own. The tree's gauges are
    the next ones of an iterator over the sizes of each gauge."""
    if tree[0] == "gauge":
        return [Gauge(next(gauges))]
    join, older, newer = tree
    return entries_of(older, gauges) + entries_of(newer, gauges) + [Join(2 if join == "beside" else 3)]


def words_of(entries):
    # "the number of entries, then for each its kind, and for a gauge the number of sizes and each height and width"
    words = [len(entries)]
    for entry in entries:
        if isinstance(entry, Join):
            words.append(entry.kind)
        else:
            words += [1, len(entry.sizes)] + [length for size in entry.sizes for length in size]
    return words


def read_words(file, room):
    """The reading call on a file, lent a buffer of so many words: its number, the count and the words that it writes from
    the buffer's start, or its number, 0 and None where the buffer stays as it was."""
    # "Reading to words makes checks 1 to 13, then 18 for too few words; it returns the word count"
    try:
        face = face_model.read(file)
        words = words_of(entries_of(face.tree, iter([sizes for _, sizes in face.gauges])))
        ask(room >= len(words), 18)
    except Refused as refusal:
        return refusal.number, 0, None
    return 0, len(words), words
