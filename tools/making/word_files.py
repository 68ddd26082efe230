"""Words for the writing call, with what document 02's paper 3 says of each, worked out by hand.

Words have their number, with the question that decides it; those that are taken have the bytes of the file too, or its
length alone. What the model says otherwise are `faults`. Some stored files have their words here as well, for the reading
call.
"""

import dataclasses

from making import face_files
from models import words_model

BIG = 4_294_967_295

# The entries of a face as words.
ONE = [1, 1, 60, 40]
OTHER = [1, 2, 50, 30, 30, 50]
BESIDE = [2]
STACKED = [3]


@dataclasses.dataclass
class Stored:
    """Words by a name, and by hand the number with the reason; of taken ones the length of the file, and its bytes where
    they are written out."""

    name: str
    words: list
    number: int
    reason: str
    length: int = 0
    file: bytes = None


WORDS = []


def refused(name, words, number, reason):
    WORDS.append(Stored(f"words-{name}", words, number, reason))


def taken(name, words, file, reason):
    """Words that are taken, with the file after its mark and version, in hexadecimal."""
    found = bytes.fromhex("46 43 45 00 02" + file)
    WORDS.append(Stored(f"words-{name}", words, 0, reason, len(found), found))


def long(name, words, length, reason):
    """Words that are taken, with the length of the file."""
    WORDS.append(Stored(f"words-{name}", words, 0, reason, length))


def row(*entries):
    """The words of entries, with as many announced as there are."""
    return [len(entries)] + [word for entry in entries for word in entry]


def gauge(*lengths):
    """A gauge entry with these heights and widths."""
    return [1, len(lengths) // 2, *lengths]


LONE = row(ONE)  # 5 words

# --- The first word present? 5. Entries 1 to 127? 4.
refused("none", [], 5, "The first word present? No word at all.")
refused("entries-0", [0], 4, "Entries 1 to 127? 0.")
refused("entries-0-with-gauge", [0] + ONE, 4, "Entries 1 to 127? 0, though a gauge follows.")
taken("entries-1", LONE, "00 01 01 01 00 3C 00 28", "Entries 1 to 127? 1. 60 is 3C and 40 is 28.")
refused("entries-1-alone", [1], 5, "1 is in 1 to 127; then: kind present?")
refused("entries-127", [127], 5, "127 is in 1 to 127; then: kind present?")
refused("entries-128", [128], 4, "Entries 1 to 127? 128.")
refused("entries-128-present", row(*[ONE] * 64 + [BESIDE] * 64), 4, "Entries 1 to 127? 128, all present.")
refused("entries-257", [257] + ONE, 4, "Entries 1 to 127? 257, whose low byte is 1.")
refused("entries-65537", [65537] + ONE, 4, "Entries 1 to 127? 65,537, whose low two bytes are 1.")
refused("entries-16777216", [16777216] + ONE, 4, "Entries 1 to 127? 16,777,216, whose high byte is 1.")
refused("entries-most", [BIG] + ONE, 4, "Entries 1 to 127? The largest word.")

# --- Kind present? 5. Kind 1, 2 or 3? 6. The whole word is the kind.
refused("kind-0", [1, 0], 6, "Kind 1, 2 or 3? 0.")
taken("kind-1", row(gauge(7, 9)), "00 01 01 01 00 07 00 09", "Kind 1 is a gauge.")
taken(
    "kind-2",
    row(ONE, OTHER, BESIDE),
    "00 03 01 01 00 3C 00 28 01 02 00 32 00 1E 00 1E 00 32 02",
    "Kind 2 is side by side.",
)
taken(
    "kind-3",
    row(ONE, OTHER, STACKED),
    "00 03 01 01 00 3C 00 28 01 02 00 32 00 1E 00 1E 00 32 03",
    "Kind 3 is stacked.",
)
refused("kind-4", [1, 4] + ONE[1:], 6, "Kind 1, 2 or 3? 4.")
refused("kind-129", [1, 129] + ONE[1:], 6, "Kind 1, 2 or 3? 129, which is 1 but for a bit.")
refused("kind-257", [1, 257] + ONE[1:], 6, "Kind 1, 2 or 3? 257, whose low byte is 1.")
refused("kind-65537", [1, 65537] + ONE[1:], 6, "Kind 1, 2 or 3? 65,537, whose low two bytes are 1.")
refused("kind-most", [1, BIG], 6, "Kind 1, 2 or 3? The largest word.")
refused("kind-0-at-entry-3", row(ONE, OTHER, [0]), 6, "Kind 1, 2 or 3? 0 at the third entry.")
refused("kind-4-at-entry-3", row(ONE, OTHER, [4]), 6, "Kind 1, 2 or 3? 4 at the third entry.")
refused("kind-258-at-entry-3", row(ONE, OTHER, [258]), 6, "Kind 1, 2 or 3? 258, whose low byte is 2.")
refused("kind-259-at-entry-3", row(ONE, OTHER, [259]), 6, "Kind 1, 2 or 3? 259, whose low byte is 3.")
refused("kind-missing-at-entry-2", [2] + ONE, 5, "Kind present? One entry of two; not 0.")
refused("kind-missing-at-entry-3", [3] + ONE + OTHER, 5, "Kind present? Asked before: one part left?")

# --- For a gauge: at most the 64th? 10.
refused("gauges-64-left-as-parts", row(*[ONE] * 64), 12, "The 64th gauge is in order; then: one part left? 64.")
refused("gauges-64-then-end", [65] + ONE * 64, 5, "Kind present? Asked before the 65th gauge is one.")
refused("gauges-64-then-257", [65] + ONE * 64 + [257], 6, "Kind 1, 2 or 3? Asked before: at most the 64th?")
refused("gauge-65", row(*[ONE] * 65), 10, "At most the 64th? The 65th, with a good size.")
refused("gauge-65-no-count", [65] + ONE * 64 + [1], 10, "At most the 64th? Asked before: count present?")
refused("gauge-65-count-0", [65] + ONE * 64 + [1, 0], 10, "At most the 64th? Asked before: count 1 to 8?")
refused("gauge-65-at-entry-127", row(ONE, *[ONE, BESIDE] * 62, ONE, ONE), 10, "At most the 64th? The 65th.")

# --- Size count present? 5. Count 1 to 8? 7.
EIGHT = gauge(8, 1, 7, 2, 6, 3, 5, 4, 4, 5, 3, 6, 2, 7, 1, 8)
refused("count-missing", [1, 1], 5, "Size count present? The words end after the kind.")
refused("count-missing-at-entry-2", [3] + ONE + [1], 5, "Size count present? Not the second gauge's.")
refused("count-0-at-end", [1, 1, 0], 7, "Count 1 to 8? 0, and it is asked before the sizes' words.")
refused("count-0-with-size", [1, 1, 0, 60, 40], 7, "Count 1 to 8? 0.")
taken("count-1", row(gauge(256, 512)), "00 01 01 01 01 00 02 00", "Count 1 to 8? 1. 256 is 0100 and 512 is 0200.")
taken(
    "count-8",
    row(EIGHT),
    "00 01 01 08 00 08 00 01 00 07 00 02 00 06 00 03 00 05 00 04 00 04 00 05 00 03 00 06 00 02 00 07 00 01 00 08",
    "Count 1 to 8? 8.",
)
refused("count-9-at-end", [1, 1, 9], 7, "Count 1 to 8? 9, and it is asked before the sizes' words.")
refused("count-9-with-sizes", row(EIGHT[:1] + [9] + EIGHT[2:] + [1, 9]), 7, "Count 1 to 8? 9, all present.")
refused("count-257", [1, 1, 257, 60, 40], 7, "Count 1 to 8? 257, whose low byte is 1.")
refused("count-65537", [1, 1, 65537, 60, 40], 7, "Count 1 to 8? 65,537, whose low two bytes are 1.")
refused("count-2147483649", [1, 1, 2147483649, 60, 40], 7, "Count 1 to 8? 2,147,483,649: twice it is 2 in 32 bits.")
refused("count-most", [1, 1, BIG, 60, 40], 7, "Count 1 to 8? The largest word.")

# --- All words of a gauge's sizes present? 5. Asked before a size is looked at.
refused("sizes-missing", LONE[:3], 5, "All words of its sizes present? None of 2.")
refused("size-1-of-1-cut", LONE[:4], 5, "All words of its sizes present? 1 of 2.")
refused("size-2-of-2-cut-at-0", row(OTHER)[:5], 5, "All words of its sizes present? 2 of 4.")
refused("size-2-of-2-cut-at-1", row(OTHER)[:6], 5, "All words of its sizes present? 3 of 4.")
refused("size-8-of-8-cut", row(EIGHT)[:-1], 5, "All words of its sizes present? 15 of 16.")
refused("zeros-cut", [1, 1, 2, 0, 0, 0], 5, "All words of its sizes present? 3 of 4, before: 1 to 1,000?")
refused("height-1001-cut", [1, 1, 2, 1001, 1], 5, "All words of its sizes present? 2 of 4, before: 1 to 1,000?")

# --- Height and width both 1 to 1,000? 8. The whole word is the height or the width.
for length in (0, 1001, 65536, 65537, BIG):
    shown = "most" if length == BIG else length
    refused(f"height-{shown}", row(gauge(length, 40)), 8, f"Height 1 to 1,000? {length}.")
    refused(f"width-{shown}", row(gauge(60, length)), 8, f"Width 1 to 1,000? {length}.")
taken("height-1", row(gauge(1, 40)), "00 01 01 01 00 01 00 28", "Height 1 to 1,000? 1.")
taken("height-1000", row(gauge(1000, 40)), "00 01 01 01 03 E8 00 28", "Height 1 to 1,000? 1,000, which is 03E8.")
taken("width-1", row(gauge(60, 1)), "00 01 01 01 00 3C 00 01", "Width 1 to 1,000? 1.")
taken("width-1000", row(gauge(60, 1000)), "00 01 01 01 00 3C 03 E8", "Width 1 to 1,000? 1,000, which is 03E8.")
refused("height-0-at-size-2", row(gauge(60, 40, 0, 50)), 8, "Height 1 to 1,000? 0 at the second size.")
refused("width-1001-at-size-8", row(EIGHT[:-1] + [1001]), 8, "Width 1 to 1,000? 1,001 at the last size.")
refused("height-65537-at-gauge-2", row(ONE, gauge(65537, 9), BESIDE), 8, "Height 1 to 1,000? 65,537 at the second gauge.")

# --- No check 9: the sizes stand in any order, and repeated.
taken(
    "rising",
    row(gauge(40, 60, 60, 40)),
    "00 01 01 02 00 28 00 3C 00 3C 00 28",
    "Height less than the size before? Not asked of words.",
)
taken(
    "repeated",
    row(gauge(9, 9, 9, 9, 9, 9)),
    "00 01 01 03 00 09 00 09 00 09 00 09 00 09 00 09",
    "Width more than the size before? Not asked of words.",
)
taken(
    "inferior",
    row(gauge(9, 9, 10, 11), gauge(1000, 1, 999, 1), STACKED),
    "00 03 01 02 00 09 00 09 00 0A 00 0B 01 02 03 E8 00 01 03 E7 00 01 03",
    "Sizes of no use are written as well.",
)

# --- For a join: two parts on the stack? 11.
refused("join-no-part-beside", row(BESIDE), 11, "Two parts on the stack? None.")
refused("join-no-part-stacked", row(STACKED), 11, "Two parts on the stack? None.")
refused("join-one-part-beside", row(ONE, BESIDE), 11, "Two parts on the stack? One.")
refused("join-one-part-stacked", row(ONE, STACKED), 11, "Two parts on the stack? One.")
refused("join-after-join", row(ONE, OTHER, BESIDE, STACKED), 11, "Two parts on the stack? One: a join leaves one.")

# --- After the last entry: one part left? 12. Words left? 13.
refused("parts-2", row(ONE, OTHER), 12, "One part left? Two.")
refused("parts-2-and-more", row(ONE, OTHER) + [2], 12, "One part left? Asked before: words left?")
refused("parts-2-of-three-gauges", row(ONE, OTHER, ONE, BESIDE), 12, "One part left? Two: the join took the newest.")
refused("more-word", LONE + [0], 13, "Words left? One.")
refused("more-gauge", LONE + OTHER, 13, "Words left? A gauge that is not announced.")
refused("more-join", row(ONE, OTHER, BESIDE) + BESIDE, 13, "Words left? A join that is not announced.")
refused("more-words", LONE + [0] * 5000, 13, "Words left? 5,000 words.")

# --- Which no is first.
refused("8-at-entry-1-then-11", row(gauge(0, 7), BESIDE), 8, "For each entry in turn: 8 at entry 1.")
refused("11-at-entry-2-then-8", row(ONE, BESIDE, gauge(0, 7)), 11, "For each entry in turn: 11 at entry 2.")
refused("6-at-entry-2-then-12", row(ONE, [5]), 6, "For each entry in turn: 6, before: one part left?")
refused("8-then-words-left", row(gauge(0, 7)) + [9], 8, "For each entry in turn: 8, before: words left?")
refused("7-at-size-count-then-8", row(gauge(60, 40), [1, 257, 0, 0]), 7, "For each entry in turn: 7, then 8.")

# --- Faces of several gauges. The first is document 01's example, whose file has version 1 in place of 2.
EXAMPLE = [3, 1, 2, 60, 40, 40, 60, 1, 2, 50, 30, 30, 50, 2]
taken(
    "example",
    EXAMPLE,
    "00 03 01 02 00 3C 00 28 00 28 00 3C 01 02 00 32 00 1E 00 1E 00 32 02",
    "Document 01's example: 28 bytes.",
)
for length in range(1, len(EXAMPLE)):
    refused(f"example-cut-at-{length}", EXAMPLE[:length], 5, f"The words stop early: {length} of 14.")
taken(
    "five-gauges",
    row(gauge(1, 2), gauge(3, 4), BESIDE, gauge(5, 6), gauge(7, 8), STACKED, STACKED, gauge(9, 10), BESIDE),
    "00 09 01 01 00 01 00 02 01 01 00 03 00 04 02 01 01 00 05 00 06 01 01 00 07 00 08 03 03 01 01 00 09 00 0A 02",
    "Nine entries: a row of two and a pile of two, stacked, and beside them a gauge.",
)

# 127 entries are 64 gauges and 63 joins. With 8 sizes each they take 1 + 64 * 18 + 63 = 1,216 words, and 7 + 64 * 34 + 63 =
# 2,246 bytes; with one size 1 + 64 * 4 + 63 = 320 words, and 7 + 64 * 6 + 63 = 454 bytes.
LARGEST = row(EIGHT, *[EIGHT, STACKED] * 63)
assert len(LARGEST) == 1216
long("largest", LARGEST, 2246, "127 entries, 64 gauges of 8 sizes.")
refused("largest-cut", LARGEST[:-1], 5, "Kind present? Not the last join's.")
refused("largest-and-more", LARGEST + [3], 13, "Words left? One.")
refused("largest-then-gauge", LARGEST[:-1] + [1], 10, "At most the 64th? The 65th at entry 127.")
long("row-of-64", row(*[ONE] * 64 + [BESIDE] * 63), 454, "64 parts on the stack, then 63 joins.")

# ---------------------------------------------------------------------------------------------------------------
# Stored files with their words, for the reading call

# By the names of face_files.py. The two versions of a face have the same words.
FILE_WORDS = {
    "version-1": LONE,
    "version-2": LONE,
    "entries-1": [1, 1, 2, 50, 30, 30, 50],
    "kind-1": [1, 1, 1, 7, 9],
    "kind-2": [3, 1, 1, 60, 40, 1, 2, 50, 30, 30, 50, 2],
    "kind-3": [3, 1, 1, 60, 40, 1, 2, 50, 30, 30, 50, 3],
    "count-8": [1, 1, 8, 900, 1, 899, 2, 898, 3, 897, 4, 896, 5, 895, 6, 894, 7, 893, 8],
    "height-1": [1, 1, 1, 1, 40],
    "height-1000": [1, 1, 1, 1000, 40],
    "width-1": [1, 1, 1, 60, 1],
    "width-1000": [1, 1, 1, 60, 1000],
    "size-256": [1, 1, 1, 256, 512],
    "order-by-one": [1, 1, 2, 60, 40, 59, 41],
    "order-starts-anew": [3, 1, 1, 9, 9, 1, 1, 9, 9, 2],
    "printed-equal-heights": [1, 1, 2, 60, 40, 60, 41],
    "printed-rising-height": [1, 1, 2, 60, 40, 61, 41],
    "printed-same-size-twice": [1, 1, 2, 60, 40, 60, 40],
    "example": EXAMPLE,
    "example-stacked": EXAMPLE[:-1] + [3],
    "stacked-of-stacked": [5, 1, 1, 60, 40, 1, 2, 50, 30, 30, 50, 3, 1, 1, 60, 40, 3],
    "beside-of-newest": [5, 1, 1, 60, 40, 1, 2, 50, 30, 30, 50, 1, 1, 60, 40, 2, 2],
}

# Larger ones, and how many words they have: 3 for each gauge, and 2 for each size. One is the number of entries, of which
# there is one less than twice the gauges; each has a kind, a gauge has a size count too.
FILE_COUNTS = {
    "full-2246": 1216,
    "levels-lopsided-144-mixed": 384,
    "levels-back-128": 304,
    "printed-levels-127": 302,
    "printed-levels-128": 304,
}

# A file that each of checks 1 to 13 refuses.
FILE_REFUSED = """length-6 mark-lower-case version-257 entries-128 size-1-of-1-cut-at-3 kind-4 count-0-with-size height-1001
order-equal-heights gauge-65 join-one-part-beside parts-2 more-byte""".split()

BY_NAME = {stored.name: stored.file for stored in face_files.FILES}


# ---------------------------------------------------------------------------------------------------------------
# Model and hand-written answers


def written_faults(stored):
    """What the model says otherwise than by hand of words: the number, and the length and the bytes of the file."""
    number, length, file = words_model.write_file(stored.words, stored.length)
    if (number, length) != (stored.number, stored.length):
        return [f"{stored.name}: by hand {stored.number} {stored.length}, by the model {number} {length}"]
    if stored.file is not None and stored.file != file:
        return [f"{stored.name}: by hand {stored.file.hex()}, by the model {file.hex()}"]
    return []


def read_faults():
    """The same of the words that stored files are read to."""
    room = len(LARGEST)
    found = {name: words_model.read_words(BY_NAME[name], room) for name in [*FILE_WORDS, *FILE_COUNTS, *FILE_REFUSED]}
    wrong = [name for name, words in FILE_WORDS.items() if found[name] != (0, len(words), words)]
    wrong += [name for name, count in FILE_COUNTS.items() if found[name][:2] != (0, count)]
    wrong += [name for number, name in enumerate(FILE_REFUSED, 1) if found[name] != (number, 0, None)]
    return [f"{name}: other words by hand than by the model" for name in wrong]


def faults():
    names = [stored.name for stored in WORDS]
    same = [f"{name}: two rows of words have this name" for name in sorted(set(names)) if names.count(name) > 1]
    return [fault for stored in WORDS for fault in written_faults(stored)] + read_faults() + same
