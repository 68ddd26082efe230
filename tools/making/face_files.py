"""Files for the checks of the reader and for the levels, with what documents 01 and 02 say of each, worked out by hand.

A file has its number, with the question that decides it; a taken face also its counts, D, E and the top level. What the
model says otherwise are `faults`.
"""

from making import by_hand
from making.by_hand import Stored
from making.face_bytes import BESIDE, EXAMPLE, STACKED, face, gauge, header, tree_face
from making.gauges import stairs, with_stairs
from making.trees import balanced, lopsided, lopsided_back, zigzag
from models import face_model

FILES = []


def refused(name, file, number, reason):
    FILES.append(Stored(name, file, number, reason))


def taken(name, file, gauges, sizes, smallest, largest, top, reason):
    """A file that answers 0. smallest and largest are D and E, the joins above a gauge; top is the top level."""
    FILES.append(Stored(name, file, 0, reason, (gauges, sizes, smallest, largest, top)))


def stairs_face(tree):
    return tree_face(with_stairs(tree))


ONE = gauge((60, 40))
OTHER = gauge((50, 30), (30, 50))
LONE = face(ONE)  # 13 bytes

# --- 7 bytes or more? 1.
refused("length-0", b"", 1, "7 bytes or more? An empty file has none.")
refused("length-3-wrong-mark", b"XYZ", 1, "7 bytes or more? Asked before the mark.")
refused("length-6", LONE[:6], 1, "7 bytes or more? 6, all of them right.")
refused("length-7", LONE[:7], 5, "7 bytes are enough; then: Kind byte present?")
refused("length-7-wrong-mark", b"XYZ\x00\x01\x00\x01", 2, "7 bytes are enough; then: First three FCE?")

# --- First three FCE? 2.
refused("mark-first-byte-less", b"E" + LONE[1:], 2, "First three FCE? ECE.")
refused("mark-first-byte-more", b"G" + LONE[1:], 2, "First three FCE? GCE.")
refused("mark-second-byte-less", b"FB" + LONE[2:], 2, "First three FCE? FBE.")
refused("mark-second-byte-more", b"FD" + LONE[2:], 2, "First three FCE? FDE.")
refused("mark-third-byte-less", b"FCD" + LONE[3:], 2, "First three FCE? FCD.")
refused("mark-third-byte-more", b"FCF" + LONE[3:], 2, "First three FCE? FCF.")
refused("mark-lower-case", header(1, mark=b"fce") + ONE, 2, "First three FCE? fce.")
refused("mark-and-version-wrong", header(1, version=3, mark=b"FCX") + ONE, 2, "First three FCE? Before the version.")

# --- Version 1 or 2? 3.
refused("version-0", header(1, version=0) + ONE, 3, "Version 1 or 2? 0.")
taken("version-1", header(1, version=1) + ONE, 1, 1, 0, 0, 1, "Version 1 or 2? 1.")
taken("version-2", header(1, version=2) + ONE, 1, 1, 0, 0, 1, "Version 1 or 2? 2.")
refused("version-3", header(1, version=3) + ONE, 3, "Version 1 or 2? 3.")
refused("version-256", header(1, version=0x0100) + ONE, 3, "Version 1 or 2? 256: the high byte is first.")
refused("version-257", header(1, version=0x0101) + ONE, 3, "Version 1 or 2? 257: the high byte counts.")
refused("version-258", header(1, version=0x0102) + ONE, 3, "Version 1 or 2? 258: the high byte counts.")
refused("version-512", header(1, version=0x0200) + ONE, 3, "Version 1 or 2? 512: the high byte is first.")
refused("version-and-entries-wrong", header(0, version=3), 3, "Version 1 or 2? Asked before the entries.")

# --- Entries 1 to 127? 4.
refused("entries-0", header(0), 4, "Entries 1 to 127? 0.")
refused("entries-0-with-gauge", header(0) + ONE, 4, "Entries 1 to 127? 0, though a gauge follows.")
taken("entries-1", header(1) + OTHER, 1, 2, 0, 0, 1, "Entries 1 to 127? 1.")
refused("entries-127", header(127), 5, "127 is in 1 to 127; then: Kind byte present?")
refused("entries-128", header(128), 4, "Entries 1 to 127? 128.")
refused("entries-128-present", face(*[ONE] * 64 + [BESIDE] * 64), 4, "Entries 1 to 127? 128, all present.")
refused("entries-257", header(0x0101) + ONE, 4, "Entries 1 to 127? 257: the high byte counts.")
refused("entries-65535", header(0xFFFF) + ONE, 4, "Entries 1 to 127? 65,535.")

# --- Kind 01, 02 or 03? 6.
refused("kind-0", header(1) + b"\x00", 6, "Kind 01, 02 or 03? 00.")
taken("kind-1", face(gauge((7, 9))), 1, 1, 0, 0, 1, "Kind 01 is a gauge.")
taken("kind-2", face(ONE, OTHER, b"\x02"), 2, 3, 1, 1, 1, "Kind 02 is side by side.")
taken("kind-3", face(ONE, OTHER, b"\x03"), 2, 3, 1, 1, 1, "Kind 03 is stacked.")
refused("kind-4", header(1) + b"\x04" + ONE[1:], 6, "Kind 01, 02 or 03? 04.")
refused("kind-129", header(1) + b"\x81" + ONE[1:], 6, "Kind 01, 02 or 03? 81, which is 01 but for its first bit.")
refused("kind-255", header(1) + b"\xff", 6, "Kind 01, 02 or 03? FF.")
refused("kind-4-at-entry-3", face(ONE, OTHER, b"\x04"), 6, "Kind 01, 02 or 03? 04 at the third entry.")

# --- For a gauge: at most the 64th? 10.
refused("gauges-64-left-as-parts", face(*[ONE] * 64), 12, "The 64th gauge is in order; then: one part left? 64.")
refused("gauges-64-then-end", header(65) + ONE * 64, 5, "Kind byte present? Asked before the 65th gauge is one.")
refused("gauges-64-then-kind-4", header(65) + ONE * 64 + b"\x04", 6, "Kind 01, 02 or 03? Asked before the 64th.")
refused("gauge-65", face(*[ONE] * 65), 10, "At most the 64th? The 65th, with good sizes.")
refused("gauge-65-count-0", header(65) + ONE * 64 + b"\x01\x00", 10, "At most the 64th? Asked before the count is.")
refused("gauge-65-count-missing", header(65) + ONE * 64 + b"\x01", 10, "At most the 64th? Asked before: count present?")
refused("gauge-65-at-entry-127", face(ONE, *[ONE, BESIDE] * 62, ONE, ONE), 10, "At most the 64th? The 65th.")

# --- Size-count byte present? 5. Count 1 to 8? 7.
refused("count-missing", header(1) + b"\x01", 5, "Size-count byte present? The file ends after the kind.")
refused("count-missing-at-entry-2", header(3) + ONE + b"\x01", 5, "Size-count byte present? Not the second gauge's.")
refused("count-0-at-end", header(1) + b"\x01\x00", 7, "Count 1 to 8? 0, and it is asked before the sizes' bytes.")
refused("count-0-with-size", face(gauge((60, 40), count=0)), 7, "Count 1 to 8? 0.")
taken("count-1", face(gauge(*stairs(1))), 1, 1, 0, 0, 1, "Count 1 to 8? 1.")
taken("count-8", face(gauge(*stairs(8))), 1, 8, 0, 0, 1, "Count 1 to 8? 8.")
refused("count-9-at-end", header(1) + b"\x01\x09", 7, "Count 1 to 8? 9, and it is asked before the sizes' bytes.")
refused("count-9-with-sizes", face(gauge(*stairs(9))), 7, "Count 1 to 8? 9, all present.")
refused("count-255", face(gauge((60, 40), count=255)), 7, "Count 1 to 8? 255.")

# --- All bytes of its sizes present? 5.
refused("sizes-missing", LONE[:9], 5, "All bytes of its sizes present? None of 4.")
refused("size-1-of-1-cut-at-1", LONE[:10], 5, "All bytes of its sizes present? 1 of 4.")
refused("size-1-of-1-cut-at-2", LONE[:11], 5, "All bytes of its sizes present? 2 of 4.")
refused("size-1-of-1-cut-at-3", LONE[:12], 5, "All bytes of its sizes present? 3 of 4.")
refused("size-2-of-2-cut-at-0", face(OTHER)[:13], 5, "All bytes of its sizes present? 4 of 8.")
refused("size-2-of-2-cut-at-1", face(OTHER)[:14], 5, "All bytes of its sizes present? 5 of 8.")
refused("size-2-of-2-cut-at-2", face(OTHER)[:15], 5, "All bytes of its sizes present? 6 of 8.")
refused("size-2-of-2-cut-at-3", face(OTHER)[:16], 5, "All bytes of its sizes present? 7 of 8.")
refused("size-8-of-8-cut-at-3", face(gauge(*stairs(8)))[:-1], 5, "All bytes of its sizes present? 31 of 32.")
refused("size-bad-and-cut", face(gauge((0, 40), (30, 50)))[:-1], 5, "All bytes present? Asked before: 1 to 1,000?")
refused("size-order-bad-and-cut", face(gauge((9, 9), (9, 9)))[:-1], 5, "All bytes present? Asked before: height less?")

# --- Height and width both 1 to 1,000? 8.
refused("height-0", face(gauge((0, 40))), 8, "Height 1 to 1,000? 0.")
taken("height-1", face(gauge((1, 40))), 1, 1, 0, 0, 1, "Height 1 to 1,000? 1.")
taken("height-1000", face(gauge((1000, 40))), 1, 1, 0, 0, 1, "Height 1 to 1,000? 1,000.")
refused("height-1001", face(gauge((1001, 40))), 8, "Height 1 to 1,000? 1,001.")
refused("width-0", face(gauge((60, 0))), 8, "Width 1 to 1,000? 0.")
taken("width-1", face(gauge((60, 1))), 1, 1, 0, 0, 1, "Width 1 to 1,000? 1.")
taken("width-1000", face(gauge((60, 1000))), 1, 1, 0, 0, 1, "Width 1 to 1,000? 1,000.")
refused("width-1001", face(gauge((60, 1001))), 8, "Width 1 to 1,000? 1,001.")
taken("size-256", face(gauge((256, 512))), 1, 1, 0, 0, 1, "1 to 1,000? 256 and 512, whose low bytes are 0.")
refused("size-65535", face(gauge((65535, 65535))), 8, "1 to 1,000? 65,535.")
refused("height-0-at-size-2", face(gauge((60, 40), (0, 50))), 8, "Height 1 to 1,000? 0 at the second size.")
refused("width-1001-at-size-8", face(gauge(*stairs(7), (1, 1001))), 8, "Width 1 to 1,000? 1,001 at the last size.")

# --- From the second size on, height less and width more than the size before? 9.
taken("order-by-one", face(gauge((60, 40), (59, 41))), 1, 2, 0, 0, 1, "Height less and width more? By one each.")
refused("order-equal-heights", face(gauge((60, 40), (60, 41))), 9, "Height less? Equal.")
refused("order-equal-widths", face(gauge((60, 40), (59, 40))), 9, "Width more? Equal.")
refused("order-rising-height", face(gauge((60, 40), (61, 41))), 9, "Height less? More.")
refused("order-falling-width", face(gauge((60, 40), (59, 39))), 9, "Width more? Less.")
refused("order-same-size-twice", face(gauge((60, 40), (60, 40))), 9, "Height less and width more? Neither.")
refused("order-by-size-before", face(gauge((60, 40), (40, 60), (50, 70))), 9, "Less than the size before? 50 after 40.")
refused("order-at-size-8", face(gauge(*stairs(7), (500, 7))), 9, "Width more? The eighth has the seventh's.")
taken("order-starts-anew", face(gauge((9, 9)), gauge((9, 9)), BESIDE), 2, 2, 1, 1, 1, "From the second size on.")

# --- Which no is first.
refused("9-at-size-2-then-8-at-size-3", face(gauge((5, 5), (5, 6), (0, 7))), 9, "For each size in turn: 9 at size 2.")
refused("8-at-size-2-then-9-at-size-2", face(gauge((5, 5), (0, 4))), 8, "For each size in turn: 8, then 9.")
refused("8-at-size-2-by-1001", face(gauge((1000, 5), (1001, 6))), 8, "For each size in turn: 8, then 9, by height.")
refused("8-at-size-2-then-9", face(gauge((5, 5), (4, 1001), (3, 7))), 8, "For each size in turn: 8 at size 2.")
refused("8-at-size-2-of-3-in-order", face(gauge((5, 5), (4, 1001), (3, 1002))), 8, "For each size in turn: 8 at size 2.")
refused("8-at-size-2-by-0-then-9", face(gauge((5, 5), (0, 6), (0, 7))), 8, "For each size in turn: 8 at size 2, by height.")
refused("11-at-entry-2-then-8-at-entry-3", face(ONE, BESIDE, gauge((0, 7))), 11, "For each entry in turn: entry 2.")
refused("8-at-entry-1-then-11-at-entry-2", face(gauge((0, 7)), BESIDE), 8, "For each entry in turn: 8 at entry 1.")

# --- Version 2 drops check 9: the sizes stand in any order, and all else is asked as in version 1.
taken("printed-equal-heights", face(gauge((60, 40), (60, 41)), version=2), 1, 2, 0, 0, 1, "Height less? Not asked.")
taken("printed-equal-widths", face(gauge((60, 40), (59, 40)), version=2), 1, 2, 0, 0, 1, "Width more? Not asked.")
taken("printed-rising-height", face(gauge((60, 40), (61, 41)), version=2), 1, 2, 0, 0, 1, "Height less? Not asked.")
taken("printed-falling-width", face(gauge((60, 40), (59, 39)), version=2), 1, 2, 0, 0, 1, "Width more? Not asked.")
taken("printed-same-size-twice", face(gauge((60, 40), (60, 40)), version=2), 1, 2, 0, 0, 1, "Repeats are counted.")
refused("printed-0-at-size-3", face(gauge((5, 5), (5, 6), (0, 7)), version=2), 8, "Height 1 to 1,000? 0 at size 3.")
refused("printed-1001-at-size-2", face(gauge((9, 9), (9, 1001)), version=2), 8, "Inferior, and asked: 1 to 1,000? 1,001.")
refused("printed-cut", face(gauge((9, 9), (9, 9)), version=2)[:-1], 5, "All bytes of its sizes present? 7 of 8.")
refused("printed-gauge-65", face(*[ONE] * 65, version=2), 10, "At most the 64th? The 65th.")
refused("printed-more-byte", face(OTHER, version=2) + b"\x00", 13, "File at its end? A byte more.")

# --- For a join: two parts on the stack? 11.
refused("join-no-part-beside", face(BESIDE), 11, "Two parts on the stack? None.")
refused("join-no-part-stacked", face(STACKED), 11, "Two parts on the stack? None.")
refused("join-one-part-beside", face(ONE, BESIDE), 11, "Two parts on the stack? One.")
refused("join-one-part-stacked", face(ONE, STACKED), 11, "Two parts on the stack? One.")
taken("join-two-parts", face(ONE, OTHER, STACKED), 2, 3, 1, 1, 1, "Two parts on the stack? Two.")
refused("join-after-join", face(ONE, OTHER, BESIDE, STACKED), 11, "Two parts on the stack? One: a join leaves one.")

# --- After the last entry: one part left? 12. File at its end? 13.
refused("parts-2", face(ONE, OTHER), 12, "One part left? Two.")
refused("parts-2-and-more-bytes", face(ONE, OTHER) + b"\x02", 12, "One part left? Asked before: file at its end?")
refused("parts-2-of-three-gauges", face(ONE, OTHER, ONE, BESIDE), 12, "One part left? Two: the join took the newest.")
refused("parts-3", face(ONE, OTHER, ONE), 12, "One part left? Three.")
refused("more-byte", LONE + b"\x00", 13, "File at its end? A byte more.")
refused("more-gauge", face(ONE) + OTHER, 13, "File at its end? A gauge that is not announced.")
refused("more-join", face(ONE, OTHER, BESIDE) + BESIDE, 13, "File at its end? A join that is not announced.")
refused("ends-before-entry-2", header(2) + ONE, 5, "Kind byte present? One entry of two; not 0.")
refused("ends-before-entry-3", header(3) + ONE + OTHER, 5, "Kind byte present? Asked before: one part left?")
refused("entries-4", face(ONE, OTHER, BESIDE, ONE), 12, "An even number of entries; one part left? Two.")

# --- Taken faces.
taken("example", EXAMPLE, 2, 4, 1, 1, 1, "Document 01's benchmark, 28 bytes.")
taken("example-stacked", EXAMPLE[:27] + STACKED, 2, 4, 1, 1, 1, "The same, stacked.")
taken("lone-gauge-of-5", face(gauge(*stairs(5))), 1, 5, 0, 0, 1, "A lone gauge is one part; no join is above it.")
taken("stacked-of-stacked", face(ONE, OTHER, STACKED, ONE, STACKED), 3, 4, 1, 2, 1, "2D is 2, E is 2.")
taken("beside-of-newest", face(ONE, OTHER, ONE, BESIDE, BESIDE), 3, 4, 1, 2, 1, "It takes the two newest parts.")
taken("alternating-even", face(ONE, OTHER, BESIDE, ONE, OTHER, BESIDE, STACKED), 4, 6, 2, 2, 1, "2D is 4, E 2.")
taken("alternating-lopsided", face(ONE, OTHER, BESIDE, ONE, STACKED, OTHER, BESIDE), 4, 6, 1, 3, 1, "n under 32.")
taken("five-gauges", stairs_face((((1, 2), 3), (4, 5))), 5, 15, 2, 3, 1, "2D is 4, E is 3.")

# --- The largest face, and files that are longer than any face. 2,246 bytes are 7, 64 gauges of 34, 63 joins.
FULL = stairs_face(lopsided([8] * 64))
assert len(FULL) == 2246
refused("full-2245", FULL[:-1], 5, "Kind byte present? Not the last join's.")
taken("full-2246", FULL, 64, 512, 1, 63, 3, "127 entries, 64 gauges of 8 sizes. 8 times 4^3 is 512.")
refused("full-2247", FULL + b"\x02", 13, "File at its end? A byte more.")
refused("full-2500", FULL + bytes(254), 13, "File at its end? 254 bytes more.")
refused("full-2500-last-kind-4", FULL[:-1] + b"\x04" + bytes(254), 6, "Kind 01, 02 or 03? 04 at entry 127.")
refused("full-2500-last-gauge", FULL[:-1] + b"\x01" + bytes(254), 10, "At most the 64th? The 65th at entry 127.")
refused("long-2500-parts-2", face(ONE, OTHER) + bytes(2477), 12, "One part left? Asked before: file at its end?")
refused("long-60000", LONE + bytes(59987), 13, "File at its end? 59,987 bytes more.")

# --- Levels. "uncut levels of 8 and 16: 2 and 3".
assert face_model.uncut_level(8) == 2 and face_model.uncut_level(16) == 3

# In a lopsided tree of g gauges D is 1 and E is g - 1, so that 2D is less than E from g = 4 on.
taken("levels-lopsided-31", stairs_face(lopsided([8] * 3 + [7])), 4, 31, 1, 3, 1, "1 for n under 32.")
taken("levels-lopsided-32", stairs_face(lopsided([8] * 4)), 4, 32, 1, 3, 1, "8 times 4 is 32.")
taken("levels-lopsided-64", stairs_face(lopsided([1] * 64)), 64, 64, 1, 63, 1, "8 times 16 is 128, more than 64.")
taken("levels-lopsided-127", stairs_face(lopsided([8] * 15 + [7])), 16, 127, 1, 15, 1, "8 times 16 is more than 127.")
taken("levels-lopsided-128", stairs_face(lopsided([8] * 16)), 16, 128, 1, 15, 2, "8 times 16 is 128.")
taken("levels-lopsided-128-pairs", stairs_face(lopsided([2] * 64)), 64, 128, 1, 63, 2, "n counts sizes, not gauges.")
taken(
    "levels-lopsided-144-mixed",
    stairs_face(lopsided([1, 2, 3, 4, 5, 6, 7, 8] * 4)),
    32, 144, 1, 31, 2,
    "Size r is counted over the whole file, whatever gauge it is in.",
)
taken("levels-lopsided-511", stairs_face(lopsided([7] + [8] * 63)), 64, 511, 1, 63, 2, "8 times 64 is more than 511.")
taken("levels-back-127", stairs_face(lopsided_back([8] * 15 + [7])), 16, 127, 1, 15, 1, "Here gauge 1 has one join above.")
taken("levels-back-128", stairs_face(lopsided_back([8] * 16)), 16, 128, 1, 15, 2, "Here gauge 1 has one join above.")
taken("levels-back-512", stairs_face(lopsided_back([8] * 64)), 64, 512, 1, 63, 3, "64 parts on the stack, then 63 joins.")
taken("levels-zigzag-128", stairs_face(zigzag([8] * 16)), 16, 128, 1, 15, 2, "The deepest gauges stand in the middle.")
taken("levels-balanced-128", stairs_face(balanced([8] * 16)), 16, 128, 4, 4, 1, "2D is 8, E is 4: 1 whatever n is.")
taken("levels-balanced-512", stairs_face(balanced([8] * 64)), 64, 512, 6, 6, 1, "2D is 12, E is 6: 1 whatever n is.")

# n counts every printed size, also one that is on no list.
SAME = [(60, 40)]
taken(
    "printed-levels-127",
    tree_face(lopsided([8 * SAME] * 15 + [7 * SAME]), version=2),
    16, 127, 1, 15, 1,
    "8 times 16 is more than 127.",
)
taken("printed-levels-128", tree_face(lopsided([8 * SAME] * 16), version=2), 16, 128, 1, 15, 2, "8 times 16 is 128.")

# Trees whose D and E stand just on either side of the test, with n large enough for it to show.
EIGHT = balanced([8] * 8)  # 8 gauges, 3 joins above each
taken(
    "levels-2d-is-e",
    stairs_face((((8, 8), (8, EIGHT)), ((8, 8), (EIGHT, 8)))),
    22, 176, 3, 6, 1,
    "2D is 6, E is 6: at least, so 1.",
)
taken(
    "levels-2d-is-e-less-1",
    stairs_face((((8, 8), (8, balanced([8] * 16))), ((8, 8), (8, 8)))),
    23, 184, 3, 7, 2,
    "2D is 6, E is 7: the largest k with 8 times 4^k at most 184 is 2.",
)
taken(
    "levels-2d-is-e-less-1-odd",
    stairs_face(((balanced([8] * 8), 8), (balanced([8] * 8), 8))),
    18, 144, 2, 5, 2,
    "2D is 4, E is 5: the largest k with 8 times 4^k at most 144 is 2.",
)


# ---------------------------------------------------------------------------------------------------------------
# Model and hand-written answers


def taken_faults(stored):
    """What the model says otherwise than the hand-written counts of a taken face."""
    found = face_model.read(stored.file)
    joins = face_model.joins_above(found.tree)
    counts = (found.gauge_count(), found.size_count(), min(joins), max(joins), face_model.top_level(found))
    return [] if counts == stored.answers else [f"{stored.name}: by hand {stored.answers}, by the model {counts}"]


def faults():
    return by_hand.faults_of(FILES, taken_faults)
