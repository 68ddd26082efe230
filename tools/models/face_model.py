"""A model of the face file, for making tests: document 01's checks 1 to 14, gauge bytes and levels, in the file versions
of document 02's paper 1.

It is written from the text of document 01, "Milled instrument faces", and of paper 1, "Sizes as the makers print them", and
shares nothing with the Rattle code. It is meant to be read beside that text, so it is plain and slow: it builds the tree and
walks it to count joins. Words between quotation marks are the documents'.
"""

import dataclasses


class Refused(Exception):
    """A question was answered by no: its number."""

    def __init__(self, number):
        super().__init__(number)
        self.number = number


@dataclasses.dataclass
class Face:
    """A taken file: its tree, and for each gauge in file order the bytes of its sizes and the sizes, each of them as
    printed. A tree is ("gauge",), or a join with its older and its newer part: ("beside", older, newer) or ("stacked",
    older, newer)."""

    tree: tuple
    gauges: list

    def gauge_count(self):
        return len(self.gauges)

    def size_count(self):
        return sum(len(sizes) for _, sizes in self.gauges)


def ask(is_yes, number):
    # "A "no" answers with the number shown. First no wins."
    if not is_yes:
        raise Refused(number)


def field(file, place):
    # "16-bit fields have the high byte first"
    return file[place] * 256 + file[place + 1]


def read(file):
    """Checks 1 to 13, in the order of the text. Returns a Face or raises Refused."""
    # "7 bytes or more? 1. First three `FCE`? 2. Version 1? 3. Entries 1 to 127? 4."; "Check 3 takes 1 and 2"
    ask(len(file) >= 7, 1)
    ask(file[0:3] == bytes([0x46, 0x43, 0x45]), 2)
    version = field(file, 3)
    ask(version in (1, 2), 3)
    entries = field(file, 5)
    ask(1 <= entries <= 127, 4)

    place = 7
    stack = []
    gauges = []
    for _ in range(entries):
        # "Kind byte present? 5. Kind 01, 02 or 03? 6."
        ask(place < len(file), 5)
        kind = file[place]
        place += 1
        ask(kind in (1, 2, 3), 6)
        if kind == 1:
            # "at most the 64th? 10. Size-count byte present? 5. Count 1 to 8? 7. All bytes of its sizes present? 5."
            ask(len(gauges) + 1 <= 64, 10)
            ask(place < len(file), 5)
            count = file[place]
            place += 1
            ask(1 <= count <= 8, 7)
            ask(place + 4 * count <= len(file), 5)
            part = file[place : place + 4 * count]
            place += 4 * count
            gauges.append((part, read_sizes(part, version)))
            stack.append(("gauge",))
        else:
            # "two parts on the stack? 11."; "It takes the two newest parts off a stack and leaves one part."
            ask(len(stack) >= 2, 11)
            newer = stack.pop()
            older = stack.pop()
            stack.append(("beside" if kind == 2 else "stacked", older, newer))
    # "After the last entry: one part left? 12. File at its end? 13."
    ask(len(stack) == 1, 12)
    ask(place == len(file), 13)
    return Face(stack[0], gauges)


def read_sizes(part, version):
    # "For each size in turn: height and width both 1 to 1,000? 8. From the second size on, height less and width
    # more than the size before? 9." Both questions are asked of a size before the next size is looked at. "File version 2
    # drops check 9."
    sizes = []
    for start in range(0, len(part), 4):
        height = field(part, start)
        width = field(part, start + 2)
        ask(1 <= height <= 1000 and 1 <= width <= 1000, 8)
        if sizes and version == 1:
            height_before, width_before = sizes[-1]
            ask(height < height_before and width > width_before, 9)
        sizes.append((height, width))
    return sizes


def number_of(file):
    """The number that checks 1 to 13 answer: 0 for a taken file."""
    try:
        read(file)
    except Refused as refusal:
        return refusal.number
    return 0


def gauge_bytes(file, gauge):
    # "They are its heights and widths, four bytes a size. The part is empty if the file is refused or there is no
    # such gauge"
    try:
        face = read(file)
    except Refused:
        return b""
    if 1 <= gauge <= face.gauge_count():
        return face.gauges[gauge - 1][0]
    return b""


def joins_above(tree, above=0):
    """For each gauge of the tree, in file order, the number of joins above it."""
    if tree[0] == "gauge":
        return [above]
    _, older, newer = tree
    return joins_above(older, above + 1) + joins_above(newer, above + 1)


def top_level(face):
    # "With D the smallest and E the largest number of joins above a gauge, the top level is 1 if 2D is at least E.
    # Else it is the largest k with 8 times 4^k at most n, and 1 for n under 32."
    joins = joins_above(face.tree)
    if 2 * min(joins) >= max(joins):
        return 1
    n = face.size_count()
    if n < 32:
        return 1
    return max(k for k in range(n) if 8 * 4**k <= n)


def uncut_level(size):
    # "Size r has level 1 plus the times that 4 divides r"
    level = 1
    while size % 4 == 0:
        size //= 4
        level += 1
    return level


def fill_levels(file, length):
    """The levels call, lent a buffer of so many bytes: its number and the levels that it fills in, or its number and
    None where the buffer stays as it was. It makes checks 1 to 14."""
    try:
        face = read(file)
        # "As many levels as sizes? 14."
        ask(length == face.size_count(), 14)
    except Refused as refusal:
        return refusal.number, None
    top = top_level(face)
    # "cut to the top level"
    return 0, [min(uncut_level(size), top) for size in range(1, length + 1)]
