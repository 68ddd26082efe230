"""The bytes of a face file."""

BESIDE = b"\x02"
STACKED = b"\x03"

# Document 01's example, byte for byte as it stands there.
EXAMPLE = bytes.fromhex(
    "46 43 45 00 01 00 03 01 02 00 3C 00 28 00 28 00 3C 01 02 00 32 00 1E 00 1E 00 32 02"
)


def two(number):
    """A 16-bit field, high byte first."""
    return number.to_bytes(2, "big")


def header(entries, version=1, mark=b"FCE"):
    return mark + two(version) + two(entries)


def gauge(*sizes, count=None):
    """A gauge entry with these (height, width) sizes. A count that is given stands in place of the true one."""
    head = bytes([0x01, len(sizes) if count is None else count])
    return head + b"".join(two(height) + two(width) for height, width in sizes)


def face(*entries, version=1):
    """A file that announces as many entries as it has."""
    return header(len(entries), version) + b"".join(entries)


def entries_of(tree):
    """The entries of a tree: a gauge is a list of its sizes, a join a join byte with its older and its newer part."""
    if isinstance(tree, list):
        return [gauge(*tree)]
    join, older, newer = tree
    return entries_of(older) + entries_of(newer) + [join]


def tree_face(tree, version=1):
    return face(*entries_of(tree), version=version)
