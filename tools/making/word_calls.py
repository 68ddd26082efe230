"""The calls between words and files, on stored words and on stored files. A call is given what a right one is, but for
what its name says."""

from making.case import FACE_WORDS, again_case, file_case, saved_case, word_bytes, worded_case
from making.word_files import BY_NAME, FILE_COUNTS, FILE_REFUSED, FILE_WORDS, WORDS

# Words on which the call is made with more room than it needs and with none, and those with every length of output. Words
# that each of the checks refuses, with no output: 18 is asked last.
LONGER = "words-entries-1 words-count-8 words-inferior words-example words-five-gauges words-largest".split()
EVERY = "words-example"
LAST = """words-none words-entries-128 words-entries-127 words-kind-257 words-count-257 words-height-65537 words-gauge-65
words-join-one-part-beside words-parts-2 words-more-word words-zeros-cut""".split()


def rooms(stored):
    """The bytes that the call is lent on words, by their names."""
    if stored.number != 0:
        return {"": 60} | ({", no output": 0} if stored.name in LAST else {})
    found = {"": stored.length, ", short": stored.length - 1}
    if stored.name in LONGER:
        found |= {", longer": stored.length + 4, ", no output": 0}
    if stored.name == EVERY:
        found |= {f", {room} bytes": room for room in range(1, stored.length - 1)}
    return found


def saved_calls(stored):
    """The words as a file, and the writing call on them."""
    found = [file_case(stored.name, word_bytes(stored.words))]
    return found + [saved_case(f"{stored.name}, save{what}", stored.words, room) for what, room in rooms(stored).items()]


def words_asked(name):
    """The words that the reading call is lent on a file, by their names."""
    if name in FILE_REFUSED:
        return {"": FACE_WORDS, ", no output": 0}
    count = len(FILE_WORDS[name]) if name in FILE_WORDS else FILE_COUNTS[name]
    found = {"": count, ", short": count - 1, ", longer": count + 4}
    return found | ({", no output": 0} if name == "example" else {})


def file_calls(name, file):
    """The calls on a stored file, which stands under this name: the round trip, and of some files the reading call."""
    found = [again_case(f"{name}, again", file)]
    if BY_NAME.get(name) == file and name in [*FILE_WORDS, *FILE_COUNTS, *FILE_REFUSED]:
        found += [worded_case(f"{name}, words{what}", file, room) for what, room in words_asked(name).items()]
    return found


def cases():
    return [case for stored in WORDS for case in saved_calls(stored)]
