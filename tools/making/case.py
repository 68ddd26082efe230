"""A case of the program `cases`: what it is given, and what it is to print, by the models. crates/cases_run/src/lib.rt
has the form of both."""

import dataclasses
import itertools

from models import catalogue_model, face_model, fit_model, list_model, read_model, sheet_model, text_model, words_model

# The rooms that the program has for a case, an arena or a scratch, an output and a text; and the least rooms for the text
# of `faces` and for that of `material` which the calls take.
CASE = 65_536
LONGER = list_model.WORDS + 16
OUTPUT = 904
TEXT = 13_700
TEXT_LEAST = 13_645
MATERIAL_LEAST = 2_112

# Room for every face as words, and as a file.
FACE_WORDS = 1_216
FACE_BYTES = 2_246

# What a buffer of levels holds before the levels call.
BLANK = 170

# How many items of a list and how many words of an output are shown. Of those after them a sum is.
ITEMS = 16
OUTPUT_WORDS = 60
MODULUS = 1_000_003


@dataclasses.dataclass
class Case:
    """A case by its name: what stands after the name in the program's input, and in its output."""

    name: str
    given: str
    wanted: str

    def line(self):
        """The case in the program's input."""
        text = f"{self.name}: {self.given}\n"
        assert ":" not in self.name and len(text) <= CASE
        return f"{len(text):06} {text}"

    def answer(self):
        """The case in the program's output."""
        return f"{self.name}: {self.wanted}"


def hexadecimal(data):
    """Bytes as a case has them. A byte that stands four times or more is written once."""
    runs = [(byte, len(list(same))) for byte, same in itertools.groupby(bytes(data))]
    short = [f"{byte:02x}*{times}," if times >= 4 else f"{byte:02x}" * times for byte, times in runs]
    return "".join(short).removesuffix(",")


def given(letter, levels=b"", *numbers, after=""):
    """What a call is given: its letter, the levels, the numbers of which those at the end that are 0 are left out, and what
    stands after them."""
    shown = list(numbers)
    while shown and shown[-1] == 0 and not after:
        shown.pop()
    return " ".join([letter, hexadecimal(levels), *map(str, shown)]) + after


def lines(*found):
    return "".join(line + "\n" for line in found)


def row(words):
    return "".join(f" {word}" for word in words)


def sum_of(words):
    """Words in one number. crates/cases_shown/src/sum.rt states the same formula."""
    found = 0
    for word in words:
        found = (31 * found + word) % MODULUS
    return f" sum {found}" if words else ""


# ---------------------------------------------------------------------------------------------------------------
# The calls


def file_case(name, file):
    """The file of the cases that follow, and what the reader answers."""
    number, gauges, sizes = face_model.number_of(file), 0, 0
    if number == 0:
        face = face_model.read(file)
        gauges, sizes = face.gauge_count(), face.size_count()
    return Case(name, f"F {hexadecimal(file)}", lines(f"face {number} {gauges} {sizes}"))


def gauge_case(name, file, gauge):
    return Case(name, given("g", b"", gauge), lines(f"gauge {face_model.gauge_bytes(file, gauge).hex()}"))


def levels_case(name, file, length):
    """The levels call, lent a buffer of so many bytes."""
    before = [BLANK] * length
    number, filled = face_model.fill_levels(file, length)
    after = bytes(before if filled is None else filled)
    return Case(name, given("v", before), lines(f"levels {number} {after.hex()}"))


def list_line(walked):
    """The list in an arena, item by item, and what the reading call answers just before it and just after. Of an item that
    is not shown, m counts twice: as it was read, and as its record has it."""
    items = "".join(f" {item.record} {item.level} {item.m} {item.p}," for item in walked[:ITEMS])
    others = [word for item in walked[ITEMS:] for word in (item.record, item.level, item.m, item.p, item.m)]
    before, after = (list_model.read_call(walked, place)[0] for place in (0, len(walked) + 1))
    return f"list{items}{sum_of(others)} ends {before} {after}"


def output_line(words):
    return f"output{row(words[:OUTPUT_WORDS])}{sum_of(words[OUTPUT_WORDS:])} rest kept"


ALL_KEPT = "arena kept scratch kept output kept"


def list_case(name, file, levels, rib, arena, scratch, output):
    listed = list_model.list_call(file, levels, rib, arena, scratch, output)
    answer = f"list {listed.number} {len(listed.items)}"
    if listed.number == 0:
        words = [word for item in listed.items for word in (item.height, item.width)]
        wanted = lines(answer, output_line(words), list_line(listed.walked))
    else:
        wanted = lines(answer, ALL_KEPT)
    return Case(name, given("l", levels, 0, 0, arena, scratch, output, rib), wanted)


def fit_case(name, file, levels, rib, height, width, arena, scratch, output):
    fitted = fit_model.fit_call(file, levels, rib, height, width, arena, scratch, output)
    answer = "fit" + row(fitted.fields())
    if fitted.number == 0:
        wanted = lines(answer, output_line(fitted.words), list_line(fitted.walked))
    elif fitted.number == 19:
        wanted = lines(answer, "output kept", list_line(fitted.walked))
    else:
        wanted = lines(answer, ALL_KEPT)
    return Case(name, given("f", levels, height, width, arena, scratch, output, rib), wanted)


def widths_case(name, file, levels, rib, heights, arena, scratch, output):
    """The catalogue call. Each height is the first one, but for those that the case replaces."""
    found = catalogue_model.width_call(file, levels, rib, heights, arena, scratch, output)
    answer = f"widths {found.number} {found.looks}"
    if found.number == 0:
        wanted = lines(answer, output_line(found.widths), list_line(found.walked))
    else:
        wanted = lines(answer, ALL_KEPT)
    first = heights[0] if heights else 0
    others = replaced({place: height for place, height in enumerate(heights) if height != first})
    return Case(name, given("c", levels, len(heights), first, arena, scratch, output, rib, after=others), wanted)


def text_case(name, file, room):
    """The text of `faces`, in a buffer of so many bytes."""
    text = text_model.text_of(file) if room >= TEXT_LEAST else ""
    return Case(name, given("t", b"", 0, 0, 0, 0, room), "text\n" + text + "rest kept\n")


def sheet_case(name, file, levels, rib, height, width, arena, scratch, output):
    """The sheet call, lent an output of so many bytes."""
    printed = sheet_model.sheet_call(file, levels, rib, height, width, arena, scratch, output)
    answer = lines(f"sheet {printed.number} {printed.length}")
    if printed.number == 0:
        wanted = answer + printed.text.decode() + lines("rest kept", list_line(printed.walked))
    elif printed.number == 19:
        wanted = answer + lines("output kept", list_line(printed.walked))
    else:
        wanted = answer + lines(ALL_KEPT)
    return Case(name, given("m", levels, height, width, arena, scratch, output, rib), wanted)


def material_case(name, file, room):
    """The text of `material`, in a buffer of so many bytes."""
    text = sheet_model.text_of(file).decode() if room >= MATERIAL_LEAST else ""
    return Case(name, given("p", b"", 0, 0, 0, 0, room), "text\n" + text + "rest kept\n")


def word_bytes(words):
    """Words as the file of a case: four bytes each, the high byte first."""
    return b"".join(word.to_bytes(4, "big") for word in words)


def differences(given_row, found):
    """How many places of a row another row has not the same at."""
    return sum(place >= len(found) or found[place] != one for place, one in enumerate(given_row))


def saved_case(name, words, room):
    """The writing call on words, in a buffer of so many bytes. The case before has their bytes as its file."""
    number, length, file = words_model.write_file(words, room)
    answer = f"saved {number} {length}"
    if number == 0:
        again, count, found = words_model.read_words(file, FACE_WORDS)
        shown = f"file {file[:OUTPUT_WORDS].hex()}{sum_of(file[OUTPUT_WORDS:])} rest kept"
        wanted = lines(answer, shown, f"again {again} {count} differ {differences(words, found)}")
    else:
        wanted = lines(answer, "output kept")
    return Case(name, given("s", b"", 0, 0, 0, 0, room), wanted)


def worded_case(name, file, room):
    """The reading call of a file to words, in a buffer of so many words."""
    number, count, words = words_model.read_words(file, room)
    left = output_line(words) if number == 0 else "output kept"
    return Case(name, given("w", b"", 0, 0, 0, 0, room), lines(f"words {number} {count}", left))


def again_case(name, file):
    """A file read to words and written again."""
    number, count, words = words_model.read_words(file, FACE_WORDS)
    answer = f"again {number} {count}"
    if number == 0:
        saved, length, written = words_model.write_file(words, FACE_BYTES)
        answer += f" {saved} {length} differ {differences(file, written)}"
    return Case(name, given("a"), lines(answer))


def replaced(words):
    """The words that a case puts into a buffer, by their places."""
    found = ""
    expected = None
    for place in sorted(words):
        found += ("" if place == expected else f"@{place}") + f" {words[place]}"
        expected = place + 1
    return found


def read_given(letter, arena, place, words, levels, rib):
    """What the reading call is given: the letter of its end, an arena, and the words of it that the case replaces."""
    return given(letter, levels, arena.fill, place, arena.length, 0, 0, rib, after=replaced(words))


def read_case(name, arena, place, words, levels=b"", rib=0):
    """The reading call on an arena. These are the words of it that the case replaces: the model's has them already."""
    wanted = lines("read" + row(read_model.read_call(arena, place)))
    return Case(name, read_given("r", arena, place, words, levels, rib), wanted)


def low_case(name, arena, place, words, levels=b"", rib=0):
    """The same from the low end."""
    wanted = lines("low" + row(read_model.read_low_call(arena, place)))
    return Case(name, read_given("b", arena, place, words, levels, rib), wanted)


def words_case(name, levels, rib, length):
    """So many words of the arena that the list call leaves. Some of them are free, so nothing is expected."""
    return Case(name, given("d", levels, 0, 0, length, 0, 0, rib), "")
