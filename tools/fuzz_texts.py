#!/usr/bin/env python3
"""Turns random faces into texts and back by tools/face.py, and damages texts, and compares with the model of words.

    python3 tools/fuzz_texts.py --faces 4000 --seed 1    exits 1 if anything differs

Of each face the file is printed as a text, which has to give its entries again, also as another hand may type it. Then
entries are changed, put in or left out: the text has to be refused at the line and by the check that the model says.
"""

import argparse
import random
import sys

sys.dont_write_bytecode = True

import face
from making import face_text, random_faces
from models import words_model

# Room for every face as words.
FACE_WORDS = 1_216


def entries_of(file):
    """The entries of a taken file, by way of its words."""
    return words_model.read(words_model.read_words(file, FACE_WORDS)[2])


def typed(rng, line):
    """A line as another hand may type it."""
    blank = rng.choice([" ", "\t", "  "])
    words = [word.replace("x", "x0") if rng.random() < 0.1 else word for word in line.split()]
    before = "".join(rng.choice(["", "\n", "# beside\n", " \t\n"]) for _ in range(2))
    return before + rng.choice(["", blank]) + blank.join(words) + rng.choice(["", blank, "# gauge", "\r"]) + "\n"


def differences(rng, file):
    """What differs of a file as a text and written again, and written from what another hand types."""
    wanted = words_model.file_of(entries_of(file))
    text = face.text_of(file)
    if file[4] == 2 and wanted != file:
        yield f"the model gives another file: {file.hex()}"
    if face.file_of(text) != wanted:
        yield f"written again it is another file: {file.hex()}"
    # The first line is `face 2`, which may be left out.
    other = "".join(typed(rng, line) for line in text.decode().split("\n")[rng.randint(0, 1) :])
    if face.file_of(other.encode()) != wanted:
        yield f"typed so it is another file: {other!r}"


def odd_entry(rng, entry):
    """An entry in place of another one, often a wrong one."""
    if rng.random() < 0.3:
        return words_model.Join(rng.choice([2, 3]))
    sizes = [] if isinstance(entry, words_model.Join) else entry.sizes
    size = rng.choice([0, 1, 1000, 1001, 65537]), rng.choice([0, 1, 1000, 1001, 65536])
    return words_model.Gauge(rng.choice([sizes, [], sizes + [size], [size] + sizes, (sizes + [(1, 1)] * 9)[:9]]))


def damaged(rng, entries):
    """The entries with one or two of them changed, put in or left out."""
    for _ in range(rng.randint(1, 2)):
        place = rng.randrange(len(entries))
        new = rng.choice([[], [odd_entry(rng, entries[place])], [entries[place], odd_entry(rng, entries[place])]])
        entries = entries[:place] + new + entries[place + 1 :] or [words_model.Gauge([])]
    return entries


def fault(entries):
    """The number that refuses entries, and which of them is at fault, or the last one; 0 where they are taken."""
    for count in range(1, len(entries) + 1):
        number = words_model.number_of(words_model.words_of(entries[:count]))
        if number not in (0, 12):
            return number, count
    return words_model.number_of(words_model.words_of(entries)), len(entries)


def refused_otherwise(entries):
    """What differs where the text of some entries is written: it is taken, or refused by the line and the check."""
    number, count = fault(entries)
    text = face_text.text_of(entries)
    try:
        file = face.file_of(text.encode())
        if number != 0 or file != words_model.file_of(entries):
            yield f"taken: {text!r}"
    except face_text.Wrong as wrong:
        if f"(check {number})" not in str(wrong) or wrong.line != count + 1:
            yield f"refused at line {wrong.line}, {wrong}: {text!r}"


def tried(rng, file):
    """What differs of a face and of its entries with damage."""
    yield from differences(rng, file)
    entries = damaged(rng, entries_of(file))
    # Of more than 127 entries words say 4 at once, a text what is wrong by the 128th.
    if len(entries) <= 127:
        yield from refused_otherwise(entries)


def main():
    parser = argparse.ArgumentParser()
    parser.add_argument("--faces", type=int, default=4000)
    parser.add_argument("--seed", type=int, default=1)
    given = parser.parse_args()
    rng = random.Random(given.seed)
    differ = 0
    for i in range(given.faces):
        file = random_faces.face(rng, large=0.01) if i % 20 else random_faces.lopsided(rng)
        for what in tried(rng, file):
            differ += 1
            print(what)
    print(f"{given.faces} faces as texts and back, {differ} differ")
    sys.exit(1 if differ else 0)


if __name__ == "__main__":
    main()
