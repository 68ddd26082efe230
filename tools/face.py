#!/usr/bin/env python3
"""Writes a face file from a text that a person types, and prints a face file as such a text.

    python3 tools/face.py write TEXT FILE      a text to a face file of version 2
    python3 tools/face.py read FILE [TEXT]     a face file of version 1 or 2 to a text, or to standard output

A name `-` is standard input or output. The text has an entry a line, in the order of the file:

    face 2                       the file's version, which may be left out
    gauge 60x40 40x60            a gauge with 1 to 8 sizes, HEIGHTxWIDTH in half-millimetres, in printed order
    gauge 50x30 30x50            # starts a comment
    beside                       joins the two newest parts side by side, the older one left
    stacked                      joins them one on the other, the older one below

One part is left at the end. examples/ has such texts. Where something is wrong nothing is written, and standard error
says what, with the line of the text. The exit status is 0, or

    1   the text is wrong, or the face file is refused
    2   a file cannot be read or written, or the command is used in another way
"""

import os
import pathlib
import shutil
import sys
import tempfile

sys.dont_write_bytecode = True

from making import face_bytes, face_text
from models import face_model, words_model

# What each check asks of a file, which a refused one answers by no.
QUESTIONS = {
    1: "7 bytes or more?",
    2: "First three FCE?",
    3: "Version 1 or 2?",
    4: "Entries 1 to 127?",
    5: "Kind byte, size-count byte, all bytes of a gauge's sizes present?",
    6: "Kind 01, 02 or 03?",
    7: "Size count 1 to 8?",
    8: "Height and width both 1 to 1,000?",
    9: "Height less and width more than the size before?",
    10: "At most the 64th gauge?",
    11: "Two parts on the stack?",
    12: "One part left?",
    13: "File at its end?",
}
JOIN_BYTES = {2: face_bytes.BESIDE, 3: face_bytes.STACKED}

# No more of a face file is read: one as long as this is refused, whatever comes after.
MOST_BYTES = 4096


# ---------------------------------------------------------------------------------------------------------------
# Text and file


def entry_bytes(entry):
    if isinstance(entry, words_model.Join):
        return JOIN_BYTES[entry.kind]
    return face_bytes.gauge(*entry.sizes)


def file_of(text):
    """The face file of a text's bytes. A comment may have any bytes, and a mark of UTF-8 may stand first."""
    entries = face_text.entries_of(text.decode("utf-8-sig", "surrogateescape"))
    return face_bytes.face(*map(entry_bytes, entries), version=2)


def text_of(file):
    """The text of a face file, as bytes."""
    face = face_model.read(file)
    gauges = iter([sizes for _, sizes in face.gauges])
    return face_text.text_of(words_model.entries_of(face.tree, gauges)).encode()


# ---------------------------------------------------------------------------------------------------------------
# Reading and writing


def read_from(name, most):
    """The bytes of a file, but no more than so many; all of them where that is -1."""
    with open(0 if name == "-" else name, "rb", closefd=name != "-") as source:
        return source.read(most)


def replace_file(path, content):
    """Writes a file whole or not at all: in a folder beside it, from which it is moved to its place."""
    with tempfile.TemporaryDirectory(prefix=".face-", dir=path.parent) as folder:
        made = pathlib.Path(folder) / path.name
        made.write_bytes(content)
        if path.exists():
            # A file that may not be written is not replaced either.
            path.open("ab").close()
            shutil.copymode(path, made)
        made.replace(path)


def write_to(name, content):
    """Writes to a file. Standard output, a device or a pipe stays what it is and is written into."""
    if name != "-" and (os.path.isfile(name) or not os.path.exists(name)):
        replace_file(pathlib.Path(os.path.realpath(name)), content)
        return
    with open(1 if name == "-" else name, "wb", closefd=name != "-") as made:
        made.write(content)


# ---------------------------------------------------------------------------------------------------------------
# The command


def tell(name, what):
    print(f"face.py: {name}: {what}", file=sys.stderr)


def written(name, content):
    """Writes to a file and answers the exit status."""
    try:
        write_to(name, content)
    except OSError as error:
        tell("standard output" if name == "-" else name, error.strerror)
        return 2
    return 0


def changed(given, made, change, most=-1):
    """Writes one file from another one and answers the exit status."""
    name = "standard input" if given == "-" else given
    try:
        content = change(read_from(given, most))
    except OSError as error:
        tell(name, error.strerror)
        return 2
    except face_text.Wrong as wrong:
        tell(name, f"line {wrong.line}: {wrong}")
        return 1
    except face_model.Refused as refusal:
        question = QUESTIONS[refusal.number]
        tell(name, f"refused {refusal.number}: {question} No; it is damaged or no face file, so write it again")
        return 1
    if made != "-" and os.path.isfile(given) and os.path.exists(made) and os.path.samefile(given, made):
        tell(made, "this is the file that was read; give the other one another name")
        return 2
    return written(made, content)


def main():
    match sys.argv[1:]:
        case ["write", text, file]:
            return changed(text, file, file_of)
        case ["read", file]:
            return changed(file, "-", text_of, MOST_BYTES)
        case ["read", file, text]:
            return changed(file, text, text_of, MOST_BYTES)
        case ["-h"] | ["--help"]:
            return written("-", __doc__.lstrip().encode())
    print("face.py: use it as write TEXT FILE or as read FILE [TEXT]; --help says more", file=sys.stderr)
    return 2


if __name__ == "__main__":
    sys.exit(main())
