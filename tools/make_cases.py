#!/usr/bin/env python3
"""Writes what the gate runs the programs on, and what they must print: of crates/cases the stored cases of every call,
each with its name; of crates/faces, crates/faces_long and crates/material some faces.

    python3 tools/make_cases.py            writes them
    python3 tools/make_cases.py --check    writes nothing, and says whether they are as it would write them

tools/making/ has the files: for the reader and the levels (face_files.py), the list call (list_files.py), the fit call
(fit_files.py), the text of `faces` (text_files.py), all of these in version 2 (printed_files.py), and the list and fit
calls with ribs (rib_files.py); the calls that are made on each file (calls.py, with ribs rib_calls.py); the words of
the writing call (word_files.py), with the calls between words and files (word_calls.py); the heights of the catalogue
call (height_files.py), with the calls on them (height_calls.py); the arenas of the reading call (arenas.py), and those
that the list call leaves it (read_calls.py); the sheets of the sheet call (sheet_files.py), with the calls for them
(sheet_calls.py); pseudo-random cases (random_cases.py); and what `faces` and `material` are run on (faces_inputs.py).
What is expected comes from the models. It stops where they and an answer that was worked out by hand differ.
"""

import collections
import pathlib
import sys

sys.dont_write_bytecode = True

from making import arenas, calls, face_files, faces_inputs, fit_files, height_calls, height_files, list_files
from making import printed_files, random_cases, read_calls, rib_calls, rib_files, sheet_calls, sheet_files, text_files
from making import word_calls, word_files

CRATES = pathlib.Path(__file__).resolve().parent.parent / "crates"
SETS = [face_files, list_files, fit_files, text_files, printed_files, rib_files]
OTHERS = [arenas, read_calls, word_files, height_files, sheet_files]


def faults():
    return [fault for module in SETS + OTHERS for fault in module.faults()]


def names():
    """The name of each file. One that stands in two modules is stored once, under the first name that it has."""
    found = {}
    for module in SETS:
        for stored in module.FILES:
            found.setdefault(stored.file, stored.name)
    return found


def file_cases():
    """The cases of each file."""
    listed = {stored.file for stored in list_files.FILES + fit_files.FILES}
    fitted = {stored.file: fit_files.openings(stored) for stored in fit_files.FILES}
    in_text = {stored.file for stored in text_files.FILES}
    in_version_2 = {stored.file: printed_files.openings(stored) for stored in printed_files.FILES}
    refused = {stored.file for module in SETS for stored in module.FILES if stored.number != 0}
    found = []
    for file, name in names().items():
        found += calls.reader_calls(name, file) + word_calls.file_calls(name, file)
        if file in refused:
            found += calls.refused_calls(name, file)
            continue
        if file in listed:
            found += calls.list_calls(name, file)
        if file in fitted:
            found += calls.fit_calls(name, file, fitted[file])
        if file in in_text:
            found += calls.text_calls(name, file)
        if file in in_version_2:
            found += calls.printed_calls(name, file, in_version_2[file])
        found += rib_calls.cases(name, file)
    return found


def all_cases():
    """The cases of every call. One that gives no file is on the last file before it: a module's cases stay in order."""
    found = file_cases()
    for module in [word_calls, height_calls, arenas, read_calls, sheet_calls]:
        found += module.cases()
    return found + random_cases.stored()


def stop_at(faults):
    if faults:
        sys.exit("\n".join(faults))


def case_files(cases):
    """The input and the output of the program that runs cases, by their paths below crates/."""
    found = collections.Counter(case.name for case in cases)
    stop_at([f"{name}: two cases have this name" for name, times in found.items() if times > 1])
    given = "".join(case.line() for case in cases)
    wanted = "".join(case.answer() for case in cases)
    return {"cases/stdin": given.encode(), "cases/stdout": wanted.encode()}


def has(path, content):
    return path.is_file() and path.read_bytes() == content


def main():
    stop_at(faults())
    cases = all_cases()
    files = case_files(cases) | faces_inputs.files()
    stored = {CRATES / path: content for path, content in files.items()}
    what = f"{len(cases)} cases"
    if "--check" in sys.argv[1:]:
        stop_at([f"{path}: not as this script writes it" for path, content in stored.items() if not has(path, content)])
        print(f"{what}: stored as this script writes them")
        return
    for path, content in stored.items():
        path.write_bytes(content)
    print(f"{what} written")


if __name__ == "__main__":
    main()
