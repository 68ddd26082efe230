#!/usr/bin/env python3
"""Runs random and damaged files through `faces` and `material` and through the calls, and compares each answer with the
models'.

    python3 tools/fuzz_faces.py --files 100000 --seed 1

Each file goes to `faces` and to `material`, one process a file, and three times to `cases`, one process for many files:
the reader, the text of `faces`, and the list, fit, catalogue, sheet, levels or gauge-bytes call, the text of `material`,
the reading of the file to words, or the same and the words written again, drawn at random. It prints how many ran and
how many differ, and exits 1 on any difference, crash or hang. `rt run` in the folder of each of the three has built it.
"""

import argparse
import collections
import concurrent.futures
import random
import subprocess
import sys

sys.dont_write_bytecode = True

from making import case, random_cases, random_faces, running
from models import fit_model, list_model, sheet_model, text_model

FACES_PROGRAM = running.program("faces")
MATERIAL_PROGRAM = running.program("material")

# The files that go to one process of cases.
BLOCK = 2500

# The seconds that a process may take.
BLOCK_SECONDS = 300
FILE_SECONDS = 10

# The processes of a program that run side by side.
SIDE_BY_SIDE = 2

# Of so many faces the damaged files are made; a face is changed for another after some use.
FACES = 200

CALLS = [random_cases.some_list, random_cases.some_fit, random_cases.some_widths, random_cases.some_fill]
CALLS += [random_cases.some_gauge, random_cases.some_words, random_cases.some_again]
CALLS += [random_cases.some_sheet, random_cases.some_material]


# ---------------------------------------------------------------------------------------------------------------
# The files


def flipped_join(rng, file):
    """The file with one byte that may be a join's kind changed for the other kind."""
    places = [place for place in range(7, len(file)) if file[place] in (2, 3)]
    if not places:
        return file
    place = rng.choice(places)
    return file[:place] + bytes([5 - file[place]]) + file[place + 1 :]


def nudged(rng, file):
    """The file with one byte one more or less."""
    place = rng.randrange(7, len(file))
    return file[:place] + bytes([(file[place] + rng.choice([1, -1])) % 256]) + file[place + 1 :]


def spliced(rng, file, other):
    """The start of a file and the end of another one."""
    return file[: rng.randrange(len(file))] + other[rng.randrange(len(other)) :]


def long_file(rng, file):
    """A file longer than any face, and than the part of it that `faces` reads."""
    return file + bytes(rng.choice([0, 1, 255]) for _ in range(rng.choice([2000, 4090, 9000])))


def mutated(rng, faces):
    file = rng.choice(faces)
    kind = rng.random()
    if kind < 0.15:
        return nudged(rng, file)
    if kind < 0.3:
        return flipped_join(rng, file)
    if kind < 0.4:
        return spliced(rng, file, rng.choice(faces))
    if kind < 0.402:
        return long_file(rng, file)
    file = random_faces.damaged(rng, file)
    while file and rng.random() < 0.3:
        file = random_faces.damaged(rng, file)
    return file


class Files:
    """An endless row of files."""

    def __init__(self, rng):
        self.rng = rng
        self.faces = [random_faces.face(rng, large=0.01) for _ in range(FACES)]

    def take(self):
        rng = self.rng
        kind = rng.random()
        if kind < 0.08:
            file = random_faces.face(rng, large=0.005)
            self.faces[rng.randrange(FACES)] = file
            return file
        if kind < 0.15:
            return random_faces.noise(rng)
        return mutated(rng, self.faces)


# Files for the first block: empty ones, and ones that end where the part that `faces` reads does, or a pipe's room.
ODD = [b"", b"F", bytes(4095), bytes(4096), bytes(4097)]
ODD += [random_faces.face(random.Random(length)) + bytes(length) for length in (1, 4096, 8000)]


# ---------------------------------------------------------------------------------------------------------------
# Running


def run_file(program, file):
    """What a program prints for a file, or what is wrong with its run."""
    try:
        done = subprocess.run([program], input=file, capture_output=True, timeout=FILE_SECONDS, close_fds=False)
    except subprocess.TimeoutExpired:
        return "no end\n"
    if done.returncode != 0 or done.stderr:
        return f"ended with {done.returncode}: {done.stderr[:200]!r}\n"
    return done.stdout.decode()


def run_files(program, files, texts):
    """How many of the files a program answers with another text."""
    wrong = 0
    with concurrent.futures.ThreadPoolExecutor(SIDE_BY_SIDE) as pool:
        for file, wanted, found in zip(files, texts, pool.map(lambda file: run_file(program, file), files)):
            if found != wanted:
                wrong += 1
                print(f"{program.name}\nfile     {file.hex()[:2000]}\nexpected {wanted[:2000]}found    {found[:2000]}")
    return wrong


def cases_of(rng, name, file):
    """The file, which the reader answers, and two calls on it."""
    text = case.text_case(f"{name}, text", file, case.TEXT)
    return [case.file_case(name, file), text, rng.choice(CALLS)(rng, f"{name}, call", file)]


def run_calls(rng, files):
    """How many of the cases that are made of the files differ."""
    cases = [made for i, file in enumerate(files) for made in cases_of(rng, str(i), file)]
    return running.different(cases, running.run(running.PROGRAM, cases, BLOCK_SECONDS))


def forget():
    """Empties what the models keep of each file."""
    fit_model.root_part.cache_clear()
    list_model.outer_sizes.cache_clear()
    sheet_model.layout_text.cache_clear()


def kind_of(text):
    """A text's first line where it is a refusal."""
    first = text.split("\n")[0]
    return first if first.startswith("refused") else "faces"


def main():
    parser = argparse.ArgumentParser()
    parser.add_argument("--files", type=int, default=100_000)
    parser.add_argument("--seed", type=int, default=1)
    given = parser.parse_args()
    rng = random.Random(given.seed)
    source = Files(rng)
    kinds = collections.Counter()
    by_programs = by_calls = 0
    waiting = list(ODD)
    for start in range(0, given.files, BLOCK):
        count = min(BLOCK, given.files - start)
        files = [waiting.pop() if waiting else source.take() for _ in range(count)]
        texts = [text_model.text_of(file) for file in files]
        kinds.update(kind_of(text) for text in texts)
        by_programs += run_files(FACES_PROGRAM, files, texts)
        by_programs += run_files(MATERIAL_PROGRAM, files, [sheet_model.text_of(file).decode() for file in files])
        by_calls += run_calls(rng, files)
        forget()
    print(", ".join(f"{kind}: {kinds[kind]}" for kind in sorted(kinds)))
    through = f"{given.files} files through faces and material, {by_programs} differ"
    print(f"{through}; {3 * given.files} cases of them, {by_calls} differ")
    sys.exit(1 if by_programs + by_calls else 0)


if __name__ == "__main__":
    main()
