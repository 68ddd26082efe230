#!/usr/bin/env python3
"""Runs the wrong programs of crates/*/must-fail, and says whether the stored cases see that they are wrong.

    python3 tools/try_edits.py [CRATE | CRATE/NAME]...

The gate has the prover refuse each of them. Here each that edits code which `cases` reaches is compiled without a proof
(`rt try`) into that program, which is run on the stored cases, cut into pieces that it gets through in good time. The
piece with the most cases of the edited crate's calls comes first, and all the others where the program writes there what
it should. It exits 1 where all pieces come out right: then a stored case is missing.
"""

import pathlib
import shutil
import subprocess
import sys
import tempfile

sys.dont_write_bytecode = True

from making import running

ROOT = running.ROOT

# The most bytes of output of a piece. `rt try` takes a megabyte, but the program is slow, compiled with checks.
MOST = 131_072

# The seconds that it may take for a piece.
SECONDS = 300

# The letters of the calls that a crate is of. The other crates are of many calls, and for them any piece may be first.
CALLS = {
    "walking": "c",
    "catalogue": "c",
    "forwards": "rb",
    "holding": "rb",
    "maxplus": "rb",
    "materiallines": "mp",
    "materialsheet": "mp",
    "materialtext": "mp",
}

# What the first two do only the programs `faces` and `material` ask, which tools/test_faces.sh tries. Those of the cases are wrong
# of lines that are not stored, and no caller reads the word that the one of `moving` changes.
UNREACHED = {"input", "filter", "cases_line", "cases_run", "moving/last_sums_changed"}

# The status of `rt try` where each piece came out right, and where one did not: a fault, another text or no end.
RIGHT = 0
WRONG = [4, 5, 6]

# ---------------------------------------------------------------------------------------------------------------
# The stored cases


def letter(line):
    """The letter of a case."""
    return line.split(": ", 1)[1][0]


def files():
    """Each stored file with the calls on it. A case is its line of the input and its answer."""
    given = (ROOT / "crates/cases/stdin").read_text().splitlines(keepends=True)
    answers = running.ANSWER.split((ROOT / "crates/cases/stdout").read_text())[1:]
    found = []
    for line, answer in zip(given, answers, strict=True):
        if letter(line) == "F":
            found.append([])
        found[-1].append((line, answer))
    return found


def pieces():
    """The stored cases in pieces. A file and the calls on it stay together."""
    found, size = [[]], 0
    for cases in files():
        length = sum(len(answer) for _, answer in cases)
        if size + length > MOST:
            found.append([])
            size = 0
        found[-1] += cases
        size += length
    return found


def calls_of(crate, piece):
    """How many cases of a piece are of the calls that a crate is of."""
    return sum(letter(line) in CALLS.get(crate, "") for line, _ in piece)


# ---------------------------------------------------------------------------------------------------------------
# Edits


def edits(path):
    """The file that an edit changes, and each old text with the new one."""
    lines = path.read_text().split("\n")
    [file] = [line.removeprefix("file:").strip() for line in lines if line.startswith("file:")]
    old = [line[len("old: ") :] for line in lines if line.startswith("old:")]
    new = [line[len("new: ") :] for line in lines if line.startswith("new:")]
    return file, list(zip(old, new, strict=True))


def applied(text, changes):
    for old, new in changes:
        if text.count(old) != 1:
            sys.exit(f"{old!r} stands {text.count(old)} times")
        text = text.replace(old, new)
    return text


def are_right(folder, pieces):
    """Whether the program `cases`, compiled without a proof, writes what is stored for some pieces."""
    with tempfile.TemporaryDirectory() as given:
        for number, piece in enumerate(pieces):
            lines, answers = zip(*piece)
            (pathlib.Path(given) / f"{number:02}").write_text("".join(lines))
            (pathlib.Path(given) / f"{number:02}.stdout").write_text("".join(answers))
        # The interpreter, which `rt try` asks too, would get no further than the first cases: it is given one step.
        words = ["rt", "try", "--steps", "1", "--seconds", str(SECONDS), "--cases", given]
        done = subprocess.run(words, cwd=folder / "crates" / "cases", capture_output=True, text=True)
    if done.returncode not in [RIGHT, *WRONG]:
        sys.exit(f"it does not compile: {(done.stdout + done.stderr)[-500:]}")
    return done.returncode == RIGHT


def is_seen(folder, crate, edit, pieces):
    """Whether the stored cases see an edit."""
    name, changes = edits(edit)
    file = folder / "crates" / crate / name
    right = file.read_text()
    file.write_text(applied(right, changes))
    best, *others = sorted(pieces, key=lambda piece: -calls_of(crate, piece))
    seen = not are_right(folder, [best]) or not are_right(folder, others)
    file.write_text(right)
    return seen


def main():
    wanted = sys.argv[1:]
    ran = unseen = 0
    with tempfile.TemporaryDirectory() as temporary:
        folder = pathlib.Path(temporary) / "repository"
        shutil.copytree(ROOT, folder, ignore=shutil.ignore_patterns("out", ".git"))
        cut = pieces()
        if not are_right(folder, cut):
            sys.exit("without any edit the program writes something else than is stored")
        for edit in sorted((ROOT / "crates").glob("*/must-fail/*.edit")):
            crate = edit.parent.parent.name
            label = f"{crate}/{edit.stem}"
            if {crate, label} & UNREACHED or not edits(edit)[0].startswith("src/"):
                continue
            if wanted and not {crate, label} & set(wanted):
                continue
            seen = is_seen(folder, crate, edit, cut)
            ran += 1
            unseen += not seen
            print(f"{label}: {'seen' if seen else 'NOT SEEN'}", flush=True)
    print(f"{ran} wrong programs ran, {unseen} not seen")
    sys.exit(1 if unseen or not ran else 0)


if __name__ == "__main__":
    main()
