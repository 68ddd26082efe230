#!/usr/bin/env python3
"""Prints what a run of the gate proved and refused, crate by crate, as a Markdown table for landing notes.

    bash .ci/run | tee LOG
    python3 tools/gate_counts.py LOG                        prints every crate of one run
    python3 tools/gate_counts.py BEFORE LOG [CRATE...]      prints what changed between two runs, side by side

A crate has the number of its functions that the run proved, which is not told of a crate that is kept from an earlier
run on the machine, and where it has must-fail edits the number of those that were refused. The kit prints no times; `time
bash .ci/run` tells that of the whole. The first argument, and a second where there is one, are logs; those after them are
names of crates. Of two runs the table has the crates that only one of them has, those with another number of edits, and
those that are named, such as crates whose code changed; then the others in one row, and all of them together.
"""

import pathlib
import re
import sys

PROVED = re.compile(r"^rt: (\w+) (?:proved$|is kept: )", re.M)
FUNCTIONS = re.compile(r"^== (\w+)\n(?:(?!== |rt: ).*\n)*?logic=proved functions=(\d+) ", re.M)
REFUSED = re.compile(r"^rt: must-fail (\w+)/\S+: refused, as it must be", re.M)
COLUMNS = ["functions proved", "must-fail edits refused"]
NOTHING = [0, 0]


def counts(path):
    """The two numbers of each crate of a run."""
    text = pathlib.Path(path).read_text()
    rows = {crate: [0, 0] for crate in PROVED.findall(text)}
    for crate, functions in FUNCTIONS.findall(text):
        if crate in rows:
            rows[crate][0] = int(functions)
    for crate in REFUSED.findall(text):
        rows[crate][1] += 1
    return rows


def is_changed(crate, before, after):
    """Whether only one of two runs has a crate, or its edits are not as many in both."""
    return crate not in before or crate not in after or before[crate][1] != after[crate][1]


def row(name, runs, crates):
    """A row of the table: the numbers of some crates together, in each run."""
    cells = [sum(run.get(crate, NOTHING)[column] for crate in crates) for run in runs for column in range(len(COLUMNS))]
    return f"| {name} | {' | '.join(f'{number:,}' if number else '' for number in cells)} |"


def table(runs, named):
    """The rows of one run, or of what changed between two."""
    crates = [*runs[-1], *[crate for crate in runs[0] if crate not in runs[-1]]]
    shown = [crate for crate in crates if len(runs) == 1 or crate in named or is_changed(crate, *runs)]
    others = [crate for crate in crates if crate not in shown]
    columns = COLUMNS if len(runs) == 1 else [f"{name}, {when}" for when in ("before", "after") for name in COLUMNS]
    rows = [f"| crate | {' | '.join(columns)} |", "|---" * (len(columns) + 1) + "|"]
    rows += [row(f"`{crate}`", runs, [crate]) for crate in shown]
    rows += [row(f"the {len(others)} others", runs, others)] if others else []
    return [*rows, row("together", runs, crates)]


def main():
    if len(sys.argv) < 2:
        sys.exit(__doc__.strip())
    runs, named = [counts(path) for path in sys.argv[1:3]], sys.argv[3:]
    unknown = [crate for crate in named if not any(crate in run for run in runs)]
    if unknown:
        sys.exit(f"in neither run: {', '.join(unknown)}")
    print("\n".join(table(runs, named)))


if __name__ == "__main__":
    main()
