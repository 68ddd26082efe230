"""Puts the tables of one text in the places of those of a page, in their order.

    python3 -B tools/making/put_tables.py PAGE TEXT

A table is a row of lines that start with |. It stops where the two have different numbers of tables.
"""

import itertools
import pathlib
import sys


def pieces(text):
    """The text as rows of lines: of a table, and of what stands between."""
    groups = itertools.groupby(text.split("\n"), lambda line: line.startswith("|"))
    return [(of_table, list(lines)) for of_table, lines in groups]


def main():
    page = pathlib.Path(sys.argv[1])
    found = pieces(page.read_text())
    tables = [lines for of_table, lines in pieces(pathlib.Path(sys.argv[2]).read_text()) if of_table]
    places = sum(of_table for of_table, _ in found)
    if places != len(tables):
        sys.exit(f"{page} has {places} tables, and {len(tables)} are given")
    given = iter(tables)
    page.write_text("\n".join(line for of_table, lines in found for line in (next(given) if of_table else lines)))


if __name__ == "__main__":
    main()
