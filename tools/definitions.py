#!/usr/bin/env python3
"""Lists the definitions that a reader has to believe: those that the contracts of the public calls reach, those that the
statements of the demands' and the papers' theorems reach beyond them, and those that the programs' own contracts do.

    python3 tools/definitions.py            prints the three tables, file by file with the lines of each
    python3 tools/definitions.py --check    says whether docs/TRUST.md has them as they are printed, whether just the
                                            others stand in specs/inside/, and whether docs/PROVED.md names only what
                                            stands in the files that it names, and wrong programs that are there

It reads the sources as text. A contract reaches the names in its clauses; a name reaches those in its own definition.
Lines are all lines of a file, its comments and imports too.
"""

import itertools
import pathlib
import re
import sys

ROOT = pathlib.Path(__file__).resolve().parent.parent
CRATES = ROOT / "crates"
TRUST = ROOT / "docs" / "TRUST.md"
PROVED = ROOT / "docs" / "PROVED.md"

CALLS = [
    ("facefile/src/reader.rt", "read"),
    ("facefile/src/size_bytes.rt", "gauge_bytes"),
    ("levels/src/lib.rt", "fill"),
    ("maxplus/src/read_list.rt", "read"),
    ("maxplus/src/read_list.rt", "read_low"),
    ("shapes/src/listing.rt", "list"),
    ("catalogue/src/cataloguing.rt", "widths"),
    ("fit/src/fitting.rt", "fit"),
    ("materialsheet/src/printing.rt", "sheet"),
    ("report/src/face.rt", "faces_text"),
    ("materialtext/src/face.rt", "material_text"),
    ("saving/src/write.rt", "write_file"),
    ("saving/src/read.rt", "read_words"),
]
THEOREMS = [
    ("slicing/proofs/Demand2.antt", "demand_2"),
    ("shapes/proofs/Demand2.antt", "list_demand_2"),
    ("shapes/proofs/Demand2.antt", "levels_alike"),
    ("slicing/proofs/Demand3.antt", "demand_3"),
    ("slicing/proofs/Demand3.antt", "nothing_exactly"),
    ("slicing/proofs/Demand3.antt", "nothing_where_none"),
    ("slicing/proofs/MergeLaws.antt", "maxplus"),
    ("slicing/proofs/GaugeUseful.antt", "gauge_useful"),
    ("slicing/proofs/GaugeUseful.antt", "ordered_same"),
    ("slicing/proofs/Numbers.antt", "gauge_numbers"),
    ("slicing/proofs/Numbers.antt", "recorded_only"),
    ("facefile/proofs/Version1.antt", "version_1"),
    ("slicing/proofs/StripLaws.antt", "legal_strips"),
    ("slicing/proofs/StripLaws.antt", "legal_sizes"),
    ("slicing/proofs/StripLaws.antt", "strips_legal"),
    ("slicing/proofs/Clearance.antt", "gauges_clear"),
    ("slicing/proofs/Clearance.antt", "no_overlap"),
    ("slicing/proofs/Starts.antt", "starts_across"),
    ("slicing/proofs/Starts.antt", "starts_upward"),
    ("slicing/proofs/Reach.antt", "shapes_reach"),
    ("slicing/proofs/Reach.antt", "shapes_most"),
    ("written/proofs/FileOf.antt", "file_read"),
    ("written/proofs/FileOf.antt", "same_file"),
    ("saving/proofs/RoundTrips.antt", "written_read"),
    ("saving/proofs/RoundTrips.antt", "words_again"),
    ("saving/proofs/RoundTrips.antt", "file_again"),
    ("saving/proofs/RoundTrips.antt", "version_2_again"),
    ("walking/proofs/WidthLayouts.antt", "width_means"),
    ("walking/proofs/WalkLaws.antt", "walked_widths"),
    ("walking/proofs/WalkLaws.antt", "looks_few"),
    ("walking/proofs/WalkLaws.antt", "run_out"),
    ("catalogue/proofs/CatalogueMeans.antt", "catalogue_means"),
    ("maxplus/proofs/LowEnd.antt", "low_is_top"),
    ("maxplus/proofs/LowEnd.antt", "last_is_first"),
    ("maxplus/proofs/LowEnd.antt", "first_is_last"),
    ("covering/proofs/Covering.antt", "used_and_blank"),
    ("covering/proofs/Covering.antt", "rib_across"),
    ("covering/proofs/Covering.antt", "rib_upward"),
    ("materialsheet/proofs/SheetMeans.antt", "sheet_room"),
    ("materialsheet/proofs/SheetMeans.antt", "sheet_means"),
]
PROGRAMS = [
    ("input/src/lib.rt", "read_input"),
    ("input/src/lib.rt", "came"),
    ("filter/src/reply.rt", "reply"),
]

IMPORT = re.compile(r"^(?:ghost |pub )*use Rattle\.(\w+)\.(specs|proofs)\.((?:inside\.)?\w+)\.\{([^}]*)\}", re.M)
HEAD = re.compile(r"^(?:(?:pub|abbrev|unfoldable|data|record) )*([^\s(){}:;]+)\s")
WORD = re.compile(r"[^\s(){}.;,⌜⌝]+")


class File:
    """A file of Rattle or antt: its text, where its imported names come from, and the lines of each definition."""

    def __init__(self, path):
        self.text = path.read_text()
        self.imports = {}
        for crate, folder, module, names in IMPORT.findall(self.text):
            # The kit's own libraries stand elsewhere.
            for name in names.split(",") if (CRATES / crate).is_dir() else []:
                own, _, called = name.strip().partition(" as ")
                self.imports[called or own] = CRATES / crate / folder / f"{module.replace('.', '/')}.antt", own
        self.definitions = {}
        name = None
        for line in self.text.split("\n"):
            if line.startswith(("--", "use ", "pub use ", "pub mod ")):
                continue
            head = HEAD.match(line)
            if head and not line[0].isspace():
                name = head.group(1)
            if name:
                self.definitions.setdefault(name, []).append(line)
        self.owner = {}
        for name, lines in self.definitions.items():
            if re.match(r"(?:pub )?data ", lines[0]):
                self.owner.update((re.split(r"\s+", line.strip())[0], name) for line in lines[1:] if line.strip())


FILES = {}


def file_at(path):
    if path not in FILES:
        FILES[path] = File(path)
    return FILES[path]


def clauses(path, call):
    """The clauses of a public function."""
    after = re.split(rf"pub fn {call}[(<]", file_at(path).text, maxsplit=1)[1]
    return after[: re.search(r"\n *\{\n", after).start()]


def statement(path, theorem):
    """A theorem's type: the first line of it, and those after it that go on with an arrow."""
    first, *later = file_at(path).definitions[theorem]
    arrows = itertools.takewhile(lambda line: line.startswith("    →"), later)
    return "\n".join([first.partition(" : ")[2], *arrows])


def reached(starts):
    """The pairs of a file and a definition that are reached from pairs of a file and a text in it."""
    found = set()
    waiting = list(starts)
    while waiting:
        path, text = waiting.pop()
        file = file_at(path)
        for word in WORD.findall(text):
            word = file.owner.get(word, word)
            if word in file.imports:
                target, name = file.imports[word]
            elif word in file.definitions and path.suffix == ".antt":
                target, name = path, word
            else:
                continue
            name = file_at(target).owner.get(name, name)
            if (target, name) not in found and name in file_at(target).definitions:
                found.add((target, name))
                waiting.append((target, "\n".join(file_at(target).definitions[name])))
    return found


def table(paths):
    rows = [(str(path.relative_to(CRATES)), len(file_at(path).text.splitlines())) for path in sorted(paths)]
    lines = ["| file | lines |", "|---|---|"]
    lines += [f"| `{name}` | {count} |" for name, count in rows]
    lines.append(f"| {len(rows)} files | {sum(count for _, count in rows):,} |")
    return "\n".join(lines) + "\n"


def misplaced(believed):
    """The definitions of specs/ that nobody has to believe, and those of specs/inside/ that a reader has to."""
    outer = {path for path in CRATES.glob("*/specs/*.antt") if path.name not in ("Lib.antt", "inside.antt")}
    return sorted((outer - believed) | (believed - outer))


def contracts_reach(calls):
    return {path for path, _ in reached((CRATES / path, clauses(CRATES / path, call)) for path, call in calls)}


def named_in(row):
    """The files that a row of a table names. One without a folder stands in that of the file before it."""
    found = []
    for name in re.findall(r"`(\S+\.(?:antt|rt))`", row):
        found.append(ROOT / name if "/" in name else found[-1].parent / name)
    return found


def missing(page):
    """The names of a page's tables that stand in no file of their row, where the row names files, and the wrong programs
    that are not there."""
    found = []
    for row in [line for line in page.split("\n") if line.startswith("|")]:
        files = named_in(row)
        words = WORD.findall(" ".join(path.read_text() for path in files if path.is_file()).replace("`", " "))
        names = [name for name in re.findall(r"`([\w'-]+)`", row) if files and name not in words]
        found += [f"{path}: no such file" for path in files if not path.is_file()]
        found += [f"{name}: not in {', '.join(path.name for path in files)}" for name in names]
        for crate, label in re.findall(r"`(\w+)/(\w+)`", row):
            if not (CRATES / crate / "must-fail" / f"{label}.edit").is_file():
                found.append(f"{crate}/{label}: no such wrong program")
    return found


def faults(tables, believed):
    if any(part not in TRUST.read_text() for part in tables):
        yield "docs/TRUST.md has other tables"
    for path in misplaced(believed):
        yield f"{path.relative_to(ROOT)}: stands in the wrong folder"
    for what in missing(PROVED.read_text()):
        yield f"docs/PROVED.md: {what}"


def main():
    contracts = contracts_reach(CALLS)
    theorems = {path for path, _ in reached((CRATES / path, statement(CRATES / path, law)) for path, law in THEOREMS)}
    programs = contracts_reach(PROGRAMS)
    tables = table(contracts), table(theorems - contracts), table(programs - contracts - theorems)
    if "--check" in sys.argv[1:]:
        if wrong := list(faults(tables, contracts | theorems | programs)):
            sys.exit("\n".join(wrong))
        print("docs/TRUST.md has the tables as they are, specs/inside/ the others, and docs/PROVED.md names what is there")
        return
    print("What the contracts of the calls reach:\n\n" + tables[0])
    print("What the statements of the demands' and the papers' theorems reach beyond that:\n\n" + tables[1])
    print("What the programs' own contracts reach beyond that:\n\n" + tables[2], end="")


if __name__ == "__main__":
    main()
