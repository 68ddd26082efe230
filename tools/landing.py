#!/usr/bin/env python3
"""Measures what a landing changed, as Markdown tables for its note.

    python3 tools/landing.py REV [NEW]

compares two commits of this repository: REV, the landing before, and NEW, which is HEAD where it is not given. It says

- which definitions of specs/ were changed, taken out, or only moved to another file, and how many were added in which
  crates. Their comments and `use` lines do not count;
- which contracts of the public calls, those of CALLS in definitions.py, have another text;
- how many lines of proofs/ were changed, added and taken out. A file that git takes for a moved one (`git diff -M`) is
  compared with what it was before;
- how many files stayed byte for byte, and the lines before and after of each crate of which a file of src/, specs/ or
  proofs/ changed. Those as they were are one row.
"""

import ast
import collections
import re
import subprocess
import sys

KINDS = ["src", "specs", "proofs"]
HEAD = re.compile(r"^(?:(?:pub|abbrev|unfoldable|data|record) )*(?!unfolding )([^\s(){}:;]+)\s")
LEFT_OUT = re.compile(r"\s*--|(?:(?:pub|abbrev|unfoldable) )*(?:use|mod) ")
HUNK = re.compile(r"^@@ -\d+(?:,(\d+))? \+\d+(?:,(\d+))? @@", re.M)


def git(*words, given=None):
    """What a git command prints, as bytes."""
    return subprocess.run(["git", *words], input=given, stdout=subprocess.PIPE, check=True).stdout


def files_at(commit):
    """The files of a commit below crates/ and tools/, by their paths."""
    paths = git("ls-tree", "-r", "-z", "--name-only", commit, "--", ":/crates", ":/tools").decode().split("\0")[:-1]
    answer = git("cat-file", "--batch", given="".join(f"{commit}:{path}\n" for path in paths).encode())
    files = {}
    for path in paths:
        head, _, answer = answer.partition(b"\n")
        size = int(head.split()[-1])
        files[path] = answer[:size]
        answer = answer[size + 1 :]
    return files


def kind_of(path):
    """The crate of a file and which of the three kinds it is, or nothing."""
    parts = path.split("/")
    if len(parts) < 4 or parts[0] != "crates" or parts[2] not in KINDS or not path.endswith((".rt", ".antt")):
        return None
    return parts[1], parts[2]


def sources(files, kind):
    return {path: files[path].decode() for path in files if kind_of(path) and kind_of(path)[1] == kind}


def definitions_of(text):
    """The definitions of a file of specs/, each as one line, by their names."""
    found = collections.defaultdict(list)
    name = None
    for line in text.split("\n"):
        if LEFT_OUT.match(line):
            continue
        head = HEAD.match(line)
        if head:
            name = head.group(1)
        if name:
            found[name] += line.split()
    return {name: " ".join(words) for name, words in found.items()}


def all_definitions(files):
    """The definitions of all specs/, by their path and name."""
    return {(path, name): words for path, text in sources(files, "specs").items() for name, words in definitions_of(text).items()}


def compared(old, new):
    """The definitions that are changed, added, gone and moved. One that is gone from a file and stands under its name in
    another has moved, and is changed where its text is another."""
    changed = [key for key in old if key in new and old[key] != new[key]]
    gone = [key for key in old if key not in new]
    added = [key for key in new if key not in old]
    moved = []
    for key in list(gone):
        namesakes = [other for other in added if other[1] == key[1]]
        if namesakes:
            other = max(namesakes, key=lambda other: new[other] == old[key])
            gone.remove(key)
            added.remove(other)
            (moved if new[other] == old[key] else changed).append(other)
    return {"changed": changed, "added": added, "gone": gone, "only moved to another file": moved}


def contracts(files):
    """The clauses of the public calls, by their crate and name."""
    [page] = [path for path in files if path.endswith("/definitions.py")]
    [calls] = [
        ast.literal_eval(node.value)
        for node in ast.parse(files[page]).body
        if isinstance(node, ast.Assign) and node.targets[0].id == "CALLS"
    ]
    found = {}
    for path, call in calls:
        after = files[f"crates/{path}"].decode().split(f"pub fn {call}(", 1)[1]
        found[f"{path.split('/')[0]}::{call}"] = " ".join(after[: after.index("\n{")].split())
    return found


def proof_lines(old, new):
    """How many lines of proofs/ are changed, added and gone between two commits, hunk by hunk."""
    diff = git("diff", "-M", "-U0", "--no-color", old, new, "--", ":/crates/*/proofs/*.antt").decode()
    changed = added = gone = 0
    for before, after in HUNK.findall(diff):
        before, after = int(before or 1), int(after or 1)
        changed += min(before, after)
        added += max(0, after - before)
        gone += max(0, before - after)
    return changed, added, gone


def lines(texts):
    return sum(text.count("\n") for text in texts)


def row(*cells):
    return "| " + " | ".join(f"{cell:,}" if isinstance(cell, int) else cell for cell in cells) + " |\n"


def names(keys):
    return ", ".join(f"`{name}`" for name in sorted({name for _, name in keys})) or "none"


def crates_of(keys):
    """The crates in which definitions stand, each with how many."""
    count = collections.Counter(kind_of(path)[0] for path, _ in keys)
    return "in " + ", ".join(f"`{crate}` ({count[crate]})" for crate in sorted(count)) if count else "none"


def definition_table(old, new):
    text = row("definitions of `specs/`", "number", "which") + row("---", "---", "---")
    for what, keys in compared(all_definitions(old), all_definitions(new)).items():
        text += row(what, len(keys), crates_of(keys) if what == "added" else names(keys))
    return text


def contract_table(old, new):
    before, after = contracts(old), contracts(new)
    text = row("public calls", "number", "names") + row("---", "---", "---")
    kinds = {
        "contract as it was": [name for name in after if before.get(name) == after[name]],
        "contract changed": [name for name in after if name in before and before[name] != after[name]],
        "added": [name for name in after if name not in before],
        "gone": [name for name in before if name not in after],
    }
    for what, calls in kinds.items():
        text += row(what, len(calls), ", ".join(f"`{call}`" for call in calls) or "none")
    return text


def proof_table(old, new, counts):
    before, after = lines(sources(old, "proofs").values()), lines(sources(new, "proofs").values())
    text = row("lines of `proofs/`", "number", f"of the {before:,} before") + row("---", "---", "---")
    for what, count in zip(["changed", "gone", "added"], [counts[0], counts[2], counts[1]]):
        text += row(what, count, f"{100 * count / before:.1f}%")
    return text + row("all after", after, f"{100 * after / before:.1f}%")


def file_table(old, new):
    contents = collections.Counter(new[path] for path in new if kind_of(path))
    text = row("files", "before", "after", "byte for byte", "byte for byte elsewhere") + row(*["---"] * 5)
    for kind in KINDS:
        before, after = sources(old, kind), sources(new, kind)
        same = [path for path in before if before[path] == after.get(path)]
        moved = [path for path in before if path not in after and contents[old[path]]]
        text += row(f"`{kind}/`", len(before), len(after), len(same), len(moved))
    return text


def by_crate(files):
    """The files of src/, specs/ and proofs/, by their crates and then by their paths."""
    crates = collections.defaultdict(dict)
    for path in files:
        if kind_of(path):
            crates[kind_of(path)[0]][path] = files[path]
    return crates


def crate_row(name, before, after, crates):
    """The lines of some crates together, of each kind, before and after."""
    counts = [
        sum(lines(sources(files.get(crate, {}), kind).values()) for crate in crates)
        for kind in KINDS
        for files in [before, after]
    ]
    return row(name, *counts)


def crate_table(old, new):
    before, after = by_crate(old), by_crate(new)
    crates = sorted({*before, *after})
    changed = [crate for crate in crates if before.get(crate) != after.get(crate)]
    same = [crate for crate in crates if crate not in changed]
    text = row("lines", *[f"`{kind}/` {when}" for kind in KINDS for when in ["before", "after"]]) + row(*["---"] * 7)
    for crate in changed:
        text += crate_row(f"`{crate}`", before, after, [crate])
    text += crate_row(f"the {len(same)} others", before, after, same)
    return text + crate_row(f"{len(before)} crates before, {len(after)} after", before, after, crates)


def main():
    if len(sys.argv) not in (2, 3):
        sys.exit(__doc__)
    commits = sys.argv[1], (sys.argv[2:] or ["HEAD"])[0]
    old, new = files_at(commits[0]), files_at(commits[1])
    tables = definition_table(old, new), contract_table(old, new), proof_table(old, new, proof_lines(*commits))
    print("\n".join([*tables, file_table(old, new), crate_table(old, new)]), end="")


if __name__ == "__main__":
    main()
