#!/usr/bin/env python3
"""Brings the repository's own names to snake case. It is run once, at the repository's top, after the kit's port.py.

    python3 tools/respell.py           rewrites the files, and prints what it renamed and what it left
    python3 tools/respell.py --dry     prints the same and writes nothing

A name of specs/ or proofs/ in camel case or with dashes gets underscores. A name that begins with a capital stays, a
dash behind it too. What a file imports from elsewhere than this repository's crates stays in that file.
"""

import collections
import pathlib
import re
import sys

ROOT = pathlib.Path(__file__).resolve().parent.parent
DRY = "--dry" in sys.argv
CRATES = re.findall(r"^(\w+)", (ROOT / "crates.txt").read_text(), re.M)

# Names that would fall together with another, and what they are called instead.
TABLE = {
    "refused-face": "face_refused",
    "size-in-words": "size_in_words_at",
    "first-word": "first_word_is",
    "backs-right": "backs_right_of",
    "true-p": "true_ps",
    "gauge-line": "gauge_line_written",
    "item-line": "item_line_written",
    "best-line": "best_line_written",
    "sheet-printed": "sheet_is_printed",
    "inList": "is_in_list",
    "next-or": "next_or_is",
    "raisedBoth": "raised_pair",
    "size-at": "size_at_is",
    "no-taller": "not_taller",
    "first-digits": "first_digits_are",
    "turned-words": "words_turned",
    "entry-count": "entries_counted",
}
# Names in snake case already that another falls together with in that file.
IN_FILE = {
    ("crates/sizes/proofs/OrderedSizes.antt", "in_order"): "limits_before_order",
    ("crates/stepping/proofs/Steps.antt", "left_after"): "left_after_is",
}

TOKEN = re.compile(r"[^\s(){},;.\"⌜⌝`\[\]:]+")
USE = re.compile(r"^[ \t]*(?:ghost )?(?:pub )?use ([^\s;{}]+?)\.\{([^}]*)\}", re.M)
SIGNATURE = re.compile(r"^[ ]*(?:(?:pub|abbrev|unfoldable|data|record|axiom|opaque) )*([^\s(){}:;,.=]+)(?: [({][^=]*)? :(?:\s|$)")


def old(token):
    """Whether the token is a lower-case name in yesterday's spelling."""
    return re.fullmatch(r"[a-z][\w'-]*", token) is not None and re.search(r"[A-Z]|\w-\w|'-\w", token) is not None


def snake(name):
    if name in TABLE:
        return TABLE[name]
    name = re.sub(r"(?<=[a-z0-9'₀-₉])([A-Z])", lambda m: "_" + m.group(1), name)
    name = re.sub(r"(?<=[A-Z])([A-Z])", lambda m: "_" + m.group(1), name)
    return re.sub(r"[-_]+", "_", name).lower()


def parts(text, mark):
    """The text as pieces (is it code, piece), a line comment being none."""
    at = 0
    for m in re.finditer(mark + r"[^\n]*", text):
        before = text[text.rfind("\n", 0, m.start()) + 1 : m.start()]
        if before.count('"') % 2:
            continue
        yield True, text[at : m.start()]
        yield False, m.group(0)
        at = m.end()
    yield True, text[at:]


def tokens(text):
    """(start, end, token, whether a tight dot stands before it)"""
    for m in TOKEN.finditer(text):
        at = m.start()
        tight = at > 1 and text[at - 1] == "." and not text[at - 2].isspace()
        yield at, m.end(), m.group(0), tight


def own(module):
    """Whether the module is a file of this repository: no generated one, and no function's proof."""
    steps = module.split(".")
    if steps[0] != "Rattle" or len(steps) < 4 or steps[1] not in CRATES or steps[-1] == "Proof":
        return False
    return (ROOT / "crates" / "/".join(steps[1:])).with_suffix(".antt").exists()


class Antt:
    def __init__(self, path):
        self.path = path
        self.text = path.read_text()
        self.proof = path.name == "Proof.antt"
        self.code = "".join(piece if code else " " * len(piece) for code, piece in parts(self.text, r"--(?= |$|\n)"))
        self.kit, self.own = set(), set()
        for module, names in USE.findall(self.code):
            for name in names.split(","):
                words = name.split()
                if not words:
                    continue
                (self.own if own(module) else self.kit).add(words[0])
                if len(words) == 3:
                    self.own.add(words[2])
        self.defined, self.fields = set(), set()
        body = USE.sub("", self.code)
        inside = None
        for line in body.split("\n"):
            if not line.strip():
                continue
            depth = len(line) - len(line.lstrip())
            if inside is not None and depth <= inside:
                inside = None
            m = SIGNATURE.match(line)
            if m and m.group(1) not in ("let", "module", "λ"):
                self.defined.add(m.group(1))
                if inside is not None:
                    self.fields.add(m.group(1))
            if re.match(r"\s*(?:pub |deriving )*(?:record|data) .*\bwhere$", line):
                inside = depth


ANTT = [Antt(p) for p in sorted(ROOT.glob("crates/*/specs/**/*.antt")) + sorted(ROOT.glob("crates/*/proofs/**/*.antt"))]
DEFINED = {n for f in ANTT if not f.proof for n in f.defined}
FIELDS = {n for f in ANTT if not f.proof for n in f.fields}
RTS = sorted(ROOT.glob("crates/*/src/**/*.rt"))
RT_TEXT = "".join(p.read_text() for p in RTS)
RT_WORDS = set(re.findall(r"\w+", RT_TEXT))

RT_FNS = set(re.findall(r"\bfn (\w+)", RT_TEXT))

left = collections.Counter()
doubtful = collections.Counter()
renamed = {}
clashes = []


def say_old(name):
    new = snake(name)
    if new != name:
        renamed[name] = new
    return new


def in_antt(f, token, tight):
    """The token as it is to be called in the file."""
    here = IN_FILE.get((str(f.path.relative_to(ROOT)), token))
    if here and not tight:
        return here
    if not old(token):
        return token
    if f.proof:
        if tight:
            if token in FIELDS and ("-" not in token or snake(token) not in RT_WORDS):
                return say_old(token)
            if token in FIELDS:
                left[f"{f.path.relative_to(ROOT)}: .{token}"] += 1
            return token
        if token in f.own and token not in f.kit:
            return say_old(token)
        if token in FIELDS and token not in f.kit and token not in f.defined:
            return say_old(token)
        return token
    if tight:
        if token in FIELDS or token in DEFINED and token not in f.kit:
            if "-" in token and snake(token) in RT_FNS:
                doubtful[f"{f.path.relative_to(ROOT)}: .{token}"] += 1
            return say_old(token)
        left[f"{f.path.relative_to(ROOT)}: .{token}"] += 1
        return token
    if token in f.kit:
        return token
    return say_old(token)


def rewrite(text, rule):
    out, at = [], 0
    for start, end, token, tight in tokens(text):
        new = rule(token, tight)
        if new != token:
            out += [text[at:start], new]
            at = end
    return "".join(out) + text[at:]


def in_comment(text, known):
    """Only words in camel case, and in backticks also those with dashes."""
    def known_old(token):
        # The kit's port may have renamed it before.
        return old(token) and (token in known or token not in KITS and snake(token) in DEFINED)

    def rule(token, tight):
        bare = token.strip("'")
        return token.replace(bare, snake(bare)) if known_old(bare) and "-" not in bare else token

    text = rewrite(text, rule)
    return re.sub(r"`[^`\n]*`", lambda m: rewrite(m.group(0), lambda t, _: snake(t) if known_old(t) else t), text)


def put(path, text):
    if path.read_text() != text and not DRY:
        path.write_text(text)


BY_PATH = {f.path: f for f in ANTT}
new_text = {}
for f in ANTT:
    pieces = []
    for code, piece in parts(f.text, r"--(?= |$|\n)"):
        if code:
            pieces.append(rewrite(piece, lambda t, d, f=f: in_antt(f, t, d)))
        else:
            pieces.append((code, piece))
    new_text[f.path] = pieces
KITS = {n for f in ANTT for n in f.kit}
KNOWN = (DEFINED | set(renamed)) - KITS
for path, pieces in new_text.items():
    put(path, "".join(p if isinstance(p, str) else in_comment(p[1], KNOWN) for p in pieces))

# Two names of one file that would fall together.
for f in ANTT:
    seen = collections.defaultdict(set)
    for _, _, token, tight in tokens(f.code):
        seen[in_antt(f, token, tight)].add((token, tight))
    for new, olds in seen.items():
        names = {t for t, _ in olds}
        if len(names) > 1:
            clashes.append((str(f.path.relative_to(ROOT)), new, sorted(("." if d else "") + t for t, d in olds)))

# The clauses of Rattle.
RT_OWN = {}


def clauses(text):
    """The spans of ghost imports, ghost blocks and clauses."""
    for m in re.finditer(r"\bghost use [^;]*;", text):
        yield m.start(), m.end()
    for m in re.finditer(r"\b(?:requires|ensures|invariant|decreases|aborts|ghost)\b[^{};]*\{", text):
        line = text[text.rfind("\n", 0, m.start()) + 1 : m.start()]
        if "//" in line:
            continue
        depth, at = 1, m.end()
        while depth:
            depth += {"{": 1, "}": -1}.get(text[at], 0)
            at += 1
        yield m.start(), at


def rt_names(text):
    names, kit = set(), set()
    for module, inner in re.findall(r"ghost (?:pub )?use ([^\s;{}]+?)\.\{([^}]*)\}", text):
        for name in inner.split(","):
            if name.split():
                (names if own(module) else kit).update(w for w in name.split() if w != "as")
    return names, kit


for path in RTS:
    text = path.read_text()
    names, kit = rt_names(text)
    RT_OWN[path] = names - kit
    rule = lambda t, d: say_old(t) if old(t) and (t in names - kit or d and t in FIELDS) else t
    out, at = [], 0
    for start, end in sorted(clauses(text)):
        if start < at:
            continue
        out += [text[at:start], rewrite(text[start:end], rule)]
        at = end
    new = "".join(out) + text[at:]
    new = "".join(p if code else in_comment(p, KNOWN) for code, p in parts(new, "//"))
    words = set(re.findall(r"\w+", "".join(p if code else "" for code, p in parts(text, "//"))))
    for name in sorted(names):
        if old(name) and snake(name) in words:
            clashes.append((str(path.relative_to(ROOT)), snake(name), [name, "(a word of the code)"]))
    put(path, new)

# The wrong programs.
for path in sorted(ROOT.glob("crates/*/must-fail/*.edit")):
    target, lines = None, []
    for line in path.read_text().split("\n"):
        if line.startswith("file: "):
            target = path.parent.parent / line[6:].strip()
        elif line.startswith(("old:", "new:")) and target is not None:
            head, body = line[:4], line[4:]
            if target.suffix == ".antt" and target in BY_PATH:
                body = rewrite(body, lambda t, d: in_antt(BY_PATH[target], t, d))
            elif target in RT_OWN:
                body = rewrite(body, lambda t, d: say_old(t) if old(t) and (t in RT_OWN[target] or d and t in FIELDS) else t)
            line = head + body
        elif "`" in line or re.search(r"[a-z][A-Z]", line):
            line = in_comment(line, KNOWN)
        lines.append(line)
    put(path, "\n".join(lines))

# The pages, and the program that lists the definitions.
for path in sorted(ROOT.glob("docs/*.md")) + [ROOT / "README.md", ROOT / "CONTRIBUTING.md"]:
    text = path.read_text()
    new = in_comment(text, DEFINED - KITS)
    changed = sum(a != b for a, b in zip(text.split("\n"), new.split("\n")))
    if changed:
        print(f"page {path.relative_to(ROOT)}: {changed} lines")
    put(path, new)
path = ROOT / "tools" / "definitions.py"
text = path.read_text()
put(path, re.sub(r'(_?"[^"\n]*\.antt", ")([^"\n]+)(")', lambda m: m[1] + (snake(m[2]) if old(m[2]) else m[2]) + m[3], text))

for name, new in sorted(TABLE.items()):
    print(f"table {name} -> {new}")
for path, new, olds in sorted(clashes):
    print(f"clash {path}: {new} <- {', '.join(olds)}")
for where, count in sorted(left.items()):
    print(f"left {where} ({count})")
for where, count in sorted(doubtful.items()):
    print(f"doubtful {where} ({count}): a function has the name too")
doubles = sorted(n for n in DEFINED if old(n) and any(n in f.kit for f in ANTT))
for n in doubles:
    print(f"double {n}: own, and in some file the kit's")
RESERVED = set("data record deriving module where use mod pub package open as unfoldable abbrev axiom unfold unfolding ruleset mutual infix infixl infixr elim let in do coe search assumption ground omega grind simp rw cc hlevel".split())
for n, new in sorted(renamed.items()):
    if new in RESERVED:
        print(f"reserved {n} -> {new}")
types = set()
for f in ANTT:
    for line in f.code.split("\n"):
        m = SIGNATURE.match(line)
        if m and re.match(r"[a-z]", m[1]) and re.search(r"(→ |: )Type 0$", line):
            print(f"lower-case type {f.path.relative_to(ROOT)}: {m[1]}")
mixed = sorted(n for n in renamed if "-" in n and re.search(r"[A-Z]", n))
print("dash and capital:", ", ".join(f"{n} -> {renamed[n]}" for n in mixed))
print(f"renamed {len(renamed)} names, {len([n for n in renamed if n in DEFINED])} of them defined, {len([n for n in renamed if n in FIELDS])} fields or constructors")
