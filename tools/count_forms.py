#!/usr/bin/env python3
"""Counts the older forms in the code of a checkout: python3 tools/count_forms.py [--list] [DIR]

Each line is a point of docs/DESIGN-PASS.md, how many places a pattern finds in crates/*/src, and what it looks for. With --list the
places stand under it. The patterns find spellings and not meanings: the page says of what is left why it stands.
"""
import pathlib
import re
import sys

PATTERNS = [
    ('1', 'a step that stops or goes on, as an enum of our own', r'\b(Stop|Next)\('),
    ('1', 'a number, a flag or a code beside the value that it is of',
     r'^ +(pub )?(number|read|found|last): (u|i|b)'),
    ('1', 'a function that answers the number of a check, or 0', r'\bfn (\w+_number|first_no|fill)\((?!.*text)'),
    ('1', 'a check or "taken" by its number', r'\bchecks::[A-Z][A-Z_]*\b'),
    ('1', 'the kind of an entry by its number', r'\b(GAUGE|BESIDE|STACKED)\b'),
    ('1', 'the letter of a call compared', r"letter == b'"),
    ('2', 'a name that two functions have', None),
    ('3', 'a loop that is no `for`', r'^ *(while|loop)\b'),
    ('4', 'a conversion, a minimum or a maximum by a function of our own',
     r'\bfn (wide|word_of|byte_of|code|length_of|with_byte|lesser|greater|at_most)\('),
    ('4', 'a use of one', r'\b(?<!fn )(wide|word_of|byte_of|code|length_of|lesser|greater|at_most)\('),
    ('4', 'wrapping arithmetic by a path and not a method', r'std::num::wrapping_'),
    ('5', 'a function of six parameters or more', None),
    ('5', 'a part of the state of a merge as a parameter', r'(ends: &|lasts: &|(olders|newers|sums): &mut)'),
    ('5', 'where a stored list stands, how long it is or how it is read, as a parameter or a field',
     r'(from: usize|count: usize|across: bool)'),
    ('6', 'a function that makes a room to say its length', r'\bfn [a-z]*_room\('),
    ('6', 'one of two parallel arrays', r'\b(least|most|ms|ps)\b: &mut \['),
    ('7', 'a flag as a parameter that says which way to go', r'\b(across|upward|goes|low|turned|older|newer): bool'),
]


def sources(root):
    """The files of the code, by name."""
    return sorted(root.glob('crates/*/src/**/*.rt'))


def code_lines(path):
    """The lines of a file without comments, with their numbers."""
    for number, line in enumerate(path.read_text().splitlines(), 1):
        if not line.lstrip().startswith('//'):
            yield number, line


def matches(root, pattern):
    """The places where a line of the code fits a pattern."""
    return [(path, number, line.strip()) for path in sources(root) for number, line in code_lines(path)
            if re.search(pattern, line)]


def functions(root):
    """Each function with its file, its line and its parameters."""
    for path in sources(root):
        text = path.read_text()
        for found in re.finditer(r'^ *(?:pub )?fn (\w+)(?:<.*?>)?\(([^{]*?)\)(?=\s*(?:->|\n|\{))', text, re.M):
            parameters = [part for part in found[2].split(',') if ':' in part or 'self' in part]
            yield path, text.count('\n', 0, found.start()) + 1, found[1], parameters


def shared_names(root):
    """The functions whose name another function has too."""
    named = list(functions(root))
    names = [name for _, _, name, _ in named]
    return [(path, number, name) for path, number, name, _ in named if names.count(name) > 1 and name != 'main']


def long_lists(root):
    """The functions of six parameters or more."""
    return [(path, number, f'{name}: {len(parameters)}') for path, number, name, parameters in functions(root)
            if len(parameters) >= 6]


def places(root, what, pattern):
    """The places of one line of the table."""
    if pattern:
        return matches(root, pattern)
    return shared_names(root) if what.startswith('a name') else long_lists(root)


def main(words):
    """Prints the table of a checkout."""
    listed = '--list' in words
    folders = [word for word in words if word != '--list']
    root = pathlib.Path(folders[0] if folders else '.')
    for point, what, pattern in PATTERNS:
        found = places(root, what, pattern)
        print(f'{point}  {len(found):4}  {what}')
        for path, number, line in found if listed else []:
            print(f'         {path.relative_to(root)}:{number}: {line}')


main(sys.argv[1:])
