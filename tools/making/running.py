"""Running the program `cases` and comparing what it prints."""

import pathlib
import re
import subprocess
import sys

ROOT = pathlib.Path(__file__).resolve().parent.parent.parent


def program(name):
    """Where `rt run` in the folder of a crate leaves the program."""
    return ROOT / "crates" / name / "out" / name


PROGRAM = program("cases")

# The first line of each answer has the name of its case before a colon; no other line has one.
ANSWER = re.compile(r"^(?=[^:\n]+: )", re.MULTILINE)


def run(program, cases, seconds=600):
    """What the program prints for each case."""
    given = "".join(case.line() for case in cases).encode()
    done = subprocess.run([program], input=given, capture_output=True, timeout=seconds)
    if done.returncode != 0 or done.stderr:
        sys.exit(f"{program} ended with {done.returncode}: {done.stderr[:200]!r}")
    answers = ANSWER.split(done.stdout.decode())[1:]
    if len(answers) != len(cases):
        sys.exit(f"{program} answered {len(answers)} of {len(cases)} cases")
    return answers


def different(cases, answers):
    """How many cases differ. Prints the first few."""
    wrong = [(case, answer) for case, answer in zip(cases, answers) if case.answer() != answer]
    for case, answer in wrong[:5]:
        print(f"case     {case.line()[:2000]}\nexpected {case.answer()[:2000]}\nfound    {answer[:2000]}")
    return len(wrong)
