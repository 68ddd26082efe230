#!/usr/bin/env python3
"""Runs pseudo-random cases of every call through `cases`, and compares all that it prints with the documents.

    python3 tools/run_cases.py --cases 5000 --seed 1    runs them, and exits 1 if any answer differs
    python3 tools/run_cases.py --cases 5000 --call save    the same of one call alone

A case is a file, which the reader answers, and a call on it. tools/making/random_cases.py makes them, and what is expected
comes from the models. Some cases read an arena that the list call left, with words replaced; which words a list call
leaves is in part free, so a first run asks for the words of those arenas, holds what is fixed of them against the model,
and only then are the cases made. No such case is in the stored files.
"""

import argparse
import collections
import random
import sys

sys.dont_write_bytecode = True

from making import random_arenas, random_cases, running


def kinds(cases):
    """How many cases there are of each call and number."""
    first = [case.wanted.split("\n")[0].split() for case in cases]
    found = collections.Counter(words[0] if words[0] in ("gauge", "text") else " ".join(words[:2]) for words in first)
    return ", ".join(f"{kind}: {found[kind]}" for kind in sorted(found))


def run(program, cases, count):
    print(kinds(cases))
    wrong = running.different(cases, running.run(program, cases))
    print(f"{count} cases ran, {wrong} differ")
    return wrong


def arenas(rng, program, count):
    """So many arenas that the list call leaves, and how many are not as they should be."""
    bases = random_arenas.lefts(rng, count)
    answers = running.run(program, [case for i, left in enumerate(bases) for case in left.cases(f"arena {i}")])
    # Every other answer is the reader's.
    wrong = sum(not left.take(answer) for left, answer in zip(bases, answers[1::2]))
    print(f"{len(bases)} arenas of the list call, {wrong} not as the documents fix them")
    return bases, wrong


def run_call(program, count, seed, call):
    """Cases of one call."""
    rng = random.Random(seed)
    return run(program, [case for i in range(count) for case in random_cases.made(rng, str(i), [call])], count)


def run_all(program, count, seed):
    rng = random.Random(seed)
    share = count // 8
    bases, wrong = arenas(rng, program, max(1, share // 10))
    if wrong:
        return wrong
    cases = []
    for i in range(count):
        read = i < share
        cases += random_arenas.scrambled(rng, str(i), rng.choice(bases)) if read else random_cases.made(rng, str(i))
    return run(program, cases, count)


def main():
    parser = argparse.ArgumentParser()
    parser.add_argument("--cases", type=int, default=5000)
    parser.add_argument("--seed", type=int, default=1)
    parser.add_argument("--call", choices=list(random_cases.MAKERS))
    parser.add_argument("--program", default=str(running.PROGRAM))
    given = parser.parse_args()
    if given.call:
        sys.exit(1 if run_call(given.program, given.cases, given.seed, given.call) else 0)
    sys.exit(1 if run_all(given.program, given.cases, given.seed) else 0)


if __name__ == "__main__":
    main()
