"""The load program: what it must write for a load, by a dictionary for the resumes and the tree for the blocks.

A line such as `scattered 25 40 2000` asks for 25 cases of 40 steps, inserted in that order, and 2,000 resumes.
Use: python3 reference/load.py < crates/load/stdin > crates/load/stdout
"""

import sys

from index import Index

RANGE = 2**20


def numbers(order):
    """Every number below the range once, in this order."""
    number = 0
    for _ in range(RANGE):
        yield number
        number = (number + 1 if order == "ascending" else number * 1_664_525 + 1_013_904_223) % RANGE


def fill(order, cases, steps):
    """The index after all insertions, and the last handle of each case."""
    index, last = Index(2**20 - 1), {}
    for number in numbers(order):
        if number < cases * steps:
            case, step = divmod(number, steps)
            index.insert((case, step), number + 1_000_000)
            last[case] = max(last.get(case, 0), number + 1_000_000)
    return index, last


def answer(line):
    """The lines that the load program writes for a line."""
    order, *sizes = line.split(" ")
    cases, steps, resumes = map(int, sizes)
    index, last = fill(order, cases, steps)
    found, checksum = 0, 0
    for number in range(resumes):
        handle = last.get(number * 7_919 % (cases + 1))
        if handle is not None:
            found += 1
            checksum = (checksum * 31 + handle) % 2**64
    return (f"{line}\n{index.tally} inserted\n"
            f"{resumes} resumed, {found} found, checksum {checksum}\n"
            f"{index.granted} blocks granted\n")


if __name__ == "__main__":
    for given in sys.stdin.read().splitlines():
        sys.stdout.write(answer(given))
