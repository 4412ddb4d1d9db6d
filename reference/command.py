"""The command program: lines in, one line out for each, on a fresh index in 32 blocks.

Run: python3 reference/command.py < input > output
"""

import sys

from index import Index, Refusal

BLOCKS = 32
LONGEST_INPUT = 65536
LONGEST_LINE = 80
PART = 2**32
WORD = 2**64

# For each command the number of values that each of its numbers can have.
COMMANDS = {
    b"add": [PART, PART, WORD],
    b"del": [PART, PART],
    b"find": [PART, PART],
    b"floor": [PART, PART],
    b"resume": [PART],
}


def number(word, values):
    """The number that plain digits stand for, or None when it is none of so many values."""
    if not word.isdigit() or (word[:1] == b"0" and word != b"0"):
        return None
    return int(word) if int(word) < values else None


def parse(line):
    """The command's name and its numbers, or None for a bad line."""
    if len(line) > LONGEST_LINE:
        return None
    name, *words = line.split(b" ")
    ranges = COMMANDS.get(name)
    if ranges is None or len(words) != len(ranges):
        return None
    numbers = [number(word, values) for word, values in zip(words, ranges)]
    return None if None in numbers else (name.decode(), numbers)


def lines_of(data):
    """The lines without their line feeds; the last one may lack it."""
    lines = data.split(b"\n")
    return lines[:-1] if lines[-1] == b"" else lines


def show_pair(pair):
    """Case, step and handle, or none."""
    if pair is None:
        return "none"
    (case, step), handle = pair
    return f"{case} {step} {handle}"


class Session:
    """A fresh checkpoint index that answers lines."""

    def __init__(self):
        """Create the index."""
        self.index = Index(BLOCKS)

    def answer(self, line):
        """The answer to one line, without its line feed."""
        parsed = parse(line)
        if parsed is None:
            return "bad"
        name, numbers = parsed
        try:
            return getattr(self, "do_" + name)(*numbers)
        except Refusal as refusal:
            return f"no {refusal.number}"

    def do_add(self, case, step, handle):
        """Insert a checkpoint."""
        return "ok " + self.index.insert((case, step), handle)

    def do_del(self, case, step):
        """Delete a checkpoint."""
        return "ok " + self.index.delete((case, step))

    def do_find(self, case, step):
        """The handle of a checkpoint."""
        handle = self.index.find((case, step))
        return "none" if handle is None else str(handle)

    def do_floor(self, case, step):
        """The last checkpoint at or before this one."""
        return show_pair(self.index.floor((case, step)))

    def do_resume(self, case):
        """The last checkpoint of a case."""
        pair = self.index.floor((case, PART - 1))
        return show_pair(pair if pair and pair[0][0] == case else None)


def run(data):
    """All that the program prints for this input."""
    if len(data) > LONGEST_INPUT:
        return b"input too long\n"
    session = Session()
    return b"".join(session.answer(line).encode() + b"\n" for line in lines_of(data))


if __name__ == "__main__":
    sys.stdout.buffer.write(run(sys.stdin.buffer.read(LONGEST_INPUT + 1)))
