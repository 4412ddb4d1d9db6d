"""Write the command program's cases: inputs, the outputs they must give, their names.

Run: python3 reference/make_cases.py
"""

from collections import Counter
from pathlib import Path

import command
import input_cases
import mixed_cases
import node_cases
import tree_cases

DATA = Path(__file__).resolve().parent.parent / "crates" / "cases" / "data"

REQUIRED = [
    "S at level 0", "S at level 1", "M at level 0", "M at level 1", "B at level 0",
    "B at level 1", "S at level 1 below the root", "marks SS---", "marks -S---",
    "marks MM---", "marks -M---", "marks BM---", "marks -B---", "marks MB---", "marks BB---",
    "no 3", "no 4", "no 6", "no 6 with a block free", "no 6 at a leaf not full",
    "no 6, then 3", "bad", "none", "root 0 to 1", "root 1 to 2", "root 2 to 1",
    "root 1 to 0", "root from 2 down to 0", "all deleted after level 2",
]


def events_of(data):
    """Count what happens while the program answers this input."""
    events = Counter()
    if len(data) > command.LONGEST_INPUT:
        return Counter({"input too long": 1})
    session, highest, refused = command.Session(), 0, False
    for line in command.lines_of(data):
        before = session.index.root.level
        parsed = command.parse(line)
        answer = session.answer(line)
        level = session.index.root.level
        events[answer if answer in ("bad", "none") or answer[:2] == "no" else "other"] += 1
        if answer.startswith("ok"):
            events.update(mark_events(answer[3:], before))
        if answer == "no 6":
            events.update(no_room_events(session.index, tuple(parsed[1][:2])))
        events["no 6, then 3"] += refused and answer == "no 3"
        refused = answer == "no 6"
        highest = max(highest, level)
        events[f"root {before} to {level}"] += before != level
        events["root from 2 down to 0"] += highest == 2 and (before, level) == (1, 0)
        events["all deleted after level 2"] += highest == 2 and session.index.root.weight() == 0
    session.index.check()
    return events


def mark_events(marks, root_level):
    """What these marks of an accepted update show."""
    yield "marks " + marks
    for level, mark in enumerate(marks):
        if mark != "-":
            yield f"{mark} at level {level}"
            if level == 1 and mark == "S" and root_level == 2:
                yield "S at level 1 below the root"


def no_room_events(index, key):
    """What is special about an insertion refused for want of room."""
    if index.granted < index.capacity:
        yield "no 6 with a block free"
    if index.path(key)[-1].weight() < index.shape.leaf_limit:
        yield "no 6 at a leaf not full"


def write(cases):
    """Replace the data directory's cases by these."""
    DATA.mkdir(parents=True, exist_ok=True)
    for old in [*DATA.glob("*.in"), *DATA.glob("*.out")]:
        old.unlink()
    for name, data in cases.items():
        (DATA / (name + ".in")).write_bytes(data)
        (DATA / (name + ".out")).write_bytes(command.run(data))
    (DATA / "names").write_text("".join(name + "\n" for name in sorted(cases)))


def main():
    """Make all cases, see that they cover what they must, write them and tell."""
    cases = input_cases.cases()
    for module in (tree_cases, node_cases, mixed_cases):
        cases |= {name: script.data() for name, script in module.scripts().items()}
    total = Counter()
    cases_with = Counter()
    for name, data in cases.items():
        assert len(data) <= command.LONGEST_INPUT or name.startswith("size-over"), name
        events = +events_of(data)
        total += events
        cases_with.update(events.keys())
    missing = [event for event in REQUIRED if not total[event]]
    assert not missing, missing
    write(cases)
    for event in sorted(total):
        print(f"{event}: {total[event]} times, in {cases_with[event]} cases")
    size = sum(path.stat().st_size for path in DATA.iterdir())
    print(f"{len(cases)} cases, {size} bytes in {DATA}")


if __name__ == "__main__":
    main()
