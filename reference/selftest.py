"""Self test of the reference index: random mixes against a plain sorted list, and edges.

Run: python3 reference/selftest.py
"""

import random
from bisect import bisect_left, bisect_right, insort
from pathlib import Path

import command
import index
from index import Index, Inner, Leaf, Refusal, Shape

ROOMY = 1048575
GAP = 100
DATA = Path(__file__).resolve().parent.parent / "crates" / "cases" / "data"


# The plain sorted list


class Plain:
    """The pairs as a plain sorted list of keys and a table of handles."""

    def __init__(self, key_limit):
        """Begin with no pairs."""
        self.key_limit = key_limit
        self.keys = []
        self.handles = {}

    def insert(self, key, handle, no_room):
        """The refusal of an insertion, or None when the pair went in."""
        if key in self.handles:
            return index.PRESENT
        if len(self.keys) == self.key_limit:
            return index.FULL
        if no_room:
            return index.NO_ROOM
        insort(self.keys, key)
        self.handles[key] = handle
        return None

    def delete(self, key):
        """The refusal of a deletion, or None when the key went out."""
        if key not in self.handles:
            return index.ABSENT
        del self.keys[bisect_left(self.keys, key)], self.handles[key]
        return None

    def floor(self, key):
        """The largest pair with a key at most this one, or None."""
        at = bisect_right(self.keys, key)
        return (self.keys[at - 1], self.handles[self.keys[at - 1]]) if at else None

    def rank(self, key):
        """How many keys are below this one."""
        return bisect_left(self.keys, key)

    def report(self, low, high):
        """The pairs from low to high."""
        return [(key, self.handles[key]) for key in self.keys if low <= key <= high]


# Random mixes


class Trial:
    """An index and a plain list that are given the same calls."""

    def __init__(self, name, shape, capacity, seed, checked=1):
        """Begin with both empty; all rules are checked at every so many updates."""
        self.name = name
        self.shape = shape
        self.index = Index(capacity, shape)
        self.plain = Plain(shape.key_limit())
        self.random = random.Random(seed)
        self.checked = checked
        self.counts = {}
        self.highest = 0

    def insert(self, key):
        """Insert into both; the outcome must be the same."""
        handle = self.random.randrange(2**64)
        needed = self.index.blocks_needed(key)
        granted = self.index.granted
        no_room = granted + needed > self.index.capacity
        marks, refusal = attempt(self.index.insert, key, handle)
        assert refusal == self.plain.insert(key, handle, no_room), (self.name, key)
        if refusal is None:
            assert self.index.granted == granted + needed
        self.settle(marks, refusal)

    def delete(self, key):
        """Delete from both; the outcome must be the same."""
        marks, refusal = attempt(self.index.delete, key)
        assert refusal == self.plain.delete(key), (self.name, key)
        self.settle(marks, refusal)

    def settle(self, marks, refusal):
        """Count what happened, then check the bound and at times the rules."""
        events = [f"no {refusal}"] if refusal else \
            [mark + str(level) for level, mark in enumerate(marks) if mark != "-"]
        for event in events:
            self.counts[event] = self.counts.get(event, 0) + 1
        self.highest = max(self.highest, self.index.root.level)
        for level in range(self.shape.top + 1):
            done = sum(self.counts.get(mark + str(level), 0) for mark in "SMB")
            least = self.shape.limit(level) // 8 + 1
            assert done * least <= self.index.tally, (self.name, level)
        if self.index.tally % self.checked == 0:
            self.index.check()

    def ask(self, key):
        """Every query must answer as the plain list does."""
        assert self.index.find(key) == self.plain.handles.get(key)
        assert self.index.floor(key) == self.plain.floor(key)
        assert self.index.rank(key) == self.plain.rank(key)

    def ask_report(self, low, high, length):
        """A report must answer as the plain list does, and leave the other places."""
        keys, handles = ["free"] * length, ["free"] * length
        expected = self.plain.report(low, high)
        assert self.index.report(low, high, keys, handles) == len(expected)
        spare = [("free", "free")] * max(length - len(expected), 0)
        assert list(zip(keys, handles)) == expected[:length] + spare

    def finish(self):
        """Check all at the end and tell what the trial met."""
        self.index.check()
        assert list(index.pairs(self.index.root)) == self.plain.report(0, 2**64)
        events = " ".join(f"{event}:{self.counts[event]}" for event in sorted(self.counts))
        print(f"{self.name}: {self.index.tally} updates, root level to {self.highest}; {events}")


def attempt(call, *arguments):
    """The answer and no refusal, or no answer and the refusal's number."""
    try:
        return call(*arguments), None
    except Refusal as refusal:
        return None, refusal.number


def mix(trial, universe, steps, phases):
    """Updates at random keys that now mostly insert, now mostly delete."""
    draw = trial.random
    for step in range(steps):
        growing = (step * phases // steps) % 2 == 0
        key = draw.randrange(universe)
        if draw.random() < (0.85 if growing else 0.15):
            trial.insert(key)
        else:
            held = trial.plain.keys
            trial.delete(draw.choice(held) if held and draw.random() < 0.9 else key)
        trial.ask(draw.randrange(universe))
        if step % 50 == 0:
            low, high = draw.randrange(universe), draw.randrange(universe)
            trial.ask_report(low, high, draw.randrange(100))
    trial.finish()


def march(trial, inserts, deletes):
    """Insert these keys in order, then delete those in order."""
    for key in inserts:
        trial.insert(key)
    for key in deletes:
        trial.delete(key)
    trial.finish()


def run_mixes():
    """Random mixes in several shapes, with much room and with little."""
    mix(Trial("few blocks", Shape(), 32, 1), 5000, 12000, 4)
    mix(Trial("roomy", Shape(), ROOMY, 2), 8000, 8000, 2)
    mix(Trial("small leaves", Shape(16, 16), ROOMY, 3), 3000, 10000, 6)
    mix(Trial("small leaves, few blocks", Shape(16, 16), 60, 4), 3000, 10000, 6)
    mix(Trial("key limit", Shape(16, 16, 1), ROOMY, 5), 600, 6000, 4)
    mix(Trial("key limit, few blocks", Shape(16, 16, 1), 24, 6), 600, 6000, 4)
    mix(Trial("wide", Shape(16, 32, 2), ROOMY, 7), 6000, 8000, 4)
    mix(Trial("tall", Shape(16, 16), ROOMY, 8, 499), 40000, 60000, 4)


def run_marches():
    """Ordered and shuffled fills with ordered and shuffled emptying."""
    keys = range(2500)
    back = keys[::-1]
    shuffled = random.Random(9).sample(keys, len(keys))
    orders = {"up": keys, "down": back, "shuffled": shuffled}
    for first, inserts in orders.items():
        for last, deletes in orders.items():
            trial = Trial(f"fill {first}, empty {last}", Shape(16, 16), ROOMY, 10, 7)
            march(trial, inserts, deletes)
            assert trial.index.granted == 2 and trial.index.root.keys == []
    draw = random.Random(11)
    tallest = draw.sample(range(70000), 70000)
    trial = Trial("tallest", Shape(16, 16), ROOMY, 12, 9973)
    march(trial, tallest, draw.sample(tallest, 68000))
    assert trial.highest == 4


# Edges


def build(sizes, capacity=ROOMY):
    """An index of the default shape with leaves of these sizes, nested as the nodes are."""
    made = Index(capacity)
    counter = iter(range(0, 10**9, GAP))

    def node(part):
        """The node for a leaf size, or for a list of parts."""
        if isinstance(part, list):
            return Inner([node(inner) for inner in part])
        return Leaf([next(counter) for _ in range(part)], [0] * part)

    made.root = node(sizes)
    made.granted = 1 + made.check_node(made.root)
    made.check()
    return made


def sizes_of(node):
    """The leaf sizes below a node, nested as the nodes are."""
    if node.level == 0:
        return len(node.keys)
    return [sizes_of(child) for child in node.children]


def edge_full_leaf():
    """A leaf root of 64 and one more, with two blocks free and with one."""
    made = build(64, capacity=4)
    assert made.granted == 2
    assert made.insert(50, 1) == "S----"
    made.check()
    assert made.root.level == 1 and made.granted == 4
    assert sizes_of(made.root) == [32, 33]
    made = build(64, capacity=3)
    assert attempt(made.insert, 50, 1) == (None, index.NO_ROOM)
    assert sizes_of(made.root) == 64 and made.granted == 2 and made.tally == 0


def edge_light_leaf():
    """A leaf that falls to 15 beside 41, 42 and 64, on either side."""
    outcomes = {41: ("M----", [56]), 42: ("B----", [28, 29]), 64: ("B----", [39, 40])}
    for beside, (marks, leaves) in outcomes.items():
        for sizes in ([16, beside, 64], [beside, 16, 64]):
            made = build(sizes)
            first = made.root.children[sizes.index(16)].keys[0]
            granted = made.granted
            assert made.delete(first) == marks
            made.check()
            assert sizes_of(made.root) == leaves + [64]
            assert made.granted == granted - (marks == "M----")
    made = build([64, 16, 41])
    assert made.delete(made.root.keys[1]) == "B----"
    assert sizes_of(made.root) == [39, 40, 41]


def edge_lowered_root():
    """A root over leaves of 16 and 16 and one deletion."""
    made = build([16, 16])
    assert made.granted == 4
    assert made.delete(0) == "M----"
    made.check()
    assert sizes_of(made.root) == 31 and made.granted == 2


def edge_inner_full_alone():
    """A level-1 node of 1,024, alone full on the path, and an insertion into its leaf of 20."""
    heavy = [20] + [50] * 19 + [27, 27]
    assert sum(heavy) == 1024
    made = build([heavy, [40] * 20])
    assert made.insert(50, 1) == "-S---"
    made.check()
    assert len(made.root.children) == 3


def edge_inner_split():
    """25 children of 41 split into 492 and 533."""
    made = build([40] + [41] * 24)
    assert made.insert(50, 1) == "-S---"
    made.check()
    assert made.root.weights == [492, 533] and made.root.level == 2


def edge_ninth_insertion():
    """A merged leaf of 56 splits at the ninth insertion, not the eighth."""
    made = build([16, 41, 64])
    assert made.delete(0) == "M----"
    marks = [made.insert(150 + at, 1) for at in range(9)]
    assert marks == ["-----"] * 8 + ["S----"]
    made.check()


def edge_routing_key():
    """A routing key follows its leaf's smallest key when that is deleted or undercut."""
    made = build([30, 30, 30])
    gone = made.root.keys[1]
    made.delete(gone)
    made.check()
    assert made.root.keys[1] == gone + GAP
    assert made.floor(gone) == (gone - GAP, 0)
    made.insert(gone + 1, 7)
    assert made.root.weights == [31, 29, 30]
    made.insert(-5, 8)
    made.check()
    assert made.root.keys[0] == -5


def edge_level_one_merges():
    """Level-1 nodes at 255: merged weight 896 stays one node, 897 is split again."""
    light = [16] * 16
    made = build([light, [64] * 9 + [32, 33], [40] * 10])
    assert made.delete(0) == "MM---"
    made.check()
    assert made.root.weights == [896, 400]
    made = build([light, [64] * 9 + [33, 33], [40] * 10])
    granted = made.granted
    assert made.delete(0) == "MB---"
    made.check()
    assert sum(made.root.weights[:2]) == 897 and made.granted == granted - 1
    made = build([[64] * 9, light])
    assert made.delete(made.root.keys[1]) == "MM---"
    made.check()
    assert made.root.level == 1 and made.root.weight() == 831


def edge_order_of_refusals():
    """Present comes before full, full before no room."""
    made = Index(2, Shape(16, 16, 0))
    for key in range(16):
        assert made.insert(key, key) == "-"
    assert attempt(made.insert, 3, 0) == (None, index.PRESENT)
    assert attempt(made.insert, 99, 0) == (None, index.FULL)
    assert attempt(made.delete, 99) == (None, index.ABSENT)
    made = Index(2)
    for key in range(64):
        made.insert(key, key)
    assert attempt(made.insert, 3, 0) == (None, index.PRESENT)
    assert attempt(made.insert, 99, 0) == (None, index.NO_ROOM)
    assert attempt(Index, 1) == (None, index.NO_ROOM)
    assert attempt(made.report, 0, 9, [0], []) == (None, index.UNEVEN)


def edge_numbers():
    """The limits and the least updates for each rebalancing."""
    shape = Shape()
    assert [shape.limit(level) // 8 + 1 for level in (2, 3, 4)] == [2049, 32769, 524289]
    assert shape.key_limit() == 4194304


def run_edges():
    """Every edge example."""
    edges = [edge_full_leaf, edge_light_leaf, edge_lowered_root, edge_inner_full_alone,
             edge_inner_split, edge_ninth_insertion, edge_routing_key,
             edge_level_one_merges, edge_order_of_refusals, edge_numbers]
    for edge in edges:
        edge()
        print(f"{edge.__name__}: as expected")


# The command program


def run_command():
    """Inputs whose whole output is known."""
    example = (b"add 7 1 100\nadd 7 3 300\nadd 7 3 301\nfloor 7 2\n"
               b"resume 7\nresume 8\ndel 7 2\nadd 7\n")
    answers = b"ok -----\nok -----\nno 3\n7 1 100\n7 3 300\nnone\nno 4\nbad\n"
    known = {example: answers, example[:-1]: answers, b"": b"", b"\n": b"bad\n",
             b"\n\n": b"bad\nbad\n", b"find 0 0": b"none\n", b"find 00 0\r\n": b"bad\n",
             b"\n" * 65536: b"bad\n" * 65536, b"\n" * 65537: b"input too long\n"}
    for data, output in known.items():
        assert command.run(data) == output, data[:80]
    print(f"command program: {len(known)} known outputs")


def plain_answer(plain, parsed, given):
    """What the plain list answers, told what the tree answered; marks are taken from there."""
    name, numbers = parsed
    key = tuple(numbers[:2])
    if name == "add":
        refusal = plain.insert(key, numbers[2], given == "no 6")
    elif name == "del":
        refusal = plain.delete(key)
    elif name == "find":
        return str(plain.handles.get(key, "none"))
    else:
        pair = plain.floor(key if name == "floor" else (key[0], 2**32 - 1))
        other = name == "resume" and pair and pair[0][0] != key[0]
        return command.show_pair(None if other else pair)
    return f"no {refusal}" if refusal else "ok" + given[2:]


def run_cases():
    """The made cases: their outputs are this program's and agree with the plain list."""
    names = (DATA / "names").read_text().split()
    for name in names:
        data = (DATA / (name + ".in")).read_bytes()
        output = (DATA / (name + ".out")).read_bytes()
        assert command.run(data) == output, name
        if len(data) > command.LONGEST_INPUT:
            continue
        plain = Plain(4194304)
        lines, answers = command.lines_of(data), output.decode().splitlines()
        assert len(lines) == len(answers), name
        for line, given in zip(lines, answers):
            parsed = command.parse(line)
            assert given == (plain_answer(plain, parsed, given) if parsed else "bad"), name
    print(f"cases: {len(names)} agree with the plain list")


if __name__ == "__main__":
    run_edges()
    run_command()
    run_cases()
    run_mixes()
    run_marches()
    print("self test: all passed")
