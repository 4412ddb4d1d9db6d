"""A case in the making: lines that are answered as they are written.

The script sees the reference's tree, so that a case can aim at a node of a
certain weight. All that it draws at random comes from its seed.
"""

import random

from command import LONGEST_INPUT, Session

SPACING = 100
LAST = 2**32 - 1


def leaves(node):
    """The leaves at or below a node, in order."""
    if node.level == 0:
        return [node]
    return [leaf for child in node.children for leaf in leaves(child)]


def middle(leaf):
    """A key that is not there, in the widest gap between two keys of a leaf."""
    gaps = [(high[1] - low[1], low) for low, high in zip(leaf.keys, leaf.keys[1:])
            if low[0] == high[0]]
    width, (case, step) = max(gaps)
    assert width >= 2
    return case, step + width // 2


class Script:
    """The lines of one case and the session that answers them."""

    def __init__(self, seed=0, spacing=SPACING):
        """Begin with no lines on a fresh index."""
        self.lines = []
        self.size = 0
        self.session = Session()
        self.random = random.Random(seed)
        self.spacing = spacing

    @property
    def index(self):
        """The index that the lines act on."""
        return self.session.index

    @property
    def root(self):
        """The root of the tree as it is now."""
        return self.session.index.root

    def keys(self):
        """All keys now held."""
        return [key for leaf in leaves(self.root) for key in leaf.keys]

    def do(self, text):
        """Write a line and return its answer."""
        self.lines.append(text)
        self.size += len(text) + 1
        return self.session.answer(text.encode())

    def fits(self, more=60):
        """Whether so many more bytes can be written."""
        return self.size + more <= LONGEST_INPUT

    def add(self, key, handle=None):
        """Write an insertion; the handle is the line's number unless given."""
        case, step = key
        return self.do(f"add {case} {step} {len(self.lines) if handle is None else handle}")

    def delete(self, key):
        """Write a deletion."""
        return self.do(f"del {key[0]} {key[1]}")

    def find(self, key):
        """Write a find."""
        return self.do(f"find {key[0]} {key[1]}")

    def floor(self, key):
        """Write a floor."""
        return self.do(f"floor {key[0]} {key[1]}")

    def ask_around(self, key):
        """Find the key and ask for floors at and beside it."""
        case, step = key
        self.find(key)
        for near in (step - 1, step, step + 1):
            if 0 <= near <= LAST:
                self.floor((case, near))

    def climb(self, count, case=1):
        """Append so many keys above all others, well apart."""
        held = self.keys()
        start = held[-1][1] if held else 0
        return [self.add((case, start + at * self.spacing)) for at in range(1, count + 1)]

    def grow(self, node, weight):
        """Add to the lightest leaves of a node until it has this weight."""
        while node.weight() < weight:
            leaf = min(leaves(node), key=lambda leaf: leaf.weight())
            answer = self.add(middle(leaf))
            assert answer in ("ok -----", "ok S----"), answer

    def shrink(self, node, weight):
        """Delete from the heaviest leaves of a node until it has this weight."""
        while node.weight() > weight:
            leaf = max(leaves(node), key=lambda leaf: leaf.weight())
            answer = self.delete(leaf.keys[leaf.weight() // 2])
            assert answer == "ok -----", answer

    def drain(self, node, weight):
        """Delete from the lightest leaves of a node, so that they merge."""
        while node.weight() > weight:
            leaf = min(leaves(node), key=lambda leaf: leaf.weight())
            answer = self.delete(leaf.keys[leaf.weight() // 2])
            assert answer[4:] == "----", answer

    def bring(self, node, weight):
        """Grow or shrink a node to this weight."""
        self.grow(node, weight)
        self.shrink(node, weight)

    def spread(self, row, weight):
        """Bring these leaves to this weight in all, as evenly as can be."""
        for at, leaf in enumerate(row):
            self.bring(leaf, weight * (at + 1) // len(row) - weight * at // len(row))

    def probe(self, leaf):
        """Add to a leaf until it splits: how many it took tells its weight."""
        answer = "ok -----"
        while answer == "ok -----":
            answer = self.add(middle(leaf))
        return answer

    def free(self):
        """How many blocks are free."""
        return self.index.capacity - self.index.granted

    def data(self):
        """The whole input."""
        return "".join(line + "\n" for line in self.lines).encode()
