"""The ordered index as a weight-balanced B-tree, written from its rules alone.

A leaf has level 0 and weighs its number of keys; an inner node weighs the sum
of its children. A node of level l weighs at most W(l) = leaf limit * branching^l,
and, unless it is the root, at least W(l) / 4. Blocks are only counted here: one
for the header and one for each node.
"""

from bisect import bisect_left, bisect_right

PRESENT, ABSENT, FULL, NO_ROOM, UNEVEN = 3, 4, 5, 6, 7
NONE, SPLIT, MERGE, BOTH = "-", "S", "M", "B"


class Refusal(Exception):
    """A call that was refused; nothing has changed."""

    def __init__(self, number):
        """Keep the number of the refusal."""
        super().__init__(number)
        self.number = number


class Shape:
    """Leaf limit, branching and highest root level."""

    def __init__(self, leaf_limit=64, branching=16, top=4):
        """Keep the three numbers; limit and branching are multiples of 16."""
        assert leaf_limit % 16 == 0 and branching % 16 == 0
        self.leaf_limit = leaf_limit
        self.branching = branching
        self.top = top

    def limit(self, level):
        """W(level), the largest weight of a node of this level."""
        return self.leaf_limit * self.branching**level

    def key_limit(self):
        """The most keys that an index holds."""
        return self.limit(self.top)


class Leaf:
    """A node of level 0: keys in ascending order and their handles."""

    level = 0

    def __init__(self, keys, handles):
        """Hold these keys and handles."""
        self.keys = keys
        self.handles = handles

    def weight(self):
        """The number of keys."""
        return len(self.keys)

    def split(self):
        """Give the largest half, rounded up, to a new right node."""
        kept = len(self.keys) // 2
        right = Leaf(self.keys[kept:], self.handles[kept:])
        del self.keys[kept:], self.handles[kept:]
        return right

    def absorb(self, right):
        """Take over all that the right sibling holds."""
        self.keys += right.keys
        self.handles += right.handles


class Inner:
    """A node of level 1 or more: for each child its smallest key and its weight."""

    def __init__(self, children):
        """Hold these children, all of one level."""
        self.level = children[0].level + 1
        self.children = children
        self.keys = [child.keys[0] for child in children]
        self.weights = [child.weight() for child in children]

    def weight(self):
        """The sum of the stored weights."""
        return sum(self.weights)

    def place(self, key):
        """Where the descent goes: the last child with smallest key <= key, or the first."""
        return max(bisect_right(self.keys, key) - 1, 0)

    def correct(self, at):
        """Store the smallest key and the weight that the child has now."""
        self.keys[at] = self.children[at].keys[0]
        self.weights[at] = self.children[at].weight()

    def adopt(self, at, child):
        """Put a new child at this place."""
        self.children.insert(at, child)
        self.keys.insert(at, child.keys[0])
        self.weights.insert(at, child.weight())

    def drop(self, at):
        """Let go of the child at this place."""
        del self.children[at], self.keys[at], self.weights[at]

    def split(self):
        """Keep the first s children, s the largest with their weight at most the rest's."""
        fits = [s for s in range(len(self.weights) + 1)
                if sum(self.weights[:s]) <= sum(self.weights[s:])]
        kept = max(fits)
        right = Inner(self.children[kept:])
        del self.children[kept:], self.keys[kept:], self.weights[kept:]
        return right

    def absorb(self, right):
        """Take over all children of the right sibling."""
        self.children += right.children
        self.keys += right.keys
        self.weights += right.weights


class Index:
    """The index over a store of so many blocks."""

    def __init__(self, capacity, shape=None):
        """Create an empty index: a header and an empty leaf root."""
        if capacity < 2:
            raise Refusal(NO_ROOM)
        self.shape = shape or Shape()
        self.capacity = capacity
        self.root = Leaf([], [])
        self.granted = 2
        self.tally = 0

    # Queries

    def path(self, key):
        """The nodes from the root down to the leaf where the key belongs."""
        nodes = [self.root]
        while nodes[-1].level > 0:
            nodes.append(nodes[-1].children[nodes[-1].place(key)])
        return nodes

    def find(self, key):
        """The handle of the key, or None."""
        leaf = self.path(key)[-1]
        at = bisect_left(leaf.keys, key)
        if at < len(leaf.keys) and leaf.keys[at] == key:
            return leaf.handles[at]
        return None

    def floor(self, key):
        """The pair with the largest key that is at most this one, or None."""
        leaf = self.path(key)[-1]
        at = bisect_right(leaf.keys, key)
        return (leaf.keys[at - 1], leaf.handles[at - 1]) if at else None

    def rank(self, key):
        """How many keys are below this one."""
        node, below = self.root, 0
        while node.level > 0:
            at = node.place(key)
            below += sum(node.weights[:at])
            node = node.children[at]
        return below + bisect_left(node.keys, key)

    def report(self, low, high, keys, handles):
        """Count the keys from low to high; write the first pairs into the lent lists."""
        if len(keys) != len(handles):
            raise Refusal(UNEVEN)
        found = list(pairs(self.root, low, high))
        for at in range(min(len(found), len(keys))):
            keys[at], handles[at] = found[at]
        return len(found)

    # Updates

    def insert(self, key, handle):
        """Insert the pair; answer the five marks or raise the refusal."""
        if self.find(key) is not None:
            raise Refusal(PRESENT)
        if self.root.weight() == self.shape.key_limit():
            raise Refusal(FULL)
        if self.capacity - self.granted < self.blocks_needed(key):
            raise Refusal(NO_ROOM)
        marks = self.no_marks()
        right = self.insert_below(self.root, key, handle, marks)
        if right:
            self.root = Inner([self.root, right])
            self.granted += 1
        self.tally += 1
        return "".join(marks)

    def blocks_needed(self, key):
        """The full nodes on the key's path, one more if the root is full."""
        full = [node.weight() == self.shape.limit(node.level) for node in self.path(key)]
        return sum(full) + full[0]

    def insert_below(self, node, key, handle, marks):
        """Insert at or below the node; answer its new right sibling if it split."""
        if node.level == 0:
            at = bisect_left(node.keys, key)
            node.keys.insert(at, key)
            node.handles.insert(at, handle)
        else:
            at = node.place(key)
            right = self.insert_below(node.children[at], key, handle, marks)
            node.correct(at)
            if right:
                node.adopt(at + 1, right)
        if node.weight() <= self.shape.limit(node.level):
            return None
        marks[node.level] = SPLIT
        self.granted += 1
        return node.split()

    def delete(self, key):
        """Delete the key; answer the five marks or raise the refusal."""
        if self.find(key) is None:
            raise Refusal(ABSENT)
        marks = self.no_marks()
        self.delete_below(self.root, key, marks)
        if self.root.level > 0 and len(self.root.children) == 1:
            self.root = self.root.children[0]
            self.granted -= 1
        self.tally += 1
        return "".join(marks)

    def delete_below(self, node, key, marks):
        """Delete at or below the node, and mend the child on the path if it is too light."""
        if node.level == 0:
            at = bisect_left(node.keys, key)
            del node.keys[at], node.handles[at]
            return
        at = node.place(key)
        child = node.children[at]
        self.delete_below(child, key, marks)
        node.correct(at)
        if child.weight() == self.shape.limit(child.level) // 4 - 1:
            self.mend(node, at, marks)

    def mend(self, parent, at, marks):
        """Merge the child with its left sibling, or its right; split again above 7/8."""
        at = max(at - 1, 0)
        left, right = parent.children[at], parent.children[at + 1]
        left.absorb(right)
        parent.drop(at + 1)
        if left.weight() > 7 * self.shape.limit(left.level) // 8:
            marks[left.level] = BOTH
            parent.adopt(at + 1, left.split())
        else:
            marks[left.level] = MERGE
            self.granted -= 1
        parent.correct(at)

    def no_marks(self):
        """A mark for each level, all none."""
        return [NONE] * (self.shape.top + 1)

    # Rules

    def check(self):
        """Assert every rule of the tree and of its blocks."""
        root = self.root
        assert 0 <= root.level <= self.shape.top
        assert root.weight() <= self.shape.limit(root.level)
        assert root.level == 0 or len(root.children) >= 2
        assert self.granted == 1 + self.check_node(root)
        assert self.granted <= self.capacity
        keys = [key for key, _ in pairs(root)]
        assert len(keys) == root.weight()
        assert all(a < b for a, b in zip(keys, keys[1:]))

    def check_node(self, node):
        """Assert the rules at and below a node; answer how many nodes these are."""
        if node.level == 0:
            assert len(node.keys) == len(node.handles)
            return 1
        limit = self.shape.limit(node.level - 1)
        assert len(node.children) <= 4 * self.shape.branching
        assert node.weights == [child.weight() for child in node.children]
        assert node.keys == [child.keys[0] for child in node.children]
        assert all(child.level == node.level - 1 for child in node.children)
        assert all(limit // 4 <= weight <= limit for weight in node.weights)
        return 1 + sum(self.check_node(child) for child in node.children)


def pairs(node, low=None, high=None):
    """All pairs at or below the node with low <= key <= high, ascending."""
    if node.level == 0:
        for key, handle in zip(node.keys, node.handles):
            if (low is None or low <= key) and (high is None or key <= high):
                yield key, handle
        return
    for child in node.children:
        yield from pairs(child, low, high)
