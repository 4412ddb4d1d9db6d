"""Cases for the whole tree: fills, want of room, emptying, routing keys."""

from node_cases import three_nodes
from script import LAST, SPACING, Script, leaves, middle


# Fills until there is no room


def ascending(script):
    """Keys in ascending order."""
    return [(1, at) for at in range(1, 1800)]


def descending(script):
    """Keys in descending order."""
    return ascending(script)[::-1]


def shuffled(script):
    """Keys in random order."""
    return script.random.sample(ascending(script), 1799)


def inside_out(script):
    """Keys from the middle to both ends, in turn."""
    keys = ascending(script)
    half = len(keys) // 2
    return [key for pair in zip(keys[half:], keys[half::-1]) for key in pair][1:]


def fill(order, seed):
    """Add in this order until 20 were refused, then go on working without room."""
    script = Script(seed)
    refused = 0
    for case, step in order(script):
        refused += script.add((case, step * SPACING)) == "no 6"
        if refused == 20:
            break
    assert refused == 20
    work_without_room(script)
    return script


def work_without_room(script):
    """Queries, refusals and updates while no block is free."""
    assert script.free() == 0
    full = max(leaves(script.root), key=lambda leaf: leaf.weight())
    for leaf in leaves(script.root)[::3]:
        script.ask_around(leaf.keys[0])
        script.ask_around(middle(leaf))
        script.delete(middle(leaf))
    assert script.add(middle(full)) == "no 6"
    assert script.add(full.keys[0]) == "no 3"
    assert script.delete(full.keys[5]) == "ok -----"
    assert script.add(middle(full)) == "ok -----"
    assert script.add(middle(full)) == "no 6"
    loose = min(leaves(script.root), key=lambda leaf: leaf.weight())
    answer = "ok -----"
    while answer == "ok -----":
        answer = script.delete(loose.keys[-1])
    script.add(middle(full))
    script.probe(max(leaves(script.root), key=lambda leaf: leaf.weight()))
    script.do("resume 1")


def root_full(count):
    """A full root of level 1 over so many leaves, then insertions that need 3 and 2 blocks."""
    script = Script()
    while len(leaves(script.root)) < count:
        script.climb(1)
    full = leaves(script.root)[3]
    script.grow(full, 64)
    script.grow(script.root, 1024)
    assert script.root.level == 1 and script.free() == 30 - count
    script.add(middle(full))
    loose = min(leaves(script.root), key=lambda leaf: leaf.weight())
    script.add(middle(loose))
    script.add(full.keys[7])
    script.delete(middle(full))
    script.delete(loose.keys[3])
    script.add(middle(full))
    for leaf in leaves(script.root)[::2]:
        script.add(middle(leaf))
        script.ask_around(leaf.keys[0])
    return script


def tight_cycle():
    """Deletions and insertions around a state with no free block."""
    script = Script(31)
    for key in shuffled(script):
        if script.add(key) == "no 6":
            break
    for _ in range(500):
        key = script.random.choice(script.keys())
        script.delete(key)
        script.add((1, script.random.randrange(1, 1300)))
        script.add((1, script.random.randrange(1, 1300)))
    return script


# Emptying


def empty_and_refill(fill_order, empty_order, seed):
    """Fill beyond 1,024 keys, delete everything in some order, fill again."""
    script = Script(seed)
    keys = script.random.sample([(1, at) for at in range(1, 1151)], 1150)
    for key in keys:
        script.add(key)
    assert script.root.level == 2
    held = empty_order(script.keys(), script)
    for at, key in enumerate(held):
        assert script.delete(key).startswith("ok")
        if at % 25 == 0:
            script.floor(key)
    assert script.root.weight() == 0 and script.free() == 30
    script.floor((1, LAST))
    script.delete(keys[0])
    for key in fill_order(keys, script):
        if script.fits():
            script.add(key)
    return script


def upwards(keys, script):
    """The keys in ascending order."""
    return sorted(keys)


def downwards(keys, script):
    """The keys in descending order."""
    return sorted(keys)[::-1]


def at_random(keys, script):
    """The keys in random order."""
    return script.random.sample(keys, len(keys))


# Routing keys


def routing_keys(count, seed):
    """The smallest key of each leaf is deleted; keys beside it go where they belong."""
    script = Script(seed)
    for step in script.random.sample(range(1, count + 1), count):
        script.add((1, step * 20))
    for _ in range(2):
        for leaf in leaves(script.root):
            gone, after = leaf.keys[0], leaf.keys[1]
            script.delete(gone)
            script.ask_around(gone)
            script.floor((1, after[1] - 1))
            script.add((1, (gone[1] + after[1]) // 2))
            script.ask_around(gone)
    for step in range(19, 0, -3):
        script.add((1, step))
        script.add((0, step))
        script.floor((0, step - 1))
    for leaf in leaves(script.root)[::2]:
        if script.fits(2000):
            script.probe(leaf)
    for step in range(0, count * 20, 97):
        if script.fits():
            script.floor((1, step))
    return script


def node_routing_keys():
    """The smallest keys of the level-1 nodes are deleted and undercut."""
    script = three_nodes()
    for _ in range(12):
        for node in script.root.children:
            gone = node.keys[0]
            script.delete(gone)
            script.ask_around(gone)
            script.add((1, gone[1] + 1))
            script.ask_around(gone)
    for node in script.root.children:
        script.ask_around(node.keys[0])
    return script


def nothing_held():
    """Every command on an empty index."""
    script = Script()
    for text in ("find 0 0", "floor 0 0", f"floor {LAST} {LAST}", "resume 0", f"resume {LAST}",
                 "del 0 0", "add 5 5 5", "del 5 5", "find 5 5", "floor 5 5", "resume 5",
                 "del 5 5", "add 5 5 6", "add 5 5 7", "find 5 5", "floor 5 4", "floor 4 9"):
        script.do(text)
    return script


def scripts():
    """Every script of this kind by its name."""
    return {
        "fill-ascending": fill(ascending, 21),
        "fill-descending": fill(descending, 22),
        "fill-random": fill(shuffled, 23),
        "fill-inside-out": fill(inside_out, 24),
        "room-root-full-none-free": root_full(30),
        "room-root-full-one-free": root_full(29),
        "room-root-full-two-free": root_full(28),
        "room-root-full-three-free": root_full(27),
        "room-tight-cycle": tight_cycle(),
        "empty-index": nothing_held(),
        "empty-ascending": empty_and_refill(upwards, upwards, 41),
        "empty-descending": empty_and_refill(downwards, downwards, 42),
        "empty-random": empty_and_refill(at_random, at_random, 43),
        "routing-level-1": routing_keys(700, 45),
        "routing-level-2": routing_keys(1100, 46),
        "routing-nodes": node_routing_keys(),
    }
