"""Cases for single nodes: leaves and level-1 nodes that split and merge at chosen weights."""

from script import Script, leaves, middle


# Leaves


def leaf_merges(at):
    """The leaf at this place falls to 15 beside many weights; place 0 has no left sibling."""
    script = Script(spacing=1000)
    script.climb(300)
    left = max(at - 1, 0)
    for beside in (16, 17, 40, 41, 42, 43, 63, 64):
        row = leaves(script.root)
        light, sibling, other = row[at], row[at - 1 if at else 1], row[left + 2]
        script.bring(other, 16 if beside > 41 else 60)
        script.bring(sibling, beside)
        script.bring(light, 16)
        answer = script.delete(light.keys[8])
        assert answer == ("ok M----" if beside <= 41 else "ok B----")
        script.probe(leaves(script.root)[left])
        if beside > 41:
            script.probe(leaves(script.root)[left + 2])
    return script


def leaf_root():
    """A leaf root fills to 64, splits, and comes back at 31, again and again."""
    script = Script(32)
    for _ in range(32):
        while script.root.level == 0:
            script.add((1, script.random.randrange(4000)))
        while script.root.level == 1:
            script.delete(script.random.choice(script.keys()))
        assert script.root.weight() < 57
    return script


def leaf_sixteens(side):
    """Two leaves of 16 under the root, one deletion in either, then 34 insertions."""
    script = Script()
    script.climb(65)
    for leaf in leaves(script.root):
        script.bring(leaf, 16)
    assert script.delete(leaves(script.root)[side].keys[4]) == "ok M----"
    assert script.root.level == 0 and script.root.weight() == 31
    assert script.probe(script.root) == "ok S----"
    script.do("resume 1")
    return script


# Level 1


def dense(script, done):
    """Climb with leaves filled to 60 each until done."""
    while not done():
        loose = [leaf for leaf in leaves(script.root)[:-1] if leaf.weight() < 60]
        if loose:
            script.add(middle(loose[0]))
        else:
            script.climb(1)


def full_node():
    """A script with a full last node of level 1 under a root of level 2."""
    script = Script()
    dense(script, lambda: script.root.level == 2 and script.root.weights[-1] == 1024)
    assert len(script.root.children) == 2
    return script


def split_alone():
    """A level-1 node of 1,024, alone full on the path, and its leaf of 20."""
    script = full_node()
    node = script.root.children[-1]
    small = leaves(node)[4]
    script.shrink(small, 20)
    for leaf in leaves(node):
        if leaf is not small:
            script.grow(leaf, min(64, leaf.weight() + 1024 - node.weight()))
    assert node.weight() == 1024 and small.weight() == 20
    assert script.add(middle(small)) == "ok -S---"
    drain_nodes(script)
    return script


def split_both():
    """A full leaf in a full level-1 node."""
    script = full_node()
    node = script.root.children[-1]
    script.drain(script.root.children[0], 300)
    full = leaves(node)[2]
    script.shrink(leaves(node)[6], leaves(node)[6].weight() - 64 + full.weight())
    script.grow(full, 64)
    assert node.weight() == 1024
    assert script.add(middle(full)) == "ok SS---"
    drain_nodes(script)
    return script


def node_without_room():
    """A full level-1 node and no free block; then one block comes free."""
    script = full_node()
    first, node = script.root.children
    while script.free():
        script.probe(max(leaves(first), key=lambda leaf: leaf.weight()))
    loose = min(leaves(node), key=lambda leaf: leaf.weight())
    assert loose.weight() < 64 and script.add(middle(loose)) == "no 6"
    assert script.add(middle(min(leaves(first), key=lambda leaf: leaf.weight()))) == "ok -----"
    script.delete(loose.keys[2])
    assert script.add(middle(loose)) == "ok -----"
    assert script.add(middle(loose)) == "no 6"
    while script.free() == 0:
        script.delete(min(leaves(first), key=lambda leaf: leaf.weight()).keys[1])
    assert script.add(middle(loose)) == "ok -S---"
    drain_nodes(script)
    return script


def drain_nodes(script):
    """Delete from the lightest level-1 node until the root has level 1."""
    while script.root.level == 2 and script.fits():
        node = min(script.root.children, key=lambda node: node.weight())
        leaf = max(leaves(node), key=lambda leaf: leaf.weight())
        script.delete(leaf.keys[leaf.weight() // 2])


def three_nodes():
    """A script with three nodes of level 1, drained to make blocks free."""
    script = full_node()
    script.drain(script.root.children[0], 300)
    script.add(middle(leaves(script.root.children[-1])[0]))
    assert len(script.root.children) == 3
    for node in script.root.children:
        script.drain(node, 300)
    return script


def node_merge(at, beside, other):
    """Of three level-1 nodes one falls to 255 beside this weight and the other's."""
    script = three_nodes()
    nodes = script.root.children[:]
    light = nodes[at]
    sibling = nodes[at - 1] if at else nodes[1]
    third = next(node for node in nodes if node not in (light, sibling))
    script.bring(third, other)
    script.bring(sibling, beside)
    script.bring(light, 256)
    heavy = max(leaves(light), key=lambda leaf: leaf.weight())
    answer = script.delete(heavy.keys[3])
    assert answer == ("ok -M---" if beside + 255 <= 896 else "ok -B---"), answer
    drain_nodes(script)
    return script


def node_tie():
    """A merged level-1 node whose children fall into two halves of the same weight."""
    script = three_nodes()
    light, sibling = script.root.children[:2]
    script.grow(sibling, 705)
    row = leaves(sibling)
    script.spread(row[:4], 223)
    script.spread(row[4:], 478)
    script.bring(light, 256)
    heavy = max(leaves(light), key=lambda leaf: leaf.weight())
    assert script.delete(heavy.keys[3]) == "ok -B---"
    assert script.root.weights[:2] == [478, 478]
    drain_nodes(script)
    return script


def node_merge_and_leaf(beside, answer):
    """A leaf falls to 15 and with it its level-1 node to 255."""
    script = three_nodes()
    light, sibling = script.root.children[:2]
    script.bring(sibling, beside)
    script.grow(light, 360)
    first, second, *rest = leaves(light)
    script.bring(first, 16)
    script.bring(second, 40 if answer[3] == "M" else 50)
    while light.weight() > 256:
        script.delete(max(rest, key=lambda leaf: leaf.weight()).keys[3])
    assert script.delete(first.keys[2]) == answer
    drain_nodes(script)
    return script


def node_grows_after_merge():
    """A merged level-1 node of 896 splits at the 129th insertion."""
    script = three_nodes()
    script.bring(script.root.children[1], 641)
    script.bring(script.root.children[0], 256)
    light = script.root.children[0]
    heavy = max(leaves(light), key=lambda leaf: leaf.weight())
    assert script.delete(heavy.keys[3]) == "ok -M---"
    merged = script.root.children[0]
    script.grow(merged, 1024)
    answer = script.add(middle(min(leaves(merged), key=lambda leaf: leaf.weight())))
    assert answer == "ok -S---"
    return script


def scripts():
    """Every script of this kind by its name."""
    return {
        "leaf-merges-left": leaf_merges(2),
        "leaf-merges-right": leaf_merges(0),
        "leaf-root-again": leaf_root(),
        "leaf-sixteens-first": leaf_sixteens(0),
        "leaf-sixteens-second": leaf_sixteens(1),
        "node-split-alone": split_alone(),
        "node-split-both": split_both(),
        "node-no-room": node_without_room(),
        "node-merge-first-896": node_merge(0, 641, 300),
        "node-merge-first-897": node_merge(0, 642, 300),
        "node-merge-middle-left": node_merge(1, 300, 660),
        "node-merge-last-897": node_merge(2, 642, 290),
        "node-merge-with-leaf": node_merge_and_leaf(400, "ok MM---"),
        "node-merge-leaf-both": node_merge_and_leaf(400, "ok BM---"),
        "node-both-leaf-merge": node_merge_and_leaf(700, "ok MB---"),
        "node-both-leaf-both": node_merge_and_leaf(700, "ok BB---"),
        "node-both-tie": node_tie(),
        "node-merge-then-129": node_grows_after_merge(),
    }
