"""Store calls with the answers that every store and pile must give: python3 reference/store_calls.py DIR."""
import random
import sys

LARGEST_BLOCK, WIDEST, FRAME = 1048575, 512, 64


class Misfit(Exception):
    """There is no such cache."""


class Store:
    """At most so many blocks of words, of all the marks and words lent; none where there is no such store. A refusal is (number, depth)."""

    def __init__(self, width, most, marks, words, used):
        self.width, self.most, self.marks, self.words, self.used = width, most, marks, words, used
        self.blocks, self.next = {}, 1

    def granted(self):
        return len(self.blocks)

    def capacity(self):
        return self.most

    def take(self):
        if self.granted() >= self.capacity():
            return (6, 1)
        number, self.next = self.next, self.next + 1
        self.blocks[number] = [0] * self.width
        return number

    def give(self, block):
        if block not in self.blocks:
            return (8, 1)
        del self.blocks[block]
        return None

    def word(self, block, place, value=None):
        """Read, or write where a value is given."""
        if block not in self.blocks:
            return (8, 1)
        if place >= self.width:
            return (9, 1)
        if value is None:
            return self.blocks[block][place]
        self.blocks[block][place] = value
        return None


class Layer:
    """Passes every call on, faults one deeper; a limit makes it a quota."""

    def __init__(self, below, limit=None):
        self.below, self.limit, self.width = below, limit, below.width

    def granted(self):
        return self.below.granted()

    def capacity(self):
        return self.below.capacity() if self.limit is None else min(self.limit, self.below.capacity())

    def take(self):
        if self.limit is not None and self.granted() >= self.limit:
            return (6, 1)
        return deeper(self.below.take())

    def give(self, block):
        return deeper(self.below.give(block))

    def word(self, block, place, value=None):
        return deeper(self.below.word(block, place, value))


def deeper(answer):
    """The same answer, seen from one layer higher."""
    return (answer[0], answer[1] + 1) if isinstance(answer, tuple) else answer


def table(width=65, words=40 * 65, marks=43):
    """A table store in so many words and marks."""
    if not 1 <= width <= WIDEST:
        return Store(width, None, marks, words, 0)
    most = min(words // width, marks, LARGEST_BLOCK)
    return Store(width, most, marks, words, most * width)


def paged(width=65, words=80 * FRAME + 63, marks=43, entries=80, first=79, past=0):
    """A store over frames. The map's entries name the frames from the first down to 0, then all the same one."""
    frames, whole = -(-width // FRAME), words // FRAME
    if not 1 <= width <= WIDEST:
        return Store(width, None, marks, words, 0)
    most = min(entries // frames, marks, LARGEST_BLOCK)
    named = [first - i if i <= first else past for i in range(most * frames)]
    if any(frame >= whole for frame in named) or len(set(named)) < len(named):
        return Store(width, None, marks, words, 0)
    return Store(width, most, marks, words, whole * FRAME if most else 0)


def bare(store):
    """No layer."""
    return store


def quota(limit):
    """A quota of so many blocks."""
    return lambda store: Layer(store, limit)


def cache(lines):
    """A cache of so many lines, which answers as the store below it."""
    def over(store):
        if not 1 <= lines <= 16:
            raise Misfit
        return Layer(store)
    return over


def text(answer):
    """A line for an answer."""
    if isinstance(answer, tuple):
        return "no %d at %d" % answer
    return "ok" if answer is None else str(answer)


def answers(store, calls, taken):
    """The lines that a store answers."""
    lines = []
    for call in calls:
        words = call.split()
        block = None
        if len(words) > 1:
            number = int(words[1])
            block = taken[number - 1] if 1 <= number <= len(taken) else 0
        if words[0] == "take":
            answer = store.take()
            if not isinstance(answer, tuple):
                taken.append(answer)
                answer = None
        elif words[0] == "give":
            answer = store.give(block)
        elif words[0] == "get":
            answer = store.word(block, int(words[2]))
        elif words[0] == "set":
            answer = store.word(block, int(words[2]), int(words[3]))
        else:
            lines.append("%d %d %d" % (store.width, store.granted(), store.capacity()))
            continue
        lines.append(text(answer))
    return lines


def scan(blocks, place, base):
    """A word into each of 40 blocks, then all of them read, the last first."""
    return ["set %d %d %d" % (b, place(b), base + b) for b in blocks] + ["get %d %d" % (b, place(b)) for b in reversed(blocks)]


def mix(rng, count):
    """So many calls at random."""
    calls = []
    for _ in range(count):
        kind = rng.choice(["take", "give", "get", "get", "set", "set"])
        block, place = rng.randrange(0, 56), rng.choice([0, 0, 1, 63, 64, 65, 511])
        calls.append({"take": "take", "give": "give %d" % block, "get": "get %d %d" % (block, place),
                      "set": "set %d %d %d" % (block, place, rng.randrange(2 ** 64))}[kind])
    return calls


def early_calls(rng):
    """Takes past the capacity, scans of all blocks, edges, a random mix, and at last some room again."""
    blocks = range(1, 41)
    calls = ["stock"] + ["take"] * 42 + ["stock"]
    calls += scan(blocks, lambda b: 0, 1000) + scan(blocks, lambda b: b * 7 % 65, 2000) + scan(blocks, lambda b: 511 - b % 2, 3000)
    for place in (0, 1, 63, 64, 65, 511, 512, 4294967295):
        calls += ["set 1 %d 18446744073709551615" % place, "get 1 %d" % place]
    calls += ["give 0", "get 0 0", "set 99 0 1", "give 2", "give 2", "get 2 0", "set 2 0 9", "get 2 65", "take", "get 41 14", "stock"]
    calls += ["give %d" % b for b in range(3, 20)] + ["take"] * 3 + ["stock"]
    return calls + mix(rng, 120) + ["give %d" % b for b in range(36, 56)] + ["stock"]


def late_calls(rng):
    """Takes and reads over what stands already, a random mix, then all blocks given back and a few taken again."""
    blocks = range(20, 41)
    calls = ["stock", "take", "take", "take", "stock"] + ["get %d %d" % (b, b * 7 % 65) for b in blocks]
    calls += scan(blocks, lambda b: b % 2, 4000) + mix(rng, 60)
    calls += ["give %d" % b for b in range(1, 81)] + ["stock"] + ["take"] * 5 + ["stock"]
    return calls + ["get %d 0" % b for b in range(30, 81)]


BOTTOMS = (
    ("table", lambda: table()),
    ("table, one word short of a block more", lambda: table(words=41 * 65 - 1)),
    ("table, one word short", lambda: table(words=40 * 65 - 1)),
    ("table, 20 marks", lambda: table(marks=20)),
    ("table, no word for a block", lambda: table(words=64)),
    ("table, no marks", lambda: table(marks=0)),
    ("table, width 1", lambda: table(width=1, words=40)),
    ("table, width 512", lambda: table(width=512, words=40 * 512 + 511)),
    ("table, width 0", lambda: table(width=0)),
    ("table, width 513", lambda: table(width=513, words=40 * 513)),
    ("table, the most blocks", lambda: table(width=1, words=1048577, marks=1048578)),
    ("paged", lambda: paged()),
    ("paged, width 1", lambda: paged(width=1, entries=40)),
    ("paged, width 64", lambda: paged(width=64, entries=40)),
    ("paged, width 512", lambda: paged(width=512, words=320 * 64, entries=320, first=319)),
    ("paged, width 0", lambda: paged(width=0)),
    ("paged, width 513", lambda: paged(width=513)),
    ("paged, a frame twice", lambda: paged(first=78, past=5)),
    ("paged, a frame outside", lambda: paged(first=78, past=80)),
    ("paged, a longer map with frames twice", lambda: paged(marks=40, entries=83)),
    ("paged, a longer map with a frame outside", lambda: paged(entries=81, past=4294967295)),
    ("paged, a map too short for a block", lambda: paged(entries=1, first=80)),
    ("paged, no marks", lambda: paged(marks=0, first=80)),
)

PILES = (
    ("quota 0 over table", quota(0), quota(0), table),
    ("quota 3 over table", quota(3), quota(3), table),
    ("quota 40 over table", quota(40), quota(40), table),
    ("quota 41 over table", quota(41), quota(41), table),
    ("quota 2^32 over table", quota(2 ** 32), quota(2 ** 32), table),
    ("the largest quota over table", quota(2 ** 64 - 1), quota(2 ** 64 - 1), table),
    ("table, late under quota 3", bare, quota(3), table),
    ("table, late under quota 0", bare, quota(0), table),
    ("quota 3 over table, late 30", quota(3), quota(30), table),
    ("cache 0 over table", cache(0), cache(0), table),
    ("cache 17 over table", cache(17), cache(17), table),
    ("cache 1 over table", cache(1), cache(1), table),
    ("cache 16 over table", cache(16), cache(16), table),
    ("cache 16 over table, late cache 1", cache(16), cache(1), table),
    ("quota 30 over cache 4 over table", lambda s: quota(30)(cache(4)(s)), lambda s: quota(30)(cache(4)(s)), table),
    ("table, late under quota 3 over cache 4", bare, lambda s: quota(3)(cache(4)(s)), table),
    ("cache 2 over quota 30 over paged", lambda s: cache(2)(quota(30)(s)), lambda s: cache(2)(quota(30)(s)), paged),
)


def played(store, layers, calls, taken):
    """The lines of some calls, made through layers that are then taken off."""
    try:
        return answers(layers(store), calls, taken) + ["ok"]
    except Misfit:
        return ["no 10 at 1"]


def pile(store, early, late, script):
    """The lines of a pile, and how many marks and words past those of the blocks stay as they were lent."""
    marks, words, lines, taken = store.marks, store.words, [], []
    for layers, calls in zip((early, late, bare), script):
        lines += ["no 10 at 1"] if store.most is None else played(store, layers, calls, taken)
    if store.most is not None:
        marks, words = marks - store.most, words - store.used
    return lines + ["spared %d marks, %d words" % (marks, words)]


def main(folder):
    """Writes the calls and the expected answers of every pile."""
    rng = random.Random(11)
    early, late = early_calls(rng), late_calls(rng)
    script = early, late, [call for call in early + late if call.startswith("get")]
    out = []
    for name, make in BOTTOMS:
        out += [name] + pile(make(), bare, bare, script)
    for name, before, after, make in PILES:
        out += [name] + pile(make(), before, after, script)
    with open(folder + "/stdin", "w") as f:
        f.write("\n\n".join("\n".join(calls) for calls in script) + "\n")
    with open(folder + "/stdout", "w") as f:
        f.write("\n".join(out) + "\n")


if __name__ == "__main__":
    main(sys.argv[1])
