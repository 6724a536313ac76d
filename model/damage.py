"""Items as trees, their spellings, and changes of them drawn from a generator of numbers.

A tree is a pair of a major type and what it holds: (0, n), (1, n), (2, bytes), (3, bytes), (4, [tree]),
(5, [tree, tree, and so on], keys and values in turn), (6, [n, tree]), (7, n); or (INSIDE, tree), a byte string whose
content is the tree's spelling, or (RAW, bytes), which stands for itself.
"""

from vouchers import make

INSIDE, RAW = "inside", "raw"


class Draws:
    """A generator of numbers, the same at each run."""

    def __init__(self, seed):
        self.state = seed

    def below(self, bound):
        self.state = (self.state * 6364136223846793005 + 1442695040888963407) % (1 << 64)
        return (self.state >> 33) % bound

    def one_of(self, choices):
        return choices[self.below(len(choices))]


# ---- spellings


def head(major, n, draws):
    widths = [width for width in (1, 2, 4, 8) if n < 1 << (8 * width)]
    if draws is None or draws.below(4):
        return make.shortest(major, n)
    return make.wide(major, n, draws.one_of(widths))


def spell(tree, draws=None):
    """The deterministic spelling, maps aside, whose pairs stay in their order; with draws any spelling."""
    major, held = tree
    if major == RAW:
        return held
    if major == INSIDE:
        major, held = 2, spell(held, draws)
    if major in (2, 3):
        if draws is not None and not draws.below(5) and held.isascii():
            return make.chunked(major, held, 1 + draws.below(len(held) + 1))
        return head(major, len(held), draws) + held
    if major in (4, 5):
        inner = b"".join(spell(each, draws) for each in held)
        if draws is not None and not draws.below(5):
            return bytes([32 * major + 31]) + inner + b"\xff"
        return head(major, len(held) // (major - 3), draws) + inner
    if major == 6:
        return head(6, held[0], draws) + spell(held[1], draws)
    if major == 7:
        return make.shortest(7, held)
    return head(major, held, draws)


# ---- changes


def children(tree):
    major, held = tree
    if major in (4, 5):
        return list(held)
    return [held] if major == INSIDE else [held[1]] if major == 6 else []


def with_children(tree, nodes):
    major, held = tree
    if major in (4, 5):
        return (major, nodes + [(7, 22)] * (len(nodes) % 2 if major == 5 else 0))
    if major == INSIDE:
        return (INSIDE, nodes[0]) if nodes else (2, b"")
    return (6, [held[0], nodes[0] if nodes else (7, 22)])


def moved(nodes, draws):
    """One element left out, put in, doubled or moved."""
    at, kind = draws.below(len(nodes)), draws.below(4)
    node = nodes.pop(at)
    if kind == 0:
        return nodes
    if kind == 1:
        return nodes[:at] + [node, (RAW, draws.one_of(make.TYPES))] + nodes[at:]
    if kind == 2:
        return nodes[:at] + [node, node] + nodes[at:]
    to = draws.below(len(nodes) + 1)
    return nodes[:to] + [node] + nodes[to:]


def near(tree, draws):
    """A number next to it, a string of another length, or a value wrapped once more."""
    major, held = tree
    if major in (0, 1):
        around = [min(held + 1, (1 << 64) - 1), max(held - 1, 0), (1 << 63) - 1, 1 << 63, (1 << 64) - 1, 0, 1, 2, 3, 5,
            6, 10, 200]
        return (draws.below(2), draws.one_of(around)) if draws.below(2) else (major, draws.one_of(around))
    if major in (2, 3):
        return (draws.one_of([2, 2, 3]), draws.one_of([held + b"a", held[1:], b"", held + held]))
    if major == 6:
        return (6, [draws.one_of([16, 17, 18, 19, 0]), held[1]])
    return draws.one_of([(4, [tree]), (6, [18, tree]), (INSIDE, tree), (5, [(0, 1), tree])])


def changed(tree, draws):
    """The tree with one change, most often deep within it."""
    nodes = children(tree)
    if nodes and draws.below(6):
        at = draws.below(len(nodes))
        nodes[at] = changed(nodes[at], draws)
        return with_children(tree, nodes)
    kind = draws.below(4)
    if nodes and kind < 2:
        return with_children(tree, moved(nodes, draws))
    if kind < 3:
        return near(tree, draws)
    return (RAW, draws.one_of(make.TYPES + make.NO_ITEMS))


def broken(data, draws):
    """Bytes with one of them changed, left out or put in, or with the rest cut off."""
    at, kind = draws.below(len(data)), draws.below(6)
    if kind < 2:
        return data[:at] + bytes([data[at] ^ (1 << draws.below(8))]) + data[at + 1 :]
    if kind == 2:
        return data[:at] + bytes([draws.below(256)]) + data[at + 1 :]
    if kind == 3:
        return data[:at] + data[at + 1 :]
    if kind == 4:
        return data[:at] + draws.one_of([b"\xff", b"\x00", bytes([draws.below(256)])]) + data[at:]
    return data[:at]


def mutations(trees, count, seed):
    """Spellings of trees with none to three changes, some of them with broken bytes; `count` different ones."""
    draws, known = Draws(seed), set()
    while len(known) < count:
        tree = draws.one_of(trees)
        for _ in range(draws.one_of([0, 1, 1, 1, 1, 2, 2, 3])):
            tree = changed(tree, draws)
        data = spell(tree, draws if draws.below(2) else None)
        if data and not draws.below(4):
            data = broken(data, draws)
        if data not in known and len(data) < 1000:
            known.add(data)
            yield data
