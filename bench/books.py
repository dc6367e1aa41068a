#!/usr/bin/env python3
"""Writes the books that are timed, the same ones at every run: bench/books.py FOLDER

FOLDER/split/NAME.book   a split each; those named growth-.. show how cost grows
FOLDER/walk/NAME.book    a walk each, with its gate in NAME.gate: kind, a, b
"""
import os
import random
import struct
import sys

METER, MAKER = 1, 2


def book(marks, nets, area=lambda m: 1 + m % 7):
    """The bytes of a book: marks by module, nets as (weight, modules)."""
    modules = b"".join(struct.pack("<HH", area(m), mark) for m, mark in enumerate(marks))
    heads = b"".join(struct.pack("<HH", weight, len(pins)) for weight, pins in nets)
    pins = b"".join(struct.pack("<H", m) for _, net in nets for m in sorted(net))
    contents, start = struct.pack("<H", 3), 32
    for kind, body in enumerate((modules, heads, pins), 1):
        contents += struct.pack("<HII", kind, start, len(body))
        start += len(body)
    return contents + modules + heads + pins


def ends(modules, k):
    """k meters at one end, k makers at the other."""
    return [METER] * k + [0] * (modules - 2 * k) + [MAKER] * k


def sizes(dice, nets, pins):
    """Pins of each net: mostly 2 to 5, some longer, as many in all as asked for."""
    counts = [dice.choice((2, 2, 3, 3, 4, 4, 5, 5)) if dice.random() < 0.92 else dice.randint(6, 16) for _ in range(nets)]
    while sum(counts) != pins:
        n = dice.randrange(nets)
        step = 1 if sum(counts) < pins else -1
        if 2 <= counts[n] + step <= 16:
            counts[n] += step
    return counts


def circuit(dice, modules, k, top):
    """Local nets on a row of modules, one in twelve of them long."""
    nets = []
    for count in sizes(dice, 2 * modules, 8 * modules):
        reach = modules if dice.random() < 1 / 12 else max(count, modules // 16)
        middle = dice.randrange(modules)
        low = max(0, min(modules - 2 * reach, middle - reach))
        near = range(low, min(modules, low + 2 * reach))
        nets.append((dice.randint(1, top), dice.sample(near, count)))
    return book(ends(modules, k), nets)


def chain(dice, modules, top):
    """Two nets between each module and the next."""
    return book(ends(modules, 1), [(dice.randint(1, top), (m, m + 1)) for m in range(modules - 1) for _ in (0, 1)])


def grid(dice, side, top):
    """A square of modules, its left column meters and its right column makers."""
    marks = [METER if m % side == 0 else MAKER if m % side == side - 1 else 0 for m in range(side * side)]
    nets = []
    for m in range(side * side):
        if m % side < side - 1:
            nets.append((dice.randint(1, top), (m, m + 1)))
        if m + side < side * side:
            nets.append((dice.randint(1, top), (m, m + side)))
    return book(marks, nets)


def huge_net(dice, modules, top):
    """One net of all modules, and pairs."""
    pairs = [(dice.randint(1, top), dice.sample(range(modules), 2)) for _ in range(2 * modules - 1)]
    return book(ends(modules, 1), [(top, range(modules))] + pairs)


def equal_lines(modules, ways):
    """Rows of modules side by side, every net of weight 1: any line across costs the same."""
    length = (modules - 2) // ways
    nets = []
    for way in range(ways):
        row = [0] + [1 + way * length + i for i in range(length)] + [modules - 1]
        nets += [(1, pair) for pair in zip(row, row[1:])]
    return book(ends(modules, 1), nets)


def scattered(dice, modules, k, top):
    """Nets of four modules anywhere."""
    return book(ends(modules, k), [(dice.randint(1, top), dice.sample(range(modules), 4)) for _ in range(2 * modules)])


def main(folder):
    os.makedirs(f"{folder}/split", exist_ok=True)
    os.makedirs(f"{folder}/walk", exist_ok=True)

    def split(name, make):
        with open(f"{folder}/split/{name}.book", "wb") as out:
            out.write(make(random.Random(name)))

    def walk(name, make, gate):
        with open(f"{folder}/walk/{name}.book", "wb") as out:
            out.write(make(random.Random(name)))
        with open(f"{folder}/walk/{name}.gate", "w") as out:
            print(*gate, file=out)

    for k in (1, 8, 32):
        for top in (1, 100, 65535):
            for seed in "ab":
                split(f"circuit-{k:02}-{top:05}-{seed}", lambda dice: circuit(dice, 256, k, top))
    for top in (1, 65535):
        split(f"chain-{top:05}", lambda dice: chain(dice, 256, top))
        split(f"grid-{top:05}", lambda dice: grid(dice, 16, top))
        split(f"huge-net-{top:05}", lambda dice: huge_net(dice, 256, top))
        split(f"scattered-08-{top:05}", lambda dice: scattered(dice, 256, 8, top))
    for ways in (8, 32):
        split(f"equal-lines-{ways:02}", lambda dice: equal_lines(256, ways))
    for modules in (32, 64, 128, 256):
        split(f"growth-circuit-{modules:03}", lambda dice: circuit(dice, modules, modules // 32, 100))
        split(f"growth-chain-{modules:03}", lambda dice: chain(dice, modules, 65535))
        split(f"growth-scattered-{modules:03}", lambda dice: scattered(dice, modules, modules // 32, 100))
    for top in (1, 100, 65535):
        walk(f"circuit-{top:05}", lambda dice: circuit(dice, 256, 1, top), (1, 0.5, 0.001))
    walk("chain-00001", lambda dice: chain(dice, 256, 1), (1, 0.5, 0.001))
    walk("grid-00100", lambda dice: grid(dice, 16, 100), (1, 0.5, 0.001))


if __name__ == "__main__":
    main(sys.argv[1])
