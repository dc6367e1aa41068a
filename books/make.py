#!/usr/bin/env python3
"""Writes the books of this folder and the listing of each, NAME.book and NAME.listing.

The listings come from a plain version of document 01, written for this comparison: the six checks,
and the split by augmenting paths through a network with an arc for each net.
"""
import os
import random
import struct
from collections import deque

HERE = os.path.dirname(os.path.abspath(__file__))
MODULES, NETS, PINS = 256, 512, 2048
LARGEST = 32 + 4 * MODULES + 4 * NETS + 2 * PINS


def book(modules, nets):
    """The bytes of a book: modules are (area, mark), nets are (weight, pins)."""
    bodies = [
        b"".join(struct.pack("<HH", *m) for m in modules),
        b"".join(struct.pack("<HH", w, len(ps)) for w, ps in nets),
        b"".join(struct.pack("<H", p) for _, ps in nets for p in ps),
    ]
    contents, at = struct.pack("<H", 3), 32
    for kind, body in enumerate(bodies, 1):
        contents += struct.pack("<HII", kind, at, len(body))
        at += len(body)
    return contents + b"".join(bodies)


def read(s):
    """Checks 1 to 6: (areas, marks, nets), or a refusal (number, place)."""
    if len(s) < 32 or s[:2] != b"\x03\x00":
        return 1, 0
    entries, at = [struct.unpack_from("<HII", s, 2 + 10 * i) for i in range(3)], 32
    for (kind, start, length), want, unit in zip(entries, (1, 2, 3), (4, 4, 2)):
        if kind != want or start != at or length % unit:
            return 1, 0
        at += length
    if at != len(s):
        return 1, 0
    m, n, p = entries[0][2] // 4, entries[1][2] // 4, entries[2][2] // 2
    if not (2 <= m <= MODULES and n <= NETS and p <= PINS):
        return 2, 0
    numbers = struct.unpack_from("<%dH" % (2 * m + 2 * n + p), s, 32)
    areas, marks = numbers[0 : 2 * m : 2], numbers[1 : 2 * m : 2]
    weights, counts = numbers[2 * m : 2 * m + 2 * n : 2], numbers[2 * m + 1 : 2 * m + 2 * n : 2]
    pins = numbers[2 * m + 2 * n :]
    for i in range(m):
        if areas[i] == 0 or marks[i] > 2:
            return 3, i
    for i in range(n):
        if weights[i] == 0 or counts[i] == 0:
            return 4, i
    if sum(counts) != p:
        return 4, n
    nets, at = [], 0
    for w, k in zip(weights, counts):
        for j in range(k):
            if pins[at + j] >= m or (j > 0 and pins[at + j] <= pins[at + j - 1]):
                return 5, at + j
        nets.append((w, pins[at : at + k]))
        at += k
    if 1 not in marks or 2 not in marks:
        return 6, 0
    return areas, marks, nets


def split(marks, nets):
    """Price, near side and far side. Nodes: the modules, then two for each net, then source and sink."""
    m, big = len(marks), 1 << 40
    source, sink = m + 2 * len(nets), m + 2 * len(nets) + 1
    room = [{} for _ in range(sink + 1)]

    def arc(a, b, w):
        room[a][b] = w
        room[b].setdefault(a, 0)

    for i, (w, pins) in enumerate(nets):
        arc(m + 2 * i, m + 2 * i + 1, w)
        for p in pins:
            arc(p, m + 2 * i, big)
            arc(m + 2 * i + 1, p, big)
    for i, mark in enumerate(marks):
        if mark == 1:
            arc(source, i, big)
        elif mark == 2:
            arc(i, sink, big)

    def reach(start, step):
        came, queue = {start: None}, deque([start])
        while queue:
            a = queue.popleft()
            for b in room[a]:
                if b not in came and step(a, b) > 0:
                    came[b] = a
                    queue.append(b)
        return came

    price = 0
    while sink in (came := reach(source, lambda a, b: room[a][b])):
        way, b = [], sink
        while came[b] is not None:
            way.append((came[b], b))
            b = came[b]
        least = min(room[a][b] for a, b in way)
        for a, b in way:
            room[a][b] -= least
            room[b][a] += least
        price += least
    back = reach(sink, lambda a, b: room[b][a])
    return price, [i for i in range(m) if i in came], [i for i in range(m) if i not in back]


def listing(s):
    told = (2, 0) if len(s) > LARGEST else read(s)
    if len(told) == 2:
        return "refused %d at %d\n" % told
    areas, marks, nets = told
    price, near, far = split(marks, nets)
    text = "price %d\n" % price
    for name, side in (("near", near), ("far", far)):
        text += "%s %d modules area %d\n" % (name, len(side), sum(areas[i] for i in side))
        text += "".join("%d\n" % i for i in side)
    return text


def large():
    """256 modules in eight blocks, 512 nets, 2,048 pins: nets lie mostly within a block or between two neighbours."""
    pick = random.Random(5)
    marks = [1 if i < 8 else 2 if i >= 248 else 0 for i in range(MODULES)]
    modules = [(pick.randrange(1, 65536), mark) for mark in marks]
    nets = []
    for i in range(NETS):
        at = 32 * pick.randrange(8)
        near = range(max(0, at - 8), min(MODULES, at + 40)) if pick.random() < 0.1 else range(at, at + 32)
        nets.append((pick.randrange(1, 10), sorted(pick.sample(near, 4))))
    return book(modules, nets)


ROW = [(3, 1), (2, 0), (2, 0), (4, 2)]
BRIDGE = book(ROW, [(2, [0, 1]), (1, [1, 2]), (2, [2, 3])])
LARGE = large()
BOOKS = {
    "bridge": BRIDGE,
    "chain": book(ROW, [(1, [0, 1]), (1, [1, 2]), (1, [2, 3])]),
    "fan": book([(1, 1), (1, 0), (1, 2)], [(1, [0, 1, 2])]),
    "no-nets": book(ROW, []),
    "large": LARGE,
    "over": LARGE + b"\x00",
    "empty": b"",
    "one-more": BRIDGE + b"\x00",
    "refused-1": BRIDGE[:-2],
    "refused-2": book([(1, 1)] + [(1, 0)] * 255 + [(1, 2)], []),
    "refused-3": book([(3, 1), (0, 0), (2, 0), (4, 2)], [(2, [0, 1]), (1, [2, 2])]),
    "refused-4": book(ROW, [(2, [0, 1]), (0, [1, 2])]),
    "refused-5": book(ROW, [(2, [0, 1]), (1, [1, 1]), (2, [2, 4])]),
    "refused-6": book([(3, 1), (2, 0), (2, 0), (4, 0)], [(2, [0, 1])]),
}

for name, s in BOOKS.items():
    with open(os.path.join(HERE, name + ".book"), "wb") as f:
        f.write(s)
    with open(os.path.join(HERE, name + ".listing"), "w") as f:
        f.write(listing(s))
