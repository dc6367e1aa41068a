#!/usr/bin/env python3
"""Writes docs/PERFORMANCE.md and docs/growth.svg from the times on standard input: bench/table.py MACHINE DATE KIT"""
import sys
from math import log2

PEERS = ("plain", "lemon preflow", "boost push-relabel", "boost boykov-kolmogorov")


def read(lines):
    """kind -> book -> who -> number"""
    times = {}
    for line in lines:
        kind, book, who, number = line.rstrip("\n").split("\t")
        times.setdefault(kind, {}).setdefault(book, {})[who] = float(number)
    return times


def table(head, rows):
    lines = ["| " + " | ".join(head) + " |", "|" + "---|" * len(head)]
    return "\n".join(lines + ["| " + " | ".join(row) + " |" for row in rows])


def splits(times, peers):
    rows = []
    for book, row in sorted(times.items()):
        if book.startswith("growth-"):
            continue
        ours, fastest = row["platelayer"], min(row[who] for who in peers)
        rows.append([book, f"{ours:.0f}"] + [f"{row[who]:.0f}" for who in peers] + [f"{ours / fastest:.2f}"])
    return table(["book", "platelayer, µs"] + list(peers) + ["ours / fastest peer"], rows)


def walks(times, rounds):
    rows = []
    for book, row in sorted(times.items()):
        count = rounds[book]["platelayer"]
        rows.append([book, f"{count:.0f}", f"{row['platelayer']:.0f}", f"{row['platelayer'] / count:.1f}", f"{row['plain']:.0f}", f"{row['platelayer'] / row['plain']:.3f}"])
    return table(["book", "rounds", "platelayer, µs", "a round, µs", "plain, µs", "ours / plain"], rows)


def growth(times):
    """shape -> [(modules, µs)]"""
    shapes = {}
    for book, row in sorted(times.items()):
        if book.startswith("growth-"):
            _, shape, modules = book.split("-")
            shapes.setdefault(shape, []).append((int(modules), row["platelayer"]))
    return shapes


def growth_table(shapes):
    sizes = [modules for modules, _ in next(iter(shapes.values()))]
    rows = [[shape] + [f"{time:.0f}" for _, time in points] for shape, points in shapes.items()]
    return table(["shape, µs"] + [f"{size} modules" for size in sizes], rows)


def plot(shapes):
    """Both axes by powers of two."""
    left, top, wide, high = 60, 20, 440, 260
    sizes = [m for points in shapes.values() for m, _ in points]
    times = [t for points in shapes.values() for _, t in points]
    x0, x1 = log2(min(sizes)), log2(max(sizes))
    y0, y1 = int(log2(min(times))), int(log2(max(times))) + 1
    x = lambda m: left + wide * (log2(m) - x0) / (x1 - x0)
    y = lambda t: top + high * (y1 - log2(t)) / (y1 - y0)
    out = [f'<svg xmlns="http://www.w3.org/2000/svg" width="{left + wide + 130}" height="{top + high + 50}" font-family="sans-serif" font-size="12">']
    out.append(f'<rect x="{left}" y="{top}" width="{wide}" height="{high}" fill="none" stroke="#888"/>')
    for m in sorted(set(sizes)):
        out.append(f'<text x="{x(m):.1f}" y="{top + high + 18}" text-anchor="middle">{m}</text>')
    for k in range(y0, y1 + 1):
        out.append(f'<line x1="{left}" x2="{left + wide}" y1="{y(2 ** k):.1f}" y2="{y(2 ** k):.1f}" stroke="#ddd"/>')
        out.append(f'<text x="{left - 6}" y="{y(2 ** k) + 4:.1f}" text-anchor="end">{2 ** k}</text>')
    out.append(f'<text x="{left + wide / 2}" y="{top + high + 38}" text-anchor="middle">modules</text>')
    out.append(f'<text x="14" y="{top + high / 2}" text-anchor="middle" transform="rotate(-90 14 {top + high / 2})">µs a split</text>')
    for (shape, points), colour in zip(shapes.items(), ("#1b6ca8", "#b3541e", "#3a7d44")):
        path = " ".join(f"{x(m):.1f},{y(t):.1f}" for m, t in points)
        out.append(f'<polyline points="{path}" fill="none" stroke="{colour}" stroke-width="2"/>')
        out.append(f'<text x="{left + wide + 8}" y="{y(points[-1][1]) + 4:.1f}" fill="{colour}">{shape}</text>')
    return "\n".join(out + ["</svg>", ""])


def main(machine, date, kit):
    times = read(sys.stdin)
    peers = [who for who in PEERS if all(who in row for row in times["split"].values())]
    ratios = []
    for book, row in times["split"].items():
        if not book.startswith("growth-"):
            ratios.append(row["platelayer"] / min(row[who] for who in peers))
    with open("bench/PERFORMANCE.md") as page:
        text = page.read()
    marks = {
        "@MACHINE@": machine,
        "@DATE@": date,
        "@KIT@": kit,
        "@SPLITS@": splits(times["split"], peers),
        "@SUMMARY@": f"{sum(r <= 0.5 for r in ratios)} of {len(ratios)} books take at most half the time of the fastest peer; the ratios go from {min(ratios):.2f} to {max(ratios):.2f}.",
        "@WALKS@": walks(times["walk"], times["rounds"]),
        "@GROWTH@": growth_table(growth(times["split"])),
        "@STACK@": table(["call", "bytes of stack"], [[name, f"{row['platelayer']:.0f}"] for name, row in times["stack"].items()]),
    }
    for mark, words in marks.items():
        text = text.replace(mark, words)
    with open("docs/PERFORMANCE.md", "w") as out:
        out.write(text)
    with open("docs/growth.svg", "w") as out:
        out.write(plot(growth(times["split"])))
    print(marks["@SUMMARY@"])


if __name__ == "__main__":
    main(*sys.argv[1:])
