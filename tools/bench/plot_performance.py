#!/usr/bin/env python3
"""Draws docs/performance.svg from the table of docs/PERFORMANCE.md: the ratio to each peer, on a log scale.

    tools/bench/plot_performance.py            draws it anew
    tools/bench/plot_performance.py --check    exits 1 where the picture is not what would be drawn

It needs nothing but python3. A row is a phase, a mark a peer, the line through it the least and the greatest of the rounds.
"""
import math
import pathlib
import re
import sys

TOP = pathlib.Path(__file__).resolve().parent.parent.parent
PAGE, PICTURE = TOP / "docs/PERFORMANCE.md", TOP / "docs/performance.svg"
# A peer's column, its name, its colour and its mark.
PEERS = (("redis", "Redis 7.0.15", "#c0392b", "circle"), ("redisearch1", "RediSearch 1.2.2", "#1f5fa8", "square"),
         ("fts5", "SQLite FTS5", "#2e7d32", "triangle"), ("xapian", "Xapian", "#8e44ad", "diamond"), ("lucene", "Lucene", "#b7791f", "cross"))
RATIO = re.compile(r"([\d.]+) \(([\d.]+)\.\.([\d.]+)\)")
LEAST, MOST = 0.05, 20.0
TICKS = (0.05, 0.1, 0.2, 0.5, 1, 2, 5, 10, 20)
LEFT, RIGHT, TOP_EDGE, ROW = 270, 880, 92, 21


def ratios():
    """Of each phase its name, and of each peer the median, the least and the greatest ratio."""
    lines = PAGE.read_text().splitlines()
    start = next(at for at, line in enumerate(lines) if line.startswith("| phase |"))
    columns = [cell.strip() for cell in lines[start].strip("|").split("|")]
    found = []
    for line in lines[start + 2:]:
        if not line.startswith("|"):
            break
        cells = dict(zip(columns, (cell.strip() for cell in line.strip("|").split("|"))))
        numbers = {peer: tuple(map(float, RATIO.match(cells[peer]).groups())) for peer, *_ in PEERS if RATIO.match(cells[peer])}
        found.append((cells["phase"], numbers))
    return found


def across(ratio):
    """Where a ratio stands from the left."""
    part = math.log(min(max(ratio, LEAST), MOST) / LEAST) / math.log(MOST / LEAST)
    return LEFT + part * (RIGHT - LEFT)


def mark(kind, x, y, colour):
    corners = {"square": ((-4, -4), (4, -4), (4, 4), (-4, 4)), "triangle": ((0, -5), (5, 4), (-5, 4)), "diamond": ((0, -6), (5, 0), (0, 6), (-5, 0))}
    if kind == "circle":
        return f'<circle cx="{x:.1f}" cy="{y:.1f}" r="4.5" fill="{colour}"/>'
    if kind == "cross":
        return f'<path d="M{x - 4:.1f} {y - 4:.1f}l8 8m0-8l-8 8" stroke="{colour}" stroke-width="2.4"/>'
    points = " ".join(f"{x + across_by:.1f},{y + down_by:.1f}" for across_by, down_by in corners[kind])
    return f'<polygon points="{points}" fill="{colour}"/>'


def text(x, y, words, more=""):
    return f'<text x="{x:.1f}" y="{y:.1f}" {more}>{words.replace("&", "&amp;").replace("<", "&lt;")}</text>'


def legend():
    parts, x = [], LEFT
    for _, name, colour, kind in PEERS:
        parts += [mark(kind, x, 48, colour), text(x + 10, 52, name)]
        x += 24 + 7.2 * len(name)
    return parts


def scale(bottom):
    parts = []
    for tick in TICKS:
        x, strong = across(tick), tick == 1
        parts.append(f'<line x1="{x:.1f}" y1="{TOP_EDGE - 6}" x2="{x:.1f}" y2="{bottom}" stroke="{"#333" if strong else "#ddd"}" stroke-width="{1.6 if strong else 1}"/>')
        parts.append(text(x, TOP_EDGE - 12, f"{tick:g}", 'text-anchor="middle" fill="#555"'))
    return parts


def rows_drawn(title, rows, y):
    """The rows of a group below its title, and where the next group begins."""
    parts = [text(12, y + 14, title, 'font-weight="bold"')]
    y += ROW
    for at, (phase, numbers) in enumerate(rows):
        if at % 2 == 0:
            parts.append(f'<rect x="8" y="{y}" width="{RIGHT}" height="{ROW}" fill="#000" fill-opacity="0.035"/>')
        parts.append(text(LEFT - 12, y + 15, phase, 'text-anchor="end"'))
        middle = y + ROW / 2
        for peer, _, colour, kind in PEERS:
            if peer in numbers:
                median, least, greatest = numbers[peer]
                parts.append(f'<line x1="{across(least):.1f}" y1="{middle}" x2="{across(greatest):.1f}" y2="{middle}" stroke="{colour}" stroke-opacity="0.45" stroke-width="3"/>')
                parts.append(mark(kind, across(median), middle, colour))
        y += ROW
    return parts, y + 8


def picture():
    found = ratios()
    speeds = [row for row in found if not row[0].startswith("bytes")]
    sizes = [row for row in found if row[0].startswith("bytes")]
    first, y = rows_drawn("Operations per second: over 1, rsearch is faster", speeds, TOP_EDGE)
    second, y = rows_drawn("Bytes a document: over 1, rsearch takes more", sizes, y)
    head = [f'<svg xmlns="http://www.w3.org/2000/svg" width="900" height="{y + 6}" viewBox="0 0 900 {y + 6}" font-family="sans-serif" font-size="12.5">',
            f'<rect width="900" height="{y + 6}" fill="#fff"/>',
            text(12, 22, "rsearch over each peer, on a log scale: the median of the rounds, the least and the greatest", 'font-size="14.5" font-weight="bold"')]
    return "\n".join(head + legend() + scale(y - 8) + first + second + ["</svg>", ""])


def main():
    drawn = picture()
    if "--check" not in sys.argv[1:]:
        PICTURE.write_text(drawn)
    elif not PICTURE.is_file() or PICTURE.read_text() != drawn:
        print("docs/performance.svg: it is not what tools/bench/plot_performance.py draws from docs/PERFORMANCE.md")
        return 1
    return 0


sys.exit(main())
