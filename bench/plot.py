#!/usr/bin/env python3
"""Draws what a step costs, over the items and the jobs, from the lines of `harness speed`.

Arguments: the file of lines, and the drawing to write.
"""

import re
import sys

PANEL_WIDTH, PANEL_HEIGHT, LEFT, TOP, GAP = 300, 220, 60, 40, 70
COLOURS = {1: "#1b6ca8", 4: "#c0562b", 16: "#3b7d3b"}


def steps(path):
    """The steps of the file: shape, items, jobs, and nanoseconds on both sides."""
    form = re.compile(
        r"speed step shape=(\w+) items=(\d+) jobs=(\d+) .*proved_ns=([\d.]+) plain_ns=([\d.]+)"
    )
    with open(path, encoding="utf-8") as lines:
        found = [form.match(line) for line in lines]
    return [
        (m[1], int(m[2]), int(m[3]), float(m[4]), float(m[5])) for m in found if m
    ]


def text(x, y, words, anchor="middle"):
    return f'<text x="{x:.0f}" y="{y:.0f}" text-anchor="{anchor}">{words}</text>'


def line(points, colour, dashes):
    corners = " ".join(f"{x:.1f},{y:.1f}" for x, y in points)
    return f'<polyline points="{corners}" fill="none" stroke="{colour}" stroke-width="2" {dashes}/>'


def panel(shape, rows, left, most):
    """One panel: a shape of the tree; the proved side whole, the plain one dashed."""
    place_x = lambda items: left + items / 64 * PANEL_WIDTH
    place_y = lambda ns: TOP + PANEL_HEIGHT * (1 - ns / most)
    parts = [
        f'<rect x="{left}" y="{TOP}" width="{PANEL_WIDTH}" height="{PANEL_HEIGHT}" fill="none" stroke="#999"/>',
        text(left + PANEL_WIDTH / 2, TOP - 12, f"one step, {shape}"),
        text(left + PANEL_WIDTH / 2, TOP + PANEL_HEIGHT + 36, "items"),
    ]
    parts += [text(place_x(n), TOP + PANEL_HEIGHT + 18, n) for n in (8, 32, 64)]
    parts += [
        text(left - 6, place_y(most * k / 4) + 4, f"{most * k / 4:.0f} ns", "end")
        for k in range(5)
    ]
    for jobs, colour in COLOURS.items():
        mine = [row for row in rows if row[0] == shape and row[2] == jobs]
        parts.append(line([(place_x(r[1]), place_y(r[3])) for r in mine], colour, ""))
        parts.append(
            line([(place_x(r[1]), place_y(r[4])) for r in mine], colour, 'stroke-dasharray="5 4"')
        )
    return parts


def legend(y):
    parts = []
    for k, (jobs, colour) in enumerate(COLOURS.items()):
        x = LEFT + 110 * k
        parts.append(line([(x, y), (x + 24, y)], colour, ""))
        parts.append(text(x + 30, y + 4, f"{jobs} job" + ("s" if jobs > 1 else ""), "start"))
    parts.append(text(LEFT + 340, y + 4, "whole lines: proved, dashed: plain", "start"))
    return parts


def main(source, target):
    rows = steps(source)
    most = max(max(row[3], row[4]) for row in rows)
    drawing = []
    for k, shape in enumerate(("chain", "tree")):
        drawing += panel(shape, rows, LEFT + k * (PANEL_WIDTH + GAP), most)
    drawing += legend(TOP + PANEL_HEIGHT + 60)
    width, height = LEFT + 2 * PANEL_WIDTH + GAP + 20, TOP + PANEL_HEIGHT + 80
    with open(target, "w", encoding="utf-8") as out:
        out.write(
            f'<svg xmlns="http://www.w3.org/2000/svg" width="{width}" height="{height}" '
            'font-family="sans-serif" font-size="12">\n'
            + f'<rect width="{width}" height="{height}" fill="white"/>\n'
            + "\n".join(drawing)
            + "\n</svg>\n"
        )


if __name__ == "__main__":
    main(sys.argv[1], sys.argv[2])
