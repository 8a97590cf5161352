#!/usr/bin/env python3
"""Draws the map of crates, docs/crates.svg, from crates.txt: a box for each shipped crate, a column for each heading, and arrows that
all lead down, from a crate to those that it uses.

Usage: python3 build/crate_map.py [--check]

An arrow that others imply is left out: where A uses B and B uses C, none leads from A to C. --check draws nothing, and fails if the
picture isn't that of crates.txt.
"""

import html
import os
import sys

HOME = os.path.dirname(os.path.dirname(os.path.realpath(__file__)))
PICTURE = os.path.join(HOME, "docs", "crates.svg")

# In pixels: a box, the gaps between boxes, columns and rows, and the room for headings.
BOX_WIDTH, BOX_HEIGHT = 88, 22
BOX_GAP, COLUMN_GAP, ROW = 8, 30, 58
TOP, MARGIN = 64, 16
LEFT_OUT = "Not shipped"
COLOURS = ["#57606a", "#1f6feb", "#cf222e", "#bf8700", "#8250df", "#1a7f37", "#0a7ea4", "#953800", "#b3008f"]


def read_crates():
    """The headings of crates.txt, and of each crate its heading and the crates of this repository that it uses."""
    headings, crates, heading = [], {}, None
    with open(os.path.join(HOME, "crates.txt")) as lines:
        for line in lines:
            if line.startswith("# "):
                heading = line[2:].strip()
            elif ":" in line:
                name, uses = line.split(":", 1)
                crates[name.split()[0]] = (heading, uses.split())
    shipped = {name: it for name, it in crates.items() if it[0] != LEFT_OUT}
    for name, (its, uses) in shipped.items():
        shipped[name] = (its, [it for it in uses if it in shipped])
        headings += [its] if its not in headings else []
    return headings, shipped


def all_below(crates):
    """Of each crate, all that it stands on."""
    below = {}

    def reach(name):
        if name not in below:
            below[name] = {it for use in crates[name][1] for it in {use, *reach(use)}}
        return below[name]

    for name in crates:
        reach(name)
    return below


def direct(crates, below):
    """The arrows that no others imply."""
    for name, (_, uses) in crates.items():
        for use in uses:
            if not any(use in below[other] for other in uses):
                yield name, use


def rows_of(crates):
    """Of each crate its row from below: one above the highest that it uses."""
    rows = {}

    def row(name):
        if name not in rows:
            rows[name] = max((row(use) + 1 for use in crates[name][1]), default=0)
        return rows[name]

    for name in crates:
        row(name)
    return rows


def placed(headings, crates, rows):
    """Where each crate's box has its left upper corner, the left edge and width of each column, and the size of the picture."""
    height = max(rows.values()) + 1
    spots, columns, left = {}, [], MARGIN
    for heading in headings:
        mine = [name for name in crates if crates[name][0] == heading]
        beside = {row: [name for name in mine if rows[name] == row] for row in range(height)}
        most = max(len(it) for it in beside.values())
        width = most * (BOX_WIDTH + BOX_GAP) - BOX_GAP
        for row, names in beside.items():
            begin = left + (width - len(names) * (BOX_WIDTH + BOX_GAP) + BOX_GAP) / 2
            for place, name in enumerate(names):
                spots[name] = (begin + place * (BOX_WIDTH + BOX_GAP), TOP + (height - 1 - row) * ROW)
        columns.append((heading, left, width))
        left += width + COLUMN_GAP
    return spots, columns, (left - COLUMN_GAP + MARGIN, TOP + height * ROW - (ROW - BOX_HEIGHT) + MARGIN)


def heading_marks(heading, left, width, height, colour):
    """A column's ground, and its heading up to a comma, in lines of a few words."""
    words, lines = heading.split(",")[0].split(" "), [""]
    for word in words:
        if lines[-1] and len(lines[-1]) + len(word) > max(13, width // 8):
            lines.append("")
        lines[-1] = f"{lines[-1]} {word}".strip()
    yield f'<rect x="{left - 8}" y="8" width="{width + 16}" height="{height - 16}" rx="6" fill="{colour}" fill-opacity="0.06"/>'
    for place, line in enumerate(lines[:3]):
        yield f'<text x="{left + width / 2:g}" y="{22 + 14 * place}" text-anchor="middle" font-size="11" fill="{colour}">{html.escape(line)}</text>'


def arrow(upper, lower, colour):
    """A line from the lower edge of a box to the upper edge of another."""
    (x, y), (to_x, to_y) = upper, lower
    x, y, to_x = x + BOX_WIDTH / 2, y + BOX_HEIGHT, to_x + BOX_WIDTH / 2
    bend = min(40, (to_y - y) / 2)
    return (
        f'<path d="M{x:g} {y:g} C{x:g} {y + bend:g} {to_x:g} {to_y - bend:g} {to_x:g} {to_y:g}" fill="none" stroke="{colour}" '
        'stroke-opacity="0.55" marker-end="url(#head)"/>'
    )


def box(name, spot, colour):
    x, y = spot
    return (
        f'<rect x="{x:g}" y="{y:g}" width="{BOX_WIDTH}" height="{BOX_HEIGHT}" rx="3" fill="#ffffff" stroke="{colour}"/>'
        f'<text x="{x + BOX_WIDTH / 2:g}" y="{y + 15:g}" text-anchor="middle">{name}</text>'
    )


def drawn():
    """The picture's text."""
    headings, crates = read_crates()
    spots, columns, (width, height) = placed(headings, crates, rows_of(crates))
    colours = dict(zip(headings, COLOURS))
    marks = ["<title>The crates of spt, and which ones each uses</title>"]
    marks.append('<defs><marker id="head" viewBox="0 0 6 6" refX="6" refY="3" markerWidth="6" markerHeight="6" orient="auto"><path d="M0 0 6 3 0 6z" fill="#57606a"/></marker></defs>')
    marks.append('<rect width="100%" height="100%" fill="#ffffff"/>')
    for heading, left, column_width in columns:
        marks += heading_marks(heading, left, column_width, height, colours[heading])
    marks += [arrow(spots[upper], spots[lower], colours[crates[upper][0]]) for upper, lower in direct(crates, all_below(crates))]
    marks += [box(name, spots[name], colours[crates[name][0]]) for name in crates]
    frame = (
        f'<svg xmlns="http://www.w3.org/2000/svg" viewBox="0 0 {width:g} {height:g}" width="{width:g}" height="{height:g}" role="img" '
        'font-family="system-ui, sans-serif" font-size="12" fill="#1f2328">'
    )
    return "\n".join([frame, *marks, "</svg>", ""])


def main():
    picture = drawn()
    if sys.argv[1:] == ["--check"]:
        with open(PICTURE) as file:
            sys.exit(0 if file.read() == picture else "docs/crates.svg isn't that of crates.txt: run python3 build/crate_map.py")
    with open(PICTURE, "w") as file:
        file.write(picture)


if __name__ == "__main__":
    main()
