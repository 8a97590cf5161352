"""Draws times as bars: a picture (SVG) of what a table says, for documents."""

import html

# In pixels: the width of the picture, of the names on the left and of the figures on the right, and the height of a row.
WIDTH, NAMES, FIGURES, ROW = 480, 112, 176, 24
BAR = 14
OURS, OTHERS = "#1f6feb", "#9aa4b2"
FRAME = (
    '<svg xmlns="http://www.w3.org/2000/svg" viewBox="0 0 {width} {height}" width="{width}" height="{height}" role="img" '
    'font-family="system-ui, sans-serif" font-size="13" fill="#1f2328">'
)


def text(x, y, words, more=""):
    return f'<text x="{x}" y="{y}"{more}>{html.escape(words)}</text>'


def told(seconds):
    return f"{seconds * 1000:.0f} ms" if seconds < 10 else f"{seconds:.0f} s"


def compared(seconds, ours):
    """A time, and how many times as long as ours it is."""
    return f"{told(seconds)}, {seconds / ours:.1f} times as long"


def bar(y, name, seconds, longest, ours):
    """A row: a name, a bar as long as its time, and the time beside ours."""
    length = max(1, round((WIDTH - NAMES - FIGURES) * seconds / longest))
    is_ours = name.startswith("spt")
    colour = OURS if is_ours else OTHERS
    return [
        text(NAMES - 8, y + 12, name, ' text-anchor="end"'),
        f'<rect x="{NAMES}" y="{y}" width="{length}" height="{BAR}" fill="{colour}"/>',
        text(NAMES + length + 6, y + 12, told(seconds) if is_ours else compared(seconds, ours)),
    ]


def drawn(title, panels):
    """The picture of panels, each a heading and its bars: a name and its seconds, ours first."""
    marks, y = [f"<title>{html.escape(title)}</title>", text(8, 20, title, ' font-weight="600"')], 44
    for heading, bars in panels:
        marks.append(text(8, y, heading))
        y += 10
        longest, ours = max(seconds for _, seconds in bars), bars[0][1]
        for name, seconds in bars:
            marks += bar(y, name, seconds, longest, ours)
            y += ROW
        y += 26
    frame = FRAME.format(width=WIDTH, height=y - 12)
    return "\n".join([frame, '<rect width="100%" height="100%" fill="#ffffff"/>', *marks, "</svg>", ""])
