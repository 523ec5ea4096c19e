"""Draws the recorded growth as docs/growth.svg, without any library."""
import pathlib

import growth
import works

PLACE = pathlib.Path("docs/growth.svg")
WIDTH, HEIGHT, LEFT, TOP, BOTTOM, BETWEEN = 420, 300, 70, 60, 120, 100  # of a panel, and around it
LINES = [("#1f4e79", ""), ("#b3541e", "6 3"), ("#4d7c3a", "2 3")]  # colour and dashes, so that print without colour tells them apart


def steps(most, marks):
    """Round numbers from 0 to the first that is not below the most, so many steps at most."""
    size = next(unit * 10**power for power in range(9) for unit in (1, 2, 5) if unit * 10**power * marks >= most)
    return [size * k for k in range(marks + 1) if size * (k - 1) < most]


class Panel:
    """One pair of axes, from 0, with its left edge at x."""

    def __init__(self, x, widest, most, ticks):
        self.x, self.ticks, self.levels = x, ticks, steps(most, 5)
        self.widest, self.most = widest, self.levels[-1]

    def at(self, size, count):
        return self.x + WIDTH * size / self.widest, TOP + HEIGHT * (1 - count / self.most)

    def axes(self, title, unit):
        yield text(self.x, TOP - 32, title, "start", "bold")
        yield text(self.x, TOP - 14, "instructions of fbk_handle", "start")
        for level in self.levels:
            x, y = self.at(0, level)
            yield f'<line x1="{x}" y1="{y:.1f}" x2="{x + WIDTH}" y2="{y:.1f}" stroke="#ddd"/>'
            yield text(x - 6, y + 4, f"{level:,}", "end")
        for tick in self.ticks:
            x, y = self.at(tick, 0)
            yield f'<line x1="{x:.1f}" y1="{y}" x2="{x:.1f}" y2="{y + 5}" stroke="#000"/>'
            yield text(x, y + 20, f"{tick:,}", "middle")
        yield text(self.x + WIDTH / 2, TOP + HEIGHT + 42, unit, "middle")

    def line(self, order, title, points):
        """A line with its points, and its name below the panel, where no line can run through it."""
        colour, dashes = LINES[order]
        places = [self.at(size, count) for size, count in points]
        yield f'<polyline points="{" ".join(f"{x:.1f},{y:.1f}" for x, y in places)}" {stroke(colour, dashes)}/>'
        for x, y in places:
            yield f'<circle cx="{x:.1f}" cy="{y:.1f}" r="2.5" fill="{colour}"/>'
        x, y = self.x, TOP + HEIGHT + 66 + 18 * order
        yield f'<line x1="{x}" y1="{y}" x2="{x + 30}" y2="{y}" {stroke(colour, dashes)}/>'
        yield text(x + 38, y + 4, title, "start")


def stroke(colour, dashes):
    return f'fill="none" stroke="{colour}" stroke-width="1.8" stroke-dasharray="{dashes or "none"}"'


def text(x, y, words, anchor, weight="normal"):
    return f'<text x="{x:.1f}" y="{y:.1f}" text-anchor="{anchor}" font-weight="{weight}">{words}</text>'


def curves(figures, kinds, sizes):
    return [(title, [(size, figures[growth.name(kind, size)]) for size in sizes]) for kind, title in kinds.items()]


def floor(figures):
    """The MD5 blocks of a request and of a reply as long."""
    return [(size, 2 * works.blocks(size + works.SECRET) * figures["md5-block"]) for size in growth.LENGTHS[1:]]


def panel(x, title, unit, lines, ticks):
    most = max(count for _, points in lines for _, count in points)
    drawn = Panel(x, ticks[-1], most, ticks)
    yield from drawn.axes(title, unit)
    for order, (name, points) in enumerate(lines):
        yield from drawn.line(order, name, points)


def draw(figures):
    by_length = curves(figures, growth.BY_LENGTH, growth.LENGTHS) + [("their MD5 blocks alone", floor(figures))]
    by_slots = [(f"other slots {title}", points) for title, points in curves(figures, growth.BY_SLOTS, growth.SLOTS)]
    width, height = LEFT + WIDTH + BETWEEN + WIDTH + 30, TOP + HEIGHT + BOTTOM
    body = [
        *panel(LEFT, "A longer packet", "bytes of the packet", by_length, [0, 1024, 2048, 3072, 4096]),
        *panel(LEFT + WIDTH + BETWEEN, "A larger table", "slots of the session table", by_slots, [0, 16, 32, 48, 64]),
    ]
    head = f'<svg xmlns="http://www.w3.org/2000/svg" width="{width}" height="{height}" font-family="sans-serif" font-size="12">'
    PLACE.write_text("\n".join([head, f'<rect width="{width}" height="{height}" fill="#fff"/>', *body, "</svg>"]) + "\n")
