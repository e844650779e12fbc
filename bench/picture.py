"""Growth curves as an SVG picture: a panel for each shape, both axes logarithmic."""

import math
from xml.sax.saxutils import escape

COLUMNS = 3
WIDTH, HEIGHT = 380, 270            # of a panel
LEFT, RIGHT, TOP, BOTTOM = 62, 26, 40, 48  # of a panel's axes
HEAD = 62
OURS, RUST, GRID, INK = "#0b6e4f", "#b5482a", "#dddddd", "#222222"
UNITS = ((1, "s"), (1e-3, "ms"), (1e-6, "us"))


def text(x, y, words, size=12, anchor="middle", more=""):
    return '<text x="%.1f" y="%.1f" font-size="%d" text-anchor="%s" fill="%s" %s>%s</text>' % (x, y, size, anchor, INK, more, escape(words))


def line(x1, y1, x2, y2, colour, width=1):
    return '<line x1="%.1f" y1="%.1f" x2="%.1f" y2="%.1f" stroke="%s" stroke-width="%s"/>' % (x1, y1, x2, y2, colour, width)


def decades(low, high):
    """The powers of ten around two values."""
    return range(math.floor(math.log10(low)), math.ceil(math.log10(high)) + 1)


def seconds(power):
    value = 10.0 ** power
    for size, name in UNITS:
        if value >= size * 0.999:
            return "%d %s" % (round(value / size), name)
    return "%d ns" % round(value * 1e9)


class Panel:
    def __init__(self, x, y, title, unit, points):
        self.x, self.y, self.title, self.unit, self.points = x, y, title, unit, points
        times = [time for _, *both in points for time in both if time is not None]
        self.powers = decades(min(times), max(times))
        sizes = [size for size, *_ in points]
        self.low, self.high = math.log10(sizes[0]), math.log10(sizes[-1])

    def across(self, size):
        share = (math.log10(size) - self.low) / (self.high - self.low)
        return self.x + LEFT + share * (WIDTH - LEFT - RIGHT)

    def up(self, time):
        share = (math.log10(time) - self.powers[0]) / (self.powers[-1] - self.powers[0])
        return self.y + HEIGHT - BOTTOM - share * (HEIGHT - TOP - BOTTOM)

    def axes(self):
        left, right, bottom = self.x + LEFT, self.x + WIDTH - RIGHT, self.y + HEIGHT - BOTTOM
        for power in self.powers:
            level = self.up(10.0 ** power)
            yield line(left, level, right, level, GRID)
            yield text(left - 6, level + 4, seconds(power), 11, "end")
        yield from self.ticks(bottom)
        yield line(left, bottom, right, bottom, INK)
        yield line(left, self.y + TOP, left, bottom, INK)
        yield text((left + right) / 2, bottom + 36, self.unit, 12)
        yield text((left + right) / 2, self.y + 24, self.title, 13, more='font-weight="bold"')

    def ticks(self, bottom):
        """A tick for each size, and its number where that has room, from the last size on."""
        free = float("inf")
        for size, *_ in reversed(self.points):
            at, words = self.across(size), format(size, ",")
            yield line(at, bottom, at, bottom + 4, INK)
            half = 3.2 * len(words) + 4
            if at + half <= free:
                yield text(at, bottom + 17, words, 11)
                free = at - half

    def curve(self, which, colour):
        found = [(self.across(point[0]), self.up(point[which])) for point in self.points if point[which] is not None]
        if not found:
            return
        path = " ".join("%.1f,%.1f" % place for place in found)
        yield '<polyline points="%s" fill="none" stroke="%s" stroke-width="2"/>' % (path, colour)
        for place in found:
            yield '<circle cx="%.1f" cy="%.1f" r="3" fill="%s"/>' % (*place, colour)

    def drawn(self):
        yield from self.axes()
        yield from self.curve(2, RUST)
        yield from self.curve(1, OURS)


def legend(width):
    yield text(width / 2, 24, "Time of one sheet over its size, both axes logarithmic", 16, more='font-weight="bold"')
    for at, colour, name in ((-190, OURS, "proved library"), (10, RUST, "Rust, up to the size where it is asked")):
        x = width / 2 + at
        yield line(x, 45, x + 28, 45, colour, 2)
        yield '<circle cx="%.1f" cy="45" r="3" fill="%s"/>' % (x + 14, colour)
        yield text(x + 36, 49, name, 13, "start")


def write(path, curves):
    """curves are (title, unit, points), a point is (size, our seconds, the Rust's seconds or None)."""
    rows = math.ceil(len(curves) / COLUMNS)
    width, height = COLUMNS * WIDTH, HEAD + rows * HEIGHT
    parts = ['<svg xmlns="http://www.w3.org/2000/svg" width="%d" height="%d" viewBox="0 0 %d %d" font-family="sans-serif">'
             % (width, height, width, height), '<rect width="100%" height="100%" fill="white"/>', *legend(width)]
    for number, (title, unit, points) in enumerate(curves):
        column, down = number % COLUMNS, number // COLUMNS
        parts += Panel(column * WIDTH, HEAD + down * HEIGHT, title, unit, points).drawn()
    with open(path, "w", encoding="utf-8") as file:
        file.write("\n".join(parts + ["</svg>", ""]))
