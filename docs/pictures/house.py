"""The crates as boxes in bands of their levels, programs on top, with lines to what each stands on."""
import textwrap

from layered import Layers
from svg import CELL, Picture, width_of

WIDTH = 1000
MARGIN = 12
LABEL = 190
LEFT, RIGHT = MARGIN + LABEL + 20, WIDTH - MARGIN - 8
BOX_HEIGHT = 28
GAP = 18
POINT = 14
POINTS = 6
ROW = 58
LINE = 16


def box_of(crates):
    """The width of a crate's box, by the longest name."""
    return max(map(width_of, crates.below)) + 20


def rows_within(crates):
    """How many rows of its level each crate is above the lowest one: it is above those of its level that it stands on, in
    the first such row that has room, also for some lines that pass it."""
    most = int((RIGHT - LEFT - POINTS * POINT) / (box_of(crates) + GAP))
    found, count = {}, {}
    for name, below in crates.below.items():
        level = crates.level[name]
        row = 1 + max((found[other] for other in below if crates.level[other] == level), default=-1)
        while count.get((level, row), 0) == most:
            row += 1
        found[name] = row
        count[level, row] = count.get((level, row), 0) + 1
    return found


class House:
    """A picture of the crates with these lines. `bold` are the lines that are drawn above the others, and `notes` what is
    said at a crate's corner."""

    def __init__(self, crates, title, lines, bold=(), notes=None):
        self.crates = crates
        self.notes = notes or {}
        self.bold = bold
        self.picture = Picture(title)
        self.box_width = box_of(crates)
        self.bands, self.y_of_row, self.bottom = self.heights(rows_within(crates))
        lines = list(dict.fromkeys([*lines, *bold]))
        self.layers = Layers(self.row_of, lines, self.box_width + GAP, POINT, LEFT, RIGHT)

    def heights(self, within):
        """The band of each level with its label's lines, from above, and the middle of each row."""
        bands, rows, top = [], [], MARGIN
        self.row_of = {}
        for level in sorted(self.crates.levels, reverse=True):
            names = [name for name in self.crates.below if self.crates.level[name] == level]
            count = 1 + max(within[name] for name in names)
            label = ['Level %d' % level] + textwrap.wrap(self.crates.levels[level], int((LABEL - 16) / CELL))
            height = max(ROW * count, LINE * len(label) + 16)
            for name in names:
                self.row_of[name] = len(rows) + count - 1 - within[name]
            rows += [top + height * (n + 0.5) / count for n in range(count)]
            bands.append((top, height, label))
            top += height + 6
        return bands, rows, top

    def draw_bands(self):
        for top, height, label in self.bands:
            self.picture.box(MARGIN, top, WIDTH - 2 * MARGIN, height, 'fill-band', 6)
            for n, text in enumerate(label):
                self.picture.text(MARGIN + 10, top + 16 + LINE * n, text, 'fill-faint' if n else 'fill-ink bold')

    def curve(self, line):
        """A line along its route: upright beside the boxes of each row that it passes, and bent between the rows."""
        route = [(self.layers.middle[item], self.y_of_row[self.row(item)]) for item in self.layers.routes[line]]
        path = 'M%.1f %.1f' % (route[0][0], route[0][1] + BOX_HEIGHT / 2)
        for (before, above), (x, y) in zip(route, route[1:]):
            begin, end = above + BOX_HEIGHT / 2, y - BOX_HEIGHT / 2
            half = (begin + end) / 2
            path += 'C%.1f %.1f %.1f %.1f %.1f %.1f' % (before, half, x, half, x, end)
            if (x, y) != route[-1]:
                path += 'V%.1f' % (y + BOX_HEIGHT / 2)
        return path

    def row(self, item):
        return item[2] if isinstance(item, tuple) else self.row_of[item]

    def draw(self):
        self.draw_bands()
        faint = 'line-rule none' if self.bold else 'line-grey none'
        for line in self.layers.routes:
            if line not in self.bold:
                self.picture.path(self.curve(line), faint, 1.3, title='%s on %s' % line)
        for line in self.bold:
            self.picture.path(self.curve(line), 'line-blue none', 2.2, title='%s calls %s' % line)
        on_way = {name for line in self.bold for name in line}
        for name in self.row_of:
            self.box(name, name in on_way)

    def box(self, name, on_way):
        x, y, half = self.layers.middle[name], self.y_of_row[self.row_of[name]], self.box_width / 2
        edge = 'line-blue' if on_way else 'line-rule' if self.bold else 'line-grey'
        self.picture.box(x - half, y - BOX_HEIGHT / 2, 2 * half, BOX_HEIGHT, 'fill-page ' + edge, 5, stroke_width=1.5)
        note = ' '.join(self.notes.get(name, []))
        ink = 'fill-faint' if self.bold and not on_way else 'fill-ink'
        self.picture.text(x, y, name, ink + ' middle')
        if note:
            width = width_of(note) + 10
            self.picture.box(x + half - width + 8, y - BOX_HEIGHT / 2 - 12, width, 16, 'fill-blue', 8)
            self.picture.text(x + half + 8 - width / 2, y - BOX_HEIGHT / 2 - 4, note, 'fill-page middle bold')


def draw_crates(crates):
    house = House(crates, 'The crates by level, and on which each stands', crates.needed())
    house.draw()
    return house.picture.svg(WIDTH, house.bottom - 6 + MARGIN)


def draw_way(crates, steps, calls, numbers):
    """The same with the calls of a line's way, and below it what the data becomes at each step."""
    house = House(crates, 'The way of a line through the crates', crates.needed(), calls, numbers)
    house.draw()
    y = house.bottom + 14
    for step, becomes, _ in steps:
        house.picture.text(MARGIN + 30, y, step, 'fill-blue bold end')
        for line in textwrap.wrap(becomes, int((WIDTH - 2 * MARGIN - 44) / CELL)):
            house.picture.text(MARGIN + 44, y, line)
            y += LINE
        y += 4
    return house.picture.svg(WIDTH, y)
