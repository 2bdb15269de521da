"""A run of a script as a timeline: a lane a session and a worker, and a row for each printed line, beside its statement
and reply."""
from folding import drawn
from svg import BATCHES, CELL, Picture, cells, width_of
from workers import WorkerLanes

WIDTH = 1000
LEAST_WIDTH = 560
MARGIN = 12
ROW = 22
LANE = 56
LANES = 420
NARROW = 14
LONGEST_NAME = 16
LONGEST_REPLY = 54
LONGEST_NOTE = 24
GAP = 14
# What a bar means, by its classes.
BARS = {'fill-green': 'committed', 'fill-pink line-red': 'rolled back', 'fill-page line-red dashed': 'aborted',
        'fill-grey': 'open at the end'}


class Places:
    """Where things are: the middles of lanes and rows, and the columns of texts with their widths. A session's lane is
    known by its name, and a worker's by its number."""

    def __init__(self, story, rows):
        names = story.sessions + [worker.name() for worker in story.workers]
        between = GAP if story.workers else 0
        count = max(1, len(names))
        self.lane = min(LANE, (LANES - between) / count)
        self.bar = max(1, min(18, self.lane * 0.6))
        self.names_turned = any(width_of(name) > self.lane - 6 for name in names)
        longest = max(map(cells, names), default=0)
        self.head = min(longest, LONGEST_NAME) * CELL + 12 if self.names_turned else ROW
        self.top = MARGIN + self.head
        self.middle = {name: MARGIN + self.lane * (n + 0.5) for n, name in enumerate(story.sessions)}
        begin = MARGIN + self.lane * len(story.sessions) + between
        self.middle.update((n, begin + self.lane * (n + 0.5)) for n in range(len(story.workers)))
        self.lanes_end = MARGIN + self.lane * count + between
        self.bottom = self.top + ROW * len(rows)
        self.row_of = [n for n, item in enumerate(rows) for _ in range(item.first, item.last + 1)]

    def columns(self, numbers, statements, replies, notes):
        """Gives each column of texts what its longest text takes, as far as all fit the width, which is larger if there are
        many lanes."""
        self.number_end = self.lanes_end + 8 + numbers
        self.statement = self.number_end + GAP
        most = WIDTH + max(0, self.lanes_end - LANES / 2)
        room = most - MARGIN - self.statement - 2 * GAP - notes
        replies = min(replies, LONGEST_REPLY * CELL)
        self.statement_width = min(statements, max(room * 0.45, room - replies))
        self.reply = self.statement + self.statement_width + GAP
        self.reply_width = min(replies, room - self.statement_width)
        self.note = self.reply + self.reply_width + GAP
        self.width = max(LEAST_WIDTH, self.note + notes + MARGIN)

    def y(self, place):
        return self.top + ROW * (self.row_of[place] + 0.5)

    def above(self, place):
        """Where the row begins, or the picture's rows end if there is none."""
        return self.bottom if place is None else self.y(place) - ROW / 2


class Timeline:
    """The picture of a story, drawn from what is below to what is above. `shown` are the rows of the story that are
    drawn, each in a row of its own, and `used` what of the legend is in the picture."""

    def __init__(self, story, name, lines):
        self.story = story
        self.name = name
        self.picture = Picture('%s as a timeline' % name)
        self.rows = drawn(story, lines)
        self.shown = [item.first for item in self.rows if not item.note]
        self.places = Places(story, self.rows)
        self.workers = WorkerLanes(self)
        self.used = set()
        self.several_queues = len({tick.queue for tick in story.ticks}) > 1
        self.tick_at = {tick.row: tick for tick in story.ticks}
        self.several_homes = len({tick.home for tick in story.ticks}) > 1
        self.notes = {place: self.note_of(place) for place in self.shown}
        columns = [self.columns_of(place, story.rows[place]) for place in self.shown]
        self.places.columns(*map(max, zip(*columns, (0, width_of(name), width_of('prints'), 0))))

    def columns_of(self, place, row):
        """What the texts of a row take of each column."""
        return (width_of(str(row.line)), width_of(self.statement_of(row)), width_of(row.reply),
                self.note_width(self.notes[place]))

    def draw(self):
        self.heads()
        self.workers.ground()
        self.ticks()
        for block in self.story.blocks:
            self.block(block)
        for item in self.rows:
            if item.alike and item.first in self.story.single:
                self.bar(self.story.rows[item.first].session, item.first, item.last, 'fill-green')
        for wait in self.story.waits:
            self.wait(wait)
        for place, unblocker in self.story.unblocked.items():
            self.arrow(unblocker, place)
        self.workers.work()
        for item in self.rows:
            self.row(item)
        height = self.legend(self.places.bottom + 20)
        return self.picture.svg(self.places.width, height + MARGIN)

    def row(self, item):
        """The marks and the texts of a row, or what is said of rows that aren't drawn."""
        place, row = item.first, self.story.rows[item.first]
        if item.note:
            self.not_drawn(item)
            return
        if row.reply.startswith('error Deadlock '):
            self.deadlock(place, row)
        self.mark(place, row)
        self.texts(place, row)

    def statement_of(self, row):
        if row.kind == 'further':
            return ''
        return '%s: %s' % (row.session, row.statement) if row.is_own() else '%s resumes' % row.session

    def batch_class(self, batch):
        return 'batch%d' % (self.story.shades[batch] % BATCHES + 1)

    def note_of(self, place):
        """What is said of a row after its reply: its tick, or its event's batches."""
        if place in self.tick_at:
            return [(None, self.tick_name(self.tick_at[place]))]
        if place in self.story.listed or place in self.story.moved:
            batch = self.story.moved.get(place) or self.story.listed[place][1]
            return [(batch, 'batch %s' % batch[1])]
        if place in self.story.inserted:
            listing = self.story.batches.get(self.story.inserted[place], [])
            return [(batch, 'batch %s' % batch[1]) for batch in listing[:2]] or [('none', 'in no batch')]
        return []

    def tick_name(self, tick):
        """A tick with its queue and its database, if there are several."""
        name = 'tick %s' % tick.id
        if self.several_queues or self.several_homes:
            name += ' of %s' % tick.queue
        return name + (' in %s' % tick.home if self.several_homes else '')

    @staticmethod
    def note_width(notes):
        return sum(min(width_of(text), LONGEST_NOTE * CELL) + 22 for _, text in notes)

    def heads(self):
        """The lanes' names, of narrow lanes only so many as have room, and a thin line down each lane."""
        every = 1 if self.places.lane >= NARROW else int(NARROW / self.places.lane) + 1
        first, last = {}, {}
        for place, row in enumerate(self.story.rows):
            first.setdefault(row.session, place)
            last[row.session] = place
        for name in self.story.sessions:
            x = self.places.middle[name]
            self.picture.line(x, self.places.y(first[name]), x, self.places.y(last[name]), 'line-rule', title=name)
        names = self.story.sessions + [worker.name() for worker in self.story.workers]
        for n, (name, x) in enumerate(zip(names, self.places.middle.values())):
            if self.places.names_turned and n % every == 0:
                self.picture.text(x, self.places.top - 6, name, 'fill-ink bold', LONGEST_NAME * CELL, turned=True)
            elif not self.places.names_turned:
                self.picture.text(x, self.places.top - ROW / 2, name, 'fill-ink bold middle')
        y = self.places.top - ROW / 2
        self.picture.text(self.places.statement, y, self.name, 'fill-faint', self.places.statement_width)
        self.picture.text(self.places.reply, y, 'prints', 'fill-faint', self.places.reply_width)

    def ticks(self):
        for tick in self.story.ticks:
            if tick.row not in self.notes:
                continue
            y = self.places.y(tick.row) + ROW / 2
            self.picture.line(MARGIN, y, self.places.width - MARGIN, y, 'line-ink', 1.2,
                              title=self.tick_name(tick))

    def is_shown(self, place):
        return place in self.notes

    def is_hidden(self, first, last):
        """Whether the rows are all among those before or after the part that is drawn."""
        item = self.rows[self.places.row_of[first]]
        return item.last >= last and not item.alike

    def bar(self, lane, first, last, classes, title=None, width=None):
        """A bar from the first row to the last, unless these are hidden."""
        width = width or self.places.bar
        if self.is_hidden(first, last):
            return
        self.used.add(classes)
        top, bottom = self.places.above(first) + 3, self.places.above(last) + ROW - 3
        self.picture.box(self.places.middle[lane] - width / 2, top, width, bottom - top, classes, min(4, width / 3),
                         title=title)

    def block(self, block):
        """The transaction of a block, and what is left of the block after a refusal has aborted it."""
        end = len(self.story.rows) - 1
        ended, last = [end if row is None else row for row in (block.ended, block.last)]
        classes = {'committed': 'fill-green', 'rolled back': 'fill-pink line-red', 'open': 'fill-grey'}[block.fate()]
        if last > ended:
            self.bar(block.session, ended, last, 'fill-page line-red dashed', 'aborted')
        self.bar(block.session, block.first, ended, classes, block.fate())

    def wait(self, wait):
        """A wait on its bar, and an arrow to the holder of the key."""
        last = len(self.story.rows) - 1 if wait.last is None else wait.last
        x, y = self.places.middle[wait.session], self.places.y(wait.first)
        height = self.places.y(last) - y
        width = self.places.bar
        if self.is_hidden(wait.first, last):
            return
        self.used.add('waits')
        self.picture.box(x - width / 2, y, width, height, self.outline('line-amber'), fill='url(#hatch)',
                         title='waits for %s' % wait.holder)
        holder = self.places.middle[wait.holder]
        if self.is_shown(wait.first):
            self.pointer(x, y, holder + (width if x > holder else -width) / 2, y, 'dashed')

    def deadlock(self, place, row):
        """The wait that a deadlock has refused: an arrow to the holder, the second of the cycle."""
        x, y = self.places.middle[row.session], self.places.y(place)
        holder = self.places.middle[row.reply.split(' ')[3]]
        self.pointer(x, y, holder + (self.places.bar if x > holder else -self.places.bar) / 2, y, 'dashed')

    def arrow(self, unblocker, place):
        """From the statement that unblocks to the one that resumes."""
        rows, middle = self.story.rows, self.places.middle
        x, goal = middle[rows[unblocker].session], middle[rows[place].session]
        near = 6 if x > goal else -6
        if self.is_shown(place):
            self.pointer(x, self.places.y(unblocker), goal + near, self.places.y(place))

    def pointer(self, x1, y1, x2, y2, classes=''):
        self.picture.line(x1, y1, x2, y2, ('line-amber ' + classes).strip(), 1.5, marker_end='url(#arrow)')

    def outline(self, classes):
        """An outline, which shapes in a narrow lane have no room for."""
        return classes if self.places.lane >= NARROW else ''

    def mark(self, place, row):
        """The mark of a statement in its lane: a dot, a cross for a refusal, a larger dot for an event."""
        x, y, size = self.places.middle[row.session], self.places.y(place), self.mark_size()
        if row.kind == 'further':
            return
        if place in self.story.inserted:
            batches = self.story.batches.get(self.story.inserted[place])
            fill = 'fill-' + self.batch_class(batches[0]) if batches else 'fill-page'
            edge = self.outline(' line-page') if batches else ' line-ink'
            self.picture.circle(x, y, size, fill + edge, stroke_width=1.5)
        elif row.reply.startswith('error '):
            side = 2 * size
            cross = 'M%.1f %.1fl%.1f %.1fm0 %.1fl%.1f %.1f' % (x - size, y - size, side, side, -side, -side, side)
            self.picture.path(cross, 'line-page none', 5)
            self.picture.path(cross, 'line-red none', 2.5)
        else:
            self.dot(x, y)

    def mark_size(self):
        return max(2, min(5.5, self.places.lane * 0.4))

    def dot(self, x, y):
        self.picture.circle(x, y, max(1.5, self.mark_size() * 0.6), 'fill-ink' + self.outline(' line-page'))

    def not_drawn(self, item):
        """What is said of rows that aren't drawn, and three small dots in the lane of those that are alike."""
        y = self.places.y(item.first)
        if item.alike:
            for n in (-1, 0, 1):
                self.picture.circle(self.places.middle[self.story.rows[item.first].session], y + 5 * n, 1.2, 'fill-ink')
        self.picture.text(self.places.statement, y, '… ' + item.note, 'fill-faint', self.places.statement_width)

    def texts(self, place, row):
        """The line's number, the statement, the reply, and the note."""
        places, y = self.places, self.places.y(place)
        if row.is_own():
            self.picture.text(places.number_end, y, str(row.line), 'fill-faint end')
        ink = 'fill-ink' if row.is_own() else 'fill-faint'
        self.picture.text(places.statement, y, self.statement_of(row), ink, places.statement_width)
        shade = 'fill-red' if row.reply.startswith('error ') else 'fill-ink'
        self.picture.text(places.reply, y, row.reply, shade, places.reply_width)
        x = places.note
        for batch, text in self.notes[place]:
            if batch == 'none':
                self.picture.circle(x + 6, y, 4, 'fill-page line-ink')
            elif batch is None:
                self.picture.line(x, y, x + 12, y, 'line-ink', 1.2)
            else:
                self.picture.circle(x + 6, y, 4.5, 'fill-' + self.batch_class(batch))
            self.picture.text(x + 17, y, text, 'fill-faint', LONGEST_NOTE * CELL)
            x += width_of(text) + 22

    def swatch(self, classes, fill=None):
        """What draws a small box of these classes with its middle at a place."""
        return lambda x, y: self.picture.box(x - 7, y - 6, 14, 12, classes, 3, fill=fill)

    def entries(self):
        """What the bars and marks mean, of those that are in the picture: for each a name, and what draws it."""
        for classes in filter(self.used.__contains__, BARS):
            yield BARS[classes], self.swatch(classes)
        if 'waits' in self.used:
            yield 'waits', self.swatch('line-amber', 'url(#hatch)')
        yield from self.workers.legend()

    def legend(self, y):
        """The entries in lines, each as long as the picture is wide. Gives where the legend ends."""
        x = MARGIN
        for text, sample in self.entries():
            if x + 24 + width_of(text) > self.places.width - MARGIN:
                x, y = MARGIN, y + ROW
            sample(x + 7, y)
            self.picture.text(x + 20, y, text, 'fill-faint')
            x += width_of(text) + 40
        return y + ROW / 2


def draw(story, name, lines=None):
    """The SVG of a story, under the name of its script; of these lines alone, if any are given."""
    return Timeline(story, name, lines).draw()
