"""The lanes of leaves' workers in a timeline: a table's states, the transactions of copies and batches, batches in hand,
and moves."""

# The states of a table in the order in which it has them, with the class of each.
STATES = {'none': 'fill-joined', 'in-copy': 'fill-copy', 'catching-up': 'fill-catch', 'wanna-sync': 'fill-wanna',
          'do-sync': 'fill-do', 'ok': 'fill-sync'}
COPIES = {'committed': 'fill-green', 'rolled back': 'fill-pink line-red', 'open': 'fill-grey'}
NOTHING = ('wait', 'idle')
FRAME = 4


class WorkerLanes:
    """Draws into the picture of a timeline, at its places."""

    def __init__(self, timeline):
        self.timeline = timeline
        self.story, self.places, self.picture = timeline.story, timeline.places, timeline.picture

    def ground(self):
        """What is below all else: the state of each table as a band of its lane, a line down the lane of a leaf's own
        worker, and lines from the sessions to the moves for which they ask."""
        for lane, worker in enumerate(self.story.workers):
            x, width = self.places.middle[lane], self.places.lane * 0.8
            if worker.table is None:
                self.picture.line(x, self.places.y(worker.begin), x, self.places.bottom, 'line-rule', title=worker.name())
            for span in worker.states:
                self.state(x - width / 2, width, span)
        for lane, worker in enumerate(self.story.workers):
            for place in filter(self.timeline.is_shown, worker.moves):
                row, y = self.story.rows[place], self.places.y(place)
                if row.is_own():
                    self.picture.line(self.places.middle[row.session], y, self.places.middle[lane], y, 'line-grey dotted')

    def state(self, x, width, span):
        top, bottom = self.places.above(span.first), self.places.above(span.last)
        if top < bottom and not self.timeline.is_hidden(span.first, self.last_of(span)):
            self.timeline.used.add(span.what)
            self.picture.box(x, top, width, bottom - top, STATES[span.what], title=span.what)

    def last_of(self, span):
        return len(self.story.rows) - 1 if span.last is None else span.last

    def work(self):
        for lane, worker in enumerate(self.story.workers):
            for batch in worker.batches:
                self.batch(lane, batch)
            for span in worker.copies:
                self.timeline.bar(lane, span.first, self.last_of(span), COPIES[span.what], 'a copy, ' + span.what)
            for place, move in worker.moves.items():
                if self.timeline.is_shown(place):
                    self.move(lane, place, move)

    def batch(self, lane, batch):
        """A batch in hand, as a frame in its colour, filled from where it was applied or skipped."""
        width = max(self.places.bar, min(self.places.bar + 2 * FRAME, self.places.lane * 0.9))
        name, colour = 'batch %s' % batch.batch[1], self.timeline.batch_class(batch.batch)
        last = self.last_of(batch)
        self.timeline.bar(lane, batch.first, last, 'fill-page line-' + colour, name, width)
        if batch.done is not None:
            self.timeline.bar(lane, batch.done, last, 'fill-%s line-%s' % (colour, colour), name, width)

    def move(self, lane, place, move):
        """A move's mark: a dot, a stroke for a skipped batch, a ring if nothing was done."""
        x, y, size = self.places.middle[lane], self.places.y(place), self.timeline.mark_size()
        self.timeline.used.add(move)
        if move == 'applied':
            self.timeline.bar(lane, place, place, 'fill-green', 'committed')
        if move == 'skipped':
            self.skipped(x, y, size)
        elif move in NOTHING:
            self.nothing(x, y, size)
        else:
            self.timeline.dot(x, y)

    def skipped(self, x, y, size):
        self.picture.line(x - size, y, x + size, y, 'line-page', 5)
        self.picture.line(x - size + 1, y, x + size - 1, y, 'line-ink', 2.5)

    def nothing(self, x, y, size):
        self.picture.circle(x, y, size * 0.6, 'fill-page line-grey', stroke_width=1.2)

    def legend(self):
        """What the colours and marks mean of those that are in the picture: for each a name, and what draws it."""
        used = self.timeline.used
        for state in filter(used.__contains__, STATES):
            yield state, self.timeline.swatch(STATES[state])
        if 'batch' in used:
            yield 'a batch in hand', self.timeline.swatch('fill-page line-batch1')
        if used & {'applied', 'skipped'}:
            yield 'applied or skipped', self.timeline.swatch('fill-batch1')
        if 'skipped' in used:
            yield 'skipped', lambda x, y: self.skipped(x, y, 5.5)
        if used.intersection(NOTHING):
            yield 'nothing to do', lambda x, y: self.nothing(x, y, 5.5)
