"""Which rows of a story are drawn: of many that are alike the first and the last, and of a long script a part."""
from dataclasses import dataclass

# This many rows that are alike are folded, and this many rows are drawn at most: viewers draw no higher pictures.
FOLDED = 8
MOST_ROWS = 1400


@dataclass
class Rows:
    """Rows of the story from the first to the last that are one row of the picture: a row that is drawn, or some that
    aren't, with what is said of them, and whether they are all alike."""
    first: int
    last: int
    note: str = ''
    alike: bool = True


def edges(story):
    """The rows that are drawn in any case, since something begins or ends with them."""
    found = {tick.row for tick in story.ticks}
    for block in story.blocks:
        found |= {block.first, block.ended, block.last}
    for wait in story.waits:
        found |= {wait.first, wait.last}
    for worker in story.workers:
        found.update(worker.edges())
    return found.union(story.unblocked, story.unblocked.values())


def likeness(story, place):
    """What folded rows have in common: the session, the form with its table or queue, the kind of the reply, batches."""
    row = story.rows[place]
    named = 3 if row.words()[0] == 'copy_step' else 2
    reply = row.reply.split(' ')
    kind = 'number' if row.reply.isdecimal() else reply[:2] if reply[0] == 'error' else reply[0]
    event = story.inserted.get(place) or story.listed.get(place, [None])[0]
    statement = row.line if row.kind == 'further' else row.words()[:named]
    return row.session, row.kind, statement, kind, place in story.single, story.batches.get(event)


def runs(story):
    """The rows as runs of those that are alike."""
    kept, before = edges(story), None
    first = 0
    for place in range(len(story.rows) + 1):
        like = place if place in kept or place == len(story.rows) else likeness(story, place)
        if place and like != before:
            yield first, place - 1
            first = place
        before = like


def folded(story, begin, end):
    """The rows from `begin` to `end`, with those folded that are alike."""
    for first, last in runs(story):
        first, last = max(first, begin), min(last, end)
        count = last - first - 1
        if count + 2 < FOLDED:
            yield from (Rows(place, place) for place in range(first, last + 1))
        else:
            yield from (Rows(first, first), Rows(first + 1, last - 1, '%d more of these' % count), Rows(last, last))


def lines_of(story):
    """The number of the line that is being answered, for each row."""
    line = 0
    for row in story.rows:
        line = line if row.kind == 'resumed' else row.line
        yield line


def part(story, lines):
    """The first and the last row that answer these lines, as of no rows if there are none."""
    inside = [place for place, line in enumerate(lines_of(story)) if lines[0] <= line <= lines[1]]
    return (inside[0], inside[-1]) if inside else (0, -1)


def with_rest(rows, count):
    """The rows, with one row for all before them and one for all after them, of this many in the story."""
    begin, end = (rows[0].first, rows[-1].last + 1) if rows else (0, 0)
    if begin:
        yield Rows(0, begin - 1, '%d rows before' % begin, False)
    yield from rows
    if end < count:
        yield Rows(end, count - 1, '%d rows after' % (count - end), False)


def drawn(story, lines=None):
    """The rows of the picture, of these lines of the script or of all."""
    first, last = part(story, lines) if lines else (0, len(story.rows) - 1)
    return list(with_rest(list(folded(story, first, last))[:MOST_ROWS], len(story.rows)))
