"""What the workers of leaves did, and in which states the tables of leaves were, by the rows of a run alone."""
from dataclasses import dataclass, field

# The first word of what a worker's move prints.
MOVES = ('state', 'copied', 'batch', 'applied', 'skipped', 'finished', 'wait', 'idle')


@dataclass
class Span:
    """Rows from the first to the last, which is None if the script ends first, and what they have: a table's state
    without its tick, or how a copy's transaction ended."""
    first: int
    what: str
    last: int = None


@dataclass
class InHand:
    """A batch that a worker has in hand. `done` is the row at which it was applied or skipped."""
    batch: tuple
    first: int
    done: int = None
    last: int = None


@dataclass
class Worker:
    """A leaf's own worker, which has no table, or that of one of its tables, from the first row at which it is there.
    `moves` has the first word of what each move prints."""
    leaf: str
    table: str
    begin: int
    states: list = field(default_factory=list)
    copies: list = field(default_factory=list)
    batches: list = field(default_factory=list)
    moves: dict = field(default_factory=dict)

    def name(self):
        return self.leaf if self.table is None else '%s %s' % (self.leaf, self.table)

    def edges(self):
        """The rows at which something begins or ends."""
        yield self.begin
        for span in self.states + self.copies:
            yield from (span.first, span.last)
        for batch in self.batches:
            yield from (batch.first, batch.done, batch.last)

    def enter(self, place, state):
        self.leave(place)
        self.states.append(Span(place, state))

    def leave(self, place):
        """Ends the table's state, if it is in the leaf."""
        if self.states and self.states[-1].last is None:
            self.states[-1].last = place

    def copied(self, place):
        """Begins a copy, if none runs."""
        if not self.copies or self.copies[-1].last is not None:
            self.copies.append(Span(place, 'open'))

    def end_copy(self, place, how):
        if self.copies and self.copies[-1].last is None:
            self.copies[-1].last, self.copies[-1].what = place, how

    def end_batch(self, place):
        if self.batches and self.batches[-1].last is None:
            self.batches[-1].last = place

    def restart(self, place):
        """Takes from the worker all that it has in hand."""
        self.end_copy(place, 'rolled back')
        self.end_batch(place)


class Replicas:
    """The roots with their databases and queues, the leaves with their roots, and the workers of each leaf: its own,
    under the name of no table, and those of its tables."""

    def __init__(self):
        self.root = {}
        self.root_of = {}
        self.workers = {}

    def all_workers(self):
        return [worker for of_leaf in self.workers.values() for worker in of_leaf.values()]

    def worker(self, place, leaf, table=None):
        return self.workers[leaf].setdefault(table, Worker(leaf, table, place))

    def tell(self, place, row, home):
        """Notes what a row does, whose session has the database `home` open. Gives the batch that a worker's move has."""
        form, *names = row.words()
        if form in ('londiste_step', 'copy_step') and row.reply.split(' ')[0] in MOVES:
            return self.move(place, names, row.reply.split(' '))
        if row.reply == 'ok' and len(names) > 1 and form == 'create_root':
            self.root[names[0]] = (home, names[1])
        elif row.reply == 'ok' and form == 'create_leaf':
            self.root_of[names[0]], self.workers[names[0]] = names[1], {}
            self.worker(place, names[0])
        elif row.reply == 'ok' and form in ('add_table', 'remove_table', 'restart') and names[0] in self.workers:
            self.change(place, form, self.worker(place, *names))
        return None

    @staticmethod
    def change(place, form, worker):
        if form == 'add_table':
            worker.enter(place, 'none')
        else:
            worker.restart(place)
        if form == 'remove_table':
            worker.leave(place)

    def move(self, place, names, said):
        """Notes a worker's move, by what it prints."""
        worker = self.worker(place, *names)
        worker.moves[place] = said[0]
        if said[0] == 'state':
            self.worker(place, names[0], said[1]).enter(place, said[2].split(':')[0])
            worker.end_copy(place, 'committed')
        elif said[0] == 'copied':
            worker.copied(place)
        elif said[0] == 'batch':
            worker.batches.append(InHand((self.home_of(names[0]), said[1]), place))
        elif said[0] in ('applied', 'skipped'):
            worker.batches[-1].done = place
        elif said[0] == 'finished':
            worker.end_batch(place)
        return worker.batches[-1].batch if said[0] in ('batch', 'applied', 'skipped', 'finished') else None

    def home_of(self, leaf):
        """The database of the leaf's root, by whose numbers its batches go."""
        return self.root[self.root_of[leaf]][0]

    def queue_of(self, leaf):
        return self.root[self.root_of[leaf]][1]
