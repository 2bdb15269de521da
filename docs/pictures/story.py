"""What happened in a run, by its rows alone: blocks, waits, ticks, events and batches, each by the numbers of its rows."""
from dataclasses import dataclass, field

from replicas import Replicas

# The refusals that leave a block as it is; all others abort it.
LEAVES_BLOCK = ('AlreadyOpen', 'Busy', 'ClockSpent')
WRITES = ('insert', 'update', 'delete')
# The statements whose last word is a queue, with the answer if they make it.
MAKES_QUEUE = (('create_queue', '1'), ('create_root', 'ok'))


@dataclass
class Block:
    """A block of a session. `ended` is the row at which its transaction ended, and `last` that at which the block did,
    which is later if a refusal has aborted it; None if the script ends first."""
    session: str
    first: int
    ended: int = None
    last: int = None
    committed: bool = False

    def fate(self):
        return 'open' if self.ended is None else 'committed' if self.committed else 'rolled back'


@dataclass
class Wait:
    session: str
    holder: str
    first: int
    last: int = None


@dataclass
class Tick:
    row: int
    home: str
    queue: str
    id: str


@dataclass
class Story:
    """All of it. An event is known by its database, its queue, how often that queue was made, and its id. `inserted` and
    `listed` have the event of a row, `batches` the batches that list an event, `single` the rows of transactions outside
    blocks, and `moved` the batch of a row that is a worker's move."""
    rows: list
    sessions: list = field(default_factory=list)
    blocks: list = field(default_factory=list)
    waits: list = field(default_factory=list)
    ticks: list = field(default_factory=list)
    single: set = field(default_factory=set)
    inserted: dict = field(default_factory=dict)
    listed: dict = field(default_factory=dict)
    batches: dict = field(default_factory=dict)
    shades: dict = field(default_factory=dict)
    unblocked: dict = field(default_factory=dict)
    workers: list = field(default_factory=list)
    moved: dict = field(default_factory=dict)


class Teller:
    """Tells the story row by row, and keeps what the next row needs: the running block and the wait of each session,
    the database that it has open, how often a queue was made, the queue of each batch, and the leaves."""

    def __init__(self, rows):
        self.story = Story(rows)
        self.block = {}
        self.wait = {}
        self.home = {}
        self.made = {}
        self.queue_of = {}
        self.replicas = Replicas()
        self.unblocker = None

    def tell(self):
        for place, row in enumerate(self.story.rows):
            if row.session not in self.story.sessions:
                self.story.sessions.append(row.session)
            if row.kind == 'first':
                self.unblocker = place
            self.database(row)
            self.waits(place, row)
            self.transaction(place, row)
            self.queue(place, row)
            self.event(place, row)
            self.work(place, row)
        self.story.workers = self.replicas.all_workers()
        return self.story

    def database(self, row):
        words = row.words()
        if row.reply == 'ok' and words[0] == 'open':
            self.home[row.session] = words[1]

    def waits(self, place, row):
        """Begins a wait, or ends one, when its statement resumes or is canceled."""
        if row.reply.startswith('waits for '):
            wait = Wait(row.session, row.reply.removeprefix('waits for '), place)
            self.wait[row.session] = wait
            self.story.waits.append(wait)
        elif row.kind == 'resumed' or row.reply == 'error Canceled':
            wait = self.wait.pop(row.session)
            wait.last = place
            if row.kind == 'resumed':
                self.story.unblocked[place] = self.unblocker_of(wait, place)

    def unblocker_of(self, wait, place):
        """The row that freed the key: the last one of the holder since the statement that is being answered, which may
        itself have resumed and been refused; else that statement's."""
        since = range(place - 1, self.unblocker, -1)
        return next((n for n in since if self.story.rows[n].session == wait.holder), self.unblocker)

    def transaction(self, place, row):
        """Begins, aborts or ends a block, or notes a transaction outside of one."""
        block = self.block.get(row.session)
        form = row.words()[0]
        if block is None:
            if form == 'begin' and row.reply == 'BEGIN':
                self.block[row.session] = Block(row.session, place)
                self.story.blocks.append(self.block[row.session])
            elif self.is_single(form, row):
                self.story.single.add(place)
        elif row.reply in ('COMMIT', 'ROLLBACK') or (form == 'close' and row.reply == 'ok'):
            block.committed = row.reply == 'COMMIT'
            block.ended = place if block.ended is None else block.ended
            block.last = place
            del self.block[row.session]
        elif self.aborts(row) and block.ended is None:
            block.ended = place

    @staticmethod
    def is_single(form, row):
        """Whether the row is the answer of a statement that took a transaction id outside blocks."""
        if form in WRITES or form in ('create_queue', 'maint_rotate_step1'):
            return row.reply == '1'
        if form == 'create_root':
            return row.reply == 'ok'
        if form in ('maint_retry_events', 'maint_rotate_step2'):
            return row.reply.isdecimal() and row.reply != '0'
        return form in ('insert_event', 'txid_current') and row.reply.isdecimal()

    @staticmethod
    def aborts(row):
        return row.reply.startswith('error ') and row.reply.split(' ')[1] not in LEAVES_BLOCK

    def queue(self, place, row):
        """Notes a queue that is made, with its first tick, and a tick that `ticker` makes."""
        words, home = row.words(), self.home.get(row.session)
        if (words[0], row.reply) in MAKES_QUEUE:
            queue = words[-1]
            self.made[home, queue] = self.made.get((home, queue), 0) + 1
            self.story.ticks.append(Tick(place, home, queue, '1'))
        elif words[0] == 'ticker' and row.reply.isdecimal():
            self.story.ticks.append(Tick(place, home, words[1], row.reply))

    def event(self, place, row):
        """Notes an event that is inserted or listed, and the queue of a batch."""
        words, home = row.words(), self.home.get(row.session)
        if words[0] == 'insert_event' and row.reply.isdecimal():
            self.story.inserted[place] = (home, words[1], self.made[home, words[1]], row.reply)
        elif words[0] == 'next_batch' and row.reply.isdecimal():
            self.queue_of[home, row.reply] = words[1]
        elif words[0] == 'get_batch_events' and row.reply.startswith('event '):
            queue, batch = self.queue_of[home, words[1]], (home, words[1])
            event = (home, queue, self.made[home, queue], row.reply.split(' ')[1])
            self.story.listed[place] = event, batch
            of_event = self.story.batches.setdefault(event, [])
            if batch not in of_event:
                of_event.append(batch)
            self.story.shades.setdefault(batch, len(self.story.shades))

    def work(self, place, row):
        """Notes what the workers of leaves do, and the batches that they take."""
        batch = self.replicas.tell(place, row, self.home.get(row.session))
        if batch:
            self.story.moved[place] = batch
            self.story.shades.setdefault(batch, len(self.story.shades))
            self.queue_of[batch] = self.replicas.queue_of(row.words()[1])


def tell(rows):
    return Teller(rows).tell()
