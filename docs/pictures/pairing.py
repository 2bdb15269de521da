"""The lines of a script beside what each prints.

The first printed line after a statement is its own answer's. Then come the answers of the sessions that resume, each
under the name of a session that waits. A session that waits prints nothing else but `error Busy` or `error Canceled`,
which are answers to a line of its own.
"""
from dataclasses import dataclass

LISTINGS = ('scan', 'get_batch_events')
OWN_OF_WAITING = ('error Busy', 'error Canceled')


@dataclass
class Row:
    """One printed line. `line` is the number of the line that it answers; `kind` is `first` for the first line of a
    statement's own answer, `further` for the others, and `resumed` for that of a statement that has waited."""
    line: int
    session: str
    statement: str
    reply: str
    kind: str

    def words(self):
        return self.statement.split(' ')

    def is_own(self):
        return self.kind == 'first'


class Unpaired(Exception):
    """The program has printed something else than its manual says."""


def lines_of(script):
    """The number, the session and the statement of each line of the script that is no comment."""
    for line, text in enumerate(script.split('\n'), 1):
        if text and not text.startswith('#'):
            session, _, statement = text.partition(': ')
            yield line, session, statement


class Pairing:
    """The rows so far, what is printed and not yet paired, and the rows of the statements that wait."""

    def __init__(self, printed):
        self.printed = [tuple(text.split(': ', 1)) for text in printed.split('\n')[:-1]]
        self.place = 0
        self.rows = []
        self.waiting = {}

    def next(self):
        return self.printed[self.place] if self.place < len(self.printed) else (None, None)

    def take(self, line, session, statement, kind):
        """Pairs the next printed line with a statement, and gives its reply."""
        printer, reply = self.next()
        if printer != session:
            raise Unpaired('line %d: %s is answered by %s' % (line, session, printer))
        self.place += 1
        self.rows.append(Row(line, session, statement, reply, kind))
        return reply

    def own(self, line, session, statement):
        """The own answer of a statement: one line, a list up to its number of rows, or the last rows of a copy and the
        table's new state."""
        reply = self.take(line, session, statement, 'first')
        form = statement.split(' ')[0]
        if form in LISTINGS:
            while not reply.startswith(('rows ', 'error ')):
                reply = self.take(line, session, statement, 'further')
        if form == 'copy_step' and self.next() == (session, self.state_after(statement)):
            self.take(line, session, statement, 'further')
        if reply.startswith('waits for '):
            self.waiting[session] = self.rows[-1]
        elif reply == 'error Canceled':
            self.waiting.pop(session, None)

    @staticmethod
    def state_after(statement):
        """What the last step of a copy prints besides its rows. No other line of a script prints this."""
        return 'state %s catching-up' % statement.split(' ')[-1]

    def resumed(self):
        """The answers of the statements that the last one has unblocked."""
        while self.next()[0] in self.waiting and self.next()[1] not in OWN_OF_WAITING:
            waited = self.waiting.pop(self.next()[0])
            self.take(waited.line, waited.session, waited.statement, 'resumed')


def pair(script, printed):
    """The rows of a script that was run to its end, one for each printed line."""
    pairing = Pairing(printed)
    for line, session, statement in lines_of(script):
        pairing.own(line, session, statement)
        pairing.resumed()
    if pairing.place < len(pairing.printed):
        raise Unpaired('%d lines are printed without a statement' % (len(pairing.printed) - pairing.place))
    return pairing.rows
