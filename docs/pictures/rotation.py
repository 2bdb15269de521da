"""The three event tables of a queue over a script, each time `queue_info` shows them: by the script and its transcript."""
import re
from dataclasses import dataclass

from pairing import pair
from svg import Picture

SHOWN = re.compile(r'ntables \d+ cur_table (\d+) last_tick \d+ seq \d+ stored ([\d ]+)')
MARGIN, LABELS, TOP = 12, 76, 58
COLUMN, ROW, BOX = 150, 76, (124, 52)
DOT, STEP = 4, 16


@dataclass
class State:
    """What is shown at a moment: the current table, how many events each has, and how many went with the last switch,
    if one was made since the state before."""
    moment: str
    current: int
    stored: list
    gone: int = None


def transcript_of(path, name):
    """What a script prints, as the file of all transcripts has it."""
    with open(path, encoding='utf-8') as file:
        return file.read().split('== %s\n' % name)[1].split('-- err\n')[0]


def read_states(script, printed):
    moment, states = '00:00', []
    for row in pair(script, printed):
        if row.statement.startswith('clock '):
            moment = row.reply.split(' ')[1][:5]
        shown = SHOWN.fullmatch(row.reply)
        if shown:
            state = State(moment, int(shown[1]), [int(count) for count in shown[2].split(' ')])
            before = states[-1] if states else State(moment, 0, [0] * len(state.stored))
            if state.current != before.current:
                state.gone = before.stored[state.current]
            states.append(state)
    return states


def draw_table(picture, x, y, state, table):
    """A table as a box with a dot for each of its events. What the switch has emptied is named in it."""
    is_current = table == state.current
    width, height = BOX
    picture.box(x, y, width, height, 'fill-band line-%s' % ('green' if is_current else 'rule'), 4,
                stroke_width=2 if is_current else 1)
    for n in range(state.stored[table]):
        picture.circle(x + 16 + n * STEP, y + 16, DOT, 'fill-blue')
    if is_current and state.gone:
        picture.text(x + width / 2, y + height - 14, '%d gone' % state.gone, 'fill-red middle')


def draw(script, printed):
    states = read_states(script, printed)
    picture = Picture('The event tables of a queue after each switch')
    tables = range(len(states[0].stored))
    for table in tables:
        picture.text(MARGIN, TOP + table * ROW + BOX[1] / 2, 'table %d' % table, 'fill-faint')
    for place, state in enumerate(states):
        x = MARGIN + LABELS + place * COLUMN
        picture.text(x + BOX[0] / 2, 20, state.moment, 'fill-ink middle bold')
        picture.text(x + BOX[0] / 2, 38, 'an event' if state.gone is None else 'a switch', 'fill-faint middle')
        for table in tables:
            draw_table(picture, x, TOP + table * ROW, state, table)
    bottom = TOP + len(tables) * ROW
    picture.text(MARGIN + LABELS, bottom + 4, 'a dot is an event; the green frame is the current table', 'fill-faint')
    return picture.svg(MARGIN + LABELS + len(states) * COLUMN - COLUMN + BOX[0] + MARGIN, bottom + 24)
