"""Speed and growth by case, from a file that `bench/run --figures` writes: of each case the range of its measurements."""
import json
from dataclasses import dataclass, field

from svg import Picture, width_of

WIDTH = 1000
MARGIN = 12
BAR = 14
THIN = 8
ROW = 30
PLAIN = 16
TOP = 58
BARS_END, GROWTH, GROWTH_END = 530, 690, 870
# `bench/baseline.rs` built, and a hand-written program with all statements, which isn't part of this repository.
PLAIN_PROGRAMS = ('baseline', 'plain_rust')
WORTH_A_LOOK = 1.2
# The ends of the axis of growths; one beyond them is drawn at its end.
LEAST_GROWTH, MOST_GROWTH = 0.5, 1.7


@dataclass
class Case:
    """What was measured of a case: nanoseconds a line at the largest size, the growths, and plain Rust's times."""
    name: str
    times: list = field(default_factory=list)
    growths: list = field(default_factory=list)
    plain: list = field(default_factory=list)


def largest(sizes):
    return max(sizes, key=lambda size: size['lines'])['ns']


def read_cases(path):
    """The cases in the order of their first measurements. The programs in plain Rust are known by their
    names."""
    cases = {}
    with open(path, encoding='utf-8') as file:
        for measured in json.load(file):
            case = cases.setdefault(measured['case'], Case(measured['case']))
            case.times.append(largest(measured['sizes']))
            case.growths.append(measured['growth'])
            if measured.get('against', {}).get('program') in PLAIN_PROGRAMS:
                case.plain.append(largest(measured['against']['sizes']))
    return list(cases.values())


def time_range(times):
    """The range in words, in milliseconds if there would be many nanoseconds."""
    scale, unit, form = (1e6, 'ms', '{:.1f}') if min(times) >= 1e5 else (1, 'ns', '{:,.0f}')
    return '%s %s' % (number_range([time / scale for time in times], form), unit)


def number_range(values, form):
    least, most = form.format(min(values)), form.format(max(values))
    return least if least == most else '%s to %s' % (least, most)


def step_of(most):
    """The step of an axis up to here that has at most six steps: 1, 2 or 5 and zeros."""
    step = 1
    while most / step > 6:
        step = step * 5 // 2 if str(step)[0] == '2' else step * 2
    return step


class Speed:
    """The picture: a row a case, with bars for its times and a stroke for its growths. A bar that is far longer than the
    others ends with the axis, and its number says how long it is."""

    def __init__(self, cases):
        self.cases = cases
        self.picture = Picture('Nanoseconds a line and growth of each case')
        self.begin = MARGIN + max(width_of(case.name) for case in cases) + 14
        middle = sorted(min(case.times) for case in cases)[len(cases) // 2]
        self.most = max(time for case in cases for time in case.times + case.plain if time <= 10 * middle)
        growths = [growth for case in cases for growth in case.growths]
        self.low = max(LEAST_GROWTH, min(0.8, *growths) - 0.05)
        self.high = min(MOST_GROWTH, max(1.3, *growths) + 0.05)
        self.height = TOP + sum(self.row_height(case) for case in cases)

    @staticmethod
    def row_height(case):
        return ROW + (PLAIN if case.plain else 0)

    def x_of_time(self, time):
        return self.begin + (BARS_END - self.begin) * max(0, min(time / self.most, 1))

    def x_of_growth(self, growth):
        share = (growth - self.low) / (self.high - self.low)
        return GROWTH + (GROWTH_END - GROWTH) * max(0, min(share, 1))

    def axes(self):
        self.picture.text(self.begin, MARGIN + 8, 'time of a line at the largest size', 'fill-ink bold')
        self.picture.text(GROWTH, MARGIN + 8, 'growth from the smallest size', 'fill-ink bold')
        step = step_of(self.most)
        for time in range(0, int(self.most) + 1, step):
            self.picture.line(self.x_of_time(time), TOP - 8, self.x_of_time(time), self.height, 'line-rule')
            self.picture.text(self.x_of_time(time), TOP - 18, '{:,}'.format(time), 'fill-faint middle')
        for growth, classes in ((1, 'line-grey'), (WORTH_A_LOOK, 'line-amber dashed')):
            x = self.x_of_growth(growth)
            self.picture.line(x, TOP - 8, x, self.height, classes)
            self.picture.text(x, TOP - 18, '%g' % growth, 'fill-faint middle')

    def bar(self, y, thickness, times, fill, text):
        """A bar to the least time, and a paler one on to the most."""
        least, most = self.x_of_time(min(times)), self.x_of_time(max(times))
        self.picture.box(self.begin, y - thickness / 2, most - self.begin, thickness, fill, opacity='0.45')
        self.picture.box(self.begin, y - thickness / 2, least - self.begin, thickness, fill)
        self.picture.box(most + 4, y - 8, width_of(text) + 8, 16, 'fill-page')
        self.picture.text(most + 8, y, text, 'fill-ink' if fill == 'fill-blue' else 'fill-faint')

    def row(self, case, y):
        self.picture.text(MARGIN, y, case.name)
        self.bar(y, BAR, case.times, 'fill-blue', time_range(case.times))
        if case.plain:
            self.bar(y + PLAIN, THIN, case.plain, 'fill-grey', time_range(case.plain) + ', plain Rust')
        least, most = self.x_of_growth(min(case.growths)), self.x_of_growth(max(case.growths))
        fill = 'fill-amber' if max(case.growths) > WORTH_A_LOOK else 'fill-blue'
        self.picture.box(least - 3, y - 4, most - least + 6, 8, fill, 4)
        self.picture.text(GROWTH_END + 10, y, number_range(case.growths, '{:.2f}'))

    def draw(self):
        self.axes()
        y = TOP
        for case in self.cases:
            self.row(case, y + ROW / 2)
            y += self.row_height(case)
        return self.picture.svg(WIDTH, self.height + MARGIN)


def draw(path):
    return Speed(read_cases(path)).draw()
