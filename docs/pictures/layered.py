"""Places boxes in given rows so that lines between them are short and cross little. A line that passes rows has a point in
each, which takes its place among the boxes of that row."""

SWEEPS = 24


class Layers:
    """The rows, from above; in each the boxes and the points of lines, in order, with the middle of each."""

    def __init__(self, row_of, lines, box, point, left, right):
        self.left, self.right = left, right
        self.size = {}
        self.rows = [[] for _ in range(max(row_of.values()) + 1)]
        self.above, self.below, self.routes = {}, {}, {}
        for name, row in row_of.items():
            self.add(name, row, box)
        for upper, lower in lines:
            route = [upper] + [(upper, lower, row) for row in range(row_of[upper] + 1, row_of[lower])] + [lower]
            for between in route[1:-1]:
                self.add(between, between[2], point)
            for one, other in zip(route, route[1:]):
                self.below[one].append(other)
                self.above[other].append(one)
            self.routes[upper, lower] = route
        self.middle = {}
        for row in self.rows:
            self.spread(row, {item: n for n, item in enumerate(row)})
        for sweep in range(SWEEPS):
            self.sweep(sweep % 2 == 0)
        for _ in range(SWEEPS):
            self.settle()

    def add(self, item, row, size):
        self.rows[row].append(item)
        self.size[item] = size
        self.above[item], self.below[item] = [], []

    def wish(self, item, near):
        """The mean of the neighbours, or where the item is if it has none."""
        return sum(self.middle[other] for other in near) / len(near) if near else self.middle[item]

    def sweep(self, down):
        """Orders each row by the neighbours in the row before it."""
        for row in self.rows if down else reversed(self.rows):
            wishes = {item: self.wish(item, self.above[item] if down else self.below[item]) for item in row}
            row.sort(key=wishes.get)
            self.spread(row, wishes)

    def settle(self):
        """Moves each row, in its order, to where its neighbours on both sides draw it."""
        for row in self.rows:
            self.spread(row, {item: self.wish(item, self.above[item] + self.below[item]) for item in row})

    def spread(self, row, wishes):
        """Places a row's items as near to their wishes as their sizes and the edges let them."""
        ahead, place = [], self.left
        for item in row:
            place = max(place + self.size[item] / 2, wishes[item])
            ahead.append(place)
            place += self.size[item] / 2
        back, place = [], self.right
        for item in reversed(row):
            place = min(place - self.size[item] / 2, wishes[item])
            back.append(place)
            place -= self.size[item] / 2
        for item, one, other in zip(row, ahead, reversed(back)):
            self.middle[item] = (one + other) / 2
        self.part(row)

    def part(self, row):
        """Takes apart what overlaps still, from the left, and then from the right edge."""
        place = self.left
        for item in row:
            self.middle[item] = max(self.middle[item], place + self.size[item] / 2)
            place = self.middle[item] + self.size[item] / 2
        place = self.right
        for item in reversed(row):
            self.middle[item] = min(self.middle[item], place - self.size[item] / 2)
            place = self.middle[item] - self.size[item] / 2
