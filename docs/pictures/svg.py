"""A picture as plain SVG: shapes and texts, each with classes, and the colours of the classes in light and in dark."""
import unicodedata

SIZE = 12
CELL = 0.61 * SIZE
BASELINE = 0.35 * SIZE
FONT = 'ui-monospace, SFMono-Regular, Menlo, Consolas, "DejaVu Sans Mono", monospace'
BATCHES = 6

# Each colour has a name, and is given for light and for dark.
COLOURS = {
    'page': ('#ffffff', '#0d1117'),
    'ink': ('#1f2328', '#e6edf3'),
    'faint': ('#59636e', '#9198a1'),
    'rule': ('#d1d9e0', '#3d444d'),
    'band': ('#f6f8fa', '#161b22'),
    'green': ('#2da44e', '#2ea043'),
    'red': ('#cf222e', '#f85149'),
    'pink': ('#ffcecb', '#67060c'),
    'amber': ('#bf8700', '#d29922'),
    'grey': ('#8c959f', '#6e7681'),
    'blue': ('#0969da', '#4493f8'),
    'joined': ('#e4e9ee', '#262c34'),
    'copy': ('#cfe8ff', '#0b2f5e'),
    'catch': ('#9fd0fb', '#15528f'),
    'wanna': ('#fff1b0', '#4a3603'),
    'do': ('#fbd862', '#7a5a06'),
    'sync': ('#d3f3d9', '#0f3d20'),
    'batch1': ('#8250df', '#ab7df8'),
    'batch2': ('#bc4c00', '#f0883e'),
    'batch3': ('#0969da', '#4493f8'),
    'batch4': ('#bf3989', '#f778ba'),
    'batch5': ('#1b7c83', '#39c5cf'),
    'batch6': ('#7d4e00', '#d4a72c'),
}


def colour_rules(shade):
    return ''.join('.fill-%s{fill:%s}.line-%s{stroke:%s}' % (name, pair[shade], name, pair[shade])
                   for name, pair in COLOURS.items())


STYLE = ("text{font-family:%s;font-size:%dpx;white-space:pre}.bold{font-weight:600}.middle{text-anchor:middle}"
         ".end{text-anchor:end}.dashed{stroke-dasharray:4 3}.dotted{stroke-dasharray:1.5 2.5}.none{fill:none}"
         "%s@media (prefers-color-scheme:dark){%s}" % (FONT, SIZE, colour_rules(0), colour_rules(1)))


def visible(text):
    """The text with a sign in place of each control character, which XML can't hold."""
    return ''.join(chr(0x2400 + ord(c)) if c < ' ' else '\u2421' if '\x7f' <= c <= '\x9f'
                   else '\ufffd' if c in '\ufffe\uffff' else c for c in text)


def escaped(text):
    return visible(text).replace('&', '&amp;').replace('<', '&lt;').replace('>', '&gt;').replace('"', '&quot;')


def cells(text):
    """How many columns the text takes: a wide character takes two."""
    if text.isascii():
        return len(text)
    return sum(2 if unicodedata.east_asian_width(c) in 'WF' else 1 for c in text)


def width_of(text):
    return cells(text) * CELL


def cut(text, width):
    """The text, or as much of its beginning as fits the width with an ellipsis after it."""
    if width_of(text) <= width:
        return text
    end, taken = 0, cells('…')
    while (taken + cells(text[end])) * CELL <= width:
        taken += cells(text[end])
        end += 1
    return text[:end] + '…'


def number(value):
    """A coordinate with at most one decimal, always written alike."""
    return ('%.1f' % (round(value, 1) + 0.0)).removesuffix('.0')


def attributes(pairs):
    """The attributes with these names and values, without those that are None. A name that Python has taken, such as
    `class`, comes with an underscore after it."""
    written = {name.rstrip('_').replace('_', '-'): number(value) if isinstance(value, (int, float)) else escaped(value)
               for name, value in pairs.items() if value is not None}
    return ''.join(' %s="%s"' % pair for pair in written.items())


def extent(x, y, text, classes, turned):
    """The rectangle that a text takes: its left, top, right and bottom, and the text itself."""
    width, words = width_of(text), classes.split()
    before = width if 'end' in words else width / 2 if 'middle' in words else 0
    if turned:
        return x - SIZE / 2, y - width + before, x + SIZE / 2, y + before, text
    return x - before, y - SIZE / 2, x - before + width, y + SIZE / 2, text


class Overlap(Exception):
    """Two texts of a picture are over one another, or one is beyond its edge."""


class Picture:
    """The shapes of a picture in the order in which they are drawn."""

    def __init__(self, title):
        self.title = title
        self.shapes = []
        self.texts = []

    def shape(self, name, title=None, **pairs):
        inner = '<title>%s</title>' % escaped(title) if title else ''
        end = '>%s</%s>' % (inner, name) if inner else '/>'
        self.shapes.append('<%s%s%s' % (name, attributes(pairs), end))

    def line(self, x1, y1, x2, y2, classes, width=1, **more):
        self.shape('line', x1=x1, y1=y1, x2=x2, y2=y2, class_=classes, stroke_width=width, **more)

    def box(self, x, y, width, height, classes, radius=0, **more):
        self.shape('rect', x=x, y=y, width=width, height=height, rx=radius, class_=classes, **more)

    def circle(self, x, y, radius, classes, **more):
        self.shape('circle', cx=x, cy=y, r=radius, class_=classes, **more)

    def path(self, points, classes, width=1, **more):
        self.shape('path', d=points, class_=classes, stroke_width=width, **more)

    def text(self, x, y, text, classes='fill-ink', room=None, turned=False):
        """A text whose line is centred at y; cut if it has less room than it takes, with the whole as its title."""
        shown = text if room is None else cut(text, room)
        self.texts.append(extent(x, y, shown, classes, turned))
        turn = 'rotate(-90 %s %s)' % (number(x), number(y)) if turned else None
        title = '<title>%s</title>' % escaped(text) if shown != text else ''
        self.shapes.append('<text%s>%s%s</text>' % (
            attributes({'x': x, 'y': y + BASELINE, 'class_': classes, 'transform': turn}), title, escaped(shown)))

    def check(self, width, height):
        """Fails if a text has another over it, or is cut by an edge of the picture."""
        near = []
        for text in sorted(self.texts, key=lambda extent: extent[1]):
            near = [other for other in near if other[3] > text[1]]
            if text[0] < 0 or text[1] < 0 or text[2] > width or text[3] > height:
                raise Overlap('%r is beyond the edge' % text[4])
            for other in near:
                if other[0] < text[2] and text[0] < other[2]:
                    raise Overlap('%r and %r are over one another' % (other[4], text[4]))
            near.append(text)

    def svg(self, width, height):
        """The whole file, for a picture of this width and height."""
        self.check(width, height)
        head = '<svg xmlns="http://www.w3.org/2000/svg" viewBox="0 0 %s %s" width="%s" height="%s" role="img">' % (
            number(width), number(height), number(width), number(height))
        hatch = ('<defs><pattern id="hatch" width="6" height="6" patternUnits="userSpaceOnUse" patternTransform="rotate(45)">'
                 '<rect width="6" height="6" class="fill-page"/><rect width="3" height="6" class="fill-amber"/></pattern>'
                 '<marker id="arrow" viewBox="0 0 8 8" refX="7" refY="4" markerWidth="6" markerHeight="6" orient="auto">'
                 '<path d="M0 0L8 4L0 8z" class="fill-amber"/></marker></defs>')
        page = '<rect width="100%" height="100%" class="fill-page"/>'
        parts = [head, '<title>%s</title>' % escaped(self.title), '<style>%s</style>' % STYLE, hatch, page]
        return '\n'.join(parts + self.shapes + ['</svg>', ''])
