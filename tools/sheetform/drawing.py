"""A time line as SVG: the source's run on the left, the rewritten node's on the right, tick by tick."""
from xml.sax.saxutils import escape

from .runs import RunError

LABELS, CELL, ROW, GAP, EDGE, HEAD, GROUP = 176, 37, 28, 34, 16, 84, 32
INK, SOFT, LINE, HELD, ON, FLAG, HORN = '#1f2933', '#616e7c', '#d5dbe1', '#eceff2', '#2f8f5b', '#d9822b', '#2459a8'
KINDS = ('flag', 'clock', 'first', 'count', 'horn')
SOUNDS = ('silent', 'short', 'long', 'twice')


class Row:
    """A row: its kind, the source's name, the rewritten node's name, and its label."""

    def __init__(self, kind, name, flag, label):
        self.kind, self.name, self.flag, self.label = kind, name, flag, label


def read_rows(text):
    """Title and groups of rows. Lines: `title WORDS`, `group WORDS`, `KIND NAME [FLAG] : LABEL`; comments begin with --."""
    title, groups = '', []
    for k, line in enumerate(text.splitlines(), 1):
        line = line.split('--')[0].strip()
        kind, _, rest = line.partition(' ')
        if kind == 'title':
            title = rest
        elif kind == 'group':
            groups.append((rest, []))
        elif kind in KINDS and groups:
            names, _, label = rest.partition(':')
            names = names.split()
            if len(names) != (2 if kind in ('clock', 'first') else 1):
                raise RunError('line %d: a %s row names %s' % (k, kind, 'a name and its flag' if kind in ('clock', 'first') else 'a name'))
            groups[-1][1].append(Row(kind, names[0], names[-1], label.strip()))
        elif line:
            raise RunError('line %d: expected title, group or one of %s' % (k, ', '.join(KINDS)))
    return title, groups


class Drawing:
    """Two runs, drawn side by side."""

    def __init__(self, source, rewritten, title, groups):
        self.source, self.rewritten, self.title, self.groups = source, rewritten, title, groups
        self.ticks = len(source.inputs)
        self.panel = self.ticks * CELL
        self.lefts = [EDGE + LABELS, EDGE + LABELS + self.panel + GAP]
        self.parts = []

    def svg(self):
        """The whole picture."""
        bottom = self.head()
        for title, rows in self.groups:
            bottom = self.group(title, rows, bottom)
        bottom = self.legend(bottom)
        width = self.lefts[1] + self.panel + EDGE
        return '\n'.join([
            '<svg xmlns="http://www.w3.org/2000/svg" viewBox="0 0 %d %d" width="%d" height="%d" '
            'font-family="DejaVu Sans, Verdana, Arial, sans-serif" font-size="13" fill="%s">' % (width, bottom, width, bottom, INK),
            '<title>%s</title>' % escape(self.title),
            '<defs><pattern id="off" width="6" height="6" patternUnits="userSpaceOnUse" patternTransform="rotate(45)">'
            '<rect width="6" height="6" fill="#ffffff"/><rect width="1.5" height="6" fill="%s"/></pattern></defs>' % LINE,
            '<rect width="%d" height="%d" fill="#ffffff"/>' % (width, bottom)] + self.parts + ['</svg>', ''])

    def text(self, x, y, words, **more):
        """Words at a place."""
        self.parts.append('<text x="%g" y="%g"%s>%s</text>' % (x, y, attributes(more), escape(str(words))))

    def box(self, x, y, w, h, fill, **more):
        """A rectangle."""
        self.parts.append('<rect x="%g" y="%g" width="%g" height="%g" fill="%s"%s/>' % (x, y, w, h, fill, attributes(more)))

    def dot(self, x, y):
        """A short sound."""
        self.parts.append('<circle cx="%g" cy="%g" r="5" fill="%s"/>' % (x, y, HORN))

    def head(self):
        """Title, the panels' titles, the numbers of the ticks."""
        self.text(EDGE, 26, self.title, font_size=17, font_weight='bold')
        said = [('Source', 'each name at the ticks of its clock'), ('Rewritten', 'every name at every tick')]
        for left, (name, words) in zip(self.lefts, said):
            self.text(left, 54, name, font_weight='bold')
            self.text(left + 9 * len(name) + 8, 54, words, fill=SOFT)
            for t in range(self.ticks):
                self.text(left + (t + 0.5) * CELL, 76, t, text_anchor='middle', fill=SOFT)
        self.text(EDGE, 76, 'tick (minute)', fill=SOFT)
        return HEAD

    def group(self, title, rows, top):
        """A group of rows; where it ends."""
        self.text(EDGE, top + 21, title, font_weight='bold')
        top += GROUP
        for row in rows:
            self.text(EDGE + 8, top + 19, row.label)
            for left, side in zip(self.lefts, ('source', 'rewritten')):
                self.row(row, side, left, top)
            top += ROW
        for left in self.lefts:
            self.grid(left, top - ROW * len(rows), len(rows))
        return top + 8

    def grid(self, left, top, rows):
        """Lines between cells."""
        w, h = self.panel, ROW * rows
        lines = ['M%g %gv%g' % (left + t * CELL, top, h) for t in range(self.ticks + 1)]
        lines += ['M%g %gh%g' % (left, top + k * ROW, w) for k in range(rows + 1)]
        self.parts.append('<path d="%s" stroke="%s" fill="none"/>' % (''.join(lines), LINE))

    def row(self, row, side, left, top):
        """A row of one panel."""
        for t in range(self.ticks):
            getattr(self, row.kind)(row, side, t, left + t * CELL, top)

    def bar(self, shown, x, top, fill):
        """A bar across the cell where something is so."""
        if shown:
            self.box(x, top + 8, CELL, ROW - 16, fill)

    def flag(self, row, side, t, x, top):
        """A flag that flies."""
        self.bar(getattr(self, side).value(row.name, t), x, top, FLAG)

    def clock(self, row, side, t, x, top):
        """The clock of a name; rewritten, its activation flag."""
        if side == 'source':
            self.bar(self.is_on(row, t), x, top, ON)
        else:
            self.bar(self.rewritten.value(row.flag, t), x, top, ON)

    def first(self, row, side, t, x, top):
        """The first tick of a name's clock; rewritten, its first-tick flag."""
        clock = self.source.clock(row.name)
        first = self.source.ticks(clock, t) == [t] if side == 'source' else self.rewritten.value(row.flag, t)
        self.bar(first, x, top, SOFT)

    def count(self, row, side, t, x, top):
        """A value; where the clock is off the source has none, and the rewritten node holds it."""
        on = self.is_on(row, t)
        if not on:
            self.box(x, top, CELL, ROW, 'url(#off)' if side == 'source' else HELD)
        if on or side == 'rewritten':
            style = {} if on else {'fill': SOFT, 'font_style': 'italic'}
            self.text(x + CELL / 2, top + 19, getattr(self, side).value(row.name, t), text_anchor='middle', **style)

    def horn(self, row, side, t, x, top):
        """A sound."""
        sound = getattr(self, side).value(row.name, t)
        if sound not in SOUNDS:
            raise RunError('a horn row shows %s; `%s` is %s' % (', '.join(SOUNDS), row.name, sound))
        self.sound(sound, x + CELL / 2, top + ROW / 2)

    def sound(self, sound, x, y):
        """The sign of a sound."""
        if sound == 'short':
            self.dot(x, y)
        elif sound == 'twice':
            self.dot(x - 7, y)
            self.dot(x + 7, y)
        elif sound == 'long':
            self.box(x - 14, y - 5, 28, 10, HORN, rx=5)

    def is_on(self, row, t):
        """Whether the clock of a row's name is on in the source."""
        return self.source.on(self.source.clock(row.name), t)

    def legend(self, top):
        """What the signs mean; where it ends."""
        y = top + 22
        x = EDGE
        for draw, width, words in self.signs(y):
            draw(x)
            self.text(x + width + 8, y + 5, words, fill=SOFT)
            x += width + 8 + 7.6 * len(words) + 26
        return top + 46

    def signs(self, y):
        """Each sign: how to draw it, its width, what it means."""
        return [
            (lambda x: self.sound('short', x + 7, y), 14, 'one sound'),
            (lambda x: self.sound('long', x + 14, y), 28, 'one long sound'),
            (lambda x: self.sound('twice', x + 14, y), 28, 'two sounds'),
            (lambda x: self.box(x, y - 10, 28, 20, 'url(#off)', stroke=LINE), 28, 'clock off: no value'),
            (lambda x: self.held(x, y), 28, 'clock off: the last value is held'),
        ]

    def held(self, x, y):
        """The sign of a held value."""
        self.box(x, y - 10, 28, 20, HELD, stroke=LINE)
        self.text(x + 14, y + 5, 4, text_anchor='middle', fill=SOFT, font_style='italic')


def attributes(more):
    """Attributes of an element."""
    return ''.join(' %s="%s"' % (k.replace('_', '-'), v) for k, v in more.items())
