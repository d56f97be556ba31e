"""The picture of a bench day: what became of grants, frames, sends that timed out and interrupts, and the ring's
fill, over the calls.

A call has one column; a burst has one for each of its pairs, with a box around them.
"""
import itertools
import xml.etree.ElementTree as ElementTree

import pairing
import telling
from wording import count

# rows of marks, the first on top, with their colours
ROWS = {
    'grants': '#0072b2',
    'delivered': '#00845f',
    'lost': '#d03a00',
    'refused': '#5f5f5f',
    'sent': '#8a4fa3',
    'TX_TO': '#b3125f',
    'taken': '#7a4a1e',
    'ended': '#7a4a1e',
}
LEGEND = {
    'grants': 'grant made',
    'delivered': 'frame delivered',
    'lost': 'frame lost',
    # a frame, or a burst or one of its pairs
    'refused': 'refused, by its number',
    'sent': 'frame sent',
    'TX_TO': 'TX_TO set by a tick',
    'taken': 'interrupt taken',
    'ended': 'interrupt ended',
}
INK, GRID, BAND, FILL, FILL_AREA = '#222222', '#d9d9d9', '#f5f5f5', '#1d3557', '#dbe6f1'
BURST, BURST_AREA = '#8a6d1b', '#fff4cc'

LEFT, RIGHT = 104, 28
LEGEND_AT, LEGEND_LINE, ROWS_AT, ROW, GAP = 80, 22, 138, 28, 58
FILL_HEIGHT, FOOT = 168, 56
# pixels for a column, where the width allows; under the least, a number does not fit in it, or beside that of a tick
COLUMN, NUMBER_LEAST, TICK_LEAST = 12, 11, 20
WIDTH_LEAST, WIDTH_MOST = 860, 1600


class Drawing:
    """An SVG document that grows."""

    def __init__(self, width, height):
        self.root = ElementTree.Element('svg', {
            'xmlns': 'http://www.w3.org/2000/svg', 'width': str(width), 'height': str(height),
            'viewBox': f'0 0 {width} {height}', 'role': 'img', 'font-family': 'sans-serif', 'font-size': '12',
            'fill': INK})

    def put(self, name, parent=None, text=None, **attributes):
        """An element; `_` in an attribute's name stands for `-`."""
        written = {key.rstrip('_').replace('_', '-'): f'{value:g}' if isinstance(value, float) else str(value)
                   for key, value in attributes.items()}
        element = ElementTree.SubElement(self.root if parent is None else parent, name, written)
        element.text = text
        return element

    def text(self, x, y, words, anchor='start', **attributes):
        self.put('text', text=words, x=x, y=y, text_anchor=anchor, **attributes)

    def mark(self, kind, x, y, number='', title=None):
        """The sign of a kind; that of a refused frame is a box with its number."""
        colour = ROWS[kind]
        group = self.put('g', class_=f'mark {kind}' if title else 'legend')
        if title:
            self.put('title', group, title)
        if kind == 'grants':
            self.put('path', group, d=f'M{x:g} {y - 6:g}l5 10h-10z', fill=colour)
        elif kind == 'delivered':
            self.put('circle', group, cx=x, cy=y, r=4.5, fill=colour)
        elif kind == 'lost':
            self.put('path', group, d=f'M{x - 4.5:g} {y - 4.5:g}l9 9m0 -9l-9 9', stroke=colour, stroke_width=2.5)
        elif kind == 'sent':
            self.put('path', group, d=f'M{x:g} {y - 5.5:g}l5 5.5l-5 5.5l-5 -5.5z', fill=colour)
        elif kind == 'TX_TO':
            # a clock
            self.put('circle', group, cx=x, cy=y, r=5, fill='#ffffff', stroke=colour, stroke_width=2)
            self.put('path', group, d=f'M{x:g} {y - 3.5:g}v3.5h3', stroke=colour, stroke_width=1.5, fill='none')
        elif kind == 'taken':
            self.put('path', group, d=f'M{x:g} {y + 6:g}l5 -10h-10z', fill=colour)
        elif kind == 'ended':
            self.put('path', group, d=f'M{x:g} {y - 5.5:g}v11', stroke=colour, stroke_width=3)
        else:
            # two digits fit into a column too, since the pairs of a burst often have the same number
            width, size = [(5, 10), (11, 10), (12, 8)][len(number)]
            self.put('rect', group, x=x - width / 2, y=y - 7, width=width, height=14, rx=2, fill=colour, stroke='#ffffff')
            self.put('text', group, number, x=x, y=y + 0.35 * size, text_anchor='middle', font_size=size, font_weight='bold',
                     fill='#ffffff')

    def document(self):
        ElementTree.indent(self.root)
        return ElementTree.tostring(self.root, encoding='unicode') + '\n'


def tick_step(most, ticks):
    """The least of 1, 2, 5, 10, 20, .. that needs no more ticks than these."""
    step = 1
    while most > step * ticks:
        step = step * 5 // 2 if str(step)[0] == '2' else step * 2
    return step


class Picture:
    def __init__(self, day):
        self.day = day
        self.columns = [part for call in day.calls for part in call.parts or [call]]
        # the first column of each call, and the end of the last; an empty day is drawn as one call
        self.starts = list(itertools.accumulate([len(call.parts) or 1 for call in day.calls] or [1], initial=0))
        width = min(max(self.starts[-1] * COLUMN, WIDTH_LEAST - LEFT - RIGHT), WIDTH_MOST - LEFT - RIGHT)
        self.column_width = width / self.starts[-1]
        self.right = LEFT + width
        self.rows_end = ROWS_AT + ROW * len(ROWS)
        self.fill_top = self.rows_end + GAP
        self.fill_end = self.fill_top + FILL_HEIGHT
        fills = [0] + [column.fill for column in self.columns]
        self.least, self.most = min(fills), max(max(fills), min(fills) + 1)
        self.drawing = Drawing(self.right + RIGHT, self.fill_end + FOOT)
        self.put = self.drawing.put

    def x(self, k):
        """The middle of column k, counted from 0."""
        return round(LEFT + (k + 0.5) * self.column_width, 2)

    def start(self, k):
        """Where call k begins, counted from 0, and the one before it ends."""
        return round(LEFT + self.starts[k] * self.column_width, 2)

    def y(self, fill):
        return round(self.fill_end - (fill - self.least) / (self.most - self.least) * FILL_HEIGHT, 2)

    def row(self, kind):
        return ROWS_AT + ROW * (list(ROWS).index(kind) + 0.5)

    def drawn(self):
        self.put('title', text=self.title())
        self.put('rect', x=0, y=0, width='100%', height='100%', fill='#ffffff')
        self.head()
        self.legend()
        self.headings()
        self.bursts()
        self.axes()
        self.fill_line()
        self.marks()
        return self.drawing.document()

    def title(self):
        """The script's first heading, where it has no calls of its own."""
        first = self.day.entries[0] if self.day.entries else None
        return first.title if isinstance(first, pairing.Heading) and not first.number else 'A bench day'

    def head(self):
        sums = self.day.totals
        refused = sum(sums.frames_refused.values())
        words = (f'{count(sums.grants, "grant")}; {count(sums.delivered, "frame")} delivered, {sums.lost} lost, '
                 f'{refused} refused, {sums.sent} sent')
        if sums.bursts or sums.bursts_refused:
            words += (f'; {count(sums.bursts, "burst")} made, {sums.bursts_refused} refused, '
                      f'{count(sums.outside, "pair")} outside')
        if self.day.ticks.counts.timed_out:
            words += f'; {count(self.day.ticks.counts.timed_out, "send time-out")}'
        interrupts = self.day.interrupts.counts
        if interrupts.taken:
            words += f'; {count(sum(interrupts.taken.values()), "interrupt")} taken, {interrupts.ended} ended'
        self.drawing.text(24, 34, self.title(), font_size=20, font_weight='bold')
        self.drawing.text(24, 56, words, font_size=13)

    def legend(self):
        """Each sign with its words, on as many lines as the narrowest picture needs."""
        x, y = 30, LEGEND_AT
        for kind, words in [*LEGEND.items(), ('fill', "ring's fill"), ('burst', 'one burst')]:
            width = 40 + 6.2 * len(words)
            if x + width > WIDTH_LEAST:
                x, y = 30, y + LEGEND_LINE
            if kind == 'fill':
                self.put('path', d=f'M{x - 8:g} {y + 4}h8v-8h8', stroke=FILL, stroke_width=2, fill='none')
            elif kind == 'burst':
                self.put('rect', x=x - 8, y=y - 7, width=16, height=14, rx=4, fill=BURST_AREA, stroke=BURST)
            else:
                self.drawing.mark(kind, x, y, '6')
            self.drawing.text(x + (11 if kind in LEGEND else 13), y + 4, words)
            x += width

    def headings(self):
        """The headings that the calls stand under, by their numbers in the report, as bands."""
        spans, k = [], 0
        for entry in self.day.entries:
            if isinstance(entry, pairing.Heading) and entry.number:
                spans.append([entry, k, k])
            elif isinstance(entry, telling.Told):
                k += 1
                if spans:
                    spans[-1][2] = k
        for heading, start, end in spans:
            x, width = self.start(start), self.start(end) - self.start(start)
            if heading.number % 2:
                self.put('rect', x=x, y=ROWS_AT, width=width, height=self.fill_end - ROWS_AT, fill=BAND)
            if width >= 16:
                self.drawing.text(x + width / 2, ROWS_AT - 8, str(heading.number), 'middle', font_size=10, fill='#5f5f5f')
        if spans:
            self.drawing.text(LEFT - 12, ROWS_AT - 8, 'heading', 'end', font_size=10, fill='#5f5f5f')

    def bursts(self):
        """A box around the frames that came by one call, over the rows that a frame can stand in."""
        top, end = self.row('delivered') - ROW / 2, self.row('refused') + ROW / 2
        for k, call in enumerate(self.day.calls):
            if call.parts:
                box = self.put('rect', class_='burst', x=self.start(k), y=top, width=self.start(k + 1) - self.start(k),
                               height=end - top, rx=4, fill=BURST_AREA, stroke=BURST)
                self.put('title', box, f'line {call.at}: {call.asked} -> {call.answered}')

    def axes(self):
        for kind, colour in ROWS.items():
            self.put('path', d=f'M{LEFT} {self.row(kind):g}H{self.right:g}', stroke=GRID)
            self.drawing.text(LEFT - 12, self.row(kind) + 4, kind, 'end', fill=colour, font_weight='bold')
        step = tick_step(self.most - self.least, 8)
        for fill in range(self.least - self.least % step, self.most + 1, step):
            if fill >= self.least:
                self.put('path', d=f'M{LEFT} {self.y(fill):g}H{self.right:g}', stroke=GRID)
                self.drawing.text(LEFT - 12, self.y(fill) + 4, str(fill), 'end')
        self.drawing.text(LEFT, self.fill_top - 14, "ring's fill: grants made minus frames delivered", font_size=13,
                          font_weight='bold', fill=FILL)
        middle = (self.fill_top + self.fill_end) / 2
        self.drawing.text(0, 0, 'descriptors', 'middle', transform=f'translate({LEFT - 52} {middle:g}) rotate(-90)')
        self.put('path', d=f'M{LEFT} {self.fill_top}V{self.fill_end}H{self.right:g}', stroke=INK, fill='none')
        self.ticks()
        self.drawing.text((LEFT + self.right) / 2, self.fill_end + 42, 'call of the script', 'middle')

    def ticks(self):
        calls, last = len(self.starts) - 1, 0
        step = tick_step(calls, 16)
        for number in sorted({1, *range(step, calls + 1, step)}):
            x = (self.start(number - 1) + self.start(number)) / 2
            # beside a long burst calls stand close together
            if x < last + TICK_LEAST:
                continue
            last = x
            self.put('path', d=f'M{x:g} {self.fill_end}v5', stroke=INK)
            self.drawing.text(x, self.fill_end + 19, str(number), 'middle')

    def fill_line(self):
        path, now = f'M{LEFT} {self.y(0):g}', 0
        for k, column in enumerate(self.columns):
            if column.fill != now:
                now = column.fill
                path += f'H{self.x(k):g}V{self.y(now):g}'
        path += f'H{self.right:g}'
        self.put('path', d=f'{path}V{self.y(0):g}H{LEFT}z', fill=FILL_AREA, stroke='none')
        self.put('path', class_='fill', d=path, stroke=FILL, stroke_width=2, fill='none')

    def marks(self):
        for k, column in enumerate(self.columns):
            if not column.kind:
                continue
            x, y = self.x(k), self.row(column.kind)
            if column.kind == 'lost':
                self.put('path', d=f'M{x:g} {y:g}V{self.rows_end}M{x:g} {self.fill_top}V{self.fill_end}',
                         stroke=ROWS['lost'], stroke_dasharray='3 4')
            if column.times > 1:
                self.drawing.text(x, y - 7.5, f'\u00d7{column.times}', 'middle', font_size=10, fill=ROWS[column.kind])
            number = str(column.number) if self.column_width >= NUMBER_LEAST else ''
            title = '; '.join([f'line {column.at}: {column.asked} -> {column.answered}', *column.more])
            self.drawing.mark(column.kind, x, y, number, title)


def svg(day):
    return Picture(day).drawn()
