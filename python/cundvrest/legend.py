"""The legend of a picture: what it has drawn, in words."""
from .svg import DARK, GREY, HUES, IDLE, INK, LIGHT, PALE, PLAIN, RED, RULE, wide

START, LINE = 18, 23            # where a line begins, and how high it is


class Legend:
    def __init__(self, picture, svg, y):
        self.picture, self.svg = picture, svg
        self.fill, self.edge = HUES[0] if picture.plan.buffers else PLAIN
        self.x, self.y = START, y + 24
        svg.line(START, y + 2, picture.width - 10, y + 2, RULE, 1)

    def draw(self):
        if not self.picture.n:
            return
        colour = ', in the colour of the buffer it marks first' if self.picture.plan.buffers else ''
        self._box('operation' + colour, self.fill, self.edge)
        self._waits()
        if self.picture.plan.buffers:
            self._holdings()
        self._faults()
        self._runs()
        self._item(-8, 'column: as early as waits allow; one column may run at the same time')

    # ---- signs
    def _item(self, w, words):
        """Writes the words; hands back where their sign goes, which is so wide."""
        need = w + 8 + wide(words, 10.5) + 18
        if self.x > START and self.x + need > self.picture.width:
            self.x, self.y = START, self.y + LINE
        x, self.x = self.x, self.x + need
        self.svg.text(x + w + 8, self.y + 4, words, 10.5, '#46525e')
        return x, self.y

    def _box(self, words, fill, edge, dash='', double=False):
        x, y = self._item(34, words)
        if double:
            self.svg.rect(x, y - 10, 34, 20, '#fff', edge, 1.6, 6)
        inset, width = (2, 2) if double else (0, 1.2)
        self.svg.rect(x + inset, y - 10 + inset, 34 - 2 * inset, 20 - 2 * inset, fill, edge, width, 4, dash)
        self.svg.text(x + 17, y + 4, '7', 10, RED if double else INK, 'middle', bold=True)

    def _arrow(self, words, *style):
        x, y = self._item(34, words)
        self.svg.arrow([(x, y), (x + 34, y)], *style)

    # ---- what is drawn
    def _waits(self):
        drawn, svg = self.picture.drawn, self.svg
        if 'wait' in drawn:
            self._arrow('wait: from the operation it rests on', DARK)
        if 'extra' in drawn:
            self._arrow('wait that orders nothing more', LIGHT, 1.2, '1.5 3')
        if 'stub' in drawn:
            x, y = self._item(34, 'wait for an operation that is not near: its number')
            svg.text(x + 18, y + 3, '12', 8, PALE, 'end')
            svg.arrow([(x + 20, y), (x + 34, y)], DARK)

    def _holdings(self):
        x, y = self._item(46, 'holding: ● use, ✕ free')
        self.svg.rect(x, y - 6, 46, 12, self.fill, self.edge, 1, 5)
        self.svg.circle(x + 10, y, 3.4, self.edge)
        self.svg.cross(x + 36, y, self.edge)
        if 'open' in self.picture.drawn:
            x, y = self._item(34, 'held to the end')
            self.svg.rect(x, y - 6, 34, 12, self.fill, self.edge, 1, 5, '5 3')
        if 'broken' in self.picture.drawn:
            x, y = self._item(18, 'broken mark')
            self.svg.circle(x + 9, y, 4.2, RED)
            self.svg.circle(x + 9, y, 8, edge=RED, width=1.8)

    def _faults(self):
        drawn, named = self.picture.drawn, self.picture.named
        if 'bad' in drawn:
            self._box('where to look', '#fff', RED, double=True)
        if named and named.first != named.then:
            self._arrow('order that is missing', RED, 2.6, '7 5')
        if 'circle' in drawn:
            self._arrow('wait of the circle', RED, 2.6)
        if 'never' in drawn:
            self._arrow('signal that never comes', RED, 2.2, '4 3')
        if 'unmet' in drawn:
            self._arrow('wait that is not met', RED, 2.4, '2 4')

    def _runs(self):
        drawn, svg = self.picture.drawn, self.svg
        if 'ran' in drawn:
            x, y = self._item(34, 'has run, with its step')
            svg.rect(x, y - 10, 34, 20, self.fill, self.edge, 1.2, 4)
            svg.text(x + 3, y + 3, '✓', 9, '#3e4c59')
            svg.text(x + 31, y + 2, '12', 8, '#3e4c59', 'end')
        if 'cut' in drawn:
            x, y = self._item(6, 'how far the queue came')
            svg.rect(x + 1, y - 10, 3.2, 20, INK)
        if 'idle' in drawn:
            self._box('has not run' if self.picture.trace is not None else 'cannot run', IDLE[0], GREY, '4 3')
