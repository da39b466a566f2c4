"""The arrows of a band of a picture: one for each wait, the order that is missing, and where a trace departs."""
from .faults import OutOfTurn
from .route import Router
from .svg import BOX, DARK, HUES, INK, LANE, LIGHT, PALE, RED, awaited, short, wide

MISSING = (RED, 2.6, '7 5')
MUCH = 400              # waits above which an arrow over many columns is only begun
FAR = 4                 # columns


class Arrows:
    """For the band that a Picture is at."""

    def __init__(self, picture):
        self.picture, self.plan, self.order = picture, picture.plan, picture.order
        self.router = Router(picture.x, picture.top, picture.box, picture.gap)
        much = sum(len(o.waits) for o in self.plan.operations) > MUCH
        self.far = FAR if much else picture.depth
        self.into, self.laid, self.never = {}, [], {}
        for j in range(picture.n):
            if picture.inside(j):
                for k, y in self._entries(j):
                    self._lay(j, k, y)
        m = picture.named
        self.both = bool(m) and m.first != m.then and picture.inside(m.first) and picture.inside(m.then)
        self.beside = self.both and self._are_beside(m.first, m.then)
        if self.both and not self.beside:
            self.gone = self._wire(m.first, m.then, picture.y(m.then) + 6, 'missing', picture.y(m.first) + 6)
        self.router.lay()

    def _entries(self, j):
        """(wait, y) of each wait of a box: those from above come in above."""
        rests, apart = self.order.rests[j], 11 if self.picture.labels else 9
        by_lane = sorted(range(len(rests)), key=lambda k: -1 if rests[k] is None else self.order.queue[rests[k]])
        middle = self.picture.y(j) + BOX / 2
        return [(k, middle + (at - (len(rests) - 1) / 2) * apart) for at, k in enumerate(by_lane)]

    def _lay(self, j, k, y):
        picture, r = self.picture, self.order.rests[j][k]
        wire = None
        if r is not None and picture.inside(r):
            if abs(picture.levels[j] - picture.levels[r]) <= self.far or (j, k) in picture.circle:
                wire = self._wire(r, j, y, r, picture.y(r) + BOX / 2)
                self.into.setdefault(j, []).append(wire)
        self.laid.append((j, k, y, wire))

    def _wire(self, r, j, y, net, y_from):
        at, lane = self.picture.levels, self.picture.lane_of
        return self.router.add(net, at[r], lane(r), at[j], lane(j), y_from, y)

    def _are_beside(self, i, j):
        """Are two boxes in one column, in neighbouring lanes?"""
        picture = self.picture
        return picture.levels[i] == picture.levels[j] and abs(picture.lane_of(i) - picture.lane_of(j)) == 1

    def _clear(self, points, r, j):
        """The points, clear of the second edges that boxes of a fault have."""
        (sx, sy), *between, (ex, ey) = points
        return [(sx + 4 * (r in self.picture.bad), sy), *between, (ex - 4 * (j in self.picture.bad), ey)]

    # ---- waits
    def waits(self, svg):
        """An arrow for each wait of each box of the band."""
        for j, k, y, wire in self.laid:
            r = self.order.rests[j][k]
            why = f'signalled by operation {r}' if r is not None else 'which no signal reaches'
            with svg.group(f'operation {j} waits for {self._name(j, k)}, {why}', 'wait', f'{j}.{k}'):
                if r is None:
                    self._never(svg, j, k, y)
                else:
                    self._wait(svg, j, k, y, wire)

    def _name(self, j, k, most=1000):
        s, v = self.plan.operations[j].waits[k]
        return awaited(self.plan.semaphores[s].name, v, most)

    def _kind(self, j, k):
        """(what it is, colour, width, dashes)."""
        trace, r = self.picture.trace, self.order.rests[j][k]
        if trace is not None and (trace.operation, trace.wait) == (j, k):
            return 'unmet', RED, 2.4, '2 4'
        if (j, k) in self.picture.circle:
            return 'circle', RED, 2.6, ''
        if self.order.orders_nothing_more(j, k):
            return 'extra', LIGHT, 1.2, '1.5 3'
        marks = self.plan.operations[r].marks
        return 'wait', HUES[marks[0].buffer % len(HUES)][1] if marks else DARK, 1.3, ''

    def _wait(self, svg, j, k, y, wire):
        """From the operation that the wait rests on; where that is not near, an arrow that begins with its number."""
        picture, r, (what, *style) = self.picture, self.order.rests[j][k], self._kind(j, k)
        red = style[0] == RED
        picture.drawn.add(what)
        if wire is None:
            picture.drawn.add('stub')
            end = picture.x(picture.levels[j]) - 4 * (j in picture.bad)
            svg.arrow([(end - 13, y), (end, y)], *style)
            svg.text(end - 14, y + 3, str(r), 8, RED if red else PALE, 'end', halo=True)
            return
        svg.arrow(self._clear(self.router.points(wire), r, j), *style)
        if picture.labels:
            turns = [self.router.in_x(w) - 4 for w in self.into[j] if w.channel is not None]
            bare = len(self.into[j]) < len(self.plan.operations[j].waits)       # beside it is one without a way
            end = min([picture.x(picture.levels[j]) - (34 if bare else 10)] + turns)
            words = self._name(j, k, int((picture.gap - 34) / 5.5)) + ' not met' * (what == 'unmet')
            svg.text(end, y - 3, words, 9.5, RED if red else '#46525e', 'end', red, halo=True)

    def _never(self, svg, j, k, y):
        """A wait for what never comes."""
        picture = self.picture
        x = picture.x(picture.levels[j]) - 4 * (j in picture.bad)
        picture.drawn.add('never')
        svg.arrow([(x - 20, y), (x, y)], RED, 2.2, '4 3')
        svg.cross(x - 23, y, RED)
        self.never.setdefault(j, k)

    def over(self, svg):
        """What is drawn over the boxes: labels, and what they belong to."""
        for j, k in self.never.items():
            with svg.group(f'no signal reaches {self._name(j, k)}', 'never', f'{j}.{k}'):
                self._label_above(svg, j, f'{self._name(j, k, 40)} never comes')
        self._missing(svg)
        self._out_of_turn(svg)
        self._departure(svg)

    def _label_above(self, svg, j, words):
        picture = self.picture
        _label(svg, picture.x(picture.levels[j]) + picture.box / 2, picture.y(j) - 13, words)

    # ---- the missing order
    def _missing(self, svg):
        """The order that is asked for and that nothing forces: a dashed line from what must come first."""
        m, inside = self.picture.named, self.picture.inside
        if not m or m.first == m.then or not (inside(m.first) or inside(m.then)):
            return
        with svg.group(f'{m.asks} asks for this order, and nothing forces it', 'missing', f'{m.first}.{m.then}'):
            if not self.both:
                self._from_or_to_another_band(svg, m)
            elif self.beside:
                self._to_a_neighbour(svg, m)
            else:
                points = self._clear(self.router.points(self.gone), m.first, m.then)
                svg.arrow(points, *MISSING)
                if self.gone.channel is not None:
                    x, y = (points[2][0] + points[3][0]) / 2, points[2][1]
                else:                                   # on the line, in the room between two lanes
                    top = self.picture.top
                    x, y = points[1][0], top(round(((points[0][1] + points[-1][1]) / 2 - top(0)) / LANE))
                _label(svg, x, y, self._missing_words(m))

    def _from_or_to_another_band(self, svg, m):
        picture, comes = self.picture, self.picture.inside(m.then)
        here = m.then if comes else m.first
        x, y = picture.x(picture.levels[here]), picture.y(here)
        if comes:
            svg.arrow([(x - 34, y + BOX / 2 + 6), (x - 4, y + BOX / 2 + 6)], *MISSING)
            self._label_above(svg, here, f'{self._missing_words(m)}, from operation {m.first}')
        else:
            svg.arrow([(x + picture.box + 4, y + BOX / 2 + 6), (x + picture.box + 34, y + BOX / 2 + 6)], *MISSING)

    def _to_a_neighbour(self, svg, m):
        picture, words = self.picture, self._missing_words(m)
        x, y1, y2 = picture.x(picture.levels[m.first]) + picture.box / 2, picture.y(m.first), picture.y(m.then)
        y1, y2 = (y1 + BOX + 3, y2 - 4) if y1 < y2 else (y1 - 3, y2 + BOX + 4)
        svg.arrow([(x, y1), (x, y2)], *MISSING)
        _label(svg, x + 19 + wide(words, 10.5, True) / 2, (y1 + y2) / 2, words)

    def _missing_words(self, m):
        if self.order.before(m.then, m.first):
            return 'must come first, but always comes later'
        waits, has = self.plan.operations[m.then].waits, len(self.plan.semaphores)
        for change in self.picture.said.changes:
            if isinstance(m, OutOfTurn) and len(change.plan.semaphores) > has:
                continue                                # signals apart need no order
            if change.number == 0 and len(change.plan.operations) == self.picture.n:
                for s, v in change.plan.operations[m.then].waits:
                    if s >= has:
                        return 'missing: a signal and a wait'
                    if (s, v) not in waits:
                        return f'missing: wait {awaited(self.plan.semaphores[s].name, v, 50)}'
        return 'missing'

    def _out_of_turn(self, svg):
        """The two signals, on the sides that are away from the missing order."""
        m, picture = self.picture.named, self.picture
        if not isinstance(m, OutOfTurn):
            return
        name = short(self.plan.semaphores[m.semaphore].name, 30)
        for j, k, other in ((m.first, m.other_item, m.then), (m.then, m.item, m.first)):
            if picture.inside(j):
                above = self.both and picture.lane_of(j) < picture.lane_of(other)
                value = self.plan.operations[j].signals[k].value
                with svg.group(f'operation {j} signals {name}={value}', 'signal', f'{j}.{k}'):
                    _label(svg, picture.x(picture.levels[j]) + picture.box / 2,
                           picture.y(j) + (-13 if above else BOX + 14), f'{name}={value}')

    # ---- a trace
    def _departure(self, svg):
        """How far the trace came on each queue, and the step that departs."""
        picture, trace = self.picture, self.picture.trace
        if trace is None:
            return
        for q, lane in picture.lane.items():
            self._cut(svg, q, lane)
        if picture.traced.focus and picture.inside(trace.operation):
            words = f'step {trace.step} departs here'
            if trace.wait is not None:
                words = f'step {trace.step} departs: {self._name(trace.operation, trace.wait, 40)} is not met'
            with svg.group('the first step that is not as the plan says', 'departs', trace.operation):
                self._label_above(svg, trace.operation, words)

    def _cut(self, svg, q, lane):
        """A bar after the last operation of a queue that ran."""
        picture, ran = self.picture, self.picture.trace.queues[q]
        last = self.order.queued[q][ran - 1] if ran else None
        if not (picture.inside(last) if ran else picture.first == 0):
            return
        picture.drawn.add('cut')
        x = picture.x(picture.levels[last]) + picture.box + 5 if ran else picture.left - 6
        with svg.group(f'{self.plan.queues[q].name} has run {ran}', 'cut', q):
            svg.rect(x - 1.6, picture.top(lane) + 7, 3.2, LANE - 14, INK)


def _label(svg, x, y, words):
    w = wide(words, 10.5, True) + 10
    x = max(x, w / 2 + 12)
    svg.rect(x - w / 2, y - 9, w, 17, '#fff', RED, 1, 4)
    svg.text(x, y + 3.5, words, 10.5, RED, 'middle', bold=True)
