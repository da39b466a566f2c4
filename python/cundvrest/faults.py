"""What is wrong with a refused plan, found by search: broken marks, signals out of turn, a run in which one goes wrong,
a circle of waits.

What is found is an example of what the proved check has said, and is shown after a proved function has said yes to it.
"""
from dataclasses import dataclass


@dataclass(frozen=True)
class Broken:
    """A broken mark, the one at `item` of `operation`: keeping asks that `first` comes before `then`, and nothing
    forces it. `kind` is early for a mark of the next holding that may come before the free, late for a use that may
    come after its own holding's free. `other_item` is the mark of the other operation."""
    kind: str
    first: int
    then: int
    buffer: int
    operation: int
    item: int
    other_item: int
    asks = 'keeping'

    def beside(self, order):
        """The operations that a run is told by, beside the two."""
        return [j for j, _, _ in holding_of(order, self)]


@dataclass(frozen=True)
class OutOfTurn:
    """A signal out of turn, the one at `item` of `then`: the one at `other_item` of `first` is the signal before it on
    its semaphore, so `first` is to come before `then`, and nothing forces it."""
    first: int
    then: int
    semaphore: int
    item: int
    other_item: int
    asks = 'raising in order'

    def beside(self, order):
        """The operations that a run is told by, beside the two: those that signal the semaphore to a lower value."""
        return [j for j in order.signals[self.semaphore][1] if j < self.first]


def broken_marks(order):
    """Every broken mark of a plan that has rows, lowest operation first."""
    found = []
    for b, holdings in enumerate(order.holdings):
        last = None
        for holding in holdings:
            free = holding[-1] if holding[-1][2] else None
            for j, k, is_free in holding:
                if last and not order.before(last[0], j):
                    found.append(Broken('early', last[0], j, b, j, k, last[1]))
                if free and not is_free and not order.reaches(j, free[0]):
                    found.append(Broken('late', j, free[0], b, j, k, free[1]))
            last = free
    return sorted(found, key=lambda m: (m.operation, m.item, m.kind))


def out_of_turn(order):
    """Every signal out of turn of a plan that has rows, lowest operation first."""
    last, found = {}, []
    for j, o in enumerate(order.plan.operations):
        for k, (s, _) in enumerate(o.signals):
            first, item = last.get(s, (j, k))
            if not order.reaches(first, j):
                found.append(OutOfTurn(first, j, s, k, item))
            last[s] = j, k
    return found


def heights(plan, run, semaphore):
    """[(operation, value, highest value before it), ..] of the signals that a run gives on a semaphore, in its order.
    The semaphore falls at those that are not above the highest before."""
    told, high = [], 0
    for j in run:
        for s, v in plan.operations[j].signals:
            if s == semaphore:
                told.append((j, v, high))
                high = max(high, v)
    return told


def holding_of(order, broken):
    """The holding that a broken mark is about: of a late use its own, of an early mark the one to be freed before."""
    item = (broken.first, broken.item if broken.kind == 'late' else broken.other_item)
    return next(h for h in order.holdings[broken.buffer] if any((j, k) == item for j, k, _ in h))


def wrong_run(order, missing):
    """A full run in which `then` comes before `first`, or both are one operation. What is told beside them comes first
    where it can, so that the run shows what is held, or how high the semaphore is; the rest goes as in the standard
    run."""
    first, then = missing.first, missing.then
    if first == then:
        return list(order.run)
    early = order.past(then) - {then}
    for j in missing.beside(order):
        if not order.reaches(first, j) and not order.reaches(then, j):
            early |= order.past(j)
    late = order.past(first) - early - {then}
    rest = set(range(order.n)) - early - late - {then}
    return ([j for j in order.run if j in early] + [then] + [j for j in order.run if j in late]
            + [j for j in order.run if j in rest])


@dataclass(frozen=True)
class Link:
    """An operation that cannot run, `head`, waits by its wait `wait` for `signaller`, which is `after` or comes after
    it on its queue; `after` is the head of the next link."""
    head: int
    wait: int
    signaller: int
    after: int


def stuck(order):
    """(lowest, lead, circle) of a plan without a full run: the lowest operation that cannot run; links that lead from
    it to the circle, maybe none; and a circle with the fewest waits of all that it leads to."""
    done = set(order.run)
    waits = {j: [(k, r) for k, r in enumerate(rests) if r not in done]
             for j, rests in enumerate(order.rests) if j not in done}
    lowest = min(waits)
    start = _in_a_shortest_circle(order, waits, lowest)
    circle = _links(order, waits, _by_waits(waits, start), {start})
    heads = [link.head for link in circle]
    lead = _links(order, waits, [(lowest, None)], set(heads))
    turn = heads.index(lead[-1].after if lead else lowest)
    return lowest, lead, circle[turn:] + circle[:turn]


def _leads_to(order, waits, start):
    """Every operation that `start` cannot run before, itself too."""
    todo, seen = [start], {start}
    for j in todo:
        for r in (order.previous(j), *(r for _, r in waits[j])):
            if r in waits and r not in seen:
                seen.add(r)
                todo.append(r)
    return seen


def _in_a_shortest_circle(order, waits, lowest):
    """The lowest operation whose wait is in a circle with the fewest waits of all that `lowest` leads to. Sets of
    operations are bits of a number; a shortest circle has at most one wait for each queue."""
    reached = sorted(_leads_to(order, waits, lowest))
    near = {}                                           # what comes before it on its queue, and itself
    for j in reached:
        near[j] = near.get(order.previous(j), 0) | 1 << j
    while True:
        own, far = {}, {}                               # one wait further: by its own waits; or by one before it too
        for j in reached:
            own[j] = 0
            for _, r in waits[j]:
                own[j] |= near[r]
            far[j] = own[j] | far.get(order.previous(j), 0)
        found = next((j for j in reached if own[j] >> j & 1), None)
        if found is not None:
            return found
        near = far


def _links(order, waits, todo, goals):
    """The fewest links that lead to a goal, or to an operation after it on its queue, and go on from those of `todo`:
    (operation, the last link to it and those before, or None)."""
    taken = set()
    for at, before in todo:
        while at in waits and at not in taken:
            if at in goals:
                return _joined(before, at)
            taken.add(at)
            todo += _by_waits(waits, at, before)
            at = order.previous(at)


def _by_waits(waits, head, before=None):
    return [(r, ((head, k, r), before)) for k, r in waits[head]]


def _joined(last, after):
    """The links, in order, of which the last leads to `after`."""
    links = []
    while last is not None:
        (head, wait, signaller), last = last
        links.append(Link(head, wait, signaller, after))
        after = head
    return links[::-1]
