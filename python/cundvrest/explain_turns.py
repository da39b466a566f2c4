"""Refusal 17 in plain sentences: the two signals, why nothing orders them, a run in which the semaphore falls, a
change."""
import dataclasses

from . import faults, missing
from .explanation import CONFIRMED, FOUND, Explanation, Shown
from .order import Order
from .plan import Signal, Wait

MOST_TOLD = 12              # operations of a run that are told


def out_of_turn(refused, speaker):
    order = Order(refused.plan)
    turns = faults.out_of_turn(order)
    turn = next(t for t in turns if t.then == refused.place)
    where = speaker.where(turn.then, ('operation', turn.then, 'signal', turn.item))
    said = Explanation(17, refused.place, '', where, order=order, missing=turn, focus=[turn.first, turn.then])
    _what_is_asked(said, order, speaker, turn)
    missing.why_not(said, order, speaker, turn, 'Which signal is before another')
    _run(said, order, speaker, turn)
    missing.change(said, _candidates(order, speaker, turn), lambda change: True)
    missing.others(said, sorted({t.then for t in turns} - {turn.then}), 'a signal out of turn')
    said.claim(FOUND, 'which two signals; the run and the change; the words')
    return said


def _what_is_asked(said, order, speaker, turn):
    """The headline, the two lines and what is asked of them."""
    first, then, operations = turn.first, turn.then, order.plan.operations
    of_first, of_then = speaker.queue(first), speaker.queue(then)
    low, high = (f'{speaker.semaphore(s)}={value}' for s, value in (operations[first].signals[turn.other_item],
                                                                    operations[then].signals[turn.item]))
    always = order.before(then, first)
    said.headline = (f'{of_then} {"always signals" if always else "may signal"} {high} before {of_first} has signalled '
                     f'{low}')
    said.lines(speaker.show(first, ('signal', turn.other_item), remark=f'{of_first} signals {low}'),
               speaker.show(then, ('signal', turn.item), remark=f'{of_then} signals {high}, which is next'))
    said.says(f'A semaphore only rises. Of its signals in the plan, {low} is the one before {high}, so operation '
              f'{first} must come before operation {then} in every run.')


# ---- the run

def _run(said, order, speaker, turn):
    """A full run in which the semaphore falls."""
    name = speaker.semaphore(turn.semaphore)
    run = missing.wrong_run(said, order, turn)
    said.says(f'A full run in which it goes wrong, told by what signals {name}:', CONFIRMED)
    told = {}
    for j, heights in told_by(order.plan, run, turn):
        words = 'signals ' + ', '.join(f'{name}={value}' for value, _ in heights)
        falls = [f'{name} would fall from {high} to {value}' for value, high in heights if value <= high]
        told[j] = words, falls[0] if falls else 'too early' if j == turn.then else ''
    missing.tell(said, order, speaker, turn, told)


def told_by(plan, run, turn):
    """[(operation, [(value, the highest before it), ..]), ..] of the operations that signal the semaphore up to the one
    that must come first, in the order of the run; of many the last ones, and the two."""
    told = {}
    for j, value, high in faults.heights(plan, run[:run.index(turn.first) + 1], turn.semaphore):
        told.setdefault(j, []).append((value, high))
    many = list(told.items())
    return [(j, of) for k, (j, of) in enumerate(many) if j == turn.then or k >= len(many) - MOST_TOLD + 1]


# ---- the change

def _candidates(order, speaker, turn):
    """Changes to try, the smallest first: (words, lines, plan). Each orders the two, or takes their signals apart, and
    so it helps."""
    if not order.before(turn.then, turn.first):
        yield from missing.waits(order, speaker, turn, turn.semaphore)
    yield from _own_semaphore(order, speaker, turn)


def _own_semaphore(order, speaker, turn):
    """A semaphore of its own for the queue that signals too early: its signals, and the waits that rest on them. What
    is before what stays."""
    plan, queue, old = order.plan, order.queue[turn.then], turn.semaphore
    of, own = speaker.queue(turn.then), len(plan.semaphores)
    name = missing.new_semaphore(plan, f'{speaker.semaphore(old)}-{of}')
    if not name:
        return
    new = plan.copy()
    new.semaphore(name, owner=queue)
    lines = [Shown('', f'semaphore {name} owner {of}', sign='+')]
    for j, o in enumerate(plan.operations):
        signals = tuple(Signal(own, v) if s == old and o.queue == queue else Signal(s, v) for s, v in o.signals)
        waits = tuple(Wait(own, v) if s == old and order.queue[r] == queue else Wait(s, v)
                      for (s, v), r in zip(o.waits, order.rests[j]))
        new.operations[j] = dataclasses.replace(o, signals=signals, waits=waits)
        if new.operations[j] != o:
            lines += speaker.change(new, j)
    if len(lines) > missing.MOST_LINES:
        lines = lines[:missing.MOST_LINES] + [Shown('..', '')]
    yield f'With a semaphore of its own for {of}', lines, new
