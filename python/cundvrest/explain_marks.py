"""Refusal 11 in plain sentences: the two operations, why nothing orders them, a run that goes wrong, a change."""
import dataclasses

from . import faults, missing
from .explanation import CONFIRMED, FOUND, Explanation, Shown
from .order import Order
from .plan import LIMITS, Signal, Wait


def broken(refused, speaker):
    order = Order(refused.plan)
    marks = faults.broken_marks(order)
    mark = next(m for m in marks if m.operation == refused.place)
    where = speaker.where(mark.operation, ('operation', mark.operation, 'mark', mark.item))
    said = Explanation(11, refused.place, '', where, order=order, missing=mark,
                       focus=list(dict.fromkeys((mark.first, mark.then))))
    _what_is_asked(said, order, speaker, mark)
    if mark.first != mark.then:
        missing.why_not(said, order, speaker, mark, 'Which holding a mark belongs to')
    _run(said, order, speaker, mark)
    missing.change(said, _candidates(order, speaker, mark), lambda change: _helps(order, mark, len(marks), change))
    missing.others(said, sorted({m.operation for m in marks} - {mark.operation}), 'a broken mark')
    said.claim(FOUND, 'which mark and which two operations; the run and the change; the words')
    return said


def _what_is_asked(said, order, speaker, mark):
    """The headline, the two lines and what keeping asks of them."""
    plan, first, then, name = order.plan, mark.first, mark.then, speaker.buffer(mark.buffer)
    at_first, at_then = (mark.other_item, mark.item) if mark.kind == 'early' else (mark.item, mark.other_item)
    of_first, of_then = speaker.queue(first), speaker.queue(then)
    always = first != then and order.before(then, first)
    may, s = ('always ', 's') if always else ('may ', '')
    if first == then:
        again = 'frees' if plan.operations[then].marks[mark.item].free else 'uses'
        said.headline = f'{of_then} frees {name} and then {again} it again in the same operation'
        said.lines(speaker.show(then, ('mark', mark.other_item), ('mark', mark.item)))
        said.says(f'The free ends a holding of {name}. What is marked after it belongs to the next holding, which '
                  'needs a later step.')
    elif mark.kind == 'early':
        verb = 'free' if plan.operations[then].marks[mark.item].free else 'use'
        said.headline = f'{of_then} {may}{verb}{s} {name} again before {of_first} has freed it'
        said.lines(speaker.show(first, ('mark', at_first), remark=f'{of_first} frees {name}'),
                   speaker.show(then, ('mark', at_then), remark=f'{of_then} {verb}s it again'))
        said.says(f'Operation {first} ends a holding of {name}. Operation {then} belongs to the next holding, so it '
                  f'must come later than operation {first} in every run.')
    else:
        said.headline = f'{of_first} {may}use{s} {name} after {of_then} has freed it'
        said.lines(speaker.show(first, ('mark', at_first), remark=f'{of_first} uses {name}'),
                   speaker.show(then, ('mark', at_then), remark=f'{of_then} frees it'))
        said.says(f'Operation {then} ends the holding that operation {first} belongs to, so operation {first} must '
                  'come first in every run.')


# ---- the run

def _run(said, order, speaker, mark):
    """A full run that breaks the buffer."""
    run, name = missing.wrong_run(said, order, mark), speaker.buffer(mark.buffer)
    if mark.first == mark.then:
        said.says(f'Both marks are in one step, so every full run breaks {name}.', FOUND)
        said.says(f'The standard run does, in step {run.index(mark.then)}:', CONFIRMED)
        said.lines(*missing.run_lines(run, {mark.then}))
        return
    said.says(f'A full run in which it goes wrong, told by what marks {name}:', CONFIRMED)
    remark = {mark.first: 'freed only now', mark.then: 'too early'} if mark.kind == 'early' else {
        mark.first: 'used when it is free already', mark.then: 'freed too early'}
    marked = {j for j, _, _ in faults.holding_of(order, mark)} | {mark.first, mark.then}
    missing.tell(said, order, speaker, mark,
                 {j: (_marks(order.plan, j, mark, name), remark.get(j, '')) for j in marked})


def _marks(plan, j, mark, name):
    return ', '.join(('frees ' if free else 'uses ') + name for b, free in plan.operations[j].marks if b == mark.buffer)


# ---- the change

def _helps(order, mark, broken_before, change):
    """Is this mark whole after the change, with no lower operation's broken? Where operations have moved, are fewer
    marks broken?"""
    if change.number != 11:
        return False
    if [o.queue for o in change.plan.operations] != order.queue:
        return len(faults.broken_marks(Order(change.plan))) < broken_before
    return change.place > mark.operation or (change.place == mark.operation
                                             and mark not in faults.broken_marks(Order(change.plan)))


def _candidates(order, speaker, mark):
    """Changes to try, the smallest first: (words, lines, plan)."""
    plan, then = order.plan, mark.then
    marks = plan.operations[then].marks
    if mark.first == then and not marks[mark.item].free:
        new = plan.with_operation(then, marks=tuple(sorted(marks, key=lambda m: m.free)))
        yield 'With the free last', speaker.change(new, then), new
    elif mark.kind == 'early' and marks[mark.item].free:
        new = plan.with_operation(then, marks=marks[:mark.item] + marks[mark.item + 1:])
        yield f'{speaker.buffer(mark.buffer)} is freed twice; with one free', speaker.change(new, then), new
    if mark.first == then:
        return
    if order.before(then, mark.first):
        yield from _moved(order, speaker, mark)
        yield _as_it_runs(order, speaker)
    else:
        yield from missing.waits(order, speaker, mark)
        yield from _new_signal(order, speaker, mark)


def _new_signal(order, speaker, mark):
    """A new semaphore, signalled at the operation to wait for or after it on its queue, and a wait for it."""
    plan, then, queue = order.plan, mark.then, order.queue[mark.first]
    name, s = missing.new_semaphore(plan, f'{speaker.queue(mark.first)}-done'), len(plan.semaphores)
    for r in order.queued[queue][order.epochs[mark.first] - 1:]:
        if order.reaches(then, r) or len(plan.operations[r].signals) >= LIMITS['signal']:
            continue
        waits, _ = missing.with_wait(order, then, Wait(s, 1), r)
        if not name or not waits:
            return
        new = plan.with_operation(then, waits=waits)
        new.semaphore(name, owner=queue)
        signals = plan.operations[r].signals + (Signal(s, 1),)
        new.operations[r] = dataclasses.replace(plan.operations[r], signals=signals)
        lines = [Shown('', f'semaphore {name} owner {speaker.queue(r)}', sign='+')]
        for j in sorted((r, then)):
            lines += speaker.change(new, j)
        yield 'With a new signal and a wait for it', lines, new
        return


def _moved(order, speaker, mark):
    """The two in the order in which they run anyway: the holdings are others then."""
    plan, (low, high) = order.plan, sorted((mark.first, mark.then))
    for j, to in ((high, low), (low, high)):
        between = order.queue[low:high + 1]
        if between.count(order.queue[j]) == 1:
            new = plan.copy()
            new.operations.insert(to, new.operations.pop(j))
            line = speaker.show(j).text
            lines = [Shown(speaker.label(j), line, sign='-'), Shown(speaker.label(to), line, sign='+')]
            yield (f'With operation {j} moved {"above" if to < j else "below"} operation {to}',
                   lines if j < to else lines[::-1], new)


def _as_it_runs(order, speaker):
    """All operations in the order of the standard run: what comes before what stays, and holdings go by it."""
    new = order.plan.copy()
    new.operations = [order.plan.operations[j] for j in order.run]
    lines = [Shown(speaker.label(j), speaker.show(j).text, sign='+') for j in order.run]
    if len(lines) > missing.MOST_LINES:
        lines = missing.run_lines(order.run, set())
    return 'With all operations in the order of the standard run', lines, new
