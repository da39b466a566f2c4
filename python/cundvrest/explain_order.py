"""Refusal 10 in plain sentences: how far the plan comes, the circle of waits, and the waits that could go."""
from . import faults
from .explanation import CONFIRMED, FOUND, Change, Explanation
from .order import Order
from .plan import Wait
from .speaker import count
from .trying import then, tried

MOST_CHANGES = 4
FURTHER = {17: 1, 11: 2}            # refusals that come after 10: how far a plan comes that gets them


def stuck(refused, speaker):
    order = Order(refused.plan)
    lowest, lead, circle = faults.stuck(order)
    focus = sorted({lowest, *(j for link in circle for j in (link.head, link.signaller))})
    said = Explanation(10, refused.place, _headline(circle, speaker), speaker.where(refused.place), order=order,
                       lead=lead, circle=circle, focus=focus)
    if not order.run:
        said.says('Nothing can start.', FOUND)
    elif order.run_is_confirmed():
        said.says(f'After {len(order.run)} of {order.n} operations nothing can go on.', CONFIRMED)
        said.claim(CONFIRMED, f'that {count(len(order.run), "operation")} can run, by the proved trace function')
    if lead:
        said.says(f'What operation {lowest} waits for leads to the circle:')
        said.lines(*[shown for link in lead for shown in _link(link, speaker)], by=FOUND)
        said.says('The circle:')
    said.lines(*[shown for link in circle for shown in _link(link, speaker)], by=FOUND)
    for link in lead + circle:
        _not_by_value(said, order, speaker, link)
    _changes(said, order, speaker)
    said.claim(FOUND, f'the circle, a shortest one that operation {lowest} leads to; the words')
    return said


def _headline(circle, speaker):
    names = [speaker.queue(link.head) for link in circle]
    head, signaller = circle[0].head, circle[0].signaller
    if len(circle) > 1:
        return f'{", ".join(names[:-1])} and {names[-1]} wait for each other in a circle'
    if signaller == head:
        return f'operation {head} on {names[0]} waits for its own signal, which never comes'
    return f'operation {head} on {names[0]} waits for a signal that comes after it on its own queue, so it never comes'


def _link(link, speaker):
    """The line that waits and, where that is another, the line that would signal."""
    plan = speaker.plan
    semaphore, value = plan.operations[link.head].waits[link.wait]
    at = next(i for i, (s, v) in enumerate(plan.operations[link.signaller].signals) if s == semaphore and v >= value)
    if link.signaller == link.head:
        return [speaker.show(link.head, ('wait', link.wait), ('signal', at), remark='waits for what it signals itself')]
    out = [speaker.show(link.head, ('wait', link.wait), remark=f'waits for operation {link.signaller}')]
    if link.signaller != link.after:
        out.append(speaker.show(link.signaller, ('signal', at), remark=f'comes after operation {link.after} on '
                                                                       f'{speaker.queue(link.signaller)}'))
    return out


def _not_by_value(said, order, speaker, link):
    """That a higher signal than the one that the wait rests on does not meet it, where one has run."""
    semaphore, value = order.plan.operations[link.head].waits[link.wait]
    higher = [(v, by) for v, by in zip(*order.signals[semaphore]) if v >= value and by in order.step]
    if higher:
        v, by = higher[-1]
        said.says(f'Operation {by} has run and signals {speaker.semaphore(semaphore)}={v}. That does not meet the wait '
                  f'of operation {link.head}: it rests on operation {link.signaller}, which signals the least value '
                  'that is enough.', FOUND)


def _changes(said, order, speaker):
    """Each wait of the circle lowered to a signal that has run, or left out, and tried."""
    plan, found = order.plan, []
    for link in said.circle:
        waits = plan.operations[link.head].waits
        s, awaited = waits[link.wait]
        reached = max((v for v, by in zip(*order.signals[s]) if v < awaited and by in order.step), default=0)
        for value in ([reached] if reached else []) + [None]:
            kept = () if value is None else (Wait(s, value),)
            new = plan.with_operation(link.head, waits=waits[:link.wait] + kept + waits[link.wait + 1:])
            number, place = tried(new)
            words = ('Without this wait' if value is None else
                     f'Waiting for {speaker.semaphore(s)}>={value} instead, which is reached')
            found.append(Change(f'{words}, {then(number, place)}:', speaker.change(new, link.head), new, number, place))
    passing = [change for change in found if change.number == 0]
    best = passing or [max(found, key=lambda change: (FURTHER.get(change.number, 0), change.place))]
    said.says('One wait of the circle has to go or to ask for less. Which one, only the maker of the plan can say: '
              'a wait that goes no longer protects anything.'
              + (' Each of these changes alone is enough:' if len(best) > 1 else ''))
    for change in best[:MOST_CHANGES]:
        said.try_change(change)
