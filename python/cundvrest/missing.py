"""An order that is asked for and that nothing forces, in plain sentences for 11 and 17: why nothing orders the two
operations, a run that has them the other way round, and waits that would order them.

`missing` is a Broken or an OutOfTurn of faults.py: its `first` must come before its `then`.
"""
from . import faults
from .explanation import CONFIRMED, FOUND, PROVED, Change, Shown
from .plan import LIMITS, Wait
from .speaker import count
from .trying import then as then_words
from .trying import tried

MOST_TRIES = 8              # changes that are tried before the search is given up
MOST_STEPS = 200            # of a longer run only a part is told at a terminal
MOST_LINES = 40             # of a longer change only a part is shown


def why_not(said, order, speaker, missing, by_the_plan):
    """Why nothing orders the two, from the row of the one that must come later. `by_the_plan` is what goes by the order
    of the plan, for two that always run the other way round."""
    plan, first, then = order.plan, missing.first, missing.then
    said.claim(PROVED, f'what comes before what, by the rows of {order.asked_words}')
    row = ', '.join(f'{q.name} {reached}' for q, reached in zip(plan.queues, order.rows[then]))
    queue, known, mine = speaker.queue(first), order.rows[then][order.queue[first]], order.epochs[first]
    sure = (f'no operation of {queue} is sure to have run' if known == 0 else
            f'only the first operation of {queue} is sure to have run' if known == 1 else
            f'only the first {known} operations of {queue} are sure to have run')
    if order.before(then, first):
        said.says(f'It is always the other way round. {by_the_plan} goes by the order of the plan, but operation '
                  f'{then} comes before operation {first}, by this chain:', PROVED)
        said.steps([_chain_row(link, speaker) for link in order.chain(then, first)], FOUND)
    else:
        said.says(f'Nothing orders the two. When operation {then} starts, {sure}; operation {first} is number {mine} '
                  f'of that queue. (Row of operation {then}: {row}.)', PROVED)


def _chain_row(link, speaker):
    at, k, after = link
    why = (f'waits for {speaker.wait(after, k)}, signalled by operation {at}' if k is not None else
           f'comes after operation {at} on {speaker.queue(at)}')
    return [f'operation {after}', *speaker.line(after), why]


# ---- the run

def wrong_run(said, order, missing):
    """A full run that goes wrong, which is shown only if the proved trace function says that it is one."""
    run = faults.wrong_run(order, missing)
    if not order.is_full_run(run):
        raise RuntimeError('the run that was found is no full run; this is a fault of the program')
    said.run, said.confirmed = run, True
    said.claim(CONFIRMED, f'that the run shown is a full run of {order.asked_words}, by the proved trace function')
    return run


def tell(said, order, speaker, missing, told):
    """The run that goes wrong by what is told of it, {operation: (words, remark)}, and whole where that is not all."""
    step = {j: k for k, j in enumerate(said.run)}
    said.steps([[f'step {step[j]}', f'operation {j}', *speaker.line(j), speaker.queue(j), words,
                 f'<-- {remark}' if remark else '']
                for j, (words, remark) in sorted(told.items(), key=lambda item: step[item[0]])])
    if len(told) < order.n:
        said.says('The whole run:')
        said.lines(*run_lines(said.run, {missing.first, missing.then}))


def run_lines(run, marked, per_line=16):
    """A run, so many steps to a line, with marks under the operations of the fault. Of a long one that has such marks
    only the lines with a mark and those beside them."""
    lines = []
    for start in range(0, len(run), per_line):
        words, marks, column = [], [], 1
        for j in run[start:start + per_line]:
            words.append(str(j))
            if j in marked:
                marks.append((column, len(words[-1])))
            column += len(words[-1]) + 1
        lines.append(Shown(f'step {start}', ' '.join(words), marks))
    if len(run) <= MOST_STEPS or not marked:
        return lines
    near = {k + d for k, line in enumerate(lines) if line.marks for d in (-1, 0, 1)}
    kept = [line for k, line in enumerate(lines) if k in near]
    return [Shown('..', '')] * (0 not in near) + kept + [Shown('..', '')] * (len(lines) - 1 not in near)


# ---- the change

def change(said, candidates, helps):
    """Of the changes, (words, lines, plan), the first that was tried and after which the plan passes; else the first
    that helps."""
    best = None
    for (words, lines, new), _ in zip(candidates, range(MOST_TRIES)):
        number, place = tried(new)
        made = Change(f'{words}, {then_words(number, place)}:', lines, new, number, place)
        if number == 0:
            best = made
            break
        if best is None and helps(made):
            best = made
    if best:
        said.try_change(best)
    else:
        said.says('No single change that was tried helps.', FOUND)


def others(said, operations, what):
    """What else is wrong in the same way, where no change was found after which nothing is."""
    if operations and all(made.number == said.number for made in said.changes):
        few = ', '.join(map(str, operations[:6])) + (' ..' if len(operations) > 6 else '')
        have = 'has' if len(operations) == 1 else 'have'
        said.last.append(f'{count(len(operations), "more operation")} {have} {what}: {few}.')


def waits(order, speaker, missing, semaphore=None, furthest=2, signals=3):
    """A wait for a signal that there is, at the operation or at one before it on its queue. The signals of the
    operation to wait for come first, that of `semaphore` before its others, then those after it, by step of the
    standard run."""
    plan, first = order.plan, missing.first
    useful = sorted((r != first, order.step[r], r, s != semaphore, s, v) for r in range(order.n)
                    if order.reaches(first, r) for s, v in plan.operations[r].signals)
    at = missing.then
    for _ in range(furthest):
        possible = [(r, s, v) for _, _, r, _, s, v in useful if not order.reaches(at, r)]
        for r, s, v in possible[:signals]:
            more, old = with_wait(order, at, Wait(s, v), r)
            if more:
                new = plan.with_operation(at, waits=more)
                words = f'With a wait for {speaker.semaphore(s)}>={v}'
                words += f' instead of {speaker.wait(at, old)}' if old is not None else ''
                words += f' at operation {at}' if at != missing.then else ''
                yield words, speaker.change(new, at), new
        at = order.previous(at)
        if at is None:
            return


def with_wait(order, at, wait, rests_on):
    """(waits, index): the waits of an operation with one more, and the index of the one that it replaces: a lower wait
    on the same semaphore for what comes before anyway, or, where there is no room, one that orders nothing beyond the
    others."""
    has, rests = order.plan.operations[at].waits, order.rests[at]
    for k, (s, v) in enumerate(has):
        if s == wait.semaphore and v < wait.value and order.reaches(rests[k], rests_on):
            return has[:k] + (wait,) + has[k + 1:], k
    if len(has) < LIMITS['wait']:
        return has + (wait,), None
    for k, r in enumerate(rests):
        beside = [x for i, x in enumerate(rests) if i != k] + [rests_on, order.previous(at)]
        if any(x is not None and order.reaches(r, x) for x in beside):
            return has[:k] + (wait,) + has[k + 1:], k
    return None, None


def new_semaphore(plan, name):
    """A name that no semaphore has, made of this one; None where the plan takes no more semaphores."""
    if len(plan.semaphores) >= LIMITS['semaphore']:
        return None
    taken = {s.name for s in plan.semaphores}
    return next(n for n in [name, *(f'{name}{k}' for k in range(len(taken) + 1))] if n not in taken)
