"""Answers of the trace and the reuse question in plain sentences: where a recorded trace departs, in which state, and
what the wait waits for; why a buffer may not be filled again yet, and the wait that would change that."""
from .explanation import FOUND, PROVED, Explanation, Shown
from .library import LibraryError
from .order import Order
from .plan import LIMITS, Advice, Followed, Refused, Trace, Verdict
from .speaker import Speaker, count


def explain_trace(plan, recorded):
    """The Explanation of what a recorded trace follows: a Trace of the plan, or what `Plan.trace` takes. Raises Refused
    where the plan is refused; a trace that is not well formed has words of its own."""
    try:
        trace = recorded if isinstance(recorded, Trace) else plan.trace(recorded)
    except Refused as refused:
        if refused.number != 22:
            raise
        return _badly_formed(refused, bytes(recorded))
    speaker, order = Speaker(plan), Order(plan)
    if not trace.departs:
        return _of_run(trace, speaker, order)
    j = trace.operation
    verdict = f'trace departs {trace.step} {trace.followed} {j}' + ('' if trace.wait is None else f' {trace.wait}')
    known = trace.followed is not Followed.UNKNOWN
    said = Explanation(0, 0, '', speaker.where(j) if known else '', verdict, order=order, focus=[j] if known else [])
    {Followed.UNKNOWN: _unknown, Followed.REPEATED: _repeated, Followed.NOT_FIRST: _not_first,
     Followed.WAIT_NOT_MET: _wait_not_met}[trace.followed](said, trace, speaker, order)
    _state(said, trace, speaker, order, f'The state before step {trace.step}:')
    said.claim(FOUND, ('' if trace.wait is None else 'what the wait rests on, ') + 'what comes next; the words')
    return said


def _badly_formed(refused, recorded):
    """Refusal 22: a count that does not agree with the bytes."""
    said = Explanation(22, refused.place, f'the trace has {count(len(recorded), "byte")}: a count takes two')
    if len(recorded) >= 2:
        steps, odd = divmod(len(recorded) - 2, 2)
        said.headline = (f'the trace says that it has {count(int.from_bytes(recorded[:2], "little"), "step")}, and has '
                         f'{count(steps, "step")}' + (' and a byte more' if odd else ''))
        said.lines(Shown('0', ' '.join(f'{b:02x}' for b in recorded[:16]), [(1, 5)], 'the count, the low byte first'))
    said.says('A trace is a count in two bytes, then for each step the position of its operation in two bytes.')
    return said


# ---- traces that are runs

def _of_run(trace, speaker, order):
    all_ = count(order.n, 'operation')
    if trace.followed is Followed.FULL:
        return Explanation(0, 0, f'the trace is a full run of {all_}', verdict='trace full', order=order)
    said = Explanation(0, 0, f'the trace is a run, and not finished: {trace.step} of {all_} have run',
                       verdict=f'trace unfinished {trace.step}', order=order)
    _state(said, trace, speaker, order, 'The state at its end:')
    said.claim(FOUND, 'what comes next')
    return said


# ---- traces that depart

def _unknown(said, trace, speaker, order):
    said.headline = (f'step {trace.step} runs operation {trace.operation}, which the plan has not: it has '
                     f'{count(order.n, "operation")}' + (f', numbered from 0 to {order.n - 1}' if order.n else ''))
    said.says('Is this the trace of another plan, or of a longer version of this one?')


def _repeated(said, trace, speaker, order):
    j, first = trace.operation, trace.steps.index(trace.operation)
    said.headline = f'step {trace.step} runs operation {j} of {speaker.queue(j)} again: step {first} has run it'
    said.lines(speaker.show(j))


def _not_first(said, trace, speaker, order):
    j, queue = trace.operation, speaker.queue(trace.operation)
    ran = trace.queues[order.queue[j]]
    next_ = order.queued[order.queue[j]][ran]
    said.headline = (f'step {trace.step} runs operation {j}, number {order.epochs[j]} of {queue}, '
                     f'but {queue} has run {ran}: operation {next_} comes first')
    said.lines(speaker.show(next_, remark=f'is next on {queue}'), speaker.show(j, remark='runs too early'))
    said.focus.append(next_)


def _wait_not_met(said, trace, speaker, order):
    plan, j, k = order.plan, trace.operation, trace.wait
    s, v = plan.operations[j].waits[k]
    name, has, r = speaker.semaphore(s), trace.semaphores[s], order.rests[j][k]
    said.headline = (f'step {trace.step} runs operation {j} of {speaker.queue(j)}, which waits for {name}>={v}, '
                     f'but {name} is at {has}')
    said.where = speaker.where(j, ('operation', j, 'wait', k))
    at = next(i for i, (t, x) in enumerate(plan.operations[r].signals) if t == s and x >= v)
    said.lines(speaker.show(j, ('wait', k), remark='the wait that is not met'),
               speaker.show(r, ('signal', at), remark='what it waits for'))
    q = order.queue[r]
    queue, ran = plan.queues[q].name, trace.queues[q]
    next_ = order.queued[q][ran]
    words = (f'The wait rests on operation {r}, number {order.epochs[r]} of {queue}. {queue} has run {ran}'
             + ('' if next_ == r else f', and operation {next_} comes first') + '.')
    unmet = _unmet(trace, order, next_)
    if unmet:
        words += f' Operation {next_} itself waits for {" and ".join(speaker.wait(next_, i) for i in unmet)}.'
    elif next_ == r:
        words += f' Operation {r} could have run: nothing holds it.'
    said.says(words, FOUND)
    said.focus.append(r)


def _unmet(trace, order, j):
    """The indices of the waits of an operation that the state does not meet: what they rest on has not run."""
    return [k for k, r in enumerate(order.rests[j]) if order.epochs[r] > trace.queues[order.queue[r]]]


def _state(said, trace, speaker, order, title):
    """How far each queue and semaphore has come, and what each queue is at."""
    rows = []
    for q, (queue, ran) in enumerate(zip(order.plan.queues, trace.queues)):
        left = order.queued[q][ran:]
        unmet = [speaker.wait(left[0], k) for k in _unmet(trace, order, left[0])] if left else []
        waits = f'waits for {" ".join(unmet)}' if unmet else 'is ready' if left else ''
        rows.append([queue.name, f'{ran} of {len(order.queued[q])}',
                     f'next is operation {left[0]}' if left else 'is done', waits])
    said.says(title, PROVED)
    if rows:
        said.steps(rows)
    if trace.semaphores:
        reached, others = trace.reached()
        words = [f'{semaphore.name} {value}' for semaphore, value in reached]
        said.says(f'Semaphores: {", ".join(words + ([f"{others} others 0"] if others else []))}.', PROVED)
    said.claim(PROVED, 'how far each queue and semaphore has come, by the proved trace function')


# ---- the reuse question

def explain_reuse(plan, queue, buffer):
    """The Explanation of the reuse question's verdict. Raises Refused."""
    queue, buffer = plan.position('queue', queue), plan.position('buffer', buffer)
    verdict = plan.reuse(queue, buffer)
    speaker, order = Speaker(plan), Order(plan)
    name, of = speaker.buffer(buffer), plan.queues[queue].name
    headline = {Verdict.FRESH: f'{of} may fill {name}: nothing marks it',
                Verdict.REUSABLE: f'{of} may fill {name} again: all that marks it comes before',
                Verdict.HELD: f'{name} is held: its last mark is a use, and nothing frees it',
                Verdict.NOT_ORDERED: f'{of} may be done before all that marks {name} has run'}[verdict]
    said = Explanation(0, 0, headline, verdict=f'verdict {verdict.value} {verdict}', order=order)
    marked = [(j, k) for j, o in enumerate(plan.operations) for k, mark in enumerate(o.marks) if mark.buffer == buffer]
    if marked:
        last, k = marked[-1]
        said.where = speaker.where(last, ('operation', last, 'mark', k))
        said.lines(speaker.show(last, ('mark', k), remark='the last mark'))
    if verdict is Verdict.NOT_ORDERED:
        said.focus = [marked[-1][0]]
        _why_not_ordered(said, speaker, order, queue, marked[-1][0])
        _suggestion(said, plan, speaker, queue, buffer)
        said.claim(FOUND, 'the words')
    return said


def _why_not_ordered(said, speaker, order, queue, free):
    """Why the queue's last operation does not come after the last free, from its row."""
    of, its = order.plan.queues[queue].name, speaker.queue(free)
    if not order.queued[queue]:
        said.says(f'{of} has no operation, so nothing orders it after operation {free} of {its}, which frees the '
                  'buffer.')
        return
    last = order.queued[queue][-1]
    known, all_ = order.rows[last][order.queue[free]], count(len(order.queued[order.queue[free]]), 'operation')
    said.says(f'When operation {last}, the last of {of}, has run, {known} of {all_} of {its} '
              f'{"is" if known == 1 else "are"} sure to have run; operation {free}, which frees the buffer, is number '
              f'{order.epochs[free]}.', PROVED)
    said.claim(PROVED, f'the row of operation {last}, by the proved check')
    said.focus.append(last)


def _suggestion(said, plan, speaker, queue, buffer):
    """The wait that the proved suggest function names; nothing where the library has no such function."""
    try:
        advice = plan.suggest(queue, buffer)
    except LibraryError:
        return
    except Refused as refused:
        if refused.number != 19:
            raise
        said.says('No signal of the plan comes after the free, so no wait would do: let the operation that frees it '
                  'signal.', PROVED)
        said.claim(PROVED, 'that no wait would do, by the proved suggest function')
        return
    if advice.advice is Advice.WAIT:
        semaphore, value = advice.wait
        wait = f'wait {speaker.semaphore(semaphore)}>={value}'
        if len(plan.operations) < LIMITS['operation']:
            said.says('With one more operation at the end of the plan it may fill the buffer again:', PROVED)
            said.lines(Shown('', f'{plan.queues[queue].name}: {wait}', sign='+'))
        else:
            said.says(f'One more operation of {plan.queues[queue].name} with {wait} would come after all that marks '
                      f'the buffer; but the plan has {len(plan.operations)} operations, and takes no more.', PROVED)
        said.claim(PROVED, 'the wait, by the proved suggest function')
