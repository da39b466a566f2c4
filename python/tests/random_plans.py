"""Random plans, the same ones for the same seed: loose ones, where queues, waits and marks are drawn by lot, and
pipelines, where frames go from queue to queue, in some with the semaphore, with mistakes of every kind now and then."""
from cundvrest import Mark, Operation, Plan, Signal, Wait


def random_plan(rng, most=14):
    plan = _loose(rng, rng.randint(0, most)) if rng.random() < 0.4 else rng.choice([_pipeline, _handed_over])(rng)
    for _ in range(rng.choice([0, 1, 1, 2])):
        if plan.operations:
            rng.choice(MISTAKES)(rng, plan)
    return plan


def _change(plan, j, **what):
    plan.operations[j] = plan.with_operation(j, **what).operations[j]


def _loose(rng, operations):
    """Signals rise, and waits are for values that come; with no care for circles and marks, and in some plans for who
    signals."""
    plan, queues, buffers, anybody = Plan(), rng.randint(1, 6), rng.randint(0, 5), rng.random() < 0.4
    for axis in rng.sample(range(1000), queues):
        plan.queue(axis=axis)
    for _ in range(rng.randint(0, 2 * queues)):
        plan.semaphore(owner=rng.randrange(queues))
    for _ in range(buffers):
        plan.buffer(size=rng.choice([0, 64, 4096, 2**32 - 1]))
    last = [0] * len(plan.semaphores)
    for _ in range(operations):
        q = rng.randrange(queues)
        mine = [s for s, x in enumerate(plan.semaphores) if anybody or x.owner == q]
        waits = []
        for _ in range(rng.choice([0, 1, 1, 2, 3])):
            signalled = [s for s, value in enumerate(last) if value]
            if signalled:
                s = rng.choice(signalled)
                waits.append(Wait(s, rng.randint(1, last[s])))
        signals = []
        for s in rng.sample(mine, min(len(mine), rng.choice([0, 1, 1, 2]))):
            last[s] += rng.choice([1, 1, 2, 5])
            signals.append(Signal(s, last[s]))
        marks = [Mark(rng.randrange(buffers), rng.random() < 0.3)
                 for _ in range(rng.choice([0, 1, 1, 2]) * (buffers > 0))]
        plan.operations.append(Operation(q, tuple(waits), tuple(signals), tuple(marks)))
    return plan


def _pipeline(rng):
    """Frames through stages, in buffers that the last stage frees; the first waits for that. It passes."""
    plan, stages, buffers = Plan(), rng.randint(2, 5), rng.randint(1, 3)
    for k in range(stages):
        plan.queue(f'stage{k}')
    for k in range(stages):
        plan.semaphore(f'done{k}', owner=k)
    for k in range(buffers):
        plan.buffer(f'frame{k}', size=4096)
    for frame in range(rng.randint(1, 6)):
        for k in range(stages):
            before = {f'done{k - 1}': frame + 1} if k else {}
            if not k and frame >= buffers:
                before = {f'done{stages - 1}': frame + 1 - buffers}
            buffer = f'frame{frame % buffers}'
            plan.add(k, wait=before, use=buffer, free=buffer if k == stages - 1 else (), signal={f'done{k}': frame + 1})
    if rng.random() < 0.5:                          # with the operations of each queue in order, the rest in any
        heads = [[o for o in plan.operations if o.queue == q] for q in range(stages)]
        mixed = []
        while any(heads):
            mixed.append(rng.choice([queue for queue in heads if queue]).pop(0))
        plan.operations = mixed
    return plan


def _handed_over(rng):
    """Frames through stages, with a semaphore for each buffer: each stage signals it to the next value, and so does the
    first one again. It passes."""
    plan, stages, buffers = Plan(), rng.randint(2, 5), rng.randint(1, 3)
    for k in range(stages):
        plan.queue(f'stage{k}')
    for k in range(buffers):
        plan.semaphore(f'turn{k}', owner=rng.randrange(stages))
        plan.buffer(f'frame{k}', size=4096)
    for frame in range(rng.randint(1, 6)):
        for k in range(stages):
            turn, at = f'turn{frame % buffers}', frame // buffers * stages + k
            plan.add(k, wait={turn: at} if at else (), use=f'frame{frame % buffers}',
                     free=f'frame{frame % buffers}' if k == stages - 1 else (), signal={turn: at + 1})
    return plan


# ---- mistakes

def _drop_wait(rng, plan):
    j = rng.randrange(len(plan.operations))
    waits = list(plan.operations[j].waits)
    if waits:
        waits.pop(rng.randrange(len(waits)))
        _change(plan, j, waits=tuple(waits))


def _highest(plan):
    """Of each semaphore that is signalled above 0 its highest value."""
    high = {}
    for o in plan.operations:
        for s, v in o.signals:
            if v:
                high[s] = max(v, high.get(s, 0))
    return high


def _other_wait(rng, plan):
    """A wait for any value, now and then for one that never comes."""
    high, j = _highest(plan), rng.randrange(len(plan.operations))
    if plan.semaphores:
        s = rng.randrange(len(plan.semaphores))
        value = rng.randint(1, high.get(s, 0) + 1)
        _change(plan, j, waits=plan.operations[j].waits[:2] + (Wait(s, value),))


def _later_wait(rng, plan):
    """A wait for the last value of a semaphore, at an early operation."""
    high, j = _highest(plan), rng.randrange((len(plan.operations) + 1) // 2)
    if high:
        s = rng.choice(sorted(high))
        _change(plan, j, waits=plan.operations[j].waits[:2] + (Wait(s, high[s]),))


def _circle(rng, plan):
    """Operations of several queues, each of which waits for the next one's signal."""
    signalling = {}
    for j, o in enumerate(plan.operations):
        if o.signals and o.signals[0].value:
            signalling.setdefault(o.queue, []).append(j)
    queues = rng.sample(sorted(signalling), min(len(signalling), rng.randint(1, 4)))
    picked = [rng.choice(signalling[q]) for q in queues]
    for j, after in zip(picked, picked[1:] + picked[:1]):
        wait = Wait(*plan.operations[after].signals[0])
        _change(plan, j, waits=plan.operations[j].waits[:2] + (wait,))


def _move_free(rng, plan):
    freeing = [j for j, o in enumerate(plan.operations) if any(mark.free for mark in o.marks)]
    if freeing:
        j, to = rng.choice(freeing), rng.randrange(len(plan.operations))
        mark = next(mark for mark in plan.operations[j].marks if mark.free)
        _change(plan, j, marks=tuple(m for m in plan.operations[j].marks if m is not mark))
        _change(plan, to, marks=plan.operations[to].marks[:3] + (mark,))


def _more_marks(rng, plan):
    j = rng.randrange(len(plan.operations))
    if plan.buffers:
        mark = Mark(rng.randrange(len(plan.buffers)), rng.random() < 0.5)
        _change(plan, j, marks=plan.operations[j].marks[:3] + (mark,))


def _wrong_signal(rng, plan):
    """Somebody else's semaphore, or a value that does not rise."""
    j = rng.randrange(len(plan.operations))
    own = [s for s, x in enumerate(plan.semaphores) if x.owner == plan.operations[j].queue]
    if plan.semaphores:
        s = rng.choice(own) if own and rng.random() < 0.6 else rng.randrange(len(plan.semaphores))
        signal = Signal(s, rng.randint(0, 3))
        _change(plan, j, signals=plan.operations[j].signals[:1] + (signal,))


def _joined_semaphores(rng, plan):
    """Two semaphores made one, with values that rise in plan order; each wait is for the signal that it was for."""
    if len(plan.semaphores) < 2:
        return
    kept, gone = rng.sample(range(len(plan.semaphores)), 2)
    new, last = {}, 0
    for o in plan.operations:
        for s, v in o.signals:
            if s in (kept, gone):
                last += 1
                new.setdefault((s, v), last)
    for j, o in enumerate(plan.operations):
        waits = []
        for s, v in o.waits:
            enough = [x for t, x in new if t == s and x >= v]
            waits.append(Wait(kept, new[s, min(enough)]) if enough else Wait(s, v))
        _change(plan, j, waits=tuple(waits),
                signals=tuple(Signal(kept, new[s, v]) if (s, v) in new else Signal(s, v) for s, v in o.signals))


MISTAKES = [_drop_wait, _drop_wait, _other_wait, _later_wait, _circle, _move_free, _more_marks, _wrong_signal,
            _joined_semaphores]
