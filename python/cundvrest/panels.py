"""What a picture has around its bands: heading, overview, the circle, the state; wrong_run.py has the run that goes
wrong.

Each function draws at `y` and hands back where the next may begin."""
import textwrap

from .svg import BOX, GREEN, INK, LANE, LIGHT, PALE, RED, RULE, awaited, short, wide

PASSED = 'some full run exists, and each one raises all semaphores in order and keeps all buffers'


def amount(size):
    for unit, power in (('GB', 10**9), ('MB', 10**6), ('kB', 10**3)):
        if size >= power:
            return f'{size / power:.3g} {unit}'
    return f'{size} B'


def verdict(picture):
    if picture.traced:
        return picture.traced.verdict
    return 'passed' if picture.said is None else picture.said.verdict


def counts(plan):
    of = [(len(plan.operations), 'operation'), (len(plan.queues), 'queue'), (len(plan.semaphores), 'semaphore'),
          (len(plan.buffers), 'buffer')]
    return ' · '.join(f'{c} {w}{"" if c == 1 else "s"}' for c, w in of)


def heading(picture, svg):
    y = 30
    if picture.title:
        svg.text(18, y, short(picture.title, 80), 12, PALE)
        y += 24
    said = picture.traced or picture.said
    word = verdict(picture).capitalize()
    good = said is None or picture.trace
    words = said.headline if said else PASSED
    svg.text(18, y, word, 18, GREEN if good else RED, bold=True)
    x = 18 + wide(word, 18, True) + 14
    lines = textwrap.wrap(words, max(int((picture.width - x - 20) / 8), 40)) or ['']
    for k, line in enumerate(lines):
        svg.text(x, y + 17 * k, line, 13, INK)
    y += 17 * (len(lines) - 1) + 20
    svg.text(18, y, counts(picture.plan), 11, PALE)
    return y + 18


def overview(picture, svg, y):
    """All of the plan, small: which columns are drawn below, and where the fault is."""
    plan, lanes, left = picture.plan, len(picture.plan.queues), picture.left
    step, height = (picture.width - left - 12) / max(picture.depth, 1), max(3, min(6, 60 // max(lanes, 1)))
    tall = lanes * height + 8
    svg.text(picture.names, y + tall / 2 + 4, 'overview', 10, PALE, 'end')
    svg.rect(left, y, picture.depth * step, tall, '#fafafa', '#d5dde5', 0.8, 2)
    for low, high in picture.bands:
        svg.rect(left + low * step, y, (high - low) * step, tall, '#e6eef6', '#7f97ad', 1, 2)
    wide_ = max(step - 0.6, 0.7)
    cells = {}
    for j, o in enumerate(plan.operations):
        colour = picture.hue(o)[1] if j in picture.done else LIGHT
        high = height - 1 if j in picture.done else 1
        cells.setdefault(colour, []).append(f'M{left + picture.levels[j] * step:.1f} {y + 4 + o.queue * height:.1f}'
                                            f'h{wide_:.1f}v{high}h-{wide_:.1f}z')
    with svg.group('all operations, by queue and column', 'overview'):
        for colour, paths in cells.items():
            svg.add(f'<path d="{"".join(paths)}" fill="{colour}" fill-opacity="0.7"/>')
        for j in picture.bad:
            x, at = left + picture.levels[j] * step, y + 4 + plan.operations[j].queue * height
            svg.rect(x - 1, at - 1, max(step, 3) + 1, height + 1, RED)
            svg.shape(f'M{x + step / 2 - 4:.1f} {y - 7:.1f}h8l-4 6z', RED)
    return y + tall + 12


def folded(picture, svg, y, low, high):
    count = sum(low <= x < high for x in picture.levels)
    operations = 'operation' if count == 1 else 'operations'
    words = f'⋯  columns {low} to {high - 1}, {count} {operations}, not drawn  ⋯'
    svg.text(picture.left, y + 16, words, 11, PALE, italic=True)
    return y + 28


def title(picture, svg, y, words, more):
    svg.line(18, y + 2, picture.width - 10, y + 2, RULE, 1)
    svg.text(18, y + 26, words, 14, INK, bold=True)
    svg.text(18, y + 43, more, 11, PALE)
    return y + 64


# ---- the circle of a stuck plan

def circle(picture, svg, y):
    """Only what waits in the circle: for each queue of it the operation that waits and, after it, the one that would
    signal."""
    plan, links, done = picture.plan, picture.said.circle, len(picture.done)
    y = title(picture, svg, y, 'The circle', f'after {done} of {picture.n} operations none of these queues comes past '
               'its first box; an arrow leads from a signal to what waits for it')
    names = [short(plan.queues[plan.operations[link.head].queue].name, 22) for link in links]
    waits = [plan.operations[link.head].waits[link.wait] for link in links]
    labels = [awaited(plan.semaphores[s].name, v, 40) for s, v in waits]
    left, gap = max(wide(name, 12, True) for name in names) + 36, max(wide(label, 10.5, True) for label in labels) + 44
    x1, w = left + gap, 64
    x2 = x1 + w + 110
    tops = {link.head: y + lane * LANE + (LANE - BOX) / 2 for lane, link in enumerate(links)}
    for lane, name in enumerate(names):
        svg.rect(10, y + lane * LANE + 3, x2 + w + 40 + 5 * len(links), LANE - 6, '#f6f8fa', round_=6)
        svg.text(left - 16, y + lane * LANE + LANE / 2 + 4, name, 12, INK, 'end', bold=True)
    for lane, link in enumerate(links):
        ty, sy, same = tops[link.head], tops[link.after], link.signaller == link.after
        sx, out, channel = (x1 if same else x2) + w, x2 + w + 14 + 5 * lane, tops[link.head] + BOX + 7
        svg.arrow([(sx, sy + BOX / 2), (out, sy + BOX / 2), (out, channel), (x1 - 16, channel), (x1 - 16, ty + BOX / 2),
                   (x1 - 1, ty + BOX / 2)], RED, 2.6)
        svg.text(x1 - 22, ty + BOX / 2 - 4, labels[lane], 10.5, RED, 'end', bold=True, halo=True)
    for link in links:
        ty, sy = tops[link.head], tops[link.after]
        _circle_box(picture, svg, link.head, x1, ty, w)
        if link.signaller != link.after:
            between = picture.order.epochs[link.signaller] - picture.order.epochs[link.after] - 1
            words = f'⋯ {between} between ⋯' if between else 'then'
            svg.text((x1 + w + x2) / 2, sy + BOX / 2 + 4, words, 10, PALE, 'middle', halo=True)
            _circle_box(picture, svg, link.signaller, x2, sy, w)
    return y + len(links) * LANE + 12


def _circle_box(picture, svg, j, x, y, w):
    with svg.group(picture.tip(j), 'stuck', j):
        svg.rect(x - 3, y - 3, w + 6, BOX + 6, '#fff', RED, 1.6, 7)
        svg.rect(x, y, w, BOX, '#fff', RED, 2, 5, '4 3')
        svg.text(x + w / 2, y + BOX / 2 + 4, str(j), 12, RED, 'middle', bold=True)


# ---- the state of a trace

def state(picture, svg, y):
    """How far each queue and each semaphore had come before the step that departs, or at the end."""
    trace, plan = picture.trace, picture.plan
    y = title(picture, svg, y, f'Before step {trace.step}' if trace.departs else 'At the end of the trace',
               'how many operations of each queue have run, and how far each semaphore has come; said by the proved '
               'trace function')
    cells = [(queue.name, f'{ran} of {len(queued)}')
             for queue, ran, queued in zip(plan.queues, trace.queues, picture.order.queued)]
    y = _cells(picture, svg, y - 6, cells)
    reached, others = trace.reached()
    cells = [(semaphore.name, str(value)) for semaphore, value in reached]
    return _cells(picture, svg, y, cells + ([(f'{others} others', '0')] if others else [])) + 6


def _cells(picture, svg, y, cells):
    x, high = 18, 22
    for name, value in cells:
        name = short(name, 22)
        w = wide(name, 11) + wide(value, 11, True) + 30
        if x > 18 and x + w > picture.width - 10:
            x, y = 18, y + high + 4
        svg.rect(x, y, w - 6, high, '#f6f8fa', RULE, 1, 4)
        svg.text(x + 8, y + 15, name, 11, PALE)
        svg.text(x + w - 14, y + 15, value, 11, INK, 'end', bold=True)
        x += w
    return y + (high + 8 if cells else 0)
