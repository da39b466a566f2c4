"""The panel of a picture that shows one run in which it goes wrong: of a broken mark what marks the buffer, of a signal
out of turn what signals the semaphore.

Each function draws at `y` and hands back where the next may begin."""
from . import faults
from .explain_turns import told_by
from .panels import title
from .svg import DARK, HATCH, HUES, INK, PALE, PLAIN, RED, short, wide

RISE = 15               # how high a step of a semaphore is


def draw(picture, svg, y):
    panel = _falling if isinstance(picture.named, faults.OutOfTurn) else _overlapping
    return panel(picture, svg, y, {j: k for k, j in enumerate(picture.said.run)})


def _title(picture, svg, y, words):
    return title(picture, svg, y, 'One run in which it goes wrong', f'the operations that {words}, by step of that '
                 'run; the proved trace function confirms that it is a full run')


def _boxes(picture, svg, y, shown, step, hue, width, sign):
    """A box for each operation, which is at least so wide; `sign(j, x, y)` draws what it marks or signals, at the
    middle of its last line. ({operation: x of its middle}, where the run ends)."""
    plan, m, (fill, edge) = picture.plan, picture.named, hue
    x, middle, last = max(picture.left, 150), {}, -1
    names = {j: short(plan.queues[plan.operations[j].queue].name, 22) for j in shown}
    w = max(picture.box, width, max(wide(name, 10.5) for name in names.values()) + 12)
    for j in shown:
        skipped = step[j] - last - 1
        if skipped:
            svg.text(x + 24, y + 44, f'⋯ {skipped}', 10, PALE, 'middle')
        x += 52 if skipped else 16 if last >= 0 else 0
        middle[j], last, bad = x + w / 2, step[j], j in (m.first, m.then)
        with svg.group(picture.tip(j), 'step', j):
            svg.text(x + w / 2, y + 6, f'step {step[j]}', 9, PALE, 'middle')
            if bad:
                svg.rect(x - 3, y + 11, w + 6, 60, '#fff', RED, 1.6, 7)
            svg.rect(x, y + 14, w, 54, fill, RED if bad else edge, 2 if bad else 1.2, 5)
            svg.text(x + w / 2, y + 30, str(j), 12, RED if bad else INK, 'middle', bold=True)
            svg.text(x + w / 2, y + 45, names[j], 10.5, '#3e4c59', 'middle')
            sign(j, x + w / 2, y + 58)
        x += w
    rest = picture.n - 1 - last
    if rest:
        svg.text(x + 26, y + 44, f'⋯ {rest}', 10, PALE, 'middle')
    return middle, x + (52 if rest else 20)


# ---- a broken mark

def _overlapping(picture, svg, y, step):
    """The operations that mark the buffer, and the two holdings over each other."""
    m, plan, order = picture.named, picture.plan, picture.order
    name, hue = plan.buffers[m.buffer].name, HUES[m.buffer % len(HUES)]
    held = [j for j, _, _ in faults.holding_of(order, m)]
    shown = sorted({*held, m.first, m.then}, key=step.get)
    if len(shown) > 12:
        shown = [j for k, j in enumerate(shown) if k < 4 or k >= len(shown) - 4 or j in (m.first, m.then)]

    def signs(j, x, y):
        marks = [free for b, free in plan.operations[j].marks if b == m.buffer]
        for k, free in enumerate(marks):
            at = x + (k - (len(marks) - 1) / 2) * 14
            if free:
                svg.cross(at, y, hue[1])
            else:
                svg.circle(at, y, 3.6, hue[1])
    y = _title(picture, svg, y, f'mark {name}')
    middle, end = _boxes(picture, svg, y, shown, step, hue, 0, signs)
    seen = [middle[j] for j in held if j in middle and (m.kind == 'early' or step[j] <= step[m.then])]
    start = min(seen + [middle[m.first] if m.kind == 'early' else middle[m.then]])
    return _holdings(svg, y + 82, m, name, start, middle, end, max(picture.left, 150)) + 12


def _holdings(svg, y, m, name, start, middle, end, left):
    """The holding and what comes into it too early, or the holding and the use that comes too late; hatched where both
    are."""
    fill, edge = HUES[m.buffer % len(HUES)]
    first, then = middle[m.first], middle[m.then]
    if m.kind == 'early':
        bars = [('this holding', start - 10, first + 10, ''), ('the next one', then - 10, end, '5 3')]
        clash = (max(start, then) - 10, first + 10)
        words = f'{name} is in both holdings: two parts are mixed'
    else:
        bars = [('the holding', start - 10, then + 10, ''), ('still used', then - 10, first + 10, '5 3')]
        clash = (then + 10, first + 10)
        words = f'{name} is used when it is free already'
    for k, (label, x1, x2, dash) in enumerate(bars):
        svg.text(left - 16, y + 11, label, 10.5, INK, 'end')
        svg.rect(x1, y, x2 - x1, 14, fill, edge, 1.2, 6, dash)
        if m.kind == 'early' or k:
            svg.rect(clash[0], y, clash[1] - clash[0], 14, HATCH, RED, 1)
        y += 20
    svg.text(max(clash[0], 18), y + 11, words, 11, RED, bold=True)
    return y + 16


# ---- a signal out of turn

def _falling(picture, svg, y, step):
    """The operations that signal the semaphore, and how high it would be after each: a stair that falls."""
    m, plan = picture.named, picture.plan
    told, name = told_by(plan, picture.said.run, m), short(plan.semaphores[m.semaphore].name, 30)
    signs = {j: ' '.join(f'={value}' for value, _ in of) for j, of in told}
    y = _title(picture, svg, y, f'signal {name}')
    middle, end = _boxes(picture, svg, y, signs, step, PLAIN, max(wide(sign, 11, True) for sign in signs.values()) + 12,
                         lambda j, x, y: svg.text(x, y + 3, signs[j], 11, INK, 'middle', bold=True))
    return _stair(svg, y + 84, name, told, middle, end, max(picture.left, 150)) + 12


def _stair(svg, y, name, told, middle, end, left):
    """Where each step is as high as its value among the others; red where the semaphore would fall."""
    high = told[0][1][0][1]
    levels = sorted({high, *(value for _, of in told for value, _ in of)})
    bottom = y + RISE * len(levels)

    def level(value):
        return bottom - RISE * levels.index(value)
    svg.text(left - 16, (y + bottom) / 2 + 4, name, 10.5, INK, 'end')
    at, now, words = left, high, []
    for j, of in [*told, (None, ())]:
        x = end if j is None else middle[j]
        svg.line(at, level(now), x, level(now), DARK, 2)
        svg.text(at + 4, level(now) - 3, str(now), 9.5, PALE)
        for value, before in of:
            falls = value <= before
            svg.line(x, level(now), x, level(value), RED if falls else DARK, 4 if falls else 2)
            if falls:
                words.append(f'{name} would fall from {before} to {value}')
            now = value
        at = x
    svg.text(max(left, 18), bottom + 18, words[0], 11, RED, bold=True)
    return bottom + 22
