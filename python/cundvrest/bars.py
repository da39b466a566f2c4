"""The buffers of a band of a picture: a row for each, with a bar for each holding and a sign for each mark."""
from . import panels
from .faults import Broken
from .svg import HUES, INK, PALE, RED, ROW, short, wide

ALL = 12                # buffers up to which each has a row in every band
SUB_ROW = 13            # how far holdings that share columns are apart


def buffers(picture, svg, y):
    """Draws at `y` and hands back where the next may begin."""
    rows, hidden = _rows(picture)
    y += 4 if rows else 0
    for b in rows:
        buffer, spans = picture.plan.buffers[b], _spans(picture, b)
        size = panels.amount(buffer.size)
        with svg.group(f'buffer {b}, {buffer.size} bytes, {len(picture.holdings[b])} holdings'):
            svg.text(picture.names, y + 14, size, 9, PALE, 'end')
            svg.text(picture.names - 8 - wide(size, 9), y + 14, short(buffer.name, 18), 11, INK, 'end')
        svg.line(picture.left - 8, y + 10, picture.right - 6, y + 10, '#e6eaee', 1)
        for low, high, holding, row in spans:
            if low < picture.after and high >= picture.first:
                _bar(picture, svg, y + 4 + SUB_ROW * row, b, low, high, holding)
        for _, _, holding, row in spans:
            for j, k, free in holding:
                if picture.inside(j):
                    _mark(picture, svg, y + 10 + SUB_ROW * row, b, j, k, free)
        y += ROW + SUB_ROW * max((row for _, _, _, row in spans), default=0)
    if hidden:
        words = f'⋯ {hidden} more {"buffer is" if hidden == 1 else "buffers are"} marked here'
        svg.text(picture.left, y + 12, words, 10, PALE, italic=True)
        y += 18
    return y


def _rows(picture):
    """The buffers to show in this band, and how many are left out: all if there are few, else those that are marked
    here, that of the fault first."""
    if len(picture.plan.buffers) <= ALL:
        return list(range(len(picture.plan.buffers))), 0
    here = [b for b, holdings in enumerate(picture.holdings)
            if any(picture.inside(j) for holding in holdings for j, _, _ in holding)]
    bad = picture.named.buffer if isinstance(picture.named, Broken) else None
    kept = sorted(here, key=lambda b: (b != bad, b))[:8 if picture.near is not None else 16]
    return sorted(kept), len(here) - len(kept)


def _spans(picture, b):
    """(first column, last column, holding, sub-row) of each holding; those that share columns are one under the
    other."""
    out, ends = [], []
    for holding in picture.holdings[b]:
        columns = [picture.levels[j] for j, _, _ in holding]
        low, high = min(columns), max(columns) if holding[-1][2] else picture.depth
        row = min(next((k for k, end in enumerate(ends) if end < low), len(ends)), 2)
        ends[row:row + 1] = [high]
        out.append((low, high, holding, row))
    return out


def _bar(picture, svg, y, b, low, high, holding):
    is_open, (fill, edge) = not holding[-1][2], HUES[b % len(HUES)]
    x1, x2 = picture.left - 8, picture.right - 6
    if low >= picture.first:
        x1 = min(_tick(picture, j) for j, _, _ in holding if picture.levels[j] == low) - 8
    if high < picture.after and not is_open:
        x2 = max(_tick(picture, j) for j, _, _ in holding if picture.levels[j] == high) + 8
    if is_open:
        picture.drawn.add('open')
    until = 'to the end' if is_open else f'until operation {holding[-1][0]} frees it'
    with svg.group(f'{picture.plan.buffers[b].name}: held from operation {holding[0][0]} {until}', 'holding', b):
        svg.rect(x1, y, x2 - x1, 12, fill, edge, 1, 5, '5 3' if is_open else '')


def _tick(picture, j):
    """Where the marks of an operation are in its column: by its queue."""
    lanes = len(picture.plan.queues)
    part = 0.5 if lanes == 1 else 0.14 + 0.72 * picture.order.queue[j] / (lanes - 1)
    return picture.x(picture.levels[j]) + picture.box * part


def _mark(picture, svg, y, b, j, k, free):
    bad, x = (j, k) in picture.broken, _tick(picture, j)
    colour = RED if bad else HUES[b % len(HUES)][1]
    freed_too = any(f for c, f in picture.plan.operations[j].marks if c == b)
    verb = 'frees' if free else 'uses'
    with svg.group(f'operation {j} {verb} {picture.plan.buffers[b].name}' + ': broken' * bad, 'mark', f'{j}.{k}'):
        if free:
            svg.cross(x, y, colour)
        elif freed_too and not bad:
            svg.circle(x, y, 5, edge=colour, width=1.2)
        else:
            svg.circle(x, y, 4.2 if bad else 3.4, colour)
        if bad:
            picture.drawn.add('broken')
            svg.circle(x, y, 8, edge=RED, width=1.8)
