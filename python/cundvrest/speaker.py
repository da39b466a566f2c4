"""Names and lines of a plan, for sentences."""
from functools import cached_property

from . import text as text_form
from .explanation import Shown


def count(n, what):
    return f'no {what}' if n == 0 else f'1 {what}' if n == 1 else f'{n} {what}s'


class Speaker:
    """Speaks of a plan by its names. With a text that has a file, lines are named by their number there; else
    operations by their position."""

    def __init__(self, plan):
        self.plan = plan
        self.has_text = plan.source is not None and bool(plan.source.path)

    @cached_property
    def source(self):
        """The text of the plan, which may be its own: of one that the proved writer takes, or that has a text."""
        return self.plan.sourced().source

    def queue(self, j):
        """The queue of operation j."""
        return self.plan.queues[self.plan.operations[j].queue].name

    def buffer(self, b):
        return self.plan.buffers[b].name

    def semaphore(self, s):
        return self.plan.semaphores[s].name

    def wait(self, j, k):
        s, v = self.plan.operations[j].waits[k]
        return f'{self.semaphore(s)}>={v}'

    def label(self, j):
        return str(self.plan.line(j)) if self.has_text else str(j)

    def line(self, j):
        """For a table: the line of an operation, where lines are known."""
        return [f'line {self.plan.line(j)}'] if self.has_text else []

    def where(self, j, *keys):
        """FILE:LINE:COLUMN of the first of the keys, or of the operation, that has a place."""
        if not self.has_text:
            return ''
        line, column, _ = self.source.place(*keys, ('operation', j))
        return f'{self.source.path}:{line}:{column}'

    def show(self, j, *items, remark=''):
        """The line of an operation, with marks under its items, (list, position)."""
        line = self.plan.line(j)
        places = [self.source.place(('operation', j, *item)) for item in items]
        marks = [place[1:] for place in places if place and place[0] == line]
        if self.has_text:
            remark = f'operation {j}' + (f': {remark}' if remark else '')
        return Shown(self.label(j), self.source.lines[line - 1].replace('\t', ' '), marks, remark)

    def change(self, new, j):
        """The lines of a change at operation j, from this plan to `new`, which has the same operations."""
        rows = [(self.queue(j) + ':', *text_form.parts(plan.operations[j], plan)) for plan in (self.plan, new)]
        before, after = text_form.aligned(rows)
        return [Shown(self.label(j), before, sign='-'), Shown(self.label(j), after, sign='+')]
