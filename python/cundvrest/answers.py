"""What the proved functions answer. An answer is true exactly where the command of its name exits with 0: a pass, fresh
or reusable, a full trace, a wait to add or none needed."""
import enum
from dataclasses import dataclass
from typing import Optional

from .parts import FIRST_SEMAPHORES, Wait

WORDS = {
    1: 'a field is cut short', 2: 'a count is over its limit', 3: 'bytes follow the last section',
    4: 'not in its list', 5: 'an axis appears twice', 7: 'a signal that is not higher than the last, or 0',
    8: 'a wait above every signal of its semaphore', 9: 'too little room', 10: 'stuck: no run is full',
    11: 'a broken mark', 12: 'no such queue', 13: 'no such buffer', 14: 'a frontier is not well formed',
    15: 'the capacity is not 1 to 16', 16: 'a wait for 0', 17: 'a signal out of turn',
    19: 'no signal of the plan frees the buffer', 21: 'no such operation', 22: 'the recorded trace is not well formed',
}
READING = (1, 2, 3, 4, 5, 16)           # refusals of reader and writer: the place is a byte or a position in numbers


class Refused(Exception):
    """A refusal: its number, its place and its words. `plan` is what was refused, or `stored`, bytes that are no plan;
    `numbers` are those that the writer refused, with a place among them."""

    def __init__(self, number, place, plan=None, stored=None, numbers=None):
        self.number, self.place, self.plan, self.stored, self.numbers = number, place, plan, stored, numbers
        super().__init__(number, place)

    @property
    def words(self):
        """The rule that is broken, in words."""
        return WORDS.get(self.number, 'a refusal that this package has no words for')

    def __str__(self):
        return f'refused {self.number} {self.place}: {self.explain().headline}'

    def explain(self, strict=False):
        """The refusal in sentences: an Explanation. Where that fails, it has the words of the rule alone: the verdict
        is the library's, whatever happens to its words. With `strict` the failure is raised."""
        from . import explain
        try:
            return explain.explain(self)
        except Exception as error:
            if strict:
                raise
            why = f'{type(error).__name__}: {error}'
            return explain.Explanation(self.number, self.place, f'{self.words} (no more words: {why})')

    def __repr__(self):
        return f'Refused({self.number}, {self.place})'

    def _repr_html_(self):
        return self.explain().html()


class Returned(Refused):
    """A refusal that `judge` hands back is false. One that is raised is not: concurrent.futures takes a false exception
    for none."""

    def __bool__(self):
        return False


@dataclass(frozen=True)
class Passed:
    """A pass: the standard run, how many queues were ready before each of its steps, and the frontier rows."""
    plan: 'Plan'
    run: list
    ready: list
    rows: list

    def __bool__(self):
        return True

    def before(self, i, j):
        """Is operation i before operation j in every run?"""
        return i != j and self.rows[j][self.plan.operations[i].queue] >= self.plan.epochs()[i]

    def columns(self):
        """For each operation the longest chain before it: its earliest step if queues go on side by side."""
        from .order import Order
        return Order(self.plan).levels()

    def table(self):
        """A dict for each operation, in plan order: for csv.DictWriter, or a data frame. `row.NAME` is how many
        operations of that queue are this one or before it."""
        steps, epochs = {j: step for step, j in enumerate(self.run)}, self.plan.epochs()
        return [dict(zip(self.headings(), (j, self.plan.line(j), self.plan.queues[o.queue].name, epochs[j], steps[j],
                                           self.ready[steps[j]], *self.rows[j])))
                for j, o in enumerate(self.plan.operations)]

    def headings(self):
        """The columns of the table."""
        return ['operation', 'line', 'queue', 'epoch', 'step', 'ready', *(f'row.{q.name}' for q in self.plan.queues)]

    def __repr__(self):
        return 'passed: ' + self.plan.size()

    def _repr_html_(self):
        from . import picture
        return f'<p>{self!r}</p>' + picture.draw(self.plan)


class Answer(enum.Enum):
    """An answer of the library, which is a number, its `value`; as text it is the program's word for it. It is no
    number itself: its truth would be lost on the way."""

    def __str__(self):
        return self.name.lower().replace('_', '-')

    def __format__(self, form):
        return format(str(self), form)


class Verdict(Answer):
    """May the queue fill the buffer again?"""
    FRESH, REUSABLE, HELD, NOT_ORDERED = range(4)

    def __bool__(self):
        return self in (Verdict.FRESH, Verdict.REUSABLE)


class Advice(Answer):
    """Is there a wait that would free the buffer?"""
    NONE_NEEDED, WAIT, NONE_WOULD_HELP = range(3)

    def __bool__(self):
        return self is not Advice.NONE_WOULD_HELP


@dataclass(frozen=True)
class Suggestion:
    """One wait to add: with a last operation on the queue that has this wait alone, the buffer is reusable. `wait` is
    None but for Advice.WAIT."""
    advice: Advice
    wait: Optional[Wait] = None

    def __bool__(self):
        return bool(self.advice)


class Followed(Answer):
    """What a recorded trace followed; from 2 on, why a step departs."""
    FULL, UNFINISHED, UNKNOWN, REPEATED, NOT_FIRST, WAIT_NOT_MET = range(6)

    def __bool__(self):
        return self is Followed.FULL

    @property
    def departs(self):
        return self.value >= Followed.UNKNOWN.value


@dataclass(frozen=True)
class Trace:
    """A recorded trace held against a plan. `step` is the first that departs, counted from 0, or how many there are;
    `operation` is the one of a step that departs, and `wait` the position of its first wait that is not met. `queues`
    and `semaphores` say how far each had come before that step, or at the end."""
    plan: 'Plan'
    steps: tuple
    followed: Followed
    step: int
    operation: Optional[int]
    wait: Optional[int]
    queues: list
    semaphores: list

    def __bool__(self):
        return bool(self.followed)

    @property
    def departs(self):
        return self.followed.departs

    def reached(self):
        """(semaphore, how far it had come) for each, and how many are left out: where there are more than the first form
        has, those at 0."""
        every = list(zip(self.plan.semaphores, self.semaphores))
        some = [(semaphore, value) for semaphore, value in every if value or len(every) <= FIRST_SEMAPHORES]
        return some, len(every) - len(some)
