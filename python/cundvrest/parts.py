"""The parts of a plan, which are values, and how many of each there may be, for words."""
from dataclasses import dataclass, field
from typing import NamedTuple

LIMITS = {'queue': 16, 'semaphore': 1024, 'buffer': 256, 'operation': 1024, 'wait': 3, 'signal': 2, 'mark': 4}
FIRST_SEMAPHORES = 64       # of a plan in the first stored form; one with more is stored in the second


class Wait(NamedTuple):
    semaphore: int
    value: int


class Signal(NamedTuple):
    semaphore: int
    value: int


class Mark(NamedTuple):
    buffer: int
    free: bool


@dataclass(frozen=True)
class Queue:
    name: str
    axis: int


@dataclass(frozen=True)
class Semaphore:
    name: str
    owner: int


@dataclass(frozen=True)
class Buffer:
    name: str
    size: int


@dataclass(frozen=True)
class Operation:
    """An operation; its queue, semaphores and buffers are positions in the plan's lists."""
    queue: int
    waits: tuple = ()
    signals: tuple = ()
    marks: tuple = ()
    note: str = field(default='', compare=False)        # the comment in its line

    def __post_init__(self):
        for name, kind in (('waits', Wait), ('signals', Signal), ('marks', Mark)):
            object.__setattr__(self, name, tuple(kind(*item) for item in getattr(self, name)))
