"""Changes are tried with the proved check before they are shown."""
from . import library
from .answers import READING, WORDS, Refused


def tried(plan):
    """(number, place) that the proved functions say of a changed plan; those of the writer too."""
    try:
        return library.check(plan.bytes(), len(plan.operations))[:2]
    except Refused as refused:
        return refused.number, refused.place


def then(number, place):
    """What that means, after `with this change, `."""
    if number == 0:
        return 'the plan passes'
    if number in READING:
        return f'it is refused by {number}'
    return f'the next refusal is {number} {place}: {WORDS[number]}'
