"""The text form and the package: round trips, errors and their places, numbers that do not fit, answers and their
truth, and 2,000 damaged plans and texts. The command line is tested by tests/people, which runs this.

  python3 python/tests/people.py
"""
import collections
import concurrent.futures
import glob
import os
import random
import re
import sys
import tempfile
import threading
import time
import unittest
import warnings
from unittest import mock

ROOT = os.path.dirname(os.path.dirname(os.path.dirname(os.path.abspath(__file__))))
sys.path.insert(0, os.path.join(ROOT, 'python'))
from cundvrest import (Advice, Dominance, Followed, Frontier, LibraryError, Operation, Passed, Plan,  # noqa: E402
                       Refused, Semaphore, TextError, Trace, Verdict, __main__ as command, __version__, fields, files,
                       library, text)
from cundvrest.explain_asked import explain_trace  # noqa: E402
from cundvrest.plan import LIMITS, WORDS  # noqa: E402

PLANS = os.path.join(ROOT, 'plans')
STORED = sorted(glob.glob(os.path.join(glob.escape(PLANS), '*.plan')))
GREATEST = 2**64 - 1


def content(path):
    with open(path, 'rb') as file:
        return file.read()


def load(name):
    return Plan.load(os.path.join(PLANS, name))


def printed(name):
    """What the program prints for a plan, by the text beside it."""
    with open(os.path.join(PLANS, name + '.txt'), encoding='utf-8') as file:
        return file.read().split('\nprints:\n')[1].splitlines()


def random_plan(rng):
    """A plan within the limits and else anything, with numbers from one end of their range to the other."""
    def some(most):
        return rng.choice([0, 1, 2, most, rng.randint(0, most)])

    def value(least):
        return rng.choice([least, 1, GREATEST, rng.randrange(least, 2**64), rng.randrange(least, 100)])
    plan = Plan()
    for axis in rng.sample([*range(20), *(GREATEST - k for k in range(20))], some(16)):
        plan.queue(axis=axis)
    for _ in range(some(rng.choice([64, 65, 1024])) if plan.queues else 0):
        plan.semaphore(owner=rng.randrange(len(plan.queues)))
    for _ in range(some(256)):
        plan.buffer(size=rng.choice([0, 64, 2**32 - 1]))
    for _ in range(rng.choice([0, 1, 5, 40, 1024]) if plan.queues else 0):
        pairs = [[(rng.randrange(len(plan.semaphores)), value(least)) for _ in range(rng.randint(0, most))]
                 if plan.semaphores else [] for most, least in ((3, 1), (2, 0))]
        marks = [(rng.randrange(len(plan.buffers)), rng.random() < 0.5) for _ in range(rng.randint(0, 4))
                 ] if plan.buffers else []
        plan.operations.append(Operation(rng.randrange(len(plan.queues)), *pairs, marks, rng.choice(['', 'a # note'])))
    return plan


class RoundTrips(unittest.TestCase):
    def exact(self, plan):
        stored = plan.bytes()
        for made in (plan.text(), plan.text(number=True), plan.text(columns=False)):
            self.assertEqual(Plan.parse(made).bytes(), stored)
        made = Plan.read(stored).text()
        self.assertEqual(Plan.parse(made).text(), made)
        self.assertEqual(Plan.read(Plan.parse(made).bytes()).text(), made)
        self.assertEqual(text.tidy(Plan.parse(made).source), made)
        named = Plan.read(stored, names=plan)
        self.assertEqual((named.queues, named.semaphores, named.buffers), (plan.queues, plan.semaphores, plan.buffers))

    def test_stored_plans(self):
        self.assertGreater(len(STORED), 20)
        texts = 0
        for path in STORED:
            with self.subTest(os.path.basename(path)):
                stored = content(path)
                if library.read(stored)[0]:
                    with self.assertRaises(Refused):
                        Plan.load(path)
                    self.assertFalse(os.path.exists(path + '.txt'))
                    continue
                texts += 1
                plan = Plan.load(path)
                self.assertEqual(plan.bytes(), stored)
                self.assertEqual(plan.source.path, path + '.txt')
                self.assertEqual(text.tidy(plan.source), content(path + '.txt').decode())
                self.exact(plan)
                self.exact(Plan.read(stored))
        self.assertGreater(texts, 15)

    def test_random_plans(self):
        rng = random.Random(3)
        for _ in range(60):
            self.exact(random_plan(rng))

    def test_numbers_and_names(self):
        plan = Plan.parse('plan\nqueue ä.b-c_1 axis 0xffff_ffff_ffff_ffff\nqueue q axis 18_446_744_073_709_551_614\n'
                          'buffer B b size 0\nä.b-c_1: use B b free B use B\nend')
        self.assertEqual([q.axis for q in plan.queues], [GREATEST, GREATEST - 1])
        self.assertEqual(plan.operations[0].marks, ((0, False), (1, False), (0, True), (0, False)))
        self.exact(plan)

    def test_windows(self):
        made = load('camera.plan').text()
        for data in (made.replace('\n', '\r\n').encode(), b'\xef\xbb\xbf' + made.encode(),
                     b'\n# \xc3\xa4\n' + made.encode()):
            self.assertTrue(files.is_text(data))
            self.assertEqual(Plan.parse(files.decoded(data, 'x')).bytes(), content(os.path.join(PLANS, 'camera.plan')))

    def test_a_note_is_one_line(self):
        """Whatever a program puts into a note: its plan has a text, which is the same plan."""
        plan = load('t2-one-operation.plan')
        for note in ('one\nend\r\nplan', '\x1b[31m', '\x9b', '\0', '\ud800', '\uffff', '\x0c', '\u2028end'):
            plan.operations[0] = Operation(0, note=note)
            self.assertEqual(Plan.parse(plan.text()), plan)

    def test_one_definition_of_a_name(self):
        """What is a name for a program is one in a text, and the other way round."""
        names = ['a', '_', 'é', 'ρ1', 'a.b-c', 'x٣', '²', '²x', 'x²', '½', 'Ⅷ', '٣', '1', '-', '.', '', 'a b', 'plan',
                 'a:', 'ˆ', '\x1b', 'a\u0301', '名']
        taken = []
        for name in names:
            plan = Plan()
            try:
                plan.queue(name or ' ', axis=1)
                taken.append(name)
                self.assertEqual(Plan.parse(plan.text()), plan)
            except ValueError:
                self.assertRaises(TextError, Plan.parse, f'plan\nqueue {name} axis 1\nend')
        self.assertEqual(taken, ['a', '_', 'é', 'ρ1', 'a.b-c', 'x٣', 'ˆ', '名'])

    def test_a_stored_plan_is_no_text(self):
        """Ten queues, a line's end; the first axis reads as the word plan."""
        plan = Plan()
        plan.queue(axis=int.from_bytes(b'plan\n# ;', 'little'))
        for _ in range(9):
            plan.queue()
        self.assertTrue(plan.bytes().startswith(b'\nplan\n'))
        self.assertFalse(files.is_text(plan.bytes()))
        for path in STORED:
            self.assertFalse(files.is_text(content(path)))


# text, line, column, a part of the message
WRONG = [
    ('', 1, 1, 'a first line with the word plan'),
    ('# nothing\n\n', 1, 1, 'a first line with the word plan'),
    ('queue a axis 1\nend', 1, 1, 'begins with "queue"; right: a first line with the word plan'),
    ('plan\nqueue a axis 1\n', 2, 15, 'cut short; right: a last line with the word end'),
    ('plan\nend\nplan', 3, 1, 'end is the last line'),
    ('plan x\nend', 1, 6, 'nothing more in this line'),
    ('plan\nend x', 2, 5, 'nothing more in this line'),
    ('plan\nqueue axis 1\nend', 2, 7, '"axis" is a word of the language'),
    ('plan\nqueue part axis 1\nend', 2, 7, '"part" is a word of the language'),
    ('plan\nqueue outside axis 1\nend', 2, 7, '"outside" is a word of the language'),
    ('plan\nqueue 1a axis 1\nend', 2, 7, 'right: a name for the queue: a letter'),
    ('plan\nqueue a axs 1\nend', 2, 9, 'right: "axis", as in queue capture axis 1'),
    ('plan\nqueue a\nend', 2, 8, 'the end of the line; right: "axis"'),
    ('plan\nqueue a axis\nend', 2, 13, 'the end of the line; right: a number'),
    ('plan\nqueue a axis x\nend', 2, 14, 'right: a number, as in queue capture axis 1'),
    ('plan\nqueue a axis -1\nend', 2, 14, 'here is "-"; right: a number'),
    ('plan\nqueue a axis 01\nend', 2, 14, '"01" is no number; right: decimal digits'),
    ('plan\nqueue a axis 1_\nend', 2, 14, '"1_" is no number'),
    ('plan\nqueue a axis 1__0\nend', 2, 14, '"1__0" is no number'),
    ('plan\nqueue a axis 0x\nend', 2, 14, '"0x" is no number'),
    ('plan\nqueue a axis 1.5\nend', 2, 14, '"1.5" is no number'),
    ('plan\nqueue a axis ٣\nend', 2, 14, 'is no number'),
    ('plan\nqueue a axis 18446744073709551616\nend', 2, 14, 'too large; right: at most 18446744073709551615'),
    ('plan\nqueue a axis 0x1_0000_0000_0000_0000\nend', 2, 14, 'too large; right: at most 18446744073709551615'),
    ('plan\nqueue a axis ' + 10000 * '9' + '\nend', 2, 14, 'too large; right: at most 18446744073709551615'),
    ('plan\nqueue a axis 1 2\nend', 2, 16, 'nothing more in this line'),
    ('plan\nqueue a b axis 1\nend', 2, 9, 'here is "b"; right: "axis"'),
    ('plan\nqueue a axis 1\nqueue a axis 2\nend', 3, 7, 'is declared already, in line 2; right: another name'),
    ('plan\nqueue a axis 1\nsemaphore s t owner b\nend', 3, 21, 'no queue is called "b"; right: one of a'),
    ('plan\nsemaphore s owner b\nend', 2, 19, 'no queue is called "b"; right: declare it first, as in queue'),
    ('plan\nqueue capture axis 1\nsemaphore s owner captur\nend', 3, 19, 'did you mean "capture"?'),
    ('plan\nbuffer b c sice 4\nend', 2, 12, 'here is "sice"; right: "size"'),
    ('plan\nqueue a axis 1\na:\nbuffer b size 4\nend', 4, 1, 'before the first, which is line 3'),
    ('plan\nqueue a axis 1\na\nend', 3, 2, 'right: ":" after the queue'),
    ('plan\nqueue a axis 1\nb: use c\nend', 3, 1, 'no queue is called "b"; right: one of a'),
    ('plan\nquue a axis 1\nend', 2, 1, 'begins with "quue"; did you mean "queue"?'),
    ('plan\nwait s>=1\nend', 2, 1, 'right: a line begins with queue, semaphore, buffer, the name of a queue and ":"'),
    ('plan\n: use b\nend', 2, 1, 'right: a line begins with'),
    ('plan\nqueue a axis 1\nbuffer b size 1\na: use b, free b\nend', 4, 9, 'here is ","; right: a blank alone'),
    ('plan\nqueue a axis 1\nbuffer b size 1\na: use\nend', 4, 7, 'right: the name of a buffer, as in use BUFFER'),
    ('plan\nqueue a axis 1\nbuffer b size 1\na: use free b\nend', 4, 8, 'here is "free"; right: use BUFFER'),
    ('plan\nqueue a axis 1\nbuffer b size 1\na: b\nend', 4, 4, 'right: wait, use, free or signal'),
    ('plan\nqueue a axis 1\nbuffer b size 1\na: uses b\nend', 4, 4, 'did you mean "use"?'),
    ('plan\nqueue a axis 1\nbuffer b size 1\na: use a\nend', 4, 8, '"a" is a queue; right: the name of a buffer'),
    ('plan\nqueue a axis 1\nsemaphore s owner a\na: wait s=1\nend', 4, 10, 'right: wait s>=NUMBER; a wait asks for'),
    ('plan\nqueue a axis 1\nsemaphore s owner a\na: wait s≥1\nend', 4, 10, 'here is "≥"; right: wait s>=NUMBER'),
    ('plan\nqueue a axis 1\nsemaphore s owner a\na: signal s>=1\nend', 4, 12, 'right: signal s=NUMBER; a signal sets'),
    ('plan\nqueue a axis 1\nsemaphore s owner a\na: signal s=\nend', 4, 13, 'right: a number, as in signal s=1'),
    ('plan\nqueue a axis 1\nsemaphore s owner a\na: signal s=1 wait s>=1\nend', 4, 15,
     '"wait" comes too late; right: waits, then uses and frees, then signals'),
    ('plan\nqueue a axis 1\x00\nend', 2, 15, r'here is "\x00"; right: nothing more'),
    ('plan\nqueue a axis 1\x1b[31m\nend', 2, 15, r'here is "\x1b"; right: nothing more'),
    ('plan\nqueue a axis\u00a01\nend', 2, 13, r'here is "\xa0"; right: a number'),
    ('plan\nqueue a axis 1  # \x1b[31m\nend', 2, 19, r'control character "\x1b"; right: one that can be shown'),
    ('plan\n# a\x9b\nend', 2, 4, r'control character "\x9b"'),
    ('plan\n# \r\nend\r', 3, 4, r'here is "\r"; right: nothing more'),
    ('plan # \r plan\nend', 1, 8, r'control character "\r"'),
    ('plan # \x7f\nend', 1, 8, r'control character "\x7f"'),
    ('plan # \ufffe\nend', 1, 8, r'control character "\ufffe"'),
    ('plan # \uffff\nend', 1, 8, r'control character "\uffff"'),
    ('plan # \ud800\nend', 1, 8, r'control character "\ud800"'),
    ('plan\nqueue a\udfff axis 1\nend', 2, 8, r'here is "\udfff"; right: "axis"'),
    ('plan\nqueue ²x axis 1\nend', 2, 7, 'here is "²"; right: a name for the queue: a letter'),
    ('plan\nqueue x² axis 1\nend', 2, 8, 'here is "²"; right: "axis"'),
    ('plan\nqueue Ⅷ axis 1\nend', 2, 7, 'here is "Ⅷ"; right: a name for the queue: a letter'),
]


class Errors(unittest.TestCase):
    def test_each(self):
        for wrong, line, column, words in WRONG:
            with self.subTest(wrong[:80]):
                with self.assertRaises(TextError) as caught:
                    Plan.parse(wrong, 'x.plan.txt')
                problem = caught.exception.problems[0]
                self.assertEqual((problem.line, problem.column), (line, column), problem.message)
                self.assertIn(words, problem.message)
                self.assertRegex(problem.message, 'right: |did you mean ')
                shown = str(caught.exception).splitlines()
                self.assertTrue(shown[0].startswith(f'x.plan.txt:{line}:{column}: error: '), shown[0])
                self.assertTrue(all(line.isprintable() and len(line) < 400 for line in shown))

    def test_all_lines_are_told(self):
        with self.assertRaises(TextError) as caught:
            Plan.parse('plan\nqueue a axis x\na: use b\na: wait s>=1\nb:\na:\n')
        self.assertEqual([(problem.line, problem.column) for problem in caught.exception.problems],
                         [(2, 14), (3, 8), (4, 9), (5, 1), (6, 3)])
        with self.assertRaises(TextError) as caught:
            Plan.parse('plan\n' + 100000 * 'x\n' + 'end')
        self.assertEqual(len(caught.exception.problems), text.MOST_PROBLEMS)

    def test_bytes_that_are_no_text(self):
        for data, line, column in ((b'plan\nqueue \xff axis 1\nend', 2, 7), (b'\xef\xbb\xbfplan\n# \xc3\nend', 2, 3),
                                   ('plan'.encode('utf-16'), 1, 1), (b'plan\n' + bytes(files.MOST_BYTES), 1, 1)):
            self.assertTrue(files.is_text(data))
            with self.assertRaises(TextError) as caught:
                files.decoded(data, 'x')
            self.assertEqual((caught.exception.problems[0].line, caught.exception.problems[0].column), (line, column))
            self.assertTrue(str(caught.exception))

    def test_limits_are_the_writers(self):
        """Each limit of a text: the proved writer's number, and the line and column of what is too much."""
        def queues(n):
            return ''.join(f'queue q{k} axis {k}\n' for k in range(n))
        cases = [
            ('plan\n' + queues(17) + 'end', 2, '18:7'),
            ('plan\n' + queues(1) + 'semaphore ' + ' '.join(f's{k}' for k in range(1025)) + ' owner q0\nend', 2,
             '3:5045'),
            ('plan\nbuffer ' + ' '.join(f'b{k}' for k in range(257)) + ' size 1\nend', 2, '2:1178'),
            ('plan\n' + queues(1) + 1025 * 'q0:\n' + 'end', 2, '1027:1'),
            ('plan\n' + queues(1) + 'semaphore s owner q0\nq0: wait s>=1 s>=2 s>=3 s>=4\nend', 2, '4:25'),
            ('plan\n' + queues(1) + 'semaphore s owner q0\nq0: signal s=1 s=2 s=3\nend', 2, '4:20'),
            ('plan\n' + queues(1) + 'semaphore s owner q0\nq0: wait s>=1 s>=0\nend', 16, '4:15'),
            ('plan\n' + queues(1) + 'buffer b size 1\nq0: use b b b b free b\nend', 2, '4:17'),
            ('plan\nbuffer b c size 0x1_0000_0000\nend', 4, '2:17'),
            ('plan\nqueue a axis 7\nqueue b axis 8\nqueue c axis 7\nend', 5, '4:14'),
        ]
        for made, number, place in cases:
            with self.subTest(place):
                plan = Plan.parse(made, 'x.plan.txt')
                with self.assertRaises(Refused) as caught:
                    plan.check()
                self.assertEqual(caught.exception.number, number)
                self.assertEqual((number, caught.exception.place), library.write(plan.numbers())[:2])
                self.assertEqual(caught.exception.explain(strict=True).where, f'x.plan.txt:{place}')


class Numbers(unittest.TestCase):
    def test_none_is_cut(self):
        plan, frontier = load('two-frames.plan'), Frontier({1: 1})
        for call in (
            lambda wrong: plan.reuse(wrong, 0), lambda wrong: plan.reuse(0, wrong), lambda wrong: plan.frontier(wrong),
            lambda wrong: plan.frontier(0, wrong), lambda wrong: frontier.merge(frontier, wrong),
            lambda wrong: frontier.raised(0, 1, wrong),
        ):
            for wrong in (-1, 2**32, 2**64, 2**100):
                self.assertRaises(OverflowError, call, wrong)
            for wrong in (1.5, None, b'0', True, False):
                self.assertRaises(TypeError, call, wrong)
        fresh = Plan.parse(plan.text())
        for call in (
            lambda wrong: frontier.raised(wrong, 1), lambda wrong: frontier.raised(1, wrong), frontier.lookup,
            lambda wrong: Frontier({wrong: 1}).dominates(frontier), lambda wrong: Frontier({1: wrong}) | frontier,
            lambda wrong: fresh.with_operation(0, signals=[(0, wrong)]).check(),
            lambda wrong: fresh.with_operation(0, queue=wrong).check(),
            lambda wrong: fresh.with_operation(0, marks=[(wrong, False)]).check(),
        ):
            for wrong in (-1, 2**64):
                self.assertRaises(OverflowError, call, wrong)
            for wrong in (1.5, True, False):
                self.assertRaises(TypeError, call, wrong)
        for wrong, error in ((-1, OverflowError), (2**64, OverflowError), (1.5, TypeError)):
            self.assertRaises(error, plan.with_operation(0, marks=[(0, wrong)]).check)
        for wrong in (-1, 2**16):
            self.assertRaises(OverflowError, plan.trace, [wrong])
        self.assertRaises(TypeError, plan.trace, [True])
        self.assertRaises(OverflowError, plan.trace, 2**16 * [0])
        self.assertRaises(TypeError, library.check, 6)
        self.assertRaises(ValueError, library.merge, [0] * 33, [0] * 34, 1)

    def test_words_of_a_misfit(self):
        with self.assertRaisesRegex(OverflowError, r'operation 1, wait 0: its value: -1 is not from 0 to 1844'):
            load('two-frames.plan').with_operation(1, waits=[(0, -1)]).bytes()

    def test_a_position_that_is_not_there_is_refused(self):
        plan = load('two-frames.plan')
        for changed, number in ((plan.with_operation(0, queue=3), 4), (plan.with_operation(0, marks=[(4, True)]), 4),
                                (plan.with_operation(0, marks=[(0, 2)]), 4), (plan.with_operation(0, queue=256), 4)):
            with self.assertRaises(Refused) as caught:
                changed.text()
            self.assertEqual(caught.exception.number, number)
        self.assertRaises(ValueError, plan.reuse, 'camra', 0)


def wide(semaphores, operations=40):
    """A plan with so many semaphores that passes: two queues hand each other a buffer, by a semaphore for each turn."""
    plan = Plan()
    for name in ('there', 'back'):
        plan.queue(name)
    for s in range(semaphores):
        plan.semaphore(owner=s % 2)
    plan.buffer('ball', 1)
    for j in range(operations):
        s = semaphores - operations + j if semaphores >= operations else j
        waits = [(s - 1, 1)] if j else []
        plan.add((s % 2), waits, marks=[('ball', False), ('ball', True)], signal=[(s, 1)])
    return plan


class SecondForm(unittest.TestCase):
    """Plans with more than 64 semaphores."""
    exact = RoundTrips.exact

    def test_round_trips(self):
        for semaphores in (64, 65, 255, 256, 257, 1023, 1024):
            with self.subTest(semaphores):
                plan = wide(semaphores)
                self.exact(plan)
                stored = plan.bytes()
                self.assertEqual(stored[0] == fields.SECOND_FORM, semaphores > 64)
                self.assertFalse(files.is_text(stored))
                self.assertEqual(len(plan.check().run), len(plan.operations))
        with self.assertRaises(Refused) as caught:
            wide(1025).bytes()
        self.assertEqual((caught.exception.number, caught.exception.place), (2, 3))
        self.assertIn('1025 semaphores; the limit is 1024', str(caught.exception))

    def test_bytes(self):
        """What is refused while it is read, with the field's name in words."""
        one_wait = bytes.fromhex('f2 01 0100000000000000 4100') + bytes(65) + bytes.fromhex('0000 0100 00 01')
        for stored, number, place, words in (
                (bytes.fromhex('f2'), 1, 1, 'the number of queues is missing'),
                (bytes.fromhex('f2 11'), 2, 1, 'the number of queues is 17 at byte 1; the limit is 16'),
                (bytes.fromhex('f2 00 40'), 1, 2, 'the number of semaphores begins at byte 2 and takes 2'),
                (bytes.fromhex('f2 00 4000'), 2, 2, 'is 64 at byte 2; a plan that begins with byte 242 has 65 to 1024'),
                (bytes.fromhex('f2 00 0104'), 2, 2, 'is 1025 at byte 2; a plan that begins with byte 242 has 65 to'),
                (bytes.fromhex('f2 00 4100'), 1, 4, 'semaphore 0: its owner is missing'),
                (bytes.fromhex('f2 00 4100 00'), 4, 4, 'semaphore 0: its owner is 0 at byte 4; the plan has no queue'),
                (bytes.fromhex('00 41'), 2, 1, 'is 65 at byte 1; the limit is 64, or 1024 for a plan that begins'),
                (bytes.fromhex('f3 00'), 2, 0, 'the number of queues is 243 at byte 0; the limit is 16'),
                (one_wait + b'\x41\0', 4, 83, 'operation 0, wait 0: its semaphore is 65 at byte 83'),
                (one_wait + b'\x41', 1, 83, 'operation 0, wait 0: its semaphore begins at byte 83 and takes 2'),
                (one_wait + b'\x40\0' + bytes(8), 16, 85, 'operation 0, wait 0: its value is 0 at byte 85; a wait is'),
                (one_wait + b'\x40\0' + bytes(7), 1, 85, 'operation 0, wait 0: its value begins at byte 85 and takes')):
            with self.subTest(stored[:6].hex()), self.assertRaises(Refused) as caught:
                Plan.read(stored)
            self.assertEqual((caught.exception.number, caught.exception.place), (number, place))
            self.assertIn(words, caught.exception.explain(strict=True).headline)

    def test_words_and_pictures(self):
        """A plan of 1,024 semaphores is explained, drawn and traced; a state has its semaphores above 0 alone."""
        plan = wide(1024)
        self.assertTrue(plan._repr_svg_().startswith('<svg'))
        with self.assertRaises(Refused) as caught:
            plan.with_operation(39, waits=[]).check()
        self.assertEqual(caught.exception.number, 11)
        self.assertIn('wait s1022>=1', str(caught.exception.explain(strict=True)))
        traced = plan.trace(range(3))
        self.assertEqual([(s.name, value) for s, value in traced.reached()[0]], [(f's{984 + k}', 1) for k in range(3)])
        self.assertEqual(traced.reached()[1], 1021)
        self.assertIn('1021 others 0', str(explain_trace(plan, range(3))))


class WaitsForZero(unittest.TestCase):
    """Refusal 16, of texts, of plans that a program makes, and of stored plans."""
    TEXT = ('plan\nqueue fill axis 1\nqueue show axis 2\nsemaphore filled shown owner fill\n'
            'fill: signal filled=10\nshow: wait filled>=0 signal shown=1\nend\n')

    def refused(self, plan):
        with self.assertRaises(Refused) as caught:
            plan.check()
        self.assertEqual(caught.exception.number, 16)
        return caught.exception, caught.exception.explain(strict=True)

    def test_text(self):
        refused, said = self.refused(Plan.parse(self.TEXT, 'x.plan.txt'))
        self.assertEqual((refused.place, said.where), (17, 'x.plan.txt:6:7'))
        self.assertEqual(said.headline, 'show waits for filled>=0; a wait is for 1 or more')
        self.assertEqual([(change.words, change.lines[-1].text) for change in said.changes],
                         [('With 10 in place of 0, the plan passes:', 'show:  wait filled>=10  signal shown=1'),
                          ('Without it, the plan passes:', 'show:                  signal shown=1')])
        self.assertIn('a wait for 0 asks for nothing', ' '.join(said.text().split()))
        _, said = self.refused(Plan.parse(self.TEXT.replace('=10', '=9'), 'x.plan.txt'))
        self.assertEqual([change.words for change in said.changes], ['Without it, the plan passes:'])

    def test_several(self):
        """A change is of all waits for 0; one that the writer does not take is not shown."""
        text_ = self.TEXT.replace('end', 'show: wait filled>=1 shown>=0\nend')
        _, said = self.refused(Plan.parse(text_, 'x.plan.txt'))
        self.assertIn('The plan has 2 waits for 0', said.text())
        self.assertEqual([(change.words, [line.label for line in change.lines]) for change in said.changes],
                         [('Without them, the plan passes:', ['6', '6', '7', '7'])])
        _, said = self.refused(Plan.parse(text_.replace('shown>=0', 'shown>=0 shown>=1 shown>=1'), 'x.plan.txt'))
        self.assertEqual([change.number for change in said.changes], [0])
        plan = Plan.parse(text_)
        for wrong in (dict(queue=2), dict(waits=[(2, 0)]), dict(marks=[(0, False)])):
            _, said = self.refused(plan.with_operation(2, **wrong))
            self.assertEqual(said.changes, [])

    def test_without_a_text(self):
        plan = Plan.parse(self.TEXT)
        refused, said = self.refused(plan.with_operation(0, note='changed', waits=[(1, 1)]))
        self.assertEqual((refused.place, said.where), (19, ''))
        self.assertEqual([line.label for line in said.changes[0].lines], ['1', '1'])
        with self.assertRaises(Refused):
            plan.text()
        with self.assertRaises(Refused):
            plan._repr_svg_()

    def test_stored(self):
        with self.assertRaises(Refused) as caught:
            load('refused-16-wait-for-zero.plan')
        self.assertEqual((caught.exception.number, caught.exception.place), (16, 39))
        said = caught.exception.explain(strict=True)
        self.assertEqual(said.headline, 'operation 1, wait 0: its value is 0 at byte 39; a wait is for 1 or more')
        self.assertIn('a wait for 0 asks for nothing', ' '.join(said.text().split()))

    def test_random_plans(self):
        """Where one wait is set to 0: its line and column, and each change does what is said of it."""
        rng, seen = random.Random(16), 0
        for _ in range(100):
            plan = random_plan(rng)
            waits = [(j, k) for j, o in enumerate(plan.operations) for k in range(len(o.waits))]
            if not waits:
                continue
            j, k = rng.choice(waits)
            zero = [(s, 0 if i == k else v) for i, (s, v) in enumerate(plan.operations[j].waits)]
            made = text.write(plan.with_operation(j, waits=zero))
            zeroed = Plan.parse(made, 'x.plan.txt')
            refused, said = self.refused(zeroed)
            self.assertEqual((16, refused.place), library.write(zeroed.numbers())[:2])
            line, column, width = zeroed.source.places['operation', j, 'wait', k]
            self.assertEqual(said.where, f'x.plan.txt:{line}:{column}')
            self.assertTrue(made.splitlines()[line - 1][:column - 1 + width].endswith('>=0'))
            self.assertTrue(said.changes)
            for change in said.changes:
                self.assertEqual(library.check(change.plan.bytes())[:2], (change.number, change.place))
                self.assertEqual('the plan passes' in change.words, change.number == 0)
            seen += 1
        self.assertGreater(seen, 30)


class Header(unittest.TestCase):
    """The package has the numbers of include/cundvrest.h: sizes, answers, refusals."""

    def test_numbers(self):
        header = content(os.path.join(ROOT, 'include', 'cundvrest.h')).decode()
        found = {name: int(value) for name, value in re.findall(r'^#define CUNDVREST_(\w+) (\d+)$', header, re.M)}
        wanted = [('MOST_BYTES', library.MOST_BYTES), ('MOST_NUMBERS', library.MOST_NUMBERS),
                  ('MOST_OPERATIONS', library.MOST_OPERATIONS), ('MOST_SEMAPHORES', LIMITS['semaphore']),
                  ('TABLE_WIDTH', library.WIDTH),
                  ('FRONTIER', library.FRONTIER), ('STATE', library.STATE), ('FOUND', library.FOUND),
                  ('STACK', library._STACK // 2), ('LISTED', library.LISTED)]
        wanted += [('UNKNOWN_OPERATION' if answer is Followed.UNKNOWN else answer.name, answer.value)
                   for kind in (Verdict, Advice, Followed, Dominance) for answer in kind]
        for name, value in wanted:
            self.assertEqual(found.get(name), value, name)
        self.assertEqual(LIMITS['operation'], library.MOST_OPERATIONS)
        refusals = {value for name, value in found.items() if name.startswith('REFUSED_')}
        self.assertEqual(refusals - {found['REFUSED_NOT_THE_OWNER']}, set(WORDS))      # which is never given


class Answers(unittest.TestCase):
    def test_stored_plans(self):
        """Number, place, run, ready numbers and rows are those that the program prints."""
        for path in STORED:
            name = os.path.basename(path)[:-5]
            with self.subTest(name):
                lines = printed(name)
                try:
                    plan = Plan.load(path)
                    judged = plan.judge()
                except Refused as refused:
                    judged = refused
                if isinstance(judged, Refused):
                    self.assertEqual(repr(judged), f'Refused({judged.number}, {judged.place})')
                    self.assertEqual(lines, [f'refused {judged.number} {judged.place}'])
                    self.assertTrue(str(judged).startswith(lines[0] + ': ') and judged.words)
                    judged.explain(strict=True)
                    continue
                self.assertTrue(judged)
                self.assertEqual(lines[2].split()[1:], [str(j) for j in judged.run])
                self.assertEqual(lines[3].split()[1:], [str(n) for n in judged.ready])
                self.assertEqual(lines[4:], [f'{j}: ' + ' '.join(map(str, row)) for j, row in enumerate(judged.rows)])
                self.assertEqual([row['operation'] for row in judged.table()], list(range(len(plan.operations))))

    def test_an_owner_is_only_a_name(self):
        """Whoever is named as the owner, a plan gets the same; one that is no queue is refused."""
        for name in ('handed-over', 'handed-over-wait-missing', 'camera', 'deadlock'):
            plan = load(f'{name}.plan')
            judged = plan.judge()
            for owner in range(len(plan.queues)):
                plan.semaphores = [Semaphore(s.name, owner) for s in plan.semaphores]
                other = plan.judge()
                self.assertEqual(repr(other), repr(judged))
                if judged:
                    self.assertEqual((other.rows, other.run, other.ready), (judged.rows, judged.run, judged.ready))
        plan.semaphores[0] = Semaphore('filled', len(plan.queues))
        with self.assertRaises(Refused) as caught:
            plan.check()
        self.assertEqual(str(caught.exception), 'refused 4 5: semaphore 0: its owner is 3, which is not in its list')

    def test_recorded_traces(self):
        for path in sorted(glob.glob(os.path.join(glob.escape(PLANS), '*.trace'))):
            lines = printed(os.path.basename(path)[:-6])
            try:
                told = load('camera.plan').trace(content(path))
            except Refused as refused:
                self.assertEqual(lines, [f'refused {refused.number} {refused.place}'])
                continue
            self.assertEqual(bool(told), lines[0] == 'trace full')
            self.assertEqual(told.departs, lines[0].startswith('trace departs'))
            words = {Followed.FULL: 'full', Followed.UNFINISHED: f'unfinished {told.step}'}.get(
                told.followed, f'departs {told.step} {told.followed} {told.operation}')
            self.assertEqual(lines[0], f'trace {words}' + (f' {told.wait}' if told.wait is not None else ''))
            self.assertEqual(lines[1].split()[1:], [str(n) for n in told.queues])
            self.assertEqual(lines[2].split()[1:], [str(n) for n in told.semaphores])
            again = load('camera.plan').trace(told.steps)
            self.assertEqual((again.followed, again.step), (told.followed, told.step))
            self.assertIsInstance(again, Trace)

    def test_truth(self):
        plan = load('two-frames.plan')
        for queue, buffer, verdict, truth in ((0, 3, Verdict.FRESH, True), ('copy', 'shot', Verdict.REUSABLE, True),
                                              (0, 2, Verdict.HELD, False), ('camera', 0, Verdict.NOT_ORDERED, False)):
            self.assertIs(plan.reuse(queue, buffer), verdict)
            self.assertIs(bool(plan.reuse(queue, buffer)), truth)
        self.assertEqual(f'{Verdict.NOT_ORDERED} {Followed.WAIT_NOT_MET}', 'not-ordered wait-not-met')
        yes = {Verdict.FRESH, Verdict.REUSABLE, Advice.NONE_NEEDED, Advice.WAIT, Followed.FULL, Dominance.YES}
        for kind in (Verdict, Advice, Followed, Dominance):
            for answer in kind:
                self.assertIs(bool(answer), answer in yes, answer)
                self.assertEqual(kind(answer.value), answer)
                self.assertRaises(TypeError, int, answer)
        self.assertTrue(plan.judge())
        self.assertFalse(load('deadlock.plan').judge())
        with concurrent.futures.ThreadPoolExecutor(2) as pool:
            self.assertTrue(pool.submit(plan.check).result())
            self.assertRaises(Refused, pool.submit(load('deadlock.plan').check).result)
        for left, right, answer in ((Frontier({1: 2}), Frontier({1: 1}), Dominance.YES),
                                    (Frontier({1: 2}), Frontier({2: 1}), Dominance.NO),
                                    (Frontier({1: 2}, tainted=True), Frontier({2: 1}), Dominance.UNKNOWN)):
            self.assertIs(left.dominates(right), answer)
            self.assertIs(bool(left.dominates(right)), answer is Dominance.YES)

    def test_suggestions(self):
        plan = load('camera.plan')
        try:
            told = plan.suggest('capture', 'frame0')
        except LibraryError as error:
            self.assertIn('has no cundvrest_suggest', str(error))
            print('people.py: the library has no cundvrest_suggest; it is not tried', file=sys.stderr)
            return
        self.assertEqual((told.advice, bool(told)), (Advice.WAIT, True))
        more = plan.copy()
        more.operations.append(Operation(0, [told.wait]))
        self.assertIs(more.reuse('capture', 'frame0'), Verdict.REUSABLE)
        plan = load('t3-three-queues.plan')
        self.assertEqual((plan.suggest(0, 0).advice, bool(plan.suggest(0, 0))), (Advice.NONE_WOULD_HELP, False))
        self.assertIs(load('two-frames.plan').suggest(0, 'spare').advice, Advice.NONE_NEEDED)

    def test_frontiers(self):
        left, right = Frontier({1: 5, 2: 3}), Frontier({2: 7, 3: 4})
        self.assertEqual(left | right, Frontier({1: 5, 2: 7, 3: 4}))
        self.assertEqual(left.merge(right, 2), Frontier({1: 5, 2: 7}, tainted=True))
        self.assertEqual(left.raised(9, 1), Frontier({1: 5, 2: 3, 9: 1}))
        self.assertEqual(load('two-frames.plan').frontier(3), Frontier({1: 1, 2: 1, 3: 1}))
        for wrong, number in ((lambda: Frontier({1: 0}) | left, 14), (lambda: left.merge(right, 17), 15),
                              (lambda: Frontier(dict.fromkeys(range(17), 1)) | left, 14),
                              (lambda: load('two-frames.plan').frontier(5), 21)):
            with self.assertRaises(Refused) as caught:
                wrong()
            self.assertEqual(caught.exception.number, number)
            self.assertTrue(str(caught.exception).startswith(f'refused {number} '))

    def test_an_axis_is_listed_or_absent(self):
        full = Frontier({3 * i: 100 + i for i in range(15)} | {GREATEST: GREATEST}, tainted=True)
        for axis in range(-1, 46):
            axis %= GREATEST + 1
            self.assertEqual(full.lookup(axis), full.entries.get(axis), axis)
        self.assertIsNone(Frontier().lookup(0))
        self.assertEqual(Frontier({0: 7}).lookup(0), 7)
        self.assertIsNone(Frontier(dict.fromkeys(range(17), 1)).lookup(3))

    def test_a_plan_that_is_changed_is_judged_anew(self):
        plan = load('camera.plan')
        self.assertTrue(plan.check())
        line = plan.line(36)
        changed = plan.operations[36]
        plan.operations[36] = Operation(changed.queue, (), changed.signals, changed.marks)
        self.assertIsNone(plan.source)
        with self.assertRaises(Refused) as caught:
            plan.check()
        self.assertEqual((caught.exception.number, caught.exception.place), (11, 36))
        waits = [[3, 6]]
        plan.operations[36] = Operation(changed.queue, waits, changed.signals, changed.marks)
        self.assertTrue(plan.check())
        waits[0][1] = 99
        self.assertTrue(plan.check())
        plan.operations[36] = changed
        self.assertEqual(plan.line(36), line)

    def test_a_small_stack_is_enough(self):
        """On a thread of 64 KiB, where a call of its own would not have its stack."""
        said = []
        before = threading.stack_size(64 * 1024)
        try:
            thread = threading.Thread(target=lambda: said.append(library.read(content(STORED[0]))))
            thread.start()
        finally:
            threading.stack_size(before)
        thread.join()
        self.assertEqual(said[0][:2], (0, 0))

    def test_the_stack_of_other_threads_is_as_it_was(self):
        """While a call runs, too."""
        def slow(*lent):
            time.sleep(0.05)
            sizes.append(threading.stack_size())
            lent[-1][:] = (0, 0, 0)
        sizes = []
        with mock.patch.object(library, '_function', lambda name: slow):
            library.dominates(Frontier().numbers(), Frontier().numbers())
        self.assertEqual(sizes, [threading.stack_size()])
        self.assertNotEqual(sizes, [library._STACK])

    def test_names_beside(self):
        """The text beside is used only if it stores as the very same bytes."""
        with tempfile.TemporaryDirectory() as room:
            path = os.path.join(room, 'x.plan')
            plan = load('t3-three-queues.plan')
            plan.store(path)
            self.assertEqual(Plan.load(path).queues[0].name, 'q0')
            for beside, used in ((plan.text(), True), (plan.text().replace('4096', '4095'), False), ('plan', False),
                                 ('\0', False)):
                with open(path + '.txt', 'w', encoding='utf-8') as file:
                    file.write(beside)
                with warnings.catch_warnings(record=True) as told:
                    warnings.simplefilter('always')
                    self.assertEqual(Plan.load(path).queues[0].name, 'fill' if used else 'q0')
                self.assertEqual(len(told), 0 if used else 1)
            self.assertEqual(sorted(os.listdir(room)), ['x.plan', 'x.plan.txt'])
            self.assertEqual(Plan.load(path, names=plan).queues[0].name, 'fill')
            with self.assertRaises(Refused):
                load('deadlock.plan').store(path)
            self.assertEqual(content(path), plan.bytes())
            load('deadlock.plan').store(path, unchecked=True)
            self.assertEqual(content(path), load('deadlock.plan').bytes())

    def test_whole_or_not_at_all(self):
        """Who has the file open still reads the old plan; what fails on the way leaves it, and nothing beside it."""
        with tempfile.TemporaryDirectory() as room:
            path = os.path.join(room, 'x.plan')
            files.write_whole(path, b'old')
            os.chmod(path, 0o640)
            with open(path, 'rb') as file:
                files.write_whole(path, b'new')
                self.assertEqual(file.read(), b'old')
            self.assertEqual(os.stat(path).st_mode & 0o777, 0o640)
            for step in ('fsync', 'replace', 'fchmod'):
                with mock.patch.object(files.os, step, side_effect=OSError(28, 'No space left on device')):
                    with self.assertRaises(OSError) as caught:
                        files.write_whole(path, b'newer')
                self.assertEqual((caught.exception.errno, caught.exception.filename), (28, path))
                self.assertEqual((content(path), os.listdir(room)), (b'new', ['x.plan']))

    def test_a_plan_that_reads_back_as_another_is_not_stored(self):
        plan = load('two-frames.plan')
        number, place, numbers = library.read(plan.bytes())
        for other in (numbers[:-1], [*numbers[:-1], numbers[-1] + 1], []):
            with tempfile.TemporaryDirectory() as room, \
                    mock.patch.object(library, 'read', lambda stored: (number, place, other)):
                with self.assertRaisesRegex(RuntimeError, 'the stored plan reads as another'):
                    plan.store(os.path.join(room, 'x.plan'))
                self.assertEqual(os.listdir(room), [])

    def test_a_text_that_tidies_to_another_plan_is_not_written(self):
        path = os.path.join(PLANS, 'two-frames.plan.txt')
        tidy = text.tidy
        with tempfile.TemporaryDirectory() as room, \
                mock.patch.object(text, 'tidy', lambda source: tidy(source).replace('taken>=2', 'taken>=1')):
            with self.assertRaisesRegex(RuntimeError, 'the tidied text is another plan'):
                command.text(command.parsed(['text', path, os.path.join(room, 'x.plan.txt')]))
            self.assertEqual(os.listdir(room), [])

    def test_one_version(self):
        self.assertEqual(content(os.path.join(ROOT, 'VERSION')).decode().strip(), __version__)


PIECES = ['wait', 'use', 'free', 'signal', 'queue', 'buffer', 'end', 'plan', '>=', '=', ':', '#', ',', '0', 'axis', 'x',
          str(GREATEST), str(GREATEST + 1), '\n', '\t', ' ', '\r', '\0', '\u00e9', '≥', '\U0001f600', 'size', 'owner']


def damaged_bytes(rng, data):
    data = bytearray(data)
    for _ in range(rng.choice([1, 1, 1, 2, 4])):
        at = rng.randrange(len(data) + 1)
        kind = rng.randrange(5)
        if kind == 0:
            del data[at:]
        elif kind == 1:
            del data[at:at + rng.choice([1, 2, 8])]
        elif kind == 2:
            data[at:at] = bytes(rng.randrange(256) for _ in range(rng.choice([1, 2, 8])))
        elif data:
            data[at % len(data)] = rng.choice([0, 1, 2, 255, rng.randrange(256)])
    return bytes(data)


def damaged_text(rng, made):
    for _ in range(rng.choice([1, 1, 2])):
        at = rng.randrange(len(made) + 1)
        made = made[:at] + rng.choice(['', rng.choice(PIECES)]) + made[at + rng.choice([0, 1, 5]):]
    return made


class Damage(unittest.TestCase):
    """Whatever the file, the answer is a pass, a refusal with words, or an error with a line and a column."""
    HOW_MANY = 2000

    def test_damage(self):
        rng, counts = random.Random(1), collections.Counter()
        plans = [Plan.load(path) for path in STORED if not library.read(content(path))[0]]
        with tempfile.TemporaryDirectory() as room:
            path = os.path.join(room, 'x.plan')
            for k in range(self.HOW_MANY):
                plan = rng.choice(plans)
                data = damaged_bytes(rng, plan.bytes()) if k % 2 else damaged_text(rng, plan.text()).encode()
                with open(path, 'wb') as file:
                    file.write(data)
                kind = 'bytes' if k % 2 else 'text'
                with self.subTest(kind=kind, data=data):
                    counts[kind, self.one(path, data)] += 1
        for kind, least in ((('bytes', 'passed'), 50), (('text', 'passed'), 50), (('text', 'no plan'), 200),
                            (('bytes', 1), 50), (('bytes', 2), 5), (('bytes', 3), 50), (('bytes', 4), 50),
                            (('bytes', 8), 5), (('bytes', 10), 10), (('bytes', 17), 5), (('bytes', 11), 5),
                            (('bytes', 16), 3), (('text', 11), 20)):
            self.assertGreaterEqual(counts[kind], least, kind)

    def one(self, path, data):
        """What is said of the file, which must be what the library says."""
        try:
            plan = Plan.load(path)
            judged = plan.judge()
        except TextError as error:
            for problem in error.problems:
                self.assertTrue(1 <= problem.line <= len(error.lines) and problem.column >= 1 and problem.message)
            first = error.problems[0]
            self.assertTrue(str(error).startswith(f'{path}:{first.line}:{first.column}: error: '))
            self.assertNotEqual(library.check(data)[0], 0)
            return 'no plan'
        except Refused as refused:
            self.assertEqual((refused.number, refused.place), library.read(data)[:2])
            judged = refused
        else:
            if not files.is_text(data):
                self.assertEqual(plan.bytes(), data)
        if isinstance(judged, Passed):
            self.assertEqual(library.check(judged.plan.bytes())[0], 0)
            return 'passed'
        if judged.plan and judged.numbers is None:
            self.assertEqual((judged.number, judged.place), library.check(judged.plan.bytes())[:2])
        said = judged.explain(strict=True)
        self.assertTrue(said.headline and said.text() and said.html())
        return judged.number


if __name__ == '__main__':
    unittest.main()
