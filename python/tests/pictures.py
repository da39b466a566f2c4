"""Explanations and pictures: 2,000 random plans, every stored plan and trace, and the time it takes at 1,024
operations.

  python3 python/tests/pictures.py

What the proved functions say is asked here once more, by calls of the shared library that go past the package; what a
run breaks, which signals are out of turn and whether a circle closes is judged here by the rules' words.
"""
import collections
import ctypes
import glob
import os
import random
import re
import sys
import time
import unittest
from html.parser import HTMLParser
from unittest import mock
from xml.etree import ElementTree

ROOT = os.path.dirname(os.path.dirname(os.path.dirname(os.path.abspath(__file__))))
LIBRARY = os.environ.setdefault('CUNDVREST_LIBRARY', os.path.join(ROOT, 'target', 'lib', 'libcundvrest.so'))
sys.path[:0] = [os.path.join(ROOT, 'python'), os.path.join(ROOT, 'python', 'tests')]
from cundvrest import Operation, Passed, Plan, Refused, Wait, faults, library, missing, page, picture  # noqa: E402
from cundvrest.explain_asked import explain_reuse, explain_trace  # noqa: E402
from cundvrest.explanation import MEANING, Change, Explanation, Shown  # noqa: E402
from cundvrest.order import Order  # noqa: E402
from random_plans import random_plan  # noqa: E402

PLANS = os.path.join(ROOT, 'plans')
MANY = 2000
LIMIT = 0.5             # seconds of processor time for each of parse, explain and draw at 1,024 operations


# ---- the library, past the package

so = ctypes.CDLL(LIBRARY)


def rooms():
    table, list_ = (ctypes.c_uint32 * (16 * 1024))(), (ctypes.c_uint32 * 2048)()
    return table, ctypes.c_size_t(len(table)), list_, ctypes.c_size_t(len(list_))


def check(stored):
    told = (ctypes.c_uint64 * 3)()
    so.cundvrest_check(stored, ctypes.c_size_t(len(stored)), *rooms(), told)
    return told[0], told[1]


def follow(stored, run):
    """(number, answer, found) of the trace function."""
    trace = b''.join(number.to_bytes(2, 'little') for number in (len(run), *run))
    told, found, state = (ctypes.c_uint64 * 3)(), (ctypes.c_uint64 * 6)(), (ctypes.c_uint64 * library.STATE)()
    so.cundvrest_trace(stored, ctypes.c_size_t(len(stored)), trace, ctypes.c_size_t(len(trace)), *rooms(), state,
                       ctypes.c_size_t(library.STATE), found, told)
    return told[0], told[2], found[:3]


def without_marks(plan):
    bare = plan.copy()
    bare.operations = [Operation(o.queue, o.waits, o.signals) for o in plan.operations]
    return bare.bytes()


def apart(plan):
    """The plan with no marks, in which each operation has a semaphore of its own: the same runs, and no signal is out
    of turn."""
    new, rests = plan.copy(), rested(plan)
    new.semaphores = []
    for j, o in enumerate(plan.operations):
        new.semaphore(owner=o.queue)
        new.operations[j] = Operation(o.queue, [(r, 1) for r in rests[j]], [(j, 1)])
    return new.bytes()


# ---- the rules' words

def rested(plan):
    """For each operation those that its waits rest on: of the signals that are enough, the one with the least value."""
    signals = [(s, v, j) for j, o in enumerate(plan.operations) for s, v in o.signals]
    return [[min((x, j) for t, x, j in signals if t == s and x >= v)[1] for s, v in o.waits]
            for o in plan.operations]


def past(plan):
    """For each operation of a plan that is not stuck all that are before it."""
    rests, found = rested(plan), {}

    def of(j):
        if j not in found:
            queue = [i for i in range(j) if plan.operations[i].queue == plan.operations[j].queue]
            found[j] = set().union(*({i} | of(i) for i in queue[-1:] + rests[j]))
        return found[j]
    return [of(j) for j in range(len(plan.operations))]


def handovers(plan):
    """(semaphore, operation of the signal before, operation, position of the signal in its list) of each signal but the
    first of its semaphore, in plan order."""
    signals = [(s, j, k) for j, o in enumerate(plan.operations) for k, (s, _) in enumerate(o.signals)]
    return [(s, [i for t, i, _ in signals[:at] if t == s][-1], j, k) for at, (s, j, k) in enumerate(signals)
            if any(t == s for t, _, _ in signals[:at])]


def falls(plan, run, semaphore):
    """Is there a signal of the semaphore in the run that is not above every earlier one?"""
    values = [v for j in run for s, v in plan.operations[j].signals if s == semaphore]
    return any(v <= before for k, v in enumerate(values) for before in values[:k])


def by_value(plan, rng):
    """Operations in some order, each where the highest signal of each semaphore so far is enough for its waits, until
    no queue can go on."""
    run, high, left = [], collections.Counter(), [[] for _ in plan.queues]
    for j, o in enumerate(plan.operations):
        left[o.queue].append(j)
    while True:
        ready = [queue for queue in left if queue
                 and all(high[s] >= v for s, v in plan.operations[queue[0]].waits)]
        if not ready:
            return run
        run.append(rng.choice(ready).pop(0))
        for s, v in plan.operations[run[-1]].signals:
            high[s] = max(high[s], v)


def with_lines(text, lines):
    """The text of a plan with a change as it is shown: a line that goes is one of the text, and what comes in its place
    follows it; a new semaphore comes after the others."""
    old = text.split('\n')
    for line in lines:
        if line.sign == '+' and line.label:
            old[int(line.label) - 1] = line.text
    declared = max(k for k, line in enumerate(old) if line.startswith('semaphore'))
    return '\n'.join(old[:declared + 1] + [line.text for line in lines if not line.label] + old[declared + 1:])


def broken_by(plan, run, buffer):
    """The marks of a buffer, (operation, item), of which a full run does not do what keeping asks."""
    step, found = {j: k for k, j in enumerate(run)}, set()
    holdings = [[]]
    for j, o in enumerate(plan.operations):
        for k, mark in enumerate(o.marks):
            if mark.buffer == buffer:
                holdings[-1].append((j, k))
                if mark.free:
                    holdings.append([])
    for at, holding in enumerate(holdings):
        freed_before = step[holdings[at - 1][-1][0]] if at else -1
        ends = at + 1 < len(holdings)
        for j, k in holding:
            if step[j] <= freed_before and at:
                found.add((j, k))
            if ends and not plan.operations[j].marks[k].free and step[j] > step[holding[-1][0]]:
                found.add((j, k))
    return found


def closes(plan, circle):
    """Does each operation of the circle wait for one that is not before the next?"""
    return follows(plan, circle, circle[0].head)


def follows(plan, links, to):
    """Does each operation of the links wait for one that is not before the next, and the last for one not before
    `to`?"""
    for link, after in zip(links, [*(link.head for link in links[1:]), to]):
        s, v = plan.operations[link.head].waits[link.wait]
        enough = [(x, j) for j, o in enumerate(plan.operations) for t, x in o.signals if t == s and x >= v]
        if min(enough)[1] != link.signaller or after != link.after:
            return False
        if plan.operations[link.signaller].queue != plan.operations[after].queue or link.signaller < after:
            return False
    return True


def fewest_waits(plan, place, ran):
    """How many waits the shortest circle has of those that an operation leads to; over each pair of operations that
    cannot run, the fewest waits from one to the other by way of each third."""
    stuck, fewest = [j for j in range(len(plan.operations)) if j not in ran], {}
    for j in stuck:
        for i in stuck:
            if i < j and plan.operations[i].queue == plan.operations[j].queue:
                fewest[j, i] = 0
        for s, v in plan.operations[j].waits:
            enough = [(x, i) for i, o in enumerate(plan.operations) for t, x in o.signals if t == s and x >= v]
            if min(enough)[1] in stuck:
                fewest.setdefault((j, min(enough)[1]), 1)
    for by in stuck:
        for j in stuck:
            for i in stuck:
                if (j, by) in fewest and (by, i) in fewest:
                    fewest[j, i] = min(fewest.get((j, i), len(stuck)), fewest[j, by] + fewest[by, i])
    return min(fewest[j, j] for j in stuck if (j, j) in fewest and (j == place or (place, j) in fewest))


# ---- explanations

class Explained(unittest.TestCase):
    @classmethod
    def setUpClass(cls):
        rng = random.Random(19)
        cls.plans = [random_plan(rng) for _ in range(MANY)]

    def test_random_plans(self):
        """The verdict is the library's; what is shown for 10, 17 and 11 is so, and each change does what is said of
        it."""
        kinds = collections.Counter()
        for k, plan in enumerate(self.plans):
            with self.subTest(plan=k):
                judged, (number, place) = plan.judge(), check(plan.bytes())
                if isinstance(judged, Passed):
                    self.assertEqual((number, place), (0, 0))
                    kinds['passed' + ', a semaphore is handed over' * self.is_handed_over(plan)] += 1
                    continue
                self.assertEqual((judged.number, judged.place), (number, place))
                said = judged.explain(strict=True)
                kinds[self.explained(plan, said, number, place)] += 1
                for change in said.changes:
                    self.assertEqual(check(change.plan.bytes()), (change.number, change.place))
                    self.assertEqual('the plan passes' in change.words, change.number == 0)
                self.assertIn(f'refused {number} {place}: {said.headline}', said.text())
                self.assertIn(said.verdict.capitalize(), said.html())
        print('\n'.join(f'{count:6}  {kind}' for kind, count in sorted(kinds.items())))
        for number in (7, 8, 10, 17, 11):
            self.assertGreater(sum(c for kind, c in kinds.items() if kind.startswith(f'refused {number}')), 20)
        self.assertGreater(sum(c for kind, c in kinds.items() if 'circle of' in kind and kind[-1] > '1'), 50)
        for kind in ('passed, a semaphore is handed over', 'refused 17, unordered, a change passes',
                     'refused 17, the other way round, a change'):
            self.assertGreater(sum(c for found, c in kinds.items() if found.startswith(kind)), 10, kind)

    @staticmethod
    def is_handed_over(plan):
        return any(plan.operations[i].queue != plan.operations[j].queue for _, i, j, _ in handovers(plan))

    def explained(self, plan, said, number, place):
        if number == 17:
            return self.out_of_turn(plan, said, place)
        if number == 11:
            mark = said.missing
            self.assertEqual(mark.operation, place)
            self.assertTrue(said.confirmed)
            self.assertEqual(follow(without_marks(plan), said.run)[:2], (0, 0))
            self.assertIn((mark.operation, mark.item), broken_by(plan, said.run, mark.buffer))
            self.assertEqual(sorted(said.run), list(range(len(plan.operations))))
            for change in said.changes:
                moved = [o.queue for o in change.plan.operations] != [o.queue for o in plan.operations]
                self.assertTrue(change.number == 0 or change.number == 11 and (moved or change.place >= place))
            passes = any(change.number == 0 for change in said.changes)
            return 'refused 11, ' + ('a change passes' if passes else 'a change helps' if said.changes else 'no change')
        if number == 10:
            self.assertTrue(closes(plan, said.circle))
            ran = sorted(said.order.run)
            self.assertEqual(len(said.circle), fewest_waits(plan, place, ran))
            self.assertEqual((said.lead or said.circle)[0].head, place)
            self.assertTrue(follows(plan, said.lead, said.circle[0].head))
            less = plan.copy()
            less.operations = [plan.operations[j] for j in ran]
            self.assertEqual(follow(apart(less), [ran.index(j) for j in said.order.run])[:2], (0, 0))
            self.assertNotIn(place, ran)
            return f'refused 10, circle of {len(said.circle)}'
        self.assertIn(place, said.focus)
        return f'refused {number}'

    def out_of_turn(self, plan, said, place):
        """The two signals are one after the other in the plan, and nothing orders them, but those of lower operations;
        the run is a full one, in which the semaphore falls; the lines of a change make the plan that was tried."""
        turn, before = said.missing, past(plan)
        self.assertEqual(turn.then, place)
        self.assertIn((turn.semaphore, turn.first, turn.then, turn.item), handovers(plan))
        self.assertEqual(plan.operations[turn.first].signals[turn.other_item].semaphore, turn.semaphore)
        out = [j for _, i, j, _ in handovers(plan) if i != j and i not in before[j]]
        self.assertEqual(min(out), place)
        self.assertNotIn(turn.first, before[turn.then] | {turn.then})
        self.assertTrue(said.confirmed)
        self.assertEqual(follow(apart(plan), said.run)[:2], (0, 0))
        self.assertEqual(sorted(said.run), list(range(len(plan.operations))))
        self.assertLess(said.run.index(turn.then), said.run.index(turn.first))
        self.assertTrue(falls(plan, said.run, turn.semaphore))
        self.assertIn('would fall from', said.text())
        for change in said.changes:
            self.assertTrue(change.number in (0, 11) or change.number == 17 and change.place >= place)
            after = past(change.plan)
            self.assertNotIn((turn.semaphore, turn.first, turn.then, turn.item),
                             [of for of in handovers(change.plan) if of[1] != of[2] and of[1] not in after[of[2]]])
        sourced = Plan.parse(plan.text(), 'x.plan.txt')
        for change in sourced.judge().explain(strict=True).changes:
            self.assertEqual(Plan.parse(with_lines(plan.text(), change.lines)), change.plan)
        more = len(set(out)) > 1 and all(change.number == 17 for change in said.changes)
        self.assertEqual(bool(re.search('[0-9] more operations? ha(s|ve) a signal out of turn', said.text())), more)
        passes = any(change.number == 0 for change in said.changes)
        return ('refused 17, ' + ('the other way round' if turn.then in before[turn.first] else 'unordered')
                + (', a change passes' if passes else ', a change helps' if said.changes else ', no change'))

    def test_who_says_so(self):
        """Each claim is where it belongs, and each sentence, list of lines and change that has a mark has it on the
        page."""
        seen = collections.Counter()
        for plan in self.plans[:600]:
            judged = plan.judge()
            if not isinstance(judged, Refused):
                continue
            said = judged.explain(strict=True)
            for by, claims in said.said_by.items():
                for claim in claims:
                    self.assertEqual(by, next(right for words, right in self.expected(said) if claim.startswith(words)))
                    seen[by] += 1
            self.assertEqual(sum(map(len, said.said_by.values())), len(self.expected(said)))
            page_ = said.html()
            for by in MEANING:
                marked = sum(block.by == by for block in said.blocks) + len(said.changes) * (by == 'confirmed')
                self.assertEqual(page_.count(f'<span class="by {by}" title="{MEANING[by]}">{by}</span>'), marked)
            for block in said.blocks:
                if 'so every full run breaks' in str(block.content):
                    self.assertEqual(block.by, 'found')
        self.assertEqual(set(seen), set(MEANING))
        self.assertGreater(min(seen.values()), 100)

    @staticmethod
    def expected(said):
        """(first words of a claim, who says so) of each claim of the explanation of a refusal."""
        out = [(said.verdict, 'proved')]
        if said.changes:
            out.append(('what the plan with the change gets', 'confirmed'))
        if said.number in (11, 17):
            out += [('that the run shown is a full run', 'confirmed')]
            out += [('which mark and which two' if said.number == 11 else 'which two signals', 'found')]
            out += [('what comes before what', 'proved')] if said.missing.first != said.missing.then else []
        elif said.number == 10:
            out += [('the circle, a shortest one', 'found')]
            out += [(f'that {len(said.order.run)} operation', 'confirmed')] if said.order.run else []
        else:
            out.append(('which wait' if said.number == 8 else 'which signal', 'found'))
        return out

    def test_only_what_is_confirmed_is_shown(self):
        """A run that the trace function does not follow is no run: for 11 and 17 there are no words, for 10 no such
        claim."""
        good = faults.wrong_run
        for plan, words in ((camera(8, 6), 'a broken mark'), (handed_over(8, 6), 'a signal out of turn')):
            judged = plan.judge()
            for wrong in (lambda *of: good(*of)[::-1], lambda *of: good(*of)[:-1], lambda *of: []):
                with mock.patch.object(faults, 'wrong_run', wrong):
                    self.assertRaises(RuntimeError, judged.explain, strict=True)
                    said = judged.explain()
                    self.assertTrue(said.headline.startswith(f'{words} (no more words: '))
                    self.assertEqual((said.run, said.confirmed, said.changes), (None, False, []))
        judged = stuck(8).judge()
        self.assertIn('confirmed: that 16 operations can run', ' '.join(judged.explain(strict=True).text().split()))
        with mock.patch.object(Order, 'run_is_confirmed', lambda order: False):
            self.assertNotIn('operations can run', judged.explain(strict=True).text())
        for change in (lambda run: run[::-1], lambda run: run + [max(run)]):
            order = Order(stuck(8))
            self.assertTrue(order.run_is_confirmed())
            order.run = change(order.run)
            self.assertFalse(order.run_is_confirmed())

    def test_nothing_of_an_explanation_is_markup(self):
        """Whatever stands in it, as in a comment of the plan, is text on the page, and has no control character."""
        def bad(what):
            return f'<script>{what}&amp;</script>\x1b'
        said = Explanation(11, 0, bad('headline'), verdict=bad('verdict'), last=[bad('last')])
        said.says(bad('says'))
        said.lines(Shown('1', bad('marked'), [(1, 3)], bad('remark')), Shown('2', bad('line'), sign='-'))
        said.steps([[bad('cell'), 1]])
        said.try_change(Change(bad('change'), [Shown('3', bad('new'), sign='+')], None, 0, 0))
        said.claim('found', bad('claim'))
        html = said.html()
        Page(self, html)
        self.assertNotIn('\x1b', html)
        for what in ('headline', 'says', 'remark', 'line', 'cell', 'last', 'change', 'new', 'claim', 'verdict'):
            self.assertIn(f'{what}&amp;amp;&lt;/script&gt;\ufffd', html.lower())
        text = camera(4).with_operation(8, waits=()).text().replace(
            '\n\ncapture:', '  # <img src=x> & "it"\n\ncapture:').replace('use frame2', 'use frame2  # <b>', 1)
        made = page.page(Plan.parse(text, '<u>x</u>'), '<u>x</u>\x1b')
        Page(self, made)
        self.assertIn('# &lt;img src=x&gt; &amp; &quot;it&quot;', made)
        self.assertNotIn('\x1b', made)

    def test_notes_of_a_program(self):
        """Whatever a program puts into a note, the picture is well-formed and the page has no control character."""
        for note in ('\x1b[31m', '\0', '\x9b', '\ud800', '\ufffe', '\uffff', '<b>&', ']]>', '\r'):
            for plan in (camera(4), camera(8, 6), stuck(4)):
                noted = plan.with_operation(0, note=note)
                Drawing(self, picture.draw(noted, title=note)).holds(noted, range(len(noted.operations)))
                made = page.page(noted, note)
                Page(self, made)
                self.assertIsNone(re.search('[\x00-\x09\x0b-\x1f\x7f-\x9f\ud800-\udfff\ufffe\uffff]', made))

    def test_traces(self):
        """What is said of a trace is what the library says: a full run, an unfinished one, and each way to depart."""
        rng, kinds = random.Random(20), collections.Counter()
        for k, plan in enumerate(self.plans):
            judged = plan.judge()
            if not isinstance(judged, Passed) or not plan.operations:
                continue
            with self.subTest(plan=k):
                steps = list(judged.run)
                at = rng.randrange(len(steps))
                steps = rng.choice([steps, steps[:at], steps[:at] + [rng.randrange(len(steps) + 1)] + steps[at:],
                                    rng.sample(steps, len(steps))])
                number, answer, (step, j, wait) = follow(plan.bytes(), steps)
                self.assertEqual(number, 0)
                said = explain_trace(plan, steps)
                word = ('full', 'unfinished', 'unknown', 'repeated', 'not-first', 'wait-not-met')[answer]
                verdict = {0: 'trace full', 1: f'trace unfinished {step}'}.get(
                    answer, f'trace departs {step} {word} {j}' + (f' {wait}' if answer == 5 else ''))
                self.assertEqual(said.verdict, verdict)
                self.assertIn(said.headline, said.text())
                for row in [row for block in said.blocks if block.kind == 'steps' for row in block.content]:
                    if row[2].startswith('next is operation '):
                        more = steps[:step] + [int(row[2].split()[-1])]
                        self.assertEqual(row[3] == 'is ready', follow(plan.bytes(), more)[1] < 2)
                kinds[word] += 1
                if not k % 3:
                    drawn = Drawing(self, picture.draw(plan, trace=steps))
                    self.assertEqual(len(drawn.ran), step)
        print('\n'.join(f'{count:6}  trace {kind}' for kind, count in sorted(kinds.items())))
        self.assertEqual(len(kinds), 6)

    def test_trace_that_is_none(self):
        plan = Plan.load(os.path.join(PLANS, 'camera.plan'))
        for recorded, words in ((b'', 'no byte'), (b'\x01', '1 byte'),
                                (b'\x02\x00\x00\x00\x00', '2 steps, and has 1 step and a byte more')):
            said = explain_trace(plan, recorded)
            self.assertEqual(said.verdict, 'refused 22 0')
            self.assertIn(words, said.headline)
            self.assertIn('refused 22 0', page.page(plan, trace=recorded).lower())

    def test_reuse(self):
        """Every verdict of the reuse question has words; a wait that is shown makes the buffer reusable."""
        verdicts = collections.Counter()
        for plan in self.plans[:300]:
            if isinstance(plan.judge(), Passed):
                for q in range(len(plan.queues)):
                    for b in range(len(plan.buffers)):
                        said = explain_reuse(plan, q, b)
                        _, _, verdict = library.reuse(plan.bytes(), q, b)
                        self.assertTrue(said.verdict.startswith(f'verdict {verdict} '))
                        verdicts[said.verdict] += 1
                        lines = [shown for block in said.blocks if block.kind == 'lines' for shown in block.content]
                        for line in lines:
                            if line.sign == '+':
                                verdicts['with a wait'] += 1
                                self.assertEqual(self.with_line(plan, line.text, q, b), (0, 0, 1))
        self.assertGreaterEqual(len(verdicts), 4)

    def test_reuse_of_a_full_plan(self):
        """A plan of 1,024 operations takes none more: no such line is shown."""
        for frames, more in ((255, True), (256, False)):
            plan = camera(frames)
            said = explain_reuse(plan, 'capture', 'frame0')
            shown = [line.text for block in said.blocks if block.kind == 'lines' for line in block.content if line.sign]
            self.assertEqual(len(shown), int(more))
            self.assertEqual('takes no more' in said.text(), not more)

    def test_a_higher_signal_meets_no_wait(self):
        """T19: a wait is met by what it rests on, and not by what its semaphore has come to."""
        plan = Plan.load(os.path.join(PLANS, 't19-a-higher-signal.plan'))
        said = plan.judge().explain(strict=True)
        self.assertEqual((said.verdict, said.order.run), ('refused 10 0', [2]))
        self.assertEqual([(link.head, link.signaller) for link in said.lead + said.circle], [(0, 1), (1, 1)])
        words = ' '.join(said.text().split())
        self.assertIn('Operation 2 has run and signals done=2. That does not meet the wait of operation 0: it rests on '
                      'operation 1', words)
        self.assertEqual([(change.number, change.place) for change in said.changes], [(17, 2)])
        other = plan.with_operation(2, signals=()).judge().explain(strict=True)
        self.assertEqual(other.verdict, 'refused 10 0')
        self.assertNotIn('That does not meet', other.text())
        plan = Plan.parse('plan\nqueue a axis 1\nqueue b axis 2\nqueue c axis 3\nsemaphore s t owner a\n'
                          'a: wait s>=1 signal t=1\nb: wait t>=1 signal s=1\nc: signal s=2\nend\n')
        said = plan.judge().explain(strict=True)
        self.assertEqual((said.verdict, said.order.run), ('refused 10 0', [2]))
        self.assertTrue(said.changes[0].words.startswith('Without this wait'))         # a higher one is not asking less

    def test_a_plan_with_counts_is_alike(self):
        """Rows, standard run and ready numbers, or how it is stuck, are those of the plan that has its semaphores."""
        numbers = collections.Counter()
        for k, plan in enumerate(self.plans):
            order = Order(plan)
            if order.number in (0, 10) and order.asked_words == 'the plan without its marks':
                with self.subTest(plan=k):
                    self.assertEqual(library.check(order._with_counts().bytes(), order.n),
                                     library.check(order.asked.bytes(), order.n))
                    numbers[order.number] += 1
        self.assertGreater(numbers[0], 1000)
        self.assertGreater(numbers[10], 300)

    def test_devices_look_at_values(self):
        """In a plan that passes, whatever runs by what its semaphores have come to is a run."""
        rng, handed = random.Random(24), 0
        for k, plan in enumerate(self.plans):
            if isinstance(plan.judge(), Passed):
                handed += self.is_handed_over(plan)
                with self.subTest(plan=k):
                    self.assertEqual(follow(plan.bytes(), by_value(plan, rng))[:2], (0, 0))
        self.assertGreater(handed, 200)
        run = by_value(Plan.load(os.path.join(PLANS, 't19-a-higher-signal.plan')), rng)
        self.assertEqual(run, [2, 0])                   # which is none in a plan that does not pass

    def test_a_wait_of_another_signal_stays(self):
        """A wait is replaced by a higher one of its semaphore only where what it rests on comes before anyway."""
        plan = Plan.parse('plan\nqueue a axis 1\nqueue b axis 2\nqueue c axis 3\nsemaphore s t owner a\n'
                          'a: signal s=1\nb: signal s=2\nc: wait s>=1 signal t=1\nb: signal t=2\nend\n')
        order = Order(plan)
        self.assertEqual(missing.with_wait(order, 2, Wait(0, 2), 1), ((Wait(0, 1), Wait(0, 2)), None))
        ordered = Order(plan.with_operation(1, waits=[(0, 1)]))
        self.assertEqual(missing.with_wait(ordered, 2, Wait(0, 2), 1), ((Wait(0, 2),), 0))

    def test_the_signal_before_is_waited_for(self):
        """Of the signals that the earlier operation gives, the change has that of the semaphore."""
        for names in ('t s u', 's t u', 't u s'):
            plan = Plan.parse(f'plan\nqueue a axis 1\nqueue b axis 2\nsemaphore {names} owner a\n'
                              'a: signal t=1 s=1\na: signal u=1\nb: signal s=2\nend\n')
            (change,) = plan.judge().explain(strict=True).changes
            self.assertEqual(change.words, 'With a wait for s>=1, the plan passes:')

    def test_many_signals(self):
        """Of many signals of one semaphore the last ones are told, and the two."""
        said = all_at_once(1024).judge().explain(strict=True)
        self.assertEqual(said.verdict, 'refused 17 1')
        plan = handed_over(200, 180)
        said = plan.judge().explain(strict=True)
        told = [row for block in said.blocks if block.kind == 'steps' for row in block.content]
        self.assertLessEqual(len(told), 12)
        self.assertEqual([row[1] for row in told if '<--' in row[-1]],
                         [f'operation {said.missing.then}', f'operation {said.missing.first}'])
        self.assertIn('says of the plan without its marks and with counts in place of semaphores that this is a full '
                      'run', page.page(plan))

    @staticmethod
    def with_line(plan, line, q, b):
        lines = plan.text().rstrip().split('\n')
        return library.reuse(Plan.parse('\n'.join(lines[:-1] + [line, 'end']) + '\n').bytes(), q, b)


# ---- pictures

def points(d):
    """The points of a path, and whether each is a corner that the line goes to."""
    out, x, y = [], 0.0, 0.0
    for letter, rest in re.findall(r'([A-Za-z])([^A-Za-z]*)', d):
        n = [float(number) for number in re.findall(r'-?\d*\.?\d+', rest)]
        if letter in 'MLQ':
            pairs = list(zip(n[0::2], n[1::2]))
            x, y = pairs[-1]
            out += pairs
        elif letter in 'ml':
            for dx, dy in zip(n[0::2], n[1::2]):
                x, y = x + dx, y + dy
                out.append((x, y))
        elif letter in 'hv':
            x, y = (x + n[0], y) if letter == 'h' else (x, y + n[0])
            out.append((x, y))
        elif letter != 'z':
            raise AssertionError(f'a path with {letter}')
    return out


class Drawing:
    """A picture read back: its boxes, arrows and signs; every piece of it is on the page."""

    def __init__(self, test, svg):
        self.test, self.root = test, ElementTree.fromstring(svg)
        x, y, w, h = map(float, self.root.get('viewBox').split())
        self.page = (x, y, x + w, y + h)
        self.boxes, self.arrows, self.signals, self.labels, self.apart, self.ran = {}, {}, {}, [], [], []
        self.walk(self.root, None)

    def walk(self, node, group):
        tag = node.tag.split('}')[1]
        if tag in ('defs', 'title'):
            return
        if tag == 'g':
            group = (node.get('class'), node.get('data-of'))
            kept = {'operation': self.boxes, 'wait': self.arrows, 'signal': self.signals}.get(group[0])
            if kept is not None:
                self.test.assertNotIn(group[1], kept)
                kept[group[1]] = []
        self.on_page(tag, node)
        kind, of = group or (None, None)
        if tag == 'rect' and node.get('class') == 'box':
            self.boxes[of].append(self.corners(node))
        if tag == 'path' and node.get('marker-end') and kind == 'wait':
            self.arrows[of].append(points(node.get('d')))
        if tag == 'rect' and kind in ('missing', 'never', 'departs', 'signal'):
            self.labels.append(self.corners(node))
            self.apart += [self.labels[-1]] * (kind in ('missing', 'signal'))
        if tag == 'text' and kind == 'signal':
            self.signals[of].append(node.text)
        if tag == 'text' and node.text == '✓' and kind == 'operation':
            self.ran.append(of)
        for child in node:
            self.walk(child, group)

    @staticmethod
    def corners(rect):
        x, y, w, h = (float(rect.get(name)) for name in ('x', 'y', 'width', 'height'))
        return x, y, x + w, y + h

    def on_page(self, tag, node):
        def number(name):
            return float(node.get(name))
        if tag == 'rect':
            x1, y1, x2, y2 = self.corners(node)
            reached = [(x1, y1), (x2, y2)]
        elif tag == 'line':
            reached = [(number('x1'), number('y1')), (number('x2'), number('y2'))]
        elif tag == 'circle':
            reached = [(number('cx') + s * number('r'), number('cy') + s * number('r')) for s in (-1, 1)]
        elif tag == 'path':
            reached = points(node.get('d'))
        elif tag == 'text':
            wide = 0.5 * number('font-size') * len(node.text or '')
            start = number('x') - {'start': 0, 'middle': wide / 2, 'end': wide}[node.get('text-anchor')]
            reached = [(start, number('y') - number('font-size')), (start + wide, number('y'))]
        else:
            self.test.assertIn(tag, ('svg', 'g'))
            return
        left, top, right, bottom = self.page
        for x, y in reached:
            self.test.assertTrue(left <= x <= right and top <= y <= bottom, f'{tag} at {x}, {y} is outside the page')

    def holds(self, plan, operations):
        """One box for each operation, one arrow for each of its waits, no arrow and no label over another box, nor the
        labels of a missing order over each other."""
        self.test.assertEqual(sorted(map(int, self.boxes)), sorted(operations))
        self.test.assertEqual(sorted(self.arrows), sorted(f'{j}.{k}' for j in operations
                                                          for k in range(len(plan.operations[j].waits))))
        for of, found in (*self.boxes.items(), *self.arrows.items()):
            self.test.assertEqual(len(found), 1, of)
        boxes = {of: box for of, (box,) in self.boxes.items()}
        for of, (line,) in self.arrows.items():
            for (x1, y1), (x2, y2) in zip(line, line[1:]):
                for j, (left, top, right, bottom) in boxes.items():
                    crosses = (max(x1, x2) > left + 1 and min(x1, x2) < right - 1
                               and max(y1, y2) > top + 1 and min(y1, y2) < bottom - 1)
                    self.test.assertFalse(crosses, f'the arrow of wait {of} crosses the box of {j}')
        for x1, y1, x2, y2 in self.labels:
            for j, (left, top, right, bottom) in boxes.items():
                covers = x2 > left and x1 < right and y2 > top and y1 < bottom
                self.test.assertFalse(covers, f'a label covers the box of {j}')
        for k, (x1, y1, x2, y2) in enumerate(self.apart):
            for left, top, right, bottom in self.apart[:k]:
                self.test.assertFalse(x2 > left and x1 < right and y2 > top and y1 < bottom, 'a label covers another')


class Page(HTMLParser):
    """A page read back: its tags are closed, it has no scripts and loads nothing."""
    VOID = ('meta', '!doctype')

    def __init__(self, test, text):
        super().__init__()
        self.test, self.open = test, []
        self.feed(text)
        test.assertEqual(self.open, [])

    def handle_starttag(self, tag, attributes):
        self.test.assertNotIn(tag, ('script', 'link', 'img', 'iframe', 'object'))
        for name, _ in attributes:
            self.test.assertFalse(name.startswith('on') or name in ('href', 'src'), name)
        if tag not in self.VOID:
            self.open.append(tag)

    def handle_startendtag(self, tag, attributes):
        pass

    def handle_endtag(self, tag):
        self.test.assertEqual(self.open.pop(), tag)


class Drawn(unittest.TestCase):
    def test_random_plans(self):
        rng = random.Random(21)
        for k in range(500):
            plan = random_plan(rng)
            with self.subTest(plan=k):
                Drawing(self, picture.draw(plan, title=f'plan {k}')).holds(plan, range(len(plan.operations)))
                if k % 10 == 0:
                    Page(self, page.page(plan, f'<plan {k} & more>'))

    def test_long_names(self):
        """Names of any length and alphabet, and the largest numbers: cut where there is no room, never over a box."""
        largest, long = 2**64 - 1, 'größter-ρυθμός.' * 6
        plan = Plan()
        for k in range(3):
            plan.queue(f'{long}q{k}', axis=largest - k)
            plan.semaphore(f'{long}s{k}', owner=k)
            plan.buffer(f'{long}b{k}', size=2**32 - 1)
        for k in range(9):
            plan.add(k % 3, {(k + 2) % 3: largest - 9 + k} if k else (), [0, k % 3], [k % 3], {k % 3: largest - 8 + k})
        handed = plan.with_operation(4, waits=(), signals=[(1, largest - 4), (0, largest - 4)])
        self.assertEqual(handed.judge().number, 17)
        for tried in (plan, plan.with_operation(4, waits=()), plan.with_operation(0, waits=[(2, largest)]), handed):
            Drawing(self, picture.draw(tried, title=long)).holds(tried, range(9))
            Page(self, page.page(tried, long))
            explained(tried)

    def test_what_tells_long_names_apart(self):
        """Names that begin alike differ in the picture too, and no wait loses its value."""
        plan, largest, same = Plan(), 2**64 - 1, 'the-measuring-cell-at-the-end-of-the-line-'
        for k in range(3):
            plan.queue(f'{same}q{k}')
            plan.semaphore(f'{same}s{k}', owner=k)
            plan.buffer(f'{same}b{k}')
        for k in range(3):
            plan.add(k, {k - 1: largest - k + 1} if k else (), [k, (k + 1) % 3][:1 + k % 2], (), {k: largest - k})
        for tried in (plan, plan.with_operation(0, waits=[(2, largest - 2)])):
            drawn = ElementTree.fromstring(picture.draw(tried))
            texts = [node.text for node in drawn.iter() if node.tag.endswith('}text')]
            for kind in 'qb':
                for k in range(3):
                    self.assertTrue(any(re.fullmatch(f'the.*….*{kind}{k}', text) for text in texts), f'{kind}{k}')
            waits = [wait for o in tried.operations for wait in o.waits]
            self.assertEqual(sum('≥' in text for text in texts), len(waits))
            for s, value in waits:
                self.assertTrue(any(re.fullmatch(f't.*….*{s}≥{value}', text) for text in texts), value)

    def test_signals_out_of_turn(self):
        """The two signals have a label each, and the order that is missing is drawn, with the wait that would give it;
        below is the run, with each signal of the semaphore up to the fall."""
        plan = Plan.load(os.path.join(PLANS, 'handed-over-wait-missing.plan'))
        svg = picture.draw(plan)
        self.assertEqual(Drawing(self, svg).signals, {'2.0': ['even=3'], '6.0': ['even=4']})
        self.assertEqual(re.findall('class="missing" data-of="([^"]*)"', svg), ['2.6'])
        texts = [node.text for node in ElementTree.fromstring(svg).iter() if node.tag.endswith('}text')]
        for words in ('missing: wait even≥3', 'even would fall from 4 to 3', '=1', '=2', '=3', '=4'):
            self.assertEqual(texts.count(words), 1, words)
        self.assertEqual(re.findall('class="step" data-of="([^"]*)"', svg), ['0', '1', '6', '2'])
        always = picture.draw(Plan.load(os.path.join(PLANS, 't17-plan-order.plan')))
        self.assertEqual(Drawing(self, always).signals, {'0.0': ['done=1'], '1.1': ['done=2']})
        self.assertIn('must come first, but always comes later', always)
        plan = Plan.parse('plan\nqueue a axis 1\nqueue b axis 2\nsemaphore s owner a\na: signal s=1\n'
                          'b: wait s>=1 signal s=2\na: wait s>=1 signal s=3\nb: signal s=4\nend\n')
        (change,) = plan.judge().explain(strict=True).changes
        self.assertEqual(change.words, 'With a semaphore of its own for a, the plan passes:')
        self.assertIn('>missing<', picture.draw(plan))  # by a semaphore of its own nothing is ordered
        plan = handed_over(26, 20, 13)                  # with more buffers than have a row in every band
        self.assertEqual(plan.judge().number, 17)
        Drawing(self, picture.draw(plan)).holds(plan, range(104))

    def test_larger_plans(self):
        """Above 60 operations there is an overview; above 200 what is near the fault, or what is asked for."""
        rng = random.Random(22)
        for operations in (61, 150, 200):
            plan = many_queues(rng, operations)
            svg = picture.draw(plan)
            self.assertIn('class="overview"', svg)
            Drawing(self, svg).holds(plan, range(operations))
        for plan, near in ((camera(256), None), (camera(256, 200), 800), (many_queues(rng, 1024), None),
                           (stuck(256), None), (long_circle(), None), (handed_over(256, 200), 800),
                           (all_at_once(1024), None)):
            judged = plan.judge()
            if isinstance(judged, Refused):
                near = judged.place
            shown = picture.Picture(plan)
            drawn = Drawing(self, shown.svg())
            drawn.holds(plan, [j for j, level in enumerate(shown.levels)
                               if any(low <= level < high for low, high in shown.bands)])
            self.assertLess(len(drawn.boxes), 400)
            if near is not None:
                self.assertIn(str(near), drawn.boxes)
            self.assertIn('500', Drawing(self, picture.draw(plan, around=500)).boxes)
            self.assertEqual(len(Drawing(self, picture.draw(plan, everything=True)).boxes), len(plan.operations))
        for wrong in ({'around': len(plan.operations)}, {'around': -1}, {'columns': 0}, {'columns': -1}):
            self.assertRaises(ValueError, picture.draw, plan, **wrong)
        self.assertEqual(len(Drawing(self, picture.draw(camera(2), columns=1)).boxes), 8)

    def test_stored_plans(self):
        for path in sorted(glob.glob(os.path.join(glob.escape(PLANS), '*.plan'))):
            name = os.path.basename(path)
            with self.subTest(plan=name):
                try:
                    plan = Plan.load(path)
                except Refused as refused:
                    self.assertIn(f'refused {refused.number} {refused.place}', refused.explain(strict=True).text())
                    Page(self, page.page(refused, name))
                    continue
                Drawing(self, picture.draw(plan, title=name)).holds(plan, range(len(plan.operations)))
                Page(self, page.page(plan, name))

    def test_stored_traces(self):
        plan = Plan.load(os.path.join(PLANS, 'camera.plan'))
        for path in sorted(glob.glob(os.path.join(glob.escape(PLANS), '*.trace'))):
            with self.subTest(trace=os.path.basename(path)), open(path, 'rb') as file:
                recorded = file.read()
                Page(self, page.page(plan, trace=recorded))
                said = explain_trace(plan, recorded)
                with open(path[:-6] + '.txt', encoding='utf-8') as text:
                    self.assertEqual(said.verdict, text.read().split('\nprints:\n')[1].split('\n')[0])
                if not said.number:
                    drawn = Drawing(self, picture.draw(plan, trace=recorded))
                    drawn.holds(plan, range(len(plan.operations)))


# ---- speed

def camera(frames, missing=None):
    plan = Plan()
    for stage in ('capture', 'correct', 'measure', 'readout'):
        plan.queue(stage)
        plan.semaphore(stage + '-done', owner=stage)
    for k in range(4):
        plan.buffer(f'frame{k}', size=8294400)
    for frame in range(frames):
        buffer = f'frame{frame % 4}'
        again = {'readout-done': frame - 3} if frame >= 4 and frame != missing else {}
        plan.add('capture', again, buffer, (), {'capture-done': frame + 1})
        plan.add('correct', {'capture-done': frame + 1}, buffer, (), {'correct-done': frame + 1})
        plan.add('measure', {'correct-done': frame + 1}, buffer, (), {'measure-done': frame + 1})
        plan.add('readout', {'measure-done': frame + 1}, buffer, buffer, {'readout-done': frame + 1})
    return plan


def handed_over(frames, missing_=None, buffers=4):
    """The camera with a semaphore for each buffer, which every stage signals; the first one may wait for nothing."""
    plan = Plan()
    for stage in ('capture', 'correct', 'measure', 'readout'):
        plan.queue(stage)
    for k in range(buffers):
        plan.semaphore(f'turn{k}', owner='capture')
        plan.buffer(f'frame{k}', size=8294400)
    for frame in range(frames):
        for k in range(4):
            turn, buffer, at = f'turn{frame % buffers}', f'frame{frame % buffers}', frame // buffers * 4 + k
            waits = {turn: at} if at and (k or frame != missing_) else {}
            plan.add(k, waits, buffer, buffer if k == 3 else (), {turn: at + 1})
    return plan


def all_at_once(operations):
    """Sixteen queues that signal one semaphore and wait for nothing: nearly every signal is out of turn."""
    plan = Plan()
    for _ in range(16):
        plan.queue()
    plan.semaphore(owner=0)
    for j in range(operations):
        plan.add(j % 16, signal={0: j + 1})
    return plan


def stuck(frames):
    """A camera whose first picture waits for the last one's readout."""
    plan = camera(frames)
    return plan.with_operation(len(plan.operations) // 2 // 4 * 4, waits=((3, frames),))


def long_circle():
    """Sixteen queues; each operation waits for the next queue's, so that nothing starts and no circle is shorter."""
    plan = Plan()
    for k in range(16):
        plan.queue()
        plan.semaphore(owner=k)
    for j in range(1024):
        q, epoch = j % 16, j // 16 + 1
        plan.add(q, [((q + 1) % 16, epoch), ((q + 1) % 16, min(epoch + 1, 64))], signal={q: epoch})
    return plan


def many_queues(rng, operations):
    """Sixteen queues, three waits and four marks an operation, at random: nearly every mark is broken."""
    plan = Plan()
    for k in range(16):
        plan.queue()
        plan.semaphore(owner=k)
    for _ in range(64):
        plan.buffer(size=1 << 20)
    last = [0] * 16
    for _ in range(operations):
        q = rng.randrange(16)
        waits = [(s, rng.randint(1, last[s])) for s in rng.sample(range(16), 3) if last[s] and s != q]
        last[q] += 1
        plan.operations.append(Operation(q, waits, [(q, last[q])],
                                         [(b, rng.random() < 0.3) for b in rng.sample(range(64), 4)]))
    return plan


class Speed(unittest.TestCase):
    def test_largest_plans(self):
        rng = random.Random(23)
        plans = {'passed': camera(256), 'broken mark': camera(256, 200), 'stuck': stuck(256),
                 'stuck from the start': long_circle(), 'all marks broken': many_queues(rng, 1024),
                 'handed over': handed_over(256), 'out of turn': handed_over(256, 200),
                 'all signals out of turn': all_at_once(1024)}
        print(f'\n{"ms of processor time, 1,024 operations":38}  parse  explain  draw  page')
        for name, plan in plans.items():
            self.assertEqual(len(plan.operations), 1024)
            text = plan.text()
            tried = [lambda: Plan.parse(text), lambda: explained(Plan.parse(text)),
                     lambda: picture.draw(Plan.parse(text)), lambda: page.page(Plan.parse(text))]
            took = [best(function) for function in tried]
            took[1:] = [max(0.0, seconds - took[0]) for seconds in took[1:]]
            print(f'{name:38}' + ''.join(f'{1000 * seconds:{width}.0f}' for seconds, width in zip(took, (7, 9, 6, 6))))
            for seconds in took[:3]:
                self.assertLess(seconds, LIMIT)


def explained(plan):
    judged = plan.judge()
    return judged.explain(strict=True).text() if isinstance(judged, Refused) else judged


def best(function, times=3):
    """Seconds of processor time: another program on the machine changes nothing."""
    out = []
    for _ in range(times):
        start = time.process_time()
        function()
        out.append(time.process_time() - start)
    return min(out)


if __name__ == '__main__':
    unittest.main()
