//! What the question for a wait hands back under a seeded fault.

use super::{parse, Fault};
use crate::plan::{Plan, Point};
use crate::side::{Told, Wait};

/// A plan that passes, its rows, and the buffer asked for.
struct Asked<'a> {
    plan: &'a Plan,
    table: &'a [u32],
    buffer: u32,
}

impl Asked<'_> {
    /// Is `i` the operation `j`, or before it?
    fn at_or_before(&self, i: usize, j: usize) -> bool {
        let column = usize::from(self.plan.operations[i].queue);
        self.table[16 * j + column] >= self.table[16 * i + column]
    }

    /// The operations with a mark on the buffer, in order.
    fn marked(&self) -> impl DoubleEndedIterator<Item = usize> + '_ {
        let operations = self.plan.operations.iter().enumerate();
        let has = |marks: &[crate::plan::Mark]| {
            let mut marks = marks.iter();
            marks.any(|mark| u32::from(mark.buffer) == self.buffer)
        };
        operations.filter(move |(_, o)| has(&o.marks)).map(|o| o.0)
    }

    /// Every signal with its operation, in order.
    fn signals(&self) -> impl DoubleEndedIterator<Item = (usize, Point)> + '_ {
        let operations = self.plan.operations.iter().enumerate();
        operations.flat_map(|(i, o)| o.signals.iter().map(move |&signal| (i, signal)))
    }
}

/// Spoils what the reference has handed back for this plan and buffer, with the
/// rows in the table.
pub(super) fn spoil(
    fault: Fault,
    plan: &[u8],
    (queue, buffer): (u32, u32),
    told: Told,
    table: &[u32],
    wait: &mut Wait,
) -> Told {
    let Some(plan) = parse(plan) else {
        return told;
    };
    let asked = Asked {
        plan: &plan,
        table,
        buffer,
    };
    match (fault, told.number, told.answer) {
        (Fault::RefusedAtQueue, 19, _) => return Told::refused(19, queue.into()),
        (Fault::HeldNeedsNone, 0, 2) => return Told::answered(0),
        (Fault::RefusalKeepsWait, 19, _) => {
            if let Some((_, signal)) = asked.signals().next_back() {
                *wait = [signal.semaphore.into(), signal.value];
            }
        }
        (_, 0, 1) => return other_wait(fault, &asked, told, wait),
        _ => {}
    }
    told
}

/// Another wait than the right one, or none.
fn other_wait(fault: Fault, asked: &Asked, told: Told, wait: &mut Wait) -> Told {
    let (Some(first), Some(free)) = (asked.marked().next(), asked.marked().next_back()) else {
        return told;
    };
    let right = |signal: &Point| *wait == [signal.semaphore.into(), signal.value];
    let found = match fault {
        Fault::FirstMark => asked.signals().find(|s| asked.at_or_before(first, s.0)),
        Fault::ComparisonTurned => asked.signals().find(|s| asked.at_or_before(s.0, free)),
        Fault::LastSignal => asked.signals().rfind(|s| asked.at_or_before(free, s.0)),
        Fault::SecondInList => {
            let lists = asked.plan.operations.iter().map(|o| &o.signals);
            let list = lists.into_iter().find(|list| list.iter().any(right));
            list.and_then(|list| list.last()).map(|&signal| (0, signal))
        }
        Fault::ValueBefore => {
            let before = asked.signals().take_while(|s| !right(&s.1)).last();
            let value = before.map_or(0, |before| before.1.value);
            let semaphore = wait[0] as u16;
            Some((0, Point { semaphore, value }))
        }
        _ => return told,
    };
    match found {
        Some((_, signal)) => {
            *wait = [signal.semaphore.into(), signal.value];
            told
        }
        None => {
            *wait = Wait::default();
            Told::refused(19, asked.buffer.into())
        }
    }
}
