//! A recorded trace held against the plan, from the rules' words (R80 to R84): each step is
//! taken once what its waits rest on has run. The semaphores' values are for the state alone.

use super::{check_then, told, Known, QUEUES};
use crate::side::{Found, Rooms, Told, STATE};

/// The count, and each step in two bytes.
fn steps(trace: &[u8]) -> Option<&[[u8; 2]]> {
    let (count, rest) = trace.split_first_chunk::<2>()?;
    let (steps, odd) = rest.as_chunks::<2>();
    let agrees = odd.is_empty() && steps.len() == usize::from(u16::from_le_bytes(*count));
    agrees.then_some(steps)
}

/// Where each operation's entries begin in a list that is in operation order;
/// one more for the end.
fn starts(operations: usize, entries: impl Iterator<Item = u16>) -> Vec<u16> {
    let mut starts = vec![0; operations + 1];
    for operation in entries {
        starts[usize::from(operation) + 1] += 1;
    }
    for operation in 0..operations {
        starts[operation + 1] += starts[operation];
    }
    starts
}

/// Why a step departs.
enum Departs {
    Unknown,
    Repeated,
    NotFirst,
    /// The position of the first unmet wait in its operation's list.
    WaitNotMet(usize),
}

/// A plan that is being run.
struct Cell<'a> {
    known: &'a Known<'a>,
    /// Where each operation's signals begin.
    signals: Vec<u16>,
    has_run: Vec<bool>,
    /// The next operation of each queue, or `NONE`, which is no operation.
    heads: [u16; QUEUES],
    /// How many operations each queue has run.
    counts: [u64; QUEUES],
    /// The highest value signalled so far.
    values: Vec<u64>,
}

impl<'a> Cell<'a> {
    fn new(known: &'a Known<'a>) -> Cell<'a> {
        let flat = known.flat;
        let operations = flat.operation_count();
        Cell {
            known,
            signals: starts(operations, flat.signals.iter().map(|s| s.operation)),
            has_run: vec![false; operations],
            heads: known.order.first,
            counts: [0; QUEUES],
            values: vec![0; flat.owners.len()],
        }
    }

    /// R81: the first reason why a step with this operation departs.
    fn judge(&self, operation: u16) -> Result<(), Departs> {
        let position = usize::from(operation);
        let Some(&has_run) = self.has_run.get(position) else {
            return Err(Departs::Unknown);
        };
        if has_run {
            return Err(Departs::Repeated);
        }
        let flat = self.known.flat;
        if self.heads[usize::from(flat.queues[position])] != operation {
            return Err(Departs::NotFirst);
        }
        // R22: a wait is met once what it rests on has run.
        let mut rests_on = self.known.order.targets(position).iter();
        match rests_on.position(|&signaller| !self.has_run[usize::from(signaller)]) {
            None => Ok(()),
            Some(wait) => Err(Departs::WaitNotMet(wait)),
        }
    }

    /// Runs an operation that has been judged.
    fn run(&mut self, operation: u16) {
        let position = usize::from(operation);
        let flat = self.known.flat;
        let queue = usize::from(flat.queues[position]);
        self.has_run[position] = true;
        self.counts[queue] += 1;
        self.heads[queue] = self.known.order.next[position];
        let signals = usize::from(self.signals[position])..usize::from(self.signals[position + 1]);
        for signal in &flat.signals[signals] {
            let value = &mut self.values[usize::from(signal.semaphore)];
            *value = signal.value.max(*value);
        }
    }

    /// Follows the trace to its end or to the first step that departs.
    fn follow(&mut self, steps: &[[u8; 2]]) -> (u64, Found) {
        for (step, &operation) in steps.iter().enumerate() {
            let operation = u16::from_le_bytes(operation);
            let (answer, wait) = match self.judge(operation) {
                Ok(()) => {
                    self.run(operation);
                    continue;
                }
                Err(Departs::Unknown) => (2, 0),
                Err(Departs::Repeated) => (3, 0),
                Err(Departs::NotFirst) => (4, 0),
                Err(Departs::WaitNotMet(wait)) => (5, wait),
            };
            let found = [step as u64, u64::from(operation), wait as u64, 0, 0, 0];
            return (answer, found);
        }
        let full = self.has_run.iter().all(|&has_run| has_run);
        (u64::from(!full), [steps.len() as u64, 0, 0, 0, 0, 0])
    }
}

/// R80 to R84: what was followed, where it departs, and the state.
pub fn trace(
    plan: &[u8],
    trace: &[u8],
    rooms: &mut Rooms,
    state: &mut [u64],
    found: &mut Found,
) -> Told {
    *found = Found::default();
    told(check_then(plan, rooms, |known| {
        let Some(state) = state.first_chunk_mut::<STATE>() else {
            return Told::refused(9, STATE as u64);
        };
        let Some(steps) = steps(trace) else {
            return Told::refused(22, 0);
        };
        let mut cell = Cell::new(known);
        let answer;
        (answer, *found) = cell.follow(steps);
        let (counts, values) = state.split_at_mut(QUEUES);
        counts.copy_from_slice(&cell.counts);
        // Unused places are 0.
        let (used, unused) = values.split_at_mut(cell.values.len());
        used.copy_from_slice(&cell.values);
        unused.fill(0);
        Told::answered(answer)
    }))
}
