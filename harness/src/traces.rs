//! Recorded traces made from a seed: runs of a plan, and runs gone wrong.

use crate::generate::{signallers, Rng};
use crate::plan::{Plan, Point};

/// The most steps that a trace's count can say.
pub const MOST_STEPS: usize = 65_535;

/// A stored trace: a count, then each step. A count past two bytes is cut to
/// two, so that it disagrees with the steps.
pub fn stored(steps: &[u16]) -> Vec<u8> {
    let mut bytes = Vec::with_capacity(2 + 2 * steps.len());
    bytes.extend_from_slice(&(steps.len() as u16).to_le_bytes());
    bytes.extend(steps.iter().flat_map(|step| step.to_le_bytes()));
    bytes
}

/// A trace is badly formed if it has fewer than two bytes, or a count that
/// disagrees with the bytes after it.
pub fn well_formed(trace: &[u8]) -> bool {
    let count = trace.first_chunk().map(|&count| u16::from_le_bytes(count));
    count.is_some_and(|count| trace.len() == 2 + 2 * usize::from(count))
}

/// A plan that is being run.
struct Running<'a> {
    plan: &'a Plan,
    /// The operations that each queue has still to run, the next one last.
    queues: Vec<Vec<u16>>,
    has_run: Vec<bool>,
    /// What each operation's waits rest on; none if nothing ever meets a wait.
    rests: Vec<Vec<Option<usize>>>,
}

impl<'a> Running<'a> {
    fn new(plan: &'a Plan) -> Running<'a> {
        let mut queues = vec![Vec::new(); plan.axes.len()];
        for (position, operation) in plan.operations.iter().enumerate().rev() {
            queues[usize::from(operation.queue)].push(position as u16);
        }
        let signallers = signallers(plan);
        let rests = |wait: &Point| {
            let signals = signallers[usize::from(wait.semaphore)].iter();
            let least = signals.filter(|s| s.0 >= wait.value).min_by_key(|s| s.0);
            least.map(|signal| signal.1)
        };
        let operations = plan.operations.iter();
        Running {
            plan,
            queues,
            has_run: vec![false; plan.operations.len()],
            rests: operations
                .map(|operation| operation.waits.iter().map(rests).collect())
                .collect(),
        }
    }

    /// The next operation of each queue, with the position of its first unmet
    /// wait, if there is one.
    fn heads(&self) -> impl Iterator<Item = (u16, Option<usize>)> + '_ {
        let heads = self.queues.iter().filter_map(|queue| queue.last());
        heads.map(|&head| {
            let mut waits = self.rests[usize::from(head)].iter();
            let met = |rests: Option<usize>| rests.is_some_and(|on| self.has_run[on]);
            (head, waits.position(|&rests| !met(rests)))
        })
    }

    /// Runs the next operation of a random ready queue.
    fn step(&mut self, rng: &mut Rng) -> Option<u16> {
        let ready = self.heads().filter(|(_, unmet)| unmet.is_none());
        let ready: Vec<u16> = ready.map(|(head, _)| head).collect();
        if ready.is_empty() {
            return None;
        }
        let head = *rng.pick(&ready);
        let queue = self.plan.operations[usize::from(head)].queue;
        self.queues[usize::from(queue)].pop();
        self.has_run[usize::from(head)] = true;
        Some(head)
    }
}

/// A random run: a full one if the plan is not stuck.
pub fn random_run(rng: &mut Rng, plan: &Plan) -> Vec<u16> {
    let mut running = Running::new(plan);
    std::iter::from_fn(|| running.step(rng)).collect()
}

/// A run in which one operation does not wait as it should, if some operation
/// of it can have an unmet wait. Of the positions in lists of waits each is
/// taken as often, where it occurs.
fn run_that_does_not_wait(rng: &mut Rng, plan: &Plan) -> Vec<u16> {
    let mut running = Running::new(plan);
    let (mut run, mut unmet) = (Vec::new(), [const { Vec::new() }; 3]);
    loop {
        for (head, wait) in running.heads() {
            if let Some(wait) = wait {
                unmet[wait].push((run.len(), head));
            }
        }
        match running.step(rng) {
            Some(head) => run.push(head),
            None => break,
        }
    }
    let occurring: Vec<_> = unmet.iter().filter(|places| !places.is_empty()).collect();
    if !occurring.is_empty() {
        let places = *rng.pick(&occurring);
        let &(step, early) = rng.pick(places);
        run.retain(|&operation| operation != early);
        run.insert(step, early);
    }
    run
}

/// A trace of a plan: a random run, or one that stops early, or one with a
/// single thing wrong; seldom a very long one.
pub fn steps(rng: &mut Rng, plan: &Plan) -> Vec<u16> {
    let mut steps = random_run(rng, plan);
    let (length, operations) = (steps.len(), plan.operations.len());
    match rng.below(1000) {
        0..120 => {}
        120..300 => steps.truncate(rng.below(length + 1)),
        300..420 if length >= 2 => swap_two(rng, &mut steps),
        420..520 if length >= 1 => {
            let again = *rng.pick(&steps);
            steps.insert(rng.between(0, length), again);
        }
        520..590 => {
            let foreign = foreign_number(rng, operations);
            steps.insert(rng.between(0, length), foreign);
        }
        590..650 if length >= 1 => {
            steps.remove(rng.below(length));
        }
        650..900 => steps = run_that_does_not_wait(rng, plan),
        900..990 => {
            let length = rng.between(0, operations + 2);
            let number = |_| rng.below(operations + 1) as u16;
            steps = (0..length).map(number).collect();
        }
        990..995 => {
            let length = rng.between(MOST_STEPS - 1, MOST_STEPS + 2);
            lengthen(rng, &mut steps, length);
        }
        995.. => {
            let length = rng.between(length, length + 3000);
            lengthen(rng, &mut steps, length);
        }
        _ => {}
    }
    steps
}

/// Swaps two steps, neighbours more often than not.
fn swap_two(rng: &mut Rng, steps: &mut [u16]) {
    let last = steps.len() - 1;
    let first = rng.below(last);
    let second = match rng.below(3) {
        0 => rng.between(first + 1, last),
        _ => first + 1,
    };
    steps.swap(first, second);
}

/// No operation of the plan, mostly by little.
fn foreign_number(rng: &mut Rng, operations: usize) -> u16 {
    let foreign = match rng.below(4) {
        0 | 1 => operations,
        2 => rng.between(operations, MOST_STEPS),
        _ => *rng.pick(&[1024, 32_768, MOST_STEPS]),
    };
    foreign as u16
}

/// The same steps and then others, of which all are wrong after a full run.
fn lengthen(rng: &mut Rng, steps: &mut Vec<u16>, length: usize) {
    let filler = match rng.below(3) {
        0 => 0,
        1 => rng.word() as u16,
        _ => steps.first().copied().unwrap_or(0),
    };
    steps.resize(length, filler);
}

/// A stored trace with its form damaged: cut, with a byte more, or with another
/// count. Damage may happen to leave a good form.
pub fn damaged(rng: &mut Rng, trace: &[u8]) -> Vec<u8> {
    let mut bytes = trace.to_vec();
    match rng.below(6) {
        0 => bytes.truncate(rng.below(bytes.len() + 1)),
        1 => bytes.truncate(rng.below(4)),
        2 => bytes.extend((0..rng.between(1, 3)).map(|_| rng.below(3) as u8)),
        3 => bytes[0] = bytes[0].wrapping_add(1),
        4 => bytes[0] = bytes[0].wrapping_sub(1),
        _ => bytes[1] = bytes[1].wrapping_add(1 << rng.below(8)),
    }
    bytes
}
