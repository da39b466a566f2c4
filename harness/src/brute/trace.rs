//! A recorded trace of a small plan, looked up among all its runs.

use super::{highest_so_far, Met, Position};
use crate::plan::Plan;
use crate::side::{Found, STATE};
use std::fmt;

/// Every run of a small plan, each as one word: a one, then three bits for each
/// step.
#[derive(Clone, Default, PartialEq, Eq)]
pub struct EveryRun(Vec<u32>);

impl fmt::Debug for EveryRun {
    fn fmt(&self, f: &mut fmt::Formatter<'_>) -> fmt::Result {
        write!(f, "{} runs", self.0.len())
    }
}

/// The word of a list of steps; none if no small plan has such a run.
fn word(steps: &[Position]) -> Option<u32> {
    let fits = steps.len() <= super::MOST_OPERATIONS && steps.iter().all(|&step| step < 8);
    fits.then(|| steps.iter().fold(1, |word, &step| word << 3 | step as u32))
}

impl EveryRun {
    pub(super) fn add(&mut self, run: &[Position]) {
        self.0.push(word(run).expect("a run of a small plan"));
    }

    /// Each run as a list of steps.
    pub(super) fn iter(&self) -> impl Iterator<Item = Vec<Position>> + '_ {
        self.0.iter().map(|&word| {
            let length = word.ilog2() / 3;
            let step = |place| (word >> (3 * (length - 1 - place)) & 7) as Position;
            (0..length).map(step).collect()
        })
    }

    /// Is this list of steps a run?
    fn contains(&self, steps: &[Position]) -> bool {
        word(steps).is_some_and(|word| self.0.contains(&word))
    }

    /// Does some longer run begin with these steps?
    fn has_longer(&self, steps: &[Position]) -> bool {
        let begins = |run: u32, word: u32| {
            let mut first_steps = run;
            while first_steps > word {
                first_steps >>= 3;
            }
            first_steps == word && run != word
        };
        word(steps).is_some_and(|word| self.0.iter().any(|&run| begins(run, word)))
    }
}

/// A trace held against a passed plan with these runs: what was followed, what
/// is found, and the state. It is full exactly if it is one of the full runs,
/// unfinished exactly if a longer run begins with it, and else departs at the
/// first step with which it is no run any more.
pub fn follow(plan: &Plan, runs: &EveryRun, trace: &[u16]) -> (u64, Found, [u64; STATE]) {
    let steps: Vec<Position> = trace.iter().map(|&step| step.into()).collect();
    let is_run = |length: &usize| runs.contains(&steps[..*length]);
    let longest = (0..=steps.len()).rev().find(is_run);
    let longest = longest.expect("the empty list is a run");
    let is_full = longest == steps.len() && longest == plan.operations.len();
    let (answer, operation, wait) = match (is_full, runs.has_longer(&steps)) {
        (true, true) => panic!("a run is longer than a full one"),
        (true, false) => (0, 0, 0),
        (false, true) => (1, 0, 0),
        (false, false) => {
            assert!(longest < steps.len(), "a run is not full and stuck");
            let (answer, wait) = why(plan, &steps[..longest], steps[longest]);
            (answer, steps[longest], wait)
        }
    };
    let found = [longest, operation, wait, 0, 0, 0].map(|number| number as u64);
    (answer, found, state(plan, &steps[..longest]))
}

/// Why this operation does not extend this run: the number of the reason, and
/// the position of the unmet wait.
fn why(plan: &Plan, run: &[Position], position: Position) -> (u64, usize) {
    let Some(operation) = plan.operations.get(position) else {
        return (2, 0);
    };
    if run.contains(&position) {
        return (3, 0);
    }
    let missing = |i: Position| plan.operations[i].queue == operation.queue && !run.contains(&i);
    if (0..position).any(missing) {
        return (4, 0);
    }
    let mut waits = operation.waits.iter();
    let unmet = waits.position(|wait| !Met::ByWhatItRestsOn.after(plan, run, wait));
    (5, unmet.expect("a step that breaks no rule extends a run"))
}

/// R83: the state after a run.
fn state(plan: &Plan, run: &[Position]) -> [u64; STATE] {
    let mut state = [0; STATE];
    let (queues, semaphores) = state.split_at_mut(16);
    for (queue, count) in queues.iter_mut().enumerate() {
        let on_queue = |&&i: &&Position| usize::from(plan.operations[i].queue) == queue;
        *count = run.iter().filter(on_queue).count() as u64;
    }
    for (semaphore, highest) in (0..plan.owners.len() as u16).zip(semaphores) {
        *highest = highest_so_far(plan, run, semaphore);
    }
    state
}
