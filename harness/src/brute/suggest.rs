//! The wait that would free a buffer of a small plan, by its runs.

use super::{marks_on, reuse, EveryRun, Met, Position};
use crate::plan::{Plan, Point};
use crate::side::{Told, Wait};

/// R88 by runs: the new operation never comes before an operation with a mark.
/// It signals nothing and is the last of its queue, so a run of the longer plan
/// is a run of the plan with the new operation put in where it is ready: there
/// all earlier operations of its queue have run, and its wait is met.
fn frees(plan: &Plan, runs: &EveryRun, queue: usize, marked: &[Position], wait: Point) -> bool {
    let on_queue = |i: &Position| usize::from(plan.operations[*i].queue) == queue;
    let earlier: Vec<Position> = (0..plan.operations.len()).filter(on_queue).collect();
    let has_all = |run: &[Position], all: &[Position]| all.iter().all(|i| run.contains(i));
    let ready =
        |run: &[Position]| has_all(run, &earlier) && Met::ByWhatItRestsOn.after(plan, run, &wait);
    let mut runs = runs.iter();
    runs.all(|run| !ready(&run) || has_all(&run, marked))
}

/// R89 and R90, for a passed plan with these rows and runs: what is told, and
/// the wait.
pub fn suggest(
    plan: &Plan,
    (rows, runs): (&[Vec<usize>], &EveryRun),
    queue: usize,
    buffer: usize,
) -> (Told, Wait) {
    match reuse(plan, rows, queue, buffer) {
        0 | 1 => return (Told::answered(0), [0, 0]),
        2 => return (Told::answered(2), [0, 0]),
        _ => {}
    }
    let marked: Vec<Position> = marks_on(plan, buffer).iter().map(|mark| mark.0).collect();
    let mut signals = plan.operations.iter().flat_map(|o| &o.signals);
    match signals.find(|&&signal| frees(plan, runs, queue, &marked, signal)) {
        Some(signal) => (Told::answered(1), [signal.semaphore.into(), signal.value]),
        None => (Told::refused(19, buffer as u64), [0, 0]),
    }
}
