//! What the check hands back under a seeded fault of handovers.

use super::{parse, Fault};
use crate::brute::{self, Met, Runs};
use crate::generate::{Known, Rng};
use crate::plan::Plan;
use crate::reference::owners;
use crate::side::{Rooms, Told};
use crate::traces;

/// Spoils what the reference has told of a stored plan, and what it has left.
pub(super) fn spoil(fault: Fault, bytes: &[u8], told: &mut Told, rooms: &mut Rooms) {
    let Some(plan) = parse(bytes) else {
        return;
    };
    match (fault, told.number) {
        (Fault::OwnersOnly, _) => {
            if let Some(operation) = not_by_owner(&plan) {
                *told = Told::refused(6, operation);
            }
        }
        (Fault::MetByValue, 10) => {
            let stuck = owners::stuck(bytes);
            *told = stuck.map_or(Told::PASSED, |operation| Told::refused(10, operation));
        }
        (Fault::ToldAsEleven, 17) => told.number = 11,
        (Fault::MarksFirst, 17) if plan.operations.len() <= brute::MOST_OPERATIONS => {
            let runs = Runs::of(&plan, Met::ByWhatItRestsOn);
            if let Some(operation) = runs.lowest_broken(&plan) {
                *told = Told::refused(11, operation as u64);
            }
        }
        (Fault::NeverOutOfTurn, 17) => *told = Told::PASSED,
        (Fault::RefusalKeepsRun, 17) => {
            for (left, step) in rooms.list.iter_mut().zip(some_run(&plan)) {
                *left = step as u32;
            }
        }
        (Fault::HandoversFirst, 10) => {
            if let Some(operation) = lowest_out_of_turn(fault, &plan) {
                *told = Told::refused(17, operation);
            }
        }
        (
            Fault::EarlierNamed
            | Fault::FirstSignaller
            | Fault::AnySemaphore
            | Fault::HandoverTurned
            | Fault::SecondOutOfTurn,
            0 | 11 | 17,
        ) => {
            *told = match (lowest_out_of_turn(fault, &plan), told.number) {
                (Some(operation), _) => Told::refused(17, operation),
                (None, 17) => Told::PASSED,
                (None, _) => *told,
            };
        }
        _ => {}
    }
}

/// The first operation with a signal on a semaphore of another owner.
fn not_by_owner(plan: &Plan) -> Option<u64> {
    let foreign = plan.operations.iter().position(|operation| {
        let mut signals = operation.signals.iter();
        signals.any(|signal| plan.owners[usize::from(signal.semaphore)] != operation.queue)
    });
    foreign.map(|operation| operation as u64)
}

/// A run that cannot be continued.
fn some_run(plan: &Plan) -> Vec<usize> {
    let run = traces::random_run(&mut Rng::new(0), plan);
    run.into_iter().map(usize::from).collect()
}

/// What 17 names if signals out of turn are judged by this fault: those of the
/// operations that run.
fn lowest_out_of_turn(fault: Fault, plan: &Plan) -> Option<u64> {
    let run = some_run(plan);
    let known = Known::of(plan, &run);
    let mut last: Vec<Option<usize>> = vec![None; plan.owners.len()];
    for (own, operation) in plan.operations.iter().enumerate() {
        for signal in &operation.signals {
            let semaphore = match fault {
                Fault::AnySemaphore => 0,
                _ => usize::from(signal.semaphore),
            };
            let Some(before) = last[semaphore] else {
                last[semaphore] = Some(own);
                continue;
            };
            let in_turn = match fault {
                Fault::HandoverTurned => known.at_or_before(own, before),
                Fault::SecondOutOfTurn if own == before => false,
                _ => known.at_or_before(before, own),
            };
            if !in_turn && run.contains(&own) {
                let named = match fault {
                    Fault::EarlierNamed => before,
                    _ => own,
                };
                return Some(named as u64);
            }
            if fault != Fault::FirstSignaller {
                last[semaphore] = Some(own);
            }
        }
    }
    None
}
