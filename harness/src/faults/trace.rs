//! What the trace question hands back under a seeded fault.

use super::{parse, Fault};
use crate::plan::Plan;
use crate::reference;
use crate::side::{Found, OwnRooms, Told, STATE};
use crate::traces;

/// Spoils what the reference has handed back for this plan and trace.
pub(super) fn spoil(
    fault: Fault,
    (plan, trace): (&[u8], &[u8]),
    told: Told,
    state: &mut [u64],
    found: &mut Found,
) -> Told {
    let Some(plan) = parse(plan) else {
        return told;
    };
    match (fault, told.number, told.answer) {
        (Fault::FirstWaitPassedOver, 0, 5) => return pass_over(plan, trace, state, found),
        (Fault::NotFirstBeforeRepeated, 0, 3) => return Told::answered(4),
        (Fault::UnfinishedForFull, 0, 0) => return Told::answered(1),
        (Fault::FormBeforeRoom, 9, _) if state.len() < STATE && !traces::well_formed(trace) => {
            return Told::refused(22, 0);
        }
        (Fault::StateFor64, 9, _) if told.place == STATE as u64 && state.len() >= 80 => {
            return Told::answered(0);
        }
        (Fault::BadStepCounted, 0, 3..=5) => {
            let operation = &plan.operations[found[1] as usize];
            state[usize::from(operation.queue)] += 1;
        }
        (Fault::SignalsOfAll, 0, _) => {
            for signal in plan.operations.iter().flat_map(|o| &o.signals) {
                state[16 + usize::from(signal.semaphore)] = signal.value;
            }
        }
        (Fault::RefusalClearsState, 22, _) => state[..STATE].fill(0),
        _ => {}
    }
    told
}

/// Follows the trace without each operation's first wait. Marks go too, so that
/// the plan still passes.
fn pass_over(mut plan: Plan, trace: &[u8], state: &mut [u64], found: &mut Found) -> Told {
    for operation in &mut plan.operations {
        operation.marks.clear();
        if !operation.waits.is_empty() {
            operation.waits.remove(0);
        }
    }
    let mut rooms = OwnRooms::new(plan.operations.len());
    let told = reference::trace(&plan.bytes(), trace, &mut rooms.lend(), state, found);
    if told.answer == 5 {
        found[2] += 1;
    }
    told
}
