//! What reader, writer and check hand back under a seeded fault of the stored
//! forms.

use super::Fault;
use crate::plan::{Form, Plan};
use crate::reference;
use crate::side::Told;

/// Spoils what the reference has told of a stored plan.
pub(super) fn spoil(fault: Fault, plan: &[u8], told: &mut Told) {
    if Form::of(plan) != Form::Second {
        return;
    }
    match (fault, told.number) {
        (Fault::LeadNotCounted, 1..=5 | 16) => told.place -= 1,
        (Fault::FirstFormOnly, _) => *told = Told::refused(2, 0),
        _ => {}
    }
}

/// The writer, with 64 semaphores in the second form.
pub(super) fn write_wide(numbers: &[u64], room: &mut [u8], told: &mut Told) {
    *told = reference::write(numbers, room);
    if !matches!(told.number, 0 | 9) {
        return;
    }
    let plan = Plan::from_numbers(numbers);
    if plan.owners.len() == 64 {
        let bytes = plan.bytes_in(Form::Second);
        *told = match room.get_mut(..bytes.len()) {
            Some(room) => {
                room.copy_from_slice(&bytes);
                Told::answered(bytes.len() as u64)
            }
            None => Told::refused(9, bytes.len() as u64),
        };
    }
}
