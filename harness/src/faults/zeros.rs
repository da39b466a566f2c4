//! What reader, writer and check hand back under a seeded fault of waits for 0.

use super::{parse, Fault};
use crate::plan::{Form, Plan};
use crate::reference::{self, Reference};
use crate::side::{Rooms, Side, Told};

/// The bytes with the greatest value for each wait for 0, up to the first other
/// refusal, and where these values are.
fn patched(bytes: &[u8]) -> (Vec<u8>, Vec<usize>) {
    let (mut bytes, mut places) = (bytes.to_vec(), Vec::new());
    loop {
        let told = reference::read(&bytes, &mut []);
        if told.number != 16 {
            return (bytes, places);
        }
        let place = told.place as usize;
        places.push(place);
        bytes[place..place + 8].fill(255);
    }
}

/// The plan with its waits for 0, if nothing else makes it unreadable.
fn with_zeros(bytes: &[u8]) -> Option<Plan> {
    let (bytes, places) = patched(bytes);
    let mut plan = parse(&bytes)?;
    for operation in 0..plan.operations.len() {
        for wait in 0..plan.operations[operation].waits.len() {
            let [_, [place, _]] = plan.wait_at(operation, wait);
            if places.contains(&place) {
                plan.operations[operation].waits[wait].value = 0;
            }
        }
    }
    Some(plan)
}

/// The place of the first value of this number among the waits, or the signals.
fn first_of(plan: &Plan, value: u64, signals: bool) -> Option<u64> {
    for (position, operation) in plan.operations.iter().enumerate() {
        let points = if signals {
            &operation.signals
        } else {
            &operation.waits
        };
        if let Some(at) = points.iter().position(|point| point.value == value) {
            let [_, [place, _]] = match signals {
                true => plan.signal_at(position, at),
                false => plan.wait_at(position, at),
            };
            return Some(place as u64);
        }
    }
    None
}

/// What is refused under the fault while a stored plan is read, where the
/// reference tells something else.
pub(super) fn refused(fault: Fault, bytes: &[u8]) -> Option<Told> {
    let told = reference::read(bytes, &mut []);
    let place = told.place as usize;
    match (fault, told.number) {
        (Fault::FourForSixteen, 16) => Some(Told::refused(4, told.place)),
        (Fault::ZeroAtSemaphore, 16) => {
            let place = place - Form::of(bytes).width();
            Some(Told::refused(16, place as u64))
        }
        (Fault::ZeroAfterReading, 16) => {
            let told = reference::read(&patched(bytes).0, &mut []);
            matches!(told.number, 1..=5).then_some(told)
        }
        (Fault::CutIsZero, 1) if bytes[place..].iter().all(|&byte| byte == 0) => {
            let whole = [&bytes[..place], &[0; 8]].concat();
            let told = reference::read(&whole, &mut []);
            let cut = told == Told::refused(16, place as u64) && place < bytes.len();
            cut.then_some(told)
        }
        (Fault::ZeroBeforeUnknown, 4) => {
            let mut known = bytes.to_vec();
            known[place..place + Form::of(bytes).width()].fill(0);
            let told = reference::read(&known, &mut []);
            (told == Told::refused(16, (place + Form::of(bytes).width()) as u64)).then_some(told)
        }
        (Fault::SignalsAboveZero, 0 | 9) => {
            let place = first_of(&parse(bytes)?, 0, true)?;
            Some(Told::refused(16, place))
        }
        (Fault::LeastTwo, 0 | 9) => {
            let place = first_of(&parse(bytes)?, 1, false)?;
            Some(Told::refused(16, place))
        }
        _ => None,
    }
}

/// Spoils what the reader has told: a wait for 0 is taken.
pub(super) fn read(fault: Fault, bytes: &[u8], room: &mut [u64], told: &mut Told) {
    if let (Fault::LeastZero, 16, Some(plan)) = (fault, told.number, with_zeros(bytes)) {
        let numbers = plan.numbers();
        *told = match room.get_mut(..numbers.len()) {
            None => Told::refused(9, numbers.len() as u64),
            Some(room) => {
                room.copy_from_slice(&numbers);
                Told::answered(numbers.len() as u64)
            }
        };
    }
}

/// The writer takes waits for 0, where nothing else is refused.
pub(super) fn write(numbers: &[u64], room: &mut [u8], told: &mut Told) {
    let mut patched = numbers.to_vec();
    loop {
        *told = reference::write(&patched, &mut []);
        match told.number {
            16 => patched[told.place as usize] = u64::MAX,
            9 => break,
            _ => return,
        }
    }
    let bytes = Plan::from_numbers(numbers).bytes();
    *told = match room.get_mut(..bytes.len()) {
        None => Told::refused(9, bytes.len() as u64),
        Some(room) => {
            room.copy_from_slice(&bytes);
            Told::answered(bytes.len() as u64)
        }
    };
}

/// Spoils what the check has told, and what it has left. A wait for 0 that is
/// taken orders nothing.
pub(super) fn check(fault: Fault, bytes: &[u8], told: &mut Told, rooms: &mut Rooms) {
    match (fault, told.number) {
        (Fault::LeastZero, 16) => {
            if let Some(mut plan) = with_zeros(bytes) {
                for operation in &mut plan.operations {
                    operation.waits.retain(|wait| wait.value > 0);
                }
                Reference.check(&plan.bytes(), rooms, told);
            }
        }
        (Fault::ZeroClearsRooms, 16) => {
            rooms.table.fill(0);
            rooms.list.fill(0);
        }
        _ => {}
    }
}
