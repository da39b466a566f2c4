//! The wait that would free a buffer, from the rules' words (R87 to R90): for
//! every signal in turn the plan gets one operation more, is checked again, and
//! is asked again whether the queue may take the buffer anew.

use super::{check_read_then, check_then, told, Flat, Known, Point};
use crate::side::{OwnRooms, Rooms, Told, Wait};

/// R87: the plan with one operation more on this queue, which has this wait
/// alone. It may have one operation more than a stored plan.
fn longer(flat: &Flat, queue: u32, wait: &Point) -> Flat {
    let mut longer = flat.clone();
    longer.queues.push(queue as u8);
    let operation = longer.current();
    longer.waits.push(Point { operation, ..*wait });
    longer
}

/// The reuse question, asked of a plan that is read.
fn verdict(flat: &Flat, queue: u32, buffer: u32) -> Result<u64, Told> {
    let mut rooms = OwnRooms::new(flat.operation_count());
    let ask = |known: &Known| Told::answered(known.reuse_verdict(queue, buffer));
    check_read_then(flat, &mut rooms.lend(), ask).map(|told| told.answer)
}

/// R88: in the longer plan every operation with a mark on the buffer is before
/// the new one, which is the queue's last and has no mark: the verdict is 1.
fn frees(flat: &Flat, queue: u32, buffer: u32, signal: &Point) -> bool {
    let longer = longer(flat, queue, signal);
    verdict(&longer, queue, buffer).expect("a longer plan passes") == 1
}

/// R88: the first signal of the plan whose wait frees the buffer.
fn first_that_frees(flat: &Flat, queue: u32, buffer: u32) -> Option<&Point> {
    let mut signals = flat.signals.iter();
    signals.find(|signal| frees(flat, queue, buffer, signal))
}

/// R89 and R90: what is advised, with the wait, or the refusal.
fn advice(known: &Known, queue: u32, buffer: u32) -> Result<(u64, Wait), Told> {
    known.judge_question(queue, buffer)?;
    match known.reuse_verdict(queue, buffer) {
        0 | 1 => Ok((0, [0, 0])),
        2 => Ok((2, [0, 0])),
        _ => match first_that_frees(known.flat, queue, buffer) {
            Some(signal) => Ok((1, [signal.semaphore.into(), signal.value])),
            None => Err(Told::refused(19, buffer.into())),
        },
    }
}

/// R87 to R90: the wait to add, that none is needed, or that none would help.
pub fn suggest(plan: &[u8], queue: u32, buffer: u32, rooms: &mut Rooms, wait: &mut Wait) -> Told {
    *wait = Wait::default();
    told(check_then(plan, rooms, |known| {
        match advice(known, queue, buffer) {
            Ok((answer, advised)) => {
                *wait = advised;
                Told::answered(answer)
            }
            Err(refusal) => refusal,
        }
    }))
}
