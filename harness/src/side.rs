//! What every implementation under comparison offers: the functions of the C
//! interface, as safe Rust.

/// A frontier as the C interface lends it: 16 axes, 16 epochs, length, taint.
pub type Raw = [u64; 34];

/// Where the epochs begin in a `Raw`.
pub const EPOCHS: usize = 16;
/// Where the length is in a `Raw`.
pub const LENGTH: usize = 32;
/// Where the taint is in a `Raw`.
pub const TAINT: usize = 33;

/// The empty untainted frontier.
pub const EMPTY: Raw = [0; 34];

/// What a trace's answer names, as the C interface lends it: step, operation,
/// wait, and three numbers that are 0. What does not apply is 0.
pub type Found = [u64; 6];

/// The wait that frees a buffer, as the C interface lends it: semaphore, value.
/// Zeros where there is none.
pub type Wait = [u64; 2];

/// How many numbers of a lent state are written: the operations run by queue,
/// then the highest value signalled by semaphore.
pub const STATE: usize = 16 + 1024;

/// What a call hands back, as the C interface lends it: number, place, answer.
/// A refusal's answer is 0, and so is that of a call with nothing to answer.
#[derive(Clone, Copy, PartialEq, Eq, Debug, Default)]
#[repr(C)]
pub struct Told {
    pub number: u64,
    pub place: u64,
    pub answer: u64,
}

impl Told {
    pub const PASSED: Told = Told::answered(0);

    pub const fn answered(answer: u64) -> Told {
        Told {
            number: 0,
            place: 0,
            answer,
        }
    }

    pub const fn refused(number: u64, place: u64) -> Told {
        Told {
            number,
            place,
            answer: 0,
        }
    }
}

/// What a call tells. The three numbers hold a pattern beforehand, so that a
/// call which leaves one unwritten shows.
pub fn told(call: impl FnOnce(&mut Told)) -> Told {
    const PATTERN: u64 = 0x5555_5555_5555_5555;
    let mut told = Told {
        number: PATTERN,
        place: PATTERN,
        answer: PATTERN,
    };
    call(&mut told);
    told
}

/// What is lent to a check: the table for the rows, and the run list.
pub struct Rooms<'a> {
    pub table: &'a mut [u32],
    pub list: &'a mut [u32],
}

/// A table and a run list that can be lent.
#[derive(Clone, PartialEq, Eq, Debug)]
pub struct OwnRooms {
    pub table: Vec<u32>,
    pub list: Vec<u32>,
}

impl OwnRooms {
    /// As long as a plan of so many operations needs them, with zeros.
    pub fn new(operations: usize) -> OwnRooms {
        OwnRooms::filled(0, [16 * operations, 2 * operations])
    }

    /// Of these lengths, filled with a pattern.
    pub fn filled(pattern: u32, [table, list]: [usize; 2]) -> OwnRooms {
        OwnRooms {
            table: vec![pattern; table],
            list: vec![pattern; list],
        }
    }

    pub fn lend(&mut self) -> Rooms<'_> {
        Rooms {
            table: &mut self.table,
            list: &mut self.list,
        }
    }
}

/// One implementation of the interface. Each call writes the three numbers that
/// it is lent last.
pub trait Side {
    fn name(&self) -> String;

    /// Answer: the length of the list of numbers.
    fn read(&self, plan: &[u8], room: &mut [u64], told: &mut Told);

    /// Answer: the length of the stored plan.
    fn write(&self, numbers: &[u64], room: &mut [u8], told: &mut Told);

    fn check(&self, plan: &[u8], rooms: &mut Rooms, told: &mut Told);

    /// Answer: the verdict.
    fn reuse(&self, plan: &[u8], queue: u32, buffer: u32, rooms: &mut Rooms, told: &mut Told);

    /// Answer: 0 none needed, 1 the wait, 2 none would help.
    fn suggest(
        &self,
        plan: &[u8],
        queue: u32,
        buffer: u32,
        rooms: &mut Rooms,
        wait: &mut Wait,
        told: &mut Told,
    );

    fn frontier(
        &self,
        plan: &[u8],
        operation: u32,
        capacity: u32,
        rooms: &mut Rooms,
        frontier: &mut Raw,
        told: &mut Told,
    );

    /// Answer: 0 full, 1 unfinished, 2 unknown, 3 repeated, 4 not first, 5 wait
    /// not met.
    fn trace(
        &self,
        plan: &[u8],
        recorded: &[u8],
        rooms: &mut Rooms,
        state: &mut [u64],
        found: &mut Found,
        told: &mut Told,
    );

    /// Answer: 1 if the axis is listed, with its epoch beside it; 0 if it is
    /// absent, and an epoch of 0. The form is not judged.
    fn lookup(&self, frontier: &Raw, axis: u64, epoch: &mut u64, told: &mut Told);

    fn merge(&self, left: &Raw, right: &Raw, capacity: u32, merged: &mut Raw, told: &mut Told);

    fn raise(
        &self,
        old: &Raw,
        axis: u64,
        epoch: u64,
        capacity: u32,
        raised: &mut Raw,
        told: &mut Told,
    );

    /// Answer: 0 no, 1 yes, 2 unknown.
    fn dominates(&self, left: &Raw, right: &Raw, told: &mut Told);
}
