//! The reference with a seeded fault, to see that the comparison finds it. The
//! reference itself stays as it is: a fault changes the plan it is given, or
//! what it hands back.

use crate::plan::{Mark, Plan};
use crate::reference::{self, Reference};
use crate::side::{Found, Raw, Rooms, Side, Told, Wait, EMPTY, EPOCHS, LENGTH, TAINT};

mod forms;
mod handovers;
mod suggest;
mod trace;
mod zeros;

/// The mistakes that the rules exclude, a row's own column, and mistakes of the
/// trace question, of the question for a wait, of the lookup, of the second form,
/// of handovers and of waits for 0.
#[derive(Clone, Copy, PartialEq, Eq, Debug)]
pub enum Fault {
    /// A wait takes over what the latest signal knows (R17).
    NewestSignal,
    /// Of a holding after a free only the first use is tested (R33).
    FirstUseOnly,
    /// A row does not count its own operation.
    OwnColumnMissing,
    /// A missing axis is taken for agreement (R60).
    AbsentIsMet,
    /// A frontier that lost an entry counts as dominated (R68).
    TaintForgotten,
    /// Plan order is handed back as the run.
    PlanOrder,
    /// A trace is followed past the first wait in an operation's list.
    FirstWaitPassedOver,
    /// A repeated operation is called not first in its queue.
    NotFirstBeforeRepeated,
    /// The state counts the operation of the bad step.
    BadStepCounted,
    /// The state has the signals of operations that did not run.
    SignalsOfAll,
    /// 22 is given where 9 comes first.
    FormBeforeRoom,
    /// A full run is called unfinished.
    UnfinishedForFull,
    /// 22 leaves zeros in the state.
    RefusalClearsState,
    /// A wait for what comes after the first mark, instead of the last free.
    FirstMark,
    /// A wait for what comes before the last free.
    ComparisonTurned,
    /// The last signal that frees the buffer instead of the first.
    LastSignal,
    /// Of two signals in one operation the second.
    SecondInList,
    /// The value of the signal before.
    ValueBefore,
    /// 19 is given at the queue.
    RefusedAtQueue,
    /// 19 leaves a wait.
    RefusalKeepsWait,
    /// No wait is needed for a buffer that is held.
    HeldNeedsNone,
    /// An absent axis is looked up as one listed with epoch 0 (R60).
    AbsentIsZero,
    /// A semaphore's position loses its higher byte.
    PositionOfOneByte,
    /// A plan of 64 semaphores is written in the second form (R8).
    SecondFormFor64,
    /// Places in a plan in the second form do not count the first byte.
    LeadNotCounted,
    /// A plan in the second form is refused, as it was before there was one.
    FirstFormOnly,
    /// A state for 64 semaphores is enough.
    StateFor64,
    /// 6 is given for a signal of a queue that is not the owner.
    OwnersOnly,
    /// A wait is met once its semaphore has come to its value (R22).
    MetByValue,
    /// 17 names the operation of the signal before.
    EarlierNamed,
    /// A signal is held against the first of its semaphore, not the one before.
    FirstSignaller,
    /// A signal is held against the one before it on whichever semaphore.
    AnySemaphore,
    /// A signal is out of turn if its operation is not before the earlier one's.
    HandoverTurned,
    /// 17 is told as 11.
    ToldAsEleven,
    /// 11 is given where 17 comes first.
    MarksFirst,
    /// 17 is given where 10 comes first.
    HandoversFirst,
    /// 17 is never given.
    NeverOutOfTurn,
    /// A second signal of a semaphore in one operation is out of turn.
    SecondOutOfTurn,
    /// 17 leaves a run in the list.
    RefusalKeepsRun,
    /// A wait for 0 is taken: the least value of a wait is 0.
    LeastZero,
    /// A signal of 0 is refused by 16: the least value of a signal is 1.
    SignalsAboveZero,
    /// 16 is told as 4.
    FourForSixteen,
    /// A wait for 1 is refused by 16: the least value of a wait is 2.
    LeastTwo,
    /// 16 is at the wait's semaphore.
    ZeroAtSemaphore,
    /// A value of zeros that is cut short is 16.
    CutIsZero,
    /// A wait for 0 on an unknown semaphore is 16.
    ZeroBeforeUnknown,
    /// 16 is given after 1 to 5, not in reading order.
    ZeroAfterReading,
    /// 16 leaves zeros in table and list.
    ZeroClearsRooms,
    /// The writer takes a wait for 0.
    ZeroIsWritten,
}

impl Fault {
    /// Fault 1 is the first.
    pub const ALL: [Fault; 49] = [
        Fault::NewestSignal,
        Fault::FirstUseOnly,
        Fault::OwnColumnMissing,
        Fault::AbsentIsMet,
        Fault::TaintForgotten,
        Fault::PlanOrder,
        Fault::FirstWaitPassedOver,
        Fault::NotFirstBeforeRepeated,
        Fault::BadStepCounted,
        Fault::SignalsOfAll,
        Fault::FormBeforeRoom,
        Fault::UnfinishedForFull,
        Fault::RefusalClearsState,
        Fault::FirstMark,
        Fault::ComparisonTurned,
        Fault::LastSignal,
        Fault::SecondInList,
        Fault::ValueBefore,
        Fault::RefusedAtQueue,
        Fault::RefusalKeepsWait,
        Fault::HeldNeedsNone,
        Fault::AbsentIsZero,
        Fault::PositionOfOneByte,
        Fault::SecondFormFor64,
        Fault::LeadNotCounted,
        Fault::FirstFormOnly,
        Fault::StateFor64,
        Fault::OwnersOnly,
        Fault::MetByValue,
        Fault::EarlierNamed,
        Fault::FirstSignaller,
        Fault::AnySemaphore,
        Fault::HandoverTurned,
        Fault::ToldAsEleven,
        Fault::MarksFirst,
        Fault::HandoversFirst,
        Fault::NeverOutOfTurn,
        Fault::SecondOutOfTurn,
        Fault::RefusalKeepsRun,
        Fault::LeastZero,
        Fault::SignalsAboveZero,
        Fault::FourForSixteen,
        Fault::LeastTwo,
        Fault::ZeroAtSemaphore,
        Fault::CutIsZero,
        Fault::ZeroBeforeUnknown,
        Fault::ZeroAfterReading,
        Fault::ZeroClearsRooms,
        Fault::ZeroIsWritten,
    ];

    /// The plan the reference is given instead.
    fn rewrite(self, plan: &mut Plan) {
        match self {
            Fault::NewestSignal => wait_for_newest(plan),
            Fault::FirstUseOnly => keep_first_uses(plan),
            Fault::PositionOfOneByte => cut_positions(plan),
            _ => {}
        }
    }
}

/// Each wait that something meets waits for the highest signal.
fn wait_for_newest(plan: &mut Plan) {
    let mut highest = vec![0; plan.owners.len()];
    for signal in plan.operations.iter().flat_map(|o| &o.signals) {
        let semaphore = usize::from(signal.semaphore);
        highest[semaphore] = signal.value.max(highest[semaphore]);
    }
    for wait in plan.operations.iter_mut().flat_map(|o| &mut o.waits) {
        wait.value = wait.value.max(highest[usize::from(wait.semaphore)]);
    }
}

/// Each position of a semaphore modulo 256.
fn cut_positions(plan: &mut Plan) {
    for operation in &mut plan.operations {
        for point in operation.waits.iter_mut().chain(&mut operation.signals) {
            point.semaphore %= 256;
        }
    }
}

/// After a free of a buffer, the first use stays and the others up to the next
/// free go.
fn keep_first_uses(plan: &mut Plan) {
    #[derive(Clone, Copy, PartialEq)]
    enum Seen {
        NoFree,
        Free,
        FirstUse,
    }
    let mut seen = vec![Seen::NoFree; plan.sizes.len()];
    let mut keep = |mark: &Mark| {
        let seen = &mut seen[usize::from(mark.buffer)];
        match (mark.free, *seen) {
            (true, _) => *seen = Seen::Free,
            (false, Seen::NoFree) => {}
            (false, Seen::Free) => *seen = Seen::FirstUse,
            (false, Seen::FirstUse) => return false,
        }
        true
    };
    for operation in &mut plan.operations {
        operation.marks.retain(&mut keep);
    }
}

/// A readable plan as a tree.
pub fn parse(bytes: &[u8]) -> Option<Plan> {
    let needed = reference::read(bytes, &mut []).place;
    let mut numbers = vec![0; usize::try_from(needed).ok()?];
    let told = reference::read(bytes, &mut numbers);
    (told.number == 0).then(|| Plan::from_numbers(&numbers))
}

/// The reference with a fault, as one side of a comparison.
pub struct Faulty(pub Fault);

impl Faulty {
    fn rewritten(&self, plan: &[u8]) -> Vec<u8> {
        match parse(plan) {
            None => plan.to_vec(),
            Some(mut tree) => {
                self.0.rewrite(&mut tree);
                tree.bytes()
            }
        }
    }

    /// Spoils what a passed check or an answered question leaves.
    fn spoil(&self, told: &Told, plan: &[u8], rooms: &mut Rooms) {
        let rows_are_there = matches!(told.number, 0 | 12 | 13 | 15 | 19 | 21 | 22);
        let Some(plan) = parse(plan).filter(|_| rows_are_there) else {
            return;
        };
        for (position, operation) in plan.operations.iter().enumerate() {
            match self.0 {
                Fault::OwnColumnMissing => {
                    rooms.table[16 * position + usize::from(operation.queue)] = 0;
                }
                Fault::PlanOrder => rooms.list[position] = position as u32,
                _ => {}
            }
        }
    }
}

impl Side for Faulty {
    fn name(&self) -> String {
        format!("reference with fault {:?}", self.0)
    }

    fn read(&self, plan: &[u8], room: &mut [u64], told: &mut Told) {
        if let Some(refused) = zeros::refused(self.0, plan) {
            *told = refused;
            return;
        }
        Reference.read(plan, room, told);
        forms::spoil(self.0, plan, told);
        zeros::read(self.0, plan, room, told);
    }

    fn write(&self, numbers: &[u64], room: &mut [u8], told: &mut Told) {
        match self.0 {
            Fault::SecondFormFor64 => forms::write_wide(numbers, room, told),
            Fault::ZeroIsWritten => zeros::write(numbers, room, told),
            _ => Reference.write(numbers, room, told),
        }
    }

    fn check(&self, plan: &[u8], rooms: &mut Rooms, told: &mut Told) {
        if let Some(refused) = zeros::refused(self.0, plan) {
            *told = refused;
            return;
        }
        Reference.check(&self.rewritten(plan), rooms, told);
        self.spoil(told, plan, rooms);
        forms::spoil(self.0, plan, told);
        handovers::spoil(self.0, plan, told, rooms);
        zeros::check(self.0, plan, told, rooms);
    }

    fn reuse(&self, plan: &[u8], queue: u32, buffer: u32, rooms: &mut Rooms, told: &mut Told) {
        Reference.reuse(&self.rewritten(plan), queue, buffer, rooms, told);
        self.spoil(told, plan, rooms);
    }

    fn suggest(
        &self,
        plan: &[u8],
        queue: u32,
        buffer: u32,
        rooms: &mut Rooms,
        wait: &mut Wait,
        told: &mut Told,
    ) {
        let rewritten = self.rewritten(plan);
        Reference.suggest(&rewritten, queue, buffer, rooms, wait, told);
        self.spoil(told, plan, rooms);
        *told = suggest::spoil(self.0, plan, (queue, buffer), *told, rooms.table, wait);
    }

    fn frontier(
        &self,
        plan: &[u8],
        operation: u32,
        capacity: u32,
        rooms: &mut Rooms,
        frontier: &mut Raw,
        told: &mut Told,
    ) {
        let rewritten = self.rewritten(plan);
        Reference.frontier(&rewritten, operation, capacity, rooms, frontier, told);
        self.spoil(told, plan, rooms);
    }

    fn trace(
        &self,
        plan: &[u8],
        recorded: &[u8],
        rooms: &mut Rooms,
        state: &mut [u64],
        found: &mut Found,
        told: &mut Told,
    ) {
        let rewritten = self.rewritten(plan);
        Reference.trace(&rewritten, recorded, rooms, state, found, told);
        self.spoil(told, plan, rooms);
        *told = trace::spoil(self.0, (plan, recorded), *told, state, found);
    }

    fn lookup(&self, frontier: &Raw, axis: u64, epoch: &mut u64, told: &mut Told) {
        Reference.lookup(frontier, axis, epoch, told);
        if self.0 == Fault::AbsentIsZero {
            *told = Told::answered(1);
        }
    }

    fn merge(&self, left: &Raw, right: &Raw, capacity: u32, merged: &mut Raw, told: &mut Told) {
        Reference.merge(left, right, capacity, merged, told);
    }

    fn raise(
        &self,
        old: &Raw,
        axis: u64,
        epoch: u64,
        capacity: u32,
        raised: &mut Raw,
        told: &mut Told,
    ) {
        Reference.raise(old, axis, epoch, capacity, raised, told);
    }

    fn dominates(&self, left: &Raw, right: &Raw, told: &mut Told) {
        let well_formed = reference::well_formed(left) && reference::well_formed(right);
        let mut right = *right;
        match self.0 {
            Fault::AbsentIsMet if well_formed => right = only_listed(left, &right),
            Fault::TaintForgotten if well_formed => right[TAINT] = 0,
            _ => {}
        }
        Reference.dominates(left, &right, told);
    }
}

/// The right frontier's entries whose axes the left lists.
fn only_listed(left: &Raw, right: &Raw) -> Raw {
    let left_axes = &left[..left[LENGTH] as usize];
    let mut listed = EMPTY;
    let mut length = 0;
    for slot in 0..right[LENGTH] as usize {
        if left_axes.contains(&right[slot]) {
            listed[length] = right[slot];
            listed[EPOCHS + length] = right[EPOCHS + slot];
            length += 1;
        }
    }
    listed[LENGTH] = length as u64;
    listed[TAINT] = right[TAINT];
    listed
}
