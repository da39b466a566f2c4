//! Small plans judged by trying every run, straight from the words of R21 to R36
//! and R93: a run is judged by what waits rest on and by semaphore values, never
//! by the relation "before". Nothing here is shared with the reference but the
//! type `Plan`.

use crate::plan::{Plan, Point};
use crate::side::{OwnRooms, Told};
use std::collections::BTreeSet;

mod suggest;
mod trace;
pub use suggest::suggest;
pub use trace::{follow, EveryRun};

/// Plans with more operations than this have too many runs.
pub const MOST_OPERATIONS: usize = 7;

/// Position of an operation in the plan.
type Position = usize;

#[derive(Clone, PartialEq, Eq, Debug)]
pub enum Judgement {
    Refused {
        number: u64,
        place: u64,
    },
    Passed {
        /// The standard run, and the number of ready queues before each step.
        run: Vec<Position>,
        ready: Vec<usize>,
        /// For each operation one column for each queue.
        rows: Vec<Vec<usize>>,
        runs: EveryRun,
    },
}

impl Judgement {
    /// What a check tells of this plan, and what it leaves in a table and a run
    /// list of the least lengths that were filled with a pattern (R56).
    pub fn told_and_left(&self, plan: &Plan, pattern: u32) -> (Told, OwnRooms) {
        let operations = plan.operations.len();
        let mut left = OwnRooms::new(operations);
        match self {
            Judgement::Refused { number, place } => {
                if *number <= 9 {
                    left = OwnRooms::filled(pattern, [16 * operations, 2 * operations]);
                }
                (Told::refused(*number, *place), left)
            }
            Judgement::Passed {
                run, ready, rows, ..
            } => {
                for (to, from) in left.list.iter_mut().zip(run.iter().chain(ready)) {
                    *to = *from as u32;
                }
                for (to, from) in left.table.chunks_exact_mut(16).zip(rows) {
                    for (to, from) in to.iter_mut().zip(from) {
                        *to = *from as u32;
                    }
                }
                (Told::PASSED, left)
            }
        }
    }
}

/// Judges a plan whose fields are all in range, with no wait for 0. Panics if a claim of the rules
/// about whole runs fails: that a plan with a full run is never stuck, that a
/// signal is out of turn exactly if some full run does not raise its semaphore in
/// order, and that else every run, full or not, raises every semaphore in order.
pub fn judge(plan: &Plan) -> Judgement {
    assert!(plan.operations.len() <= MOST_OPERATIONS);
    let refused = |number, place: Position| Judgement::Refused {
        number,
        place: place as u64,
    };
    if let Some(operation) = signal_fault(plan) {
        return refused(7, operation);
    }
    if let Some(operation) = wait_fault(plan) {
        return refused(8, operation);
    }
    // Demand 3: passed exactly if there is a full run, and all full runs raise all
    // semaphores in order and keep all buffers.
    let runs = Runs::of(plan, Met::ByWhatItRestsOn);
    if runs.full.is_empty() {
        return refused(10, runs.lowest_in_none(plan));
    }
    assert!(!runs.some_stuck, "a full run exists, and some run is stuck");
    let out_of_turn = runs.lowest_out_of_turn(plan);
    if !runs.not_raised.is_empty() {
        let operation = out_of_turn.expect("a full run does not raise in order, none out of turn");
        let mut signals = plan.operations[operation].signals.iter();
        assert!(
            signals.any(|signal| runs.not_raised.contains(&signal.semaphore)),
            "every full run raises what operation {operation} signals, which is out of turn"
        );
        return refused(17, operation);
    }
    assert_eq!(out_of_turn, None, "yet every full run raises in order");
    assert!(runs.all_raise, "some run does not raise in order");
    if let Some(operation) = runs.lowest_broken(plan) {
        return refused(11, operation);
    }
    let (run, ready) = standard_run(plan);
    Judgement::Passed {
        run,
        ready,
        rows: rows(plan, &runs.full),
        runs: runs.every,
    }
}

/// R44: the first operation with a signal that is 0 or not higher than the one
/// before it.
fn signal_fault(plan: &Plan) -> Option<Position> {
    let mut last = vec![0; plan.owners.len()];
    for (position, operation) in plan.operations.iter().enumerate() {
        for signal in &operation.signals {
            let semaphore = usize::from(signal.semaphore);
            if signal.value == 0 || signal.value <= last[semaphore] {
                return Some(position);
            }
            last[semaphore] = signal.value;
        }
    }
    None
}

/// R45: the first operation with a wait that no signal reaches.
fn wait_fault(plan: &Plan) -> Option<Position> {
    let highest = |semaphore: u16| {
        let signals = plan.operations.iter().flat_map(|o| &o.signals);
        let values = signals.filter(|s| s.semaphore == semaphore);
        values.map(|s| s.value).max().unwrap_or(0)
    };
    plan.operations.iter().position(|operation| {
        let mut waits = operation.waits.iter();
        waits.any(|wait| wait.value > highest(wait.semaphore))
    })
}

// ---------------------------------------------------------------------------
// Runs.

/// R17: the operation of the signal with the least value that reaches the wait's,
/// of equal ones the first.
fn rests_on(plan: &Plan, wait: &Point) -> Option<Position> {
    let mut least: Option<(u64, Position)> = None;
    for (position, operation) in plan.operations.iter().enumerate() {
        for signal in &operation.signals {
            let reaches = signal.semaphore == wait.semaphore && signal.value >= wait.value;
            if reaches && least.is_none_or(|(value, _)| signal.value < value) {
                least = Some((signal.value, position));
            }
        }
    }
    least.map(|(_, position)| position)
}

/// When a wait is met.
#[derive(Clone, Copy, PartialEq, Eq, Debug)]
pub enum Met {
    /// R22: once the operation that it rests on has run.
    ByWhatItRestsOn,
    /// R95, by owners: once the semaphore has come to its value.
    ByValue,
}

impl Met {
    fn after(self, plan: &Plan, run: &[Position], wait: &Point) -> bool {
        match self {
            Met::ByWhatItRestsOn => rests_on(plan, wait).is_some_and(|i| run.contains(&i)),
            Met::ByValue => highest_so_far(plan, run, wait.semaphore) >= wait.value,
        }
    }
}

/// The highest value signalled on a semaphore in a run.
fn highest_so_far(plan: &Plan, run: &[Position], semaphore: u16) -> u64 {
    let mut highest = 0;
    for &operation in run {
        for signal in &plan.operations[operation].signals {
            if signal.semaphore == semaphore {
                highest = highest.max(signal.value);
            }
        }
    }
    highest
}

/// Is the operation ready after this run: does adding it at the end give a run?
fn ready_after(plan: &Plan, met: Met, run: &[Position], position: Position) -> bool {
    let operation = &plan.operations[position];
    let distinct = !run.contains(&position);
    let earlier_of_its_queue_ran = || {
        let mut earlier = 0..position;
        earlier.all(|i| plan.operations[i].queue != operation.queue || run.contains(&i))
    };
    let waits_met = || {
        let mut waits = operation.waits.iter();
        waits.all(|wait| met.after(plan, run, wait))
    };
    distinct && earlier_of_its_queue_ran() && waits_met()
}

/// R26: the semaphores that the run does not raise in order because of a signal in
/// its last step.
fn not_raised_by_last_step(plan: &Plan, run: &[Position]) -> Vec<u16> {
    let Some((&last, before)) = run.split_last() else {
        return Vec::new();
    };
    let signals = &plan.operations[last].signals;
    let raises = |place: usize, signal: &Point| {
        let mut in_list = signals[..place]
            .iter()
            .filter(|s| s.semaphore == signal.semaphore);
        signal.value > 0
            && signal.value > highest_so_far(plan, before, signal.semaphore)
            && in_list.all(|s| signal.value > s.value)
    };
    let signals = signals.iter().enumerate();
    let falling = signals.filter(|(place, signal)| !raises(*place, signal));
    falling.map(|(_, signal)| signal.semaphore).collect()
}

/// A full run: for each operation its step.
type Steps = [u8; MOST_OPERATIONS];

/// Every run of a plan.
pub struct Runs {
    pub every: EveryRun,
    full: Vec<Steps>,
    /// For each operation, whether some run has it.
    pub reached: [bool; MOST_OPERATIONS],
    /// Whether some run is not full, and no operation is ready after it.
    some_stuck: bool,
    /// The semaphores that some full run does not raise in order.
    not_raised: BTreeSet<u16>,
    /// Whether some full run raises every semaphore in order.
    pub some_full_raises: bool,
    /// Whether every run, full or not, raises every semaphore in order.
    pub all_raise: bool,
}

impl Runs {
    pub fn of(plan: &Plan, met: Met) -> Runs {
        let mut runs = Runs {
            every: EveryRun::default(),
            full: Vec::new(),
            reached: [false; MOST_OPERATIONS],
            some_stuck: false,
            not_raised: BTreeSet::new(),
            some_full_raises: false,
            all_raise: true,
        };
        runs.explore(plan, met, &mut Vec::new(), &mut Vec::new());
        runs
    }

    /// Visits this run and every run that begins with it. It is known which
    /// semaphores the run before its last step does not raise in order.
    fn explore(
        &mut self,
        plan: &Plan,
        met: Met,
        run: &mut Vec<Position>,
        not_raised: &mut Vec<u16>,
    ) {
        let before = not_raised.len();
        not_raised.extend(not_raised_by_last_step(plan, run));
        self.all_raise &= not_raised.is_empty();
        self.every.add(run);
        let mut extended = false;
        for operation in 0..plan.operations.len() {
            if ready_after(plan, met, run, operation) {
                extended = true;
                self.reached[operation] = true;
                run.push(operation);
                self.explore(plan, met, run, not_raised);
                run.pop();
            }
        }
        if run.len() == plan.operations.len() {
            self.full.push(steps(run));
            self.not_raised.extend(not_raised.iter());
            self.some_full_raises |= not_raised.is_empty();
        } else if !extended {
            self.some_stuck = true;
        }
        not_raised.truncate(before);
    }

    fn lowest_in_none(&self, plan: &Plan) -> Position {
        let reached = &self.reached[..plan.operations.len()];
        let lowest = reached.iter().position(|reached| !reached);
        lowest.expect("no full run, yet each operation is in some run")
    }

    /// R94 by runs: the lowest operation with a signal which some full run has
    /// earlier than the operation of the signal before it (R93).
    fn lowest_out_of_turn(&self, plan: &Plan) -> Option<Position> {
        let too_soon = |&(before, own): &(Position, Position)| {
            let mut full = self.full.iter();
            full.any(|steps| steps[own] < steps[before])
        };
        let handovers = handovers(plan).into_iter();
        handovers.filter(too_soon).map(|(_, own)| own).min()
    }

    /// The lowest operation with a mark for which some full run breaks what
    /// keeping asks of it.
    pub fn lowest_broken(&self, plan: &Plan) -> Option<Position> {
        let marks = asked_of_marks(plan).into_iter();
        let broken =
            marks.filter(|&mark| !self.full.iter().all(|steps| done_as_asked(mark, steps)));
        broken.map(|(operation, _)| operation).min()
    }
}

/// R93: of each signal that is not the first of its semaphore the operation of
/// the signal before it, and its own.
fn handovers(plan: &Plan) -> Vec<(Position, Position)> {
    let mut handovers = Vec::new();
    for semaphore in 0..plan.owners.len() {
        let mut before = None;
        for (own, operation) in plan.operations.iter().enumerate() {
            for signal in &operation.signals {
                if usize::from(signal.semaphore) == semaphore {
                    handovers.extend(before.map(|before| (before, own)));
                    before = Some(own);
                }
            }
        }
    }
    handovers
}

/// For each operation of a full run its step.
fn steps(run: &[Position]) -> Steps {
    let mut steps = [0; MOST_OPERATIONS];
    for (step, &operation) in run.iter().enumerate() {
        steps[operation] = step as u8;
    }
    steps
}

/// R27: the standard run, by trying the queues from the lowest.
fn standard_run(plan: &Plan) -> (Vec<Position>, Vec<usize>) {
    let (mut run, mut ready_numbers) = (Vec::new(), Vec::new());
    while run.len() < plan.operations.len() {
        let positions = 0..plan.operations.len();
        let ready = positions.filter(|&i| ready_after(plan, Met::ByWhatItRestsOn, &run, i));
        let mut queues: Vec<_> = ready.map(|i| (plan.operations[i].queue, i)).collect();
        queues.sort_unstable();
        ready_numbers.push(queues.len());
        run.push(queues[0].1);
    }
    (run, ready_numbers)
}

/// Column q of row j counts the operations on q that are j, or come earlier
/// than j in every full run: exactly these are before j.
fn rows(plan: &Plan, full: &[Steps]) -> Vec<Vec<usize>> {
    let positions = 0..plan.operations.len();
    let counted = |i: Position, j: Position| full.iter().all(|steps| steps[i] <= steps[j]);
    let column = |j, queue| {
        let on_queue = positions
            .clone()
            .filter(move |&i| usize::from(plan.operations[i].queue) == queue);
        on_queue.filter(|&i| counted(i, j)).count()
    };
    let row = |j| (0..plan.axes.len()).map(|queue| column(j, queue)).collect();
    positions.clone().map(row).collect()
}

// ---------------------------------------------------------------------------
// Holdings.

/// What keeping asks of one mark.
#[derive(Clone, Copy)]
enum Asked {
    /// R32: a use is not after the free of its holding.
    NoLaterThan(Position),
    /// R33: a mark is after the free that ended the holding before its own.
    LaterThan(Position),
}

/// Each mark's operation with what keeping asks of the mark.
fn asked_of_marks(plan: &Plan) -> Vec<(Position, Asked)> {
    let mut asked = Vec::new();
    for buffer in 0..plan.sizes.len() {
        let marks = marks_on(plan, buffer);
        let holdings = marks.split_inclusive(|&(_, free)| free);
        let mut free_before = None;
        for holding in holdings {
            let own_free = holding.last().filter(|(_, free)| *free).map(|m| m.0);
            for &(operation, free) in holding {
                if let (false, Some(own)) = (free, own_free) {
                    asked.push((operation, Asked::NoLaterThan(own)));
                }
                if let Some(before) = free_before {
                    asked.push((operation, Asked::LaterThan(before)));
                }
            }
            free_before = own_free;
        }
    }
    asked
}

/// R30: the marks on a buffer in their order, each with its operation, and
/// whether it is a free.
fn marks_on(plan: &Plan, buffer: usize) -> Vec<(Position, bool)> {
    let mut marks = Vec::new();
    for (position, operation) in plan.operations.iter().enumerate() {
        for mark in &operation.marks {
            if usize::from(mark.buffer) == buffer {
                marks.push((position, mark.free));
            }
        }
    }
    marks
}

/// Does the full run do what keeping asks of this mark?
fn done_as_asked((operation, asked): (Position, Asked), steps: &Steps) -> bool {
    match asked {
        Asked::NoLaterThan(free) => steps[operation] <= steps[free],
        Asked::LaterThan(free) => steps[operation] > steps[free],
    }
}

/// The verdict table of the reuse question, for a passed plan: "before" is read
/// off the rows by counting.
pub fn reuse(plan: &Plan, rows: &[Vec<usize>], queue: usize, buffer: usize) -> u64 {
    let marks = marks_on(plan, buffer);
    let Some(&(_, last_is_free)) = marks.last() else {
        return 0;
    };
    if !last_is_free {
        return 2;
    }
    let on_queue = |q: usize| {
        let positions = 0..plan.operations.len();
        positions.filter(move |&i| usize::from(plan.operations[i].queue) == q)
    };
    let Some(asking) = on_queue(queue).next_back() else {
        return 3;
    };
    // R58: seen by the queue.
    let placed = |i: Position| {
        let own = usize::from(plan.operations[i].queue);
        on_queue(own).take(rows[asking][own]).any(|p| p == i)
    };
    if marks.iter().all(|&(i, _)| placed(i)) {
        1
    } else {
        3
    }
}

// ---------------------------------------------------------------------------
// Sparse frontiers as plain lists.

/// Entries and taint. The entries' axes rise.
pub type Frontier = (Vec<(u64, u64)>, bool);

/// Merge by its words: the larger epoch of each axis, the largest entries stay.
pub fn merge(left: &Frontier, right: &Frontier, capacity: usize) -> Frontier {
    let mut axes: Vec<u64> = left.0.iter().chain(&right.0).map(|e| e.0).collect();
    axes.sort_unstable();
    axes.dedup();
    let larger = |axis| epoch_of(&left.0, axis).max(epoch_of(&right.0, axis));
    let entries = axes
        .into_iter()
        .map(|axis| (axis, larger(axis).unwrap_or(0)));
    let (kept, cut) = keep_largest(entries.collect(), capacity);
    (kept, cut || left.1 || right.1)
}

/// R62: which entries are kept.
pub fn keep_largest(mut entries: Vec<(u64, u64)>, capacity: usize) -> (Vec<(u64, u64)>, bool) {
    let cut = entries.len() > capacity;
    entries.sort_unstable_by_key(|&(axis, epoch)| std::cmp::Reverse((epoch, axis)));
    entries.truncate(capacity);
    entries.sort_unstable();
    (entries, cut)
}

/// The three answers of dominance: `Some(yes or no)`, or `None` for unknown.
pub fn dominates(left: &Frontier, right: &Frontier) -> Option<bool> {
    let mut entries = right.0.iter();
    let all_reached = entries.all(|&(axis, epoch)| match epoch_of(&left.0, axis) {
        Some(reached) => reached >= epoch,
        None => false,
    });
    match (all_reached, left.1, right.1) {
        (true, _, false) => Some(true),
        (true, _, true) => None,
        (false, false, _) => Some(false),
        (false, true, _) => None,
    }
}

fn epoch_of(entries: &[(u64, u64)], axis: u64) -> Option<u64> {
    let mut entries = entries.iter();
    entries.find(|entry| entry.0 == axis).map(|entry| entry.1)
}
