//! The rules that tie a semaphore to its owner (R95), kept for comparison: 6
//! for a signal of another queue, waits that are met once the semaphore has come
//! to their value, and no 17. Where only owners signal they have to say the same
//! as the others. Rows and marks are not judged anew here: their rules are the
//! same.

use super::{fill_rows, lent, told, Flat, Known, Order, COLUMNS, QUEUES};
use crate::side::{Found, Rooms, Told, STATE};

/// 6 and 7, signal by signal in the order of the plan, 6 first.
fn judge_signals(flat: &Flat) -> Result<(), Told> {
    let mut last = vec![0; flat.owners.len()];
    for signal in &flat.signals {
        let semaphore = usize::from(signal.semaphore);
        if flat.owners[semaphore] != flat.queues[usize::from(signal.operation)] {
            return Err(Told::refused(6, signal.operation.into()));
        }
        if signal.value <= last[semaphore] {
            return Err(Told::refused(7, signal.operation.into()));
        }
        last[semaphore] = signal.value;
    }
    Ok(())
}

/// A plan that is being run by the semaphores' values.
struct Cell<'a> {
    flat: &'a Flat,
    /// The operations that each queue has still to run, the next one last.
    queues: Vec<Vec<u16>>,
    has_run: Vec<bool>,
    values: Vec<u64>,
}

impl<'a> Cell<'a> {
    fn new(flat: &'a Flat) -> Cell<'a> {
        let mut queues = vec![Vec::new(); QUEUES];
        for (operation, &queue) in flat.queues.iter().enumerate().rev() {
            queues[usize::from(queue)].push(operation as u16);
        }
        Cell {
            flat,
            queues,
            has_run: vec![false; flat.operation_count()],
            values: vec![0; flat.owners.len()],
        }
    }

    /// The position in its list of the operation's first wait for more than the
    /// semaphore has come to.
    fn unmet(&self, operation: u16) -> Option<usize> {
        let first = self.flat.waits.partition_point(|w| w.operation < operation);
        let waits = self.flat.waits[first..].iter();
        let mut waits = waits.take_while(|wait| wait.operation == operation);
        waits.position(|wait| self.values[usize::from(wait.semaphore)] < wait.value)
    }

    fn run(&mut self, operation: u16) {
        let queue = usize::from(self.flat.queues[usize::from(operation)]);
        assert_eq!(self.queues[queue].pop(), Some(operation));
        self.has_run[usize::from(operation)] = true;
        let signals = &self.flat.signals;
        let first = signals.partition_point(|s| s.operation < operation);
        let signals = signals[first..].iter();
        for signal in signals.take_while(|signal| signal.operation == operation) {
            let value = &mut self.values[usize::from(signal.semaphore)];
            *value = signal.value.max(*value);
        }
    }
}

/// The standard run by values: 10 if it does not become full.
fn standard_run(flat: &Flat, list: &mut [u32]) -> Result<(), Told> {
    let (run, ready_numbers) = list.split_at_mut(flat.operation_count());
    let mut cell = Cell::new(flat);
    for (step, count) in run.iter_mut().zip(ready_numbers) {
        let heads = cell.queues.iter().filter_map(|queue| queue.last());
        let ready: Vec<u16> = heads
            .copied()
            .filter(|&head| cell.unmet(head).is_none())
            .collect();
        let Some(&lowest) = ready.first() else {
            let missing = cell.has_run.iter().position(|has_run| !has_run);
            return Err(Told::refused(10, missing.unwrap_or(0) as u64));
        };
        *count = ready.len() as u32;
        *step = lowest.into();
        cell.run(lowest);
    }
    Ok(())
}

/// After 9: 10 by values, rows, 11.
fn fill(flat: &Flat, table: &mut [u32], list: &mut [u32], order: &Order) -> Result<Told, Told> {
    standard_run(flat, list)?;
    let (rows, _) = table.as_chunks_mut::<COLUMNS>();
    fill_rows(flat, order, &list[..flat.operation_count()], rows);
    Known { flat, order, rows }.judge_marks()?;
    Ok(Told::PASSED)
}

fn check_read(flat: &Flat, rooms: &mut Rooms) -> Result<Told, Told> {
    judge_signals(flat)?;
    let order = Order::new(flat)?;
    let table = lent(rooms.table, COLUMNS * flat.operation_count())?;
    let list = lent(rooms.list, 2 * flat.operation_count())?;
    let told = fill(flat, table, list, &order);
    if told.is_err() {
        table.fill(0);
        list.fill(0);
    }
    told
}

/// The check of a plan by owners.
pub fn check(plan: &[u8], rooms: &mut Rooms) -> Told {
    told(Flat::parse(plan).and_then(|flat| check_read(&flat, rooms)))
}

/// The lowest operation that is in no run by values, for a plan that can be read.
pub fn stuck(plan: &[u8]) -> Option<u64> {
    let flat = Flat::parse(plan).ok()?;
    let mut list = vec![0; 2 * flat.operation_count()];
    standard_run(&flat, &mut list).err().map(|told| told.place)
}

/// Steps held against a plan that passes by owners: the answer, what is found,
/// and the state.
pub fn follow(plan: &[u8], steps: &[u16]) -> Result<(u64, Found, [u64; STATE]), Told> {
    let flat = Flat::parse(plan)?;
    let mut cell = Cell::new(&flat);
    let mut followed = None;
    for (step, &operation) in steps.iter().enumerate() {
        let departs = match cell.has_run.get(usize::from(operation)) {
            None => Some((2, 0)),
            Some(true) => Some((3, 0)),
            Some(false) => {
                let queue = usize::from(flat.queues[usize::from(operation)]);
                match cell.unmet(operation) {
                    _ if cell.queues[queue].last() != Some(&operation) => Some((4, 0)),
                    Some(wait) => Some((5, wait as u64)),
                    None => None,
                }
            }
        };
        if let Some((answer, wait)) = departs {
            followed = Some((answer, [step as u64, operation.into(), wait, 0, 0, 0]));
            break;
        }
        cell.run(operation);
    }
    let full = cell.has_run.iter().all(|&has_run| has_run);
    let at_the_end = (u64::from(!full), [steps.len() as u64, 0, 0, 0, 0, 0]);
    let (answer, found) = followed.unwrap_or(at_the_end);
    let mut state = [0; STATE];
    for (&queue, &has_run) in flat.queues.iter().zip(&cell.has_run) {
        state[usize::from(queue)] += u64::from(has_run);
    }
    state[QUEUES..QUEUES + cell.values.len()].copy_from_slice(&cell.values);
    Ok((answer, found, state))
}
