//! Plans with long lists, shaped by dials. The search for a costly plan turns
//! them (`src/bin/worst.rs`); all plans of all shapes pass.

use super::{add_kept_marks, axes, below_signal, run_in_turns, signallers};
use super::{Handovers, LastSignals, Rng};
use crate::plan::{Operation, Plan, Point};

/// The dials. Chances are in percent.
#[derive(Clone, Copy, PartialEq, Eq, Debug)]
pub struct Shape {
    /// How many waits, signals and marks an operation has: at least, at most.
    pub lists: [[usize; 2]; 3],
    /// Queues with operations, up to 16.
    pub queues: usize,
    /// An operation is on the queue of the operation listed before it.
    pub stay: usize,
    /// Else it is on the lowest queue, or on the highest.
    pub ends: [usize; 2],
    /// Semaphores that each queue owns, and how many of them it signals.
    pub owned: usize,
    pub semaphores: usize,
    /// A signal is on the first of them, else by the same chance on the second,
    /// and so on; what is left over is on any of them.
    pub skew: usize,
    /// A signal is on one of sixteen semaphores that any queue signals, the last
    /// of those that each queue owns, after a wait for the signal before.
    pub handed: usize,
    /// The run that the waits allow is the plan's order, shuffled in windows of
    /// so many operations.
    pub window: usize,
    /// A wait is for one of so many latest signals in that run.
    pub recent: usize,
    /// It is for any of those since the last operation of its queue instead.
    pub since: usize,
    /// An operation has a wait for the latest signal of all.
    pub latest: usize,
    /// A wait is for less than was signalled.
    pub less: usize,
    pub wait_order: WaitOrder,
    pub buffers: usize,
    /// Of them so many are never freed.
    pub never_freed: usize,
}

/// The order of the waits in an operation's list.
#[derive(Clone, Copy, PartialEq, Eq, Debug)]
pub enum WaitOrder {
    Random,
    /// What is signalled first in the run comes first.
    Rising,
    Falling,
}

impl Shape {
    /// Every list at its limit, but for the waits of what runs first, which has
    /// none; all semaphores of the first form, all buffers. With 1,024 operations
    /// it has 63,659 bytes, and no plan that passes has more.
    pub const GREATEST: Shape = Shape {
        lists: [[3, 3], [2, 2], [4, 4]],
        queues: 16,
        stay: 0,
        ends: [0, 0],
        owned: 4,
        semaphores: 4,
        skew: 0,
        handed: 0,
        window: 1024,
        recent: 64,
        since: 0,
        latest: 0,
        less: 0,
        wait_order: WaitOrder::Random,
        buffers: 256,
        never_freed: 32,
    };

    /// The same in the second form: 69,738 bytes.
    pub const GREATEST_OF_ALL: Shape = Shape {
        owned: 64,
        semaphores: 64,
        ..Shape::GREATEST
    };

    /// What the search has found, from the greatest on: operations that sleep on
    /// one wait after the other, groups of unequal length, and one buffer with
    /// all marks.
    pub const WORST: Shape = Shape {
        ends: [25, 12],
        skew: 75,
        window: 32,
        recent: 16,
        since: 75,
        latest: 50,
        wait_order: WaitOrder::Rising,
        buffers: 1,
        never_freed: 1,
        ..Shape::GREATEST
    };

    /// With as many waits, signals and marks in each operation as the die says.
    pub fn random_counts(self) -> Shape {
        let lists = self.lists.map(|[_, most]| [0, most]);
        Shape { lists, ..self }
    }

    /// With so many signals in a hundred handed over.
    pub fn handed(self, handed: usize) -> Shape {
        Shape { handed, ..self }
    }

    pub fn plan(&self, rng: &mut Rng, operations: usize) -> Plan {
        self.plan_with(rng, operations, |rng| {
            self.lists.map(|[least, most]| rng.between(least, most))
        })
    }

    /// With these numbers of waits, signals and marks.
    pub(super) fn plan_with(
        &self,
        rng: &mut Rng,
        operations: usize,
        mut counts: impl FnMut(&mut Rng) -> [usize; 3],
    ) -> Plan {
        let queues = self.random_queues(rng, operations);
        let counts: Vec<[usize; 3]> = queues.iter().map(|_| counts(rng)).collect();
        let mut plan = Plan {
            axes: axes(rng, 16),
            owners: (0..16).cycle().take(16 * self.owned).collect(),
            sizes: (0..self.buffers).map(|_| rng.word() as u32).collect(),
            operations: Vec::new(),
        };
        self.add_operations(rng, &mut plan, &queues, &counts);
        let mut turns = queues.clone();
        for window in turns.chunks_mut(self.window) {
            rng.shuffle(window);
        }
        let run = run_in_turns(&queues, &turns);
        let handovers = self.hand_over(rng, &mut plan, (&queues, &run), &counts);
        self.add_waits(rng, &mut plan, &run, &handovers, &counts);
        let marks: Vec<usize> = counts.iter().map(|count| count[2]).collect();
        add_kept_marks(rng, &mut plan, &run, &marks, self.never_freed);
        plan
    }

    fn random_queues(&self, rng: &mut Rng, operations: usize) -> Vec<u8> {
        let mut queue = 0;
        let mut next = |_| {
            if !rng.percent(self.stay) {
                let [lowest, highest] = self.ends.map(|chance| rng.percent(chance));
                queue = match (lowest, highest) {
                    (true, _) => 0,
                    (_, true) => self.queues - 1,
                    _ => rng.below(self.queues),
                };
            }
            queue as u8
        };
        (0..operations).map(&mut next).collect()
    }

    /// Operations with their signals.
    fn add_operations(&self, rng: &mut Rng, plan: &mut Plan, queues: &[u8], counts: &[[usize; 3]]) {
        let mut last = vec![0u64; plan.owners.len()];
        for (&queue, &[_, signals, _]) in queues.iter().zip(counts) {
            let mut operation = Operation {
                queue,
                ..Operation::default()
            };
            for _ in 0..signals {
                let chosen = (0..self.semaphores).find(|_| rng.percent(self.skew));
                let which = chosen.unwrap_or_else(|| rng.below(self.semaphores)) as u16;
                let semaphore = u16::from(queue) + 16 * which;
                let value = &mut last[usize::from(semaphore)];
                *value += rng.between(1, 1000) as u64;
                let value = *value;
                operation.signals.push(Point { semaphore, value });
            }
            plan.operations.push(operation);
        }
    }

    /// Puts signals on semaphores that any queue signals, where their operations
    /// come in turn in the run and have room for a wait. Hands back what they have
    /// to wait for.
    fn hand_over(
        &self,
        rng: &mut Rng,
        plan: &mut Plan,
        (queues, run): (&[u8], &[usize]),
        counts: &[[usize; 3]],
    ) -> Handovers {
        let mut handovers = vec![Vec::new(); run.len()];
        if self.handed == 0 {
            return handovers;
        }
        let first = 16 * (self.owned - 1);
        let mut signals = LastSignals::new(run, queues, plan.owners.len());
        for (j, operation) in plan.operations.iter_mut().enumerate() {
            for signal in &mut operation.signals {
                // Those that any queue signals are not signalled otherwise.
                let own = usize::from(signal.semaphore) % first;
                let room = handovers[j].len() < counts[j][0];
                let in_turn = |s: &usize| {
                    let wait = signals.to_wait_for(*s, j);
                    signals.in_turn(*s, j) && (room || wait.is_none())
                };
                let mut tries = (0..8).map(|_| first + rng.below(16));
                let handed = tries.find(in_turn).filter(|_| rng.percent(self.handed));
                let semaphore = handed.unwrap_or(own);
                handovers[j].extend(signals.to_wait_for(semaphore, j));
                let value = signals.last[semaphore].0 + rng.between(1, 1000) as u64;
                signals.last[semaphore] = (value, Some(j));
                *signal = Point {
                    semaphore: semaphore as u16,
                    value,
                };
            }
        }
        handovers
    }

    /// Waits for what is handed over, then for what comes earlier in the run.
    fn add_waits(
        &self,
        rng: &mut Rng,
        plan: &mut Plan,
        run: &[usize],
        handovers: &[Vec<Point>],
        counts: &[[usize; 3]],
    ) {
        let signallers = signallers(plan);
        let mut earlier: Vec<Point> = Vec::new();
        // How many there were after the last operation of each queue.
        let mut own = [0; 16];
        for &j in run {
            let own = &mut own[usize::from(plan.operations[j].queue)];
            plan.operations[j].waits.clone_from(&handovers[j]);
            // What runs first has nothing to wait for.
            let others = match earlier.len() {
                0 => 0,
                _ => counts[j][0] - handovers[j].len(),
            };
            let waits = (0..others).map(|_| self.earlier_signal(rng, *own, earlier.len()));
            let mut waits: Vec<usize> = waits.collect();
            if let Some(first) = waits.first_mut().filter(|_| rng.percent(self.latest)) {
                *first = earlier.len() - 1;
            }
            match self.wait_order {
                WaitOrder::Random => {}
                WaitOrder::Rising => waits.sort_unstable(),
                WaitOrder::Falling => waits.sort_unstable_by_key(|&at| std::cmp::Reverse(at)),
            }
            for at in waits {
                let wait = match rng.percent(self.less) {
                    true => below_signal(rng, &signallers, earlier[at]),
                    false => earlier[at],
                };
                plan.operations[j].waits.push(wait);
            }
            earlier.extend(&plan.operations[j].signals);
            *own = earlier.len();
        }
    }

    /// The position of one of so many earlier signals in the run.
    fn earlier_signal(&self, rng: &mut Rng, own: usize, many: usize) -> usize {
        if own < many && rng.percent(self.since) {
            rng.between(own, many - 1)
        } else {
            many - 1 - rng.below(many.min(self.recent))
        }
    }
}
