//! Plans and frontiers made from a seed.

use crate::plan::{Form, Mark, Operation, Plan, Point};
use crate::side::{Raw, EMPTY, EPOCHS, LENGTH, TAINT};

mod shape;
pub use shape::{Shape, WaitOrder};

// ---------------------------------------------------------------------------
// Random numbers.

/// xoshiro256**, seeded by splitmix64.
pub struct Rng {
    state: [u64; 4],
}

impl Rng {
    pub fn new(seed: u64) -> Rng {
        let mut x = seed;
        let mut splitmix = || {
            x = x.wrapping_add(0x9E37_79B9_7F4A_7C15);
            let mut z = x;
            z = (z ^ (z >> 30)).wrapping_mul(0xBF58_476D_1CE4_E5B9);
            z = (z ^ (z >> 27)).wrapping_mul(0x94D0_49BB_1331_11EB);
            z ^ (z >> 31)
        };
        Rng {
            state: [splitmix(), splitmix(), splitmix(), splitmix()],
        }
    }

    pub fn word(&mut self) -> u64 {
        let s = &mut self.state;
        let result = s[1].wrapping_mul(5).rotate_left(7).wrapping_mul(9);
        let t = s[1] << 17;
        s[2] ^= s[0];
        s[3] ^= s[1];
        s[1] ^= s[2];
        s[0] ^= s[3];
        s[2] ^= t;
        s[3] = s[3].rotate_left(45);
        result
    }

    /// From 0 to `limit` - 1.
    pub fn below(&mut self, limit: usize) -> usize {
        ((u128::from(self.word()) * limit as u128) >> 64) as usize
    }

    /// Both ends included.
    pub fn between(&mut self, low: usize, high: usize) -> usize {
        low + self.below(high - low + 1)
    }

    pub fn percent(&mut self, chance: usize) -> bool {
        self.below(100) < chance
    }

    pub fn pick<'a, T>(&mut self, items: &'a [T]) -> &'a T {
        &items[self.below(items.len())]
    }

    pub fn shuffle<T>(&mut self, items: &mut [T]) {
        for i in (1..items.len()).rev() {
            items.swap(i, self.below(i + 1));
        }
    }
}

// ---------------------------------------------------------------------------
// Order known to the generator, so that it can make plans that pass.

type Row = [u32; 16];

/// The rows of a plan with a known full run, to place marks in order. This is
/// the plain quadratic way: it need not be fast.
pub(crate) struct Known {
    queues: Vec<usize>,
    epochs: Vec<u32>,
    rows: Vec<Row>,
}

impl Known {
    pub(crate) fn of(plan: &Plan, run: &[usize]) -> Known {
        let queues: Vec<usize> = plan.operations.iter().map(|o| o.queue.into()).collect();
        let mut lengths = [0; 16];
        let epochs = queues.iter().map(|&queue| {
            lengths[queue] += 1;
            lengths[queue]
        });
        let mut known = Known {
            epochs: epochs.collect(),
            rows: vec![[0; 16]; queues.len()],
            queues,
        };
        let signallers = signallers(plan);
        let mut newest = [[0; 16]; 16];
        for &j in run {
            let queue = known.queues[j];
            let mut row: Row = newest[queue];
            for wait in &plan.operations[j].waits {
                let signals = &signallers[usize::from(wait.semaphore)];
                if let Some(signal) = signals.iter().find(|s| s.0 >= wait.value) {
                    raise(&mut row, &known.rows[signal.1]);
                }
            }
            row[queue] = known.epochs[j];
            newest[queue] = row;
            known.rows[j] = row;
        }
        known
    }

    pub(crate) fn at_or_before(&self, i: usize, j: usize) -> bool {
        self.rows[j][self.queues[i]] >= self.epochs[i]
    }
}

fn raise(row: &mut Row, other: &Row) {
    for (a, b) in row.iter_mut().zip(other) {
        *a = (*a).max(*b);
    }
}

/// For each semaphore its signals in plan order: value and operation.
pub(crate) fn signallers(plan: &Plan) -> Vec<Vec<(u64, usize)>> {
    let mut signallers = vec![Vec::new(); plan.owners.len()];
    for (position, operation) in plan.operations.iter().enumerate() {
        for signal in &operation.signals {
            signallers[usize::from(signal.semaphore)].push((signal.value, position));
        }
    }
    signallers
}

/// The holding of one buffer so far, as marks are added in plan order.
#[derive(Clone, Default)]
struct Holding {
    free_before: Option<usize>,
    uses: Vec<usize>,
}

impl Holding {
    fn use_is_kept(&self, known: &Known, j: usize) -> bool {
        let free_before = self.free_before;
        free_before.is_none_or(|free| free != j && known.at_or_before(free, j))
    }

    fn free_is_kept(&self, known: &Known, j: usize) -> bool {
        let mut uses = self.uses.iter();
        self.use_is_kept(known, j) && uses.all(|&i| known.at_or_before(i, j))
    }

    fn add(&mut self, j: usize, free: bool) {
        if free {
            *self = Holding {
                free_before: Some(j),
                uses: Vec::new(),
            };
        } else {
            self.uses.push(j);
        }
    }
}

/// Adds up to `counts[j]` marks to each operation, all kept by every full run.
/// Buffers below `never_freed` are only used.
fn add_kept_marks(
    rng: &mut Rng,
    plan: &mut Plan,
    run: &[usize],
    counts: &[usize],
    never_freed: usize,
) {
    let buffers = plan.sizes.len();
    if buffers == 0 {
        return;
    }
    // Uses one after the other leave room for a free; uses side by side do not.
    let side_by_side = rng.percent(30);
    let known = Known::of(plan, run);
    let mut holdings = vec![Holding::default(); buffers];
    for (j, operation) in plan.operations.iter_mut().enumerate() {
        let mut tries = 4 * counts[j];
        while operation.marks.len() < counts[j] && tries > 0 {
            tries -= 1;
            // The last tries go to buffers that are never freed.
            let most = if tries < counts[j] && never_freed > 0 {
                never_freed
            } else {
                buffers
            };
            let buffer = rng.below(most);
            let holding = &mut holdings[buffer];
            let may_free = buffer >= never_freed && holding.free_is_kept(&known, j);
            let free = may_free && rng.percent(40);
            let may_use = if side_by_side || buffer < never_freed {
                holding.use_is_kept(&known, j)
            } else {
                may_free
            };
            if free || may_use {
                holding.add(j, free);
                let buffer = buffer as u16;
                operation.marks.push(Mark { buffer, free });
            }
        }
    }
}

/// A random order of all operations that keeps the order on each queue.
fn random_run(rng: &mut Rng, queues: &[u8]) -> Vec<usize> {
    let mut turns = queues.to_vec();
    rng.shuffle(&mut turns);
    run_in_turns(queues, &turns)
}

/// The order of all operations in which the queues take these turns.
fn run_in_turns(queues: &[u8], turns: &[u8]) -> Vec<usize> {
    let mut next = [0; 256];
    let mut run = Vec::with_capacity(queues.len());
    for &queue in turns {
        let from = &mut next[usize::from(queue)];
        while queues[*from] != queue {
            *from += 1;
        }
        run.push(*from);
        *from += 1;
    }
    run
}

/// Distinct axes in no order, sometimes at the ends of the range.
fn axes(rng: &mut Rng, count: usize) -> Vec<u64> {
    let mut axes = Vec::with_capacity(count);
    while axes.len() < count {
        let axis = match rng.below(8) {
            0 => rng.word(),
            1 => u64::MAX - rng.below(4) as u64,
            2 => 1 << rng.below(64),
            _ => rng.below(40) as u64,
        };
        if !axes.contains(&axis) {
            axes.push(axis);
        }
    }
    axes
}

// ---------------------------------------------------------------------------
// Random plans of every verdict.

/// How wild a random plan is. Chances are in percent.
struct Dials {
    /// A wait on any signal at all: gives 10.
    wild_waits: usize,
    /// A mark wherever it falls: gives 11.
    wild_marks: usize,
    /// Waits come often.
    waits: usize,
    signals: usize,
    marks: usize,
    /// A signal is on any semaphore, not on one that its queue owns.
    others: usize,
    /// The wait for the signal before is left out: gives 17.
    unordered: usize,
    /// A signal may be the next of its semaphore, though the operation of the one
    /// before runs later: gives 17, or 10 where it waits for it.
    wild_signals: usize,
    /// Operations in the plan are in another order than in a run.
    plan_order_differs: bool,
}

impl Dials {
    fn random(rng: &mut Rng) -> Dials {
        Dials {
            wild_waits: *rng.pick(&[0, 0, 0, 10, 30, 80]),
            wild_marks: *rng.pick(&[0, 0, 0, 10, 30, 100]),
            waits: *rng.pick(&[10, 40, 70]),
            signals: *rng.pick(&[30, 60, 90]),
            marks: *rng.pick(&[20, 50, 80]),
            others: *rng.pick(&[0, 0, 50, 100]),
            unordered: *rng.pick(&[0, 0, 15, 60]),
            wild_signals: *rng.pick(&[0, 0, 0, 10, 50]),
            plan_order_differs: rng.percent(70),
        }
    }
}

/// A random plan with every field in range. All of 0, 7, 8, 10, 17 and 11 occur.
pub fn random_plan(rng: &mut Rng, most_operations: usize) -> Plan {
    let dials = Dials::random(rng);
    let queues = match rng.below(12) {
        0 => rng.between(0, 1),
        1 => rng.between(4, 16),
        _ => rng.between(2, 4),
    };
    let semaphores = match rng.below(40) {
        _ if queues == 0 => 0,
        0..3 => 64,
        // The second form: the fewest, few more, and as many as two bytes or
        // the limit allow.
        3..5 => 65,
        5 => rng.between(66, 255),
        6 => rng.between(256, 1023),
        7 => 1024,
        _ => *rng.pick(&[0, 1, 2, 3, 4, 5, 6, 8]),
    };
    let operations = if queues == 0 || rng.percent(4) {
        0
    } else {
        rng.between(1, most_operations)
    };
    let buffers = *rng.pick(&[0, 1, 1, 1, 2, 2, 3, 5]);
    let mut plan = Plan {
        axes: axes(rng, queues),
        owners: (0..semaphores).map(|_| rng.below(queues) as u8).collect(),
        sizes: (0..buffers).map(|_| rng.word() as u32).collect(),
        operations: (0..operations)
            .map(|_| Operation {
                queue: rng.below(queues) as u8,
                ..Operation::default()
            })
            .collect(),
    };
    let queues: Vec<u8> = plan.operations.iter().map(|o| o.queue).collect();
    let run = if dials.plan_order_differs {
        random_run(rng, &queues)
    } else {
        (0..operations).collect()
    };
    let handovers = add_signals(rng, &mut plan, &run, &dials);
    add_waits(rng, &mut plan, &run, &handovers, &dials);
    add_marks(rng, &mut plan, &run, &dials);
    // Near misses: a plan that passes but for one thing.
    match rng.below(10) {
        0 | 1 => spoil(rng, &mut plan),
        2 => plan = without_one_wait(rng, &plan),
        3 => add_stray_use(rng, &mut plan),
        _ => {}
    }
    plan
}

/// For each operation the signals that it has to wait for.
type Handovers = Vec<Vec<Point>>;

/// The last signal of each semaphore so far in plan order.
struct LastSignals<'a> {
    /// The step of each operation in the run that the plan allows.
    steps: Vec<usize>,
    queues: &'a [u8],
    /// Value, and the operation if there is one.
    last: Vec<(u64, Option<usize>)>,
}

impl LastSignals<'_> {
    fn new<'a>(run: &[usize], queues: &'a [u8], semaphores: usize) -> LastSignals<'a> {
        let mut steps = vec![0; run.len()];
        for (step, &j) in run.iter().enumerate() {
            steps[j] = step;
        }
        LastSignals {
            steps,
            queues,
            last: vec![(0, None); semaphores],
        }
    }

    /// Does the operation run no earlier than that of the semaphore's last signal?
    fn in_turn(&self, semaphore: usize, j: usize) -> bool {
        let before = self.last[semaphore].1;
        before.is_none_or(|i| self.steps[i] <= self.steps[j])
    }

    /// The signal that the operation has to wait for if it is the next to signal
    /// the semaphore: none if its queue has signalled last.
    fn to_wait_for(&self, semaphore: usize, j: usize) -> Option<Point> {
        let (value, before) = self.last[semaphore];
        let other_queue = before.is_some_and(|i| self.queues[i] != self.queues[j]);
        other_queue.then_some(Point {
            semaphore: semaphore as u16,
            value,
        })
    }
}

/// Hands back what has to be waited for, so that each semaphore is handed from one
/// operation to the next.
fn add_signals(rng: &mut Rng, plan: &mut Plan, run: &[usize], dials: &Dials) -> Handovers {
    let queues: Vec<u8> = plan.operations.iter().map(|o| o.queue).collect();
    let mut signals = LastSignals::new(run, &queues, plan.owners.len());
    let mut handovers = vec![Vec::new(); queues.len()];
    for (j, operation) in plan.operations.iter_mut().enumerate() {
        while operation.signals.len() < 2 && rng.percent(dials.signals) {
            let any = rng.percent(dials.others);
            let wild = rng.percent(dials.wild_signals);
            let mut may: Vec<usize> = (0..plan.owners.len())
                .filter(|&s| any || plan.owners[s] == operation.queue)
                .filter(|&s| wild || signals.in_turn(s, j))
                .collect();
            if any && rng.percent(60) {
                // One that is signalled already, of however many there are.
                let signalled = |s: &usize| signals.last[*s].1.is_some();
                if may.iter().any(signalled) {
                    may.retain(signalled);
                }
            }
            if may.is_empty() {
                break;
            }
            let semaphore = *rng.pick(&may);
            let last = signals.last[semaphore].0;
            let step = match rng.below(20) {
                0 => rng.word() >> rng.below(64),
                1 => u64::MAX - last,
                _ => rng.between(1, 3) as u64,
            };
            let value = last.saturating_add(step.max(1));
            if value == last {
                break; // At the end of the range: nothing is higher.
            }
            if !rng.percent(dials.unordered) {
                handovers[j].extend(signals.to_wait_for(semaphore, j));
            }
            signals.last[semaphore] = (value, Some(j));
            let semaphore = semaphore as u16;
            operation.signals.push(Point { semaphore, value });
        }
    }
    handovers
}

/// Waits for what is handed over, then on what comes earlier in the run, or on
/// anything if the dial says so.
fn add_waits(
    rng: &mut Rng,
    plan: &mut Plan,
    run: &[usize],
    handovers: &[Vec<Point>],
    dials: &Dials,
) {
    let signallers = signallers(plan);
    let with_queue = |j: &usize| {
        let operation = &plan.operations[*j];
        let signals = operation.signals.iter();
        signals
            .map(|&signal| (operation.queue, signal))
            .collect::<Vec<_>>()
    };
    let all: Vec<(u8, Point)> = run.iter().flat_map(with_queue).collect();
    let mut earlier = 0;
    for &j in run {
        let queue = plan.operations[j].queue;
        for &signal in &handovers[j] {
            let wait = below_signal(rng, &signallers, signal);
            plan.operations[j].waits.push(wait);
        }
        while plan.operations[j].waits.len() < 3 && rng.percent(dials.waits) {
            let wild = rng.percent(dials.wild_waits);
            let signals = if wild { &all } else { &all[..earlier] };
            if signals.is_empty() {
                break; // The first to run waits for nothing.
            }
            let signal = recent_signal(rng, queue, signals);
            let wait = below_signal(rng, &signallers, signal);
            plan.operations[j].waits.push(wait);
        }
        earlier += plan.operations[j].signals.len();
    }
}

/// A recent signal, and one of another queue, more often than not.
fn recent_signal(rng: &mut Rng, queue: u8, signals: &[(u8, Point)]) -> Point {
    let mut recent = || {
        let first = rng.below(signals.len());
        signals[first.max(rng.below(signals.len()))]
    };
    let tries = [recent(), recent(), recent()];
    let foreign = tries.iter().find(|signal| signal.0 != queue);
    foreign.unwrap_or(&tries[0]).1
}

/// A wait that resolves to this signal: for its value, or for one below it that
/// is above the signal before.
fn below_signal(rng: &mut Rng, signallers: &[Vec<(u64, usize)>], signal: Point) -> Point {
    let signals = &signallers[usize::from(signal.semaphore)];
    let lower = signals.iter().rev().find(|s| s.0 < signal.value);
    let lower = lower.map_or(0, |s| s.0);
    let value = match rng.below(3) {
        0 => lower + 1,
        1 => lower + 1 + rng.word() % (signal.value - lower),
        _ => signal.value,
    };
    Point { value, ..signal }
}

fn add_marks(rng: &mut Rng, plan: &mut Plan, run: &[usize], dials: &Dials) {
    let count = |_| (0..4).filter(|_| rng.percent(dials.marks)).count();
    let counts: Vec<usize> = (0..plan.operations.len()).map(count).collect();
    add_kept_marks(rng, plan, run, &counts, 0);
    let buffers = plan.sizes.len();
    for operation in &mut plan.operations {
        if buffers > 0 && rng.percent(dials.wild_marks) && operation.marks.len() < 4 {
            let at = rng.between(0, operation.marks.len());
            let mark = Mark {
                buffer: rng.below(buffers) as u16,
                free: rng.percent(40),
            };
            operation.marks.insert(at, mark);
        }
    }
}

/// One more use of a buffer that some operation marks already, in the same
/// operation or a later one.
fn add_stray_use(rng: &mut Rng, plan: &mut Plan) {
    let operations = plan.operations.len();
    let marked: Vec<usize> = (0..operations)
        .filter(|&i| !plan.operations[i].marks.is_empty())
        .collect();
    if marked.is_empty() {
        return;
    }
    let from = *rng.pick(&marked);
    let buffer = rng.pick(&plan.operations[from].marks).buffer;
    let to = rng.between(from, operations - 1);
    let marks = &mut plan.operations[to].marks;
    if marks.len() < 4 {
        let at = rng.between(0, marks.len());
        marks.insert(
            at,
            Mark {
                buffer,
                free: false,
            },
        );
    }
}

/// Puts one fault of 7, 8 or 17 into a plan, where there is room for one.
fn spoil(rng: &mut Rng, plan: &mut Plan) {
    let (operations, semaphores) = (plan.operations.len(), plan.owners.len());
    if operations == 0 || semaphores == 0 {
        return;
    }
    let highest: Vec<u64> = signallers(plan)
        .iter()
        .map(|signals| signals.last().map_or(0, |s| s.0))
        .collect();
    let semaphore = rng.below(semaphores);
    let point = Point {
        semaphore: semaphore as u16,
        value: match rng.below(3) {
            0 => highest[semaphore].saturating_add(1),
            1 => rng.below(4) as u64,
            _ => highest[semaphore],
        },
    };
    let owner = plan.owners[semaphore];
    let operation = match rng.below(3) {
        // Mostly by an owner, so that 7 is met as often as 17.
        0 | 1 => {
            let by_owner = |i: &usize| plan.operations[*i].queue == owner;
            let owned: Vec<usize> = (0..operations).filter(by_owner).collect();
            if owned.is_empty() {
                rng.below(operations)
            } else {
                *rng.pick(&owned)
            }
        }
        _ => rng.below(operations),
    };
    let operation = &mut plan.operations[operation];
    if rng.percent(35) {
        let value = highest[semaphore].saturating_add(rng.between(1, 2) as u64);
        add_or_replace(rng, &mut operation.waits, 3, Point { value, ..point });
    } else {
        add_or_replace(rng, &mut operation.signals, 2, point);
    }
}

fn add_or_replace(rng: &mut Rng, points: &mut Vec<Point>, most: usize, point: Point) {
    if points.len() < most {
        let at = rng.between(0, points.len());
        points.insert(at, point);
    } else {
        let at = rng.below(points.len());
        points[at] = point;
    }
}

// ---------------------------------------------------------------------------
// Realistic pipelines.

/// Cameras fill buffers, a copy engine moves each picture to the accelerator,
/// which leaves a result for the host. Each stage has a ring of buffers, freed
/// by the stage after it. Passes.
pub fn camera_pipeline(rng: &mut Rng, cameras: usize, frames: usize) -> Plan {
    let rings = [(); 3].map(|_| rng.between(1, 4));
    camera_pipeline_with(rng, cameras, frames, rings)
}

fn camera_pipeline_with(rng: &mut Rng, cameras: usize, frames: usize, rings: [usize; 3]) -> Plan {
    // Queues: the cameras, then copy, accelerate, host. One semaphore for each.
    let stages = [cameras, cameras + 1, cameras + 2];
    let queues = cameras + 3;
    let slots: usize = rings.iter().sum();
    let mut plan = Plan {
        axes: axes(rng, queues),
        owners: (0..queues as u8).collect(),
        sizes: vec![1 << 21; cameras * slots],
        operations: Vec::new(),
    };
    for frame in 0..frames {
        for camera in 0..cameras {
            // The value a later stage's semaphore has after this picture.
            let value = |frame: usize| (frame * cameras + camera + 1) as u64;
            let slot = |ring: usize| {
                let first = camera * slots + rings[..ring].iter().sum::<usize>();
                (first + frame % rings[ring]) as u16
            };
            // Until a ring's slot was freed by the stage after.
            let slot_free = |ring: usize| {
                frame.checked_sub(rings[ring]).map(|earlier| Point {
                    semaphore: stages[ring] as u16,
                    value: value(earlier),
                })
            };
            for stage in 0..4 {
                let mut operation = Operation::default();
                let queue = if stage == 0 {
                    camera
                } else {
                    stages[stage - 1]
                };
                operation.queue = queue as u8;
                if stage > 0 {
                    let before = if stage == 1 {
                        camera
                    } else {
                        stages[stage - 2]
                    };
                    operation.waits.push(Point {
                        semaphore: before as u16,
                        value: if stage == 1 {
                            frame as u64 + 1
                        } else {
                            value(frame)
                        },
                    });
                    let buffer = slot(stage - 1);
                    operation.marks.push(Mark {
                        buffer,
                        free: false,
                    });
                    operation.marks.push(Mark { buffer, free: true });
                }
                if stage < 3 {
                    operation.waits.extend(slot_free(stage));
                    let buffer = slot(stage);
                    operation.marks.push(Mark {
                        buffer,
                        free: false,
                    });
                }
                operation.signals.push(Point {
                    semaphore: queue as u16,
                    value: if stage == 0 {
                        frame as u64 + 1
                    } else {
                        value(frame)
                    },
                });
                plan.operations.push(operation);
            }
        }
    }
    plan
}

/// The same work with semaphores that go with the pictures: each is handed from
/// the camera to the copy engine, the accelerator, the host, and on to the next
/// picture in its place. Its owner is any queue. Passes.
pub fn handed_pipeline(rng: &mut Rng, cameras: usize, frames: usize) -> Plan {
    let places = rng.between(1, 4);
    let queues = cameras + 3;
    let semaphores = cameras * places;
    let mut plan = Plan {
        axes: axes(rng, queues),
        owners: (0..semaphores).map(|_| rng.below(queues) as u8).collect(),
        sizes: vec![1 << 21; 3 * semaphores],
        operations: Vec::new(),
    };
    for frame in 0..frames {
        for camera in 0..cameras {
            let semaphore = (camera * places + frame % places) as u16;
            let first = 4 * (frame / places) as u64;
            for stage in 0..4 {
                let queue = if stage == 0 {
                    camera
                } else {
                    cameras + stage - 1
                };
                let mut operation = Operation {
                    queue: queue as u8,
                    ..Operation::default()
                };
                let value = first + stage as u64;
                if value > 0 {
                    operation.waits.push(Point { semaphore, value });
                }
                operation.signals.push(Point {
                    semaphore,
                    value: value + 1,
                });
                let buffer = |stage: usize| 3 * semaphore + stage as u16;
                if stage > 0 {
                    for free in [false, true] {
                        let buffer = buffer(stage - 1);
                        operation.marks.push(Mark { buffer, free });
                    }
                }
                if stage < 3 {
                    operation.marks.push(Mark {
                        buffer: buffer(stage),
                        free: false,
                    });
                }
                plan.operations.push(operation);
            }
        }
    }
    plan
}

/// A stuck plan in which a semaphore has come to the value of a wait, but not by
/// the signal that the wait rests on: that signal's operation waits for something
/// that never comes. Sometimes signals are out of turn too. Up to seven
/// operations.
pub fn trap(rng: &mut Rng) -> Plan {
    let mut queues = [0, 1, 2, 3];
    rng.shuffle(&mut queues);
    let owners = (0..3).map(|_| rng.below(4) as u8).collect();
    let low = rng.between(1, 3) as u64;
    let high = low + rng.between(1, 3) as u64;
    let point = |semaphore, value| Point { semaphore, value };
    let mut names = [0, 1, 2];
    rng.shuffle(&mut names);
    let [handed, own, other] = names;
    let waiting = Operation {
        queue: queues[0],
        waits: vec![point(handed, rng.between(1, low as usize) as u64)],
        ..Operation::default()
    };
    // Either it waits for itself, or it comes later on the queue that waits.
    let waits_for_itself = rng.percent(60);
    let mut never = Operation {
        queue: queues[usize::from(waits_for_itself)],
        signals: vec![point(handed, low)],
        ..Operation::default()
    };
    if waits_for_itself {
        never.waits.push(point(own, 1));
        let at = rng.between(0, 1);
        never.signals.insert(at, point(own, 1));
    }
    let higher = Operation {
        queue: queues[2],
        signals: vec![point(handed, high)],
        ..Operation::default()
    };
    let mut operations = vec![waiting, never, higher];
    for value in 1..=rng.below(4) as u64 {
        // One queue's own semaphore, so that its signals are in turn.
        let operation = Operation {
            queue: queues[3],
            signals: vec![point(other, value)],
            ..Operation::default()
        };
        let after = operations.iter().rposition(|o| o.queue == queues[3]);
        let first = after.map_or(0, |at| at + 1);
        let at = rng.between(first, operations.len());
        operations.insert(at, operation);
    }
    if rng.percent(40) {
        operations.push(Operation {
            queue: queues[2],
            signals: vec![point(other, 9)],
            ..Operation::default()
        });
    }
    Plan {
        axes: axes(rng, 4),
        owners,
        sizes: Vec::new(),
        operations,
    }
}

/// The same plan with its operations in another order, each queue's kept.
pub fn reordered(rng: &mut Rng, plan: &Plan) -> Plan {
    let queues: Vec<u8> = plan.operations.iter().map(|o| o.queue).collect();
    let run = random_run(rng, &queues);
    Plan {
        operations: run.iter().map(|&i| plan.operations[i].clone()).collect(),
        ..plan.clone()
    }
}

/// The same plan with one wait missing.
pub fn without_one_wait(rng: &mut Rng, plan: &Plan) -> Plan {
    let mut plan = plan.clone();
    let waiting: Vec<usize> = (0..plan.operations.len())
        .filter(|&i| !plan.operations[i].waits.is_empty())
        .collect();
    if !waiting.is_empty() {
        let waits = &mut plan.operations[*rng.pick(&waiting)].waits;
        waits.remove(rng.below(waits.len()));
    }
    plan
}

/// The same plan with a wait for something that comes later: mostly a deadlock.
pub fn with_deadlock(rng: &mut Rng, plan: &Plan) -> Plan {
    let mut plan = plan.clone();
    let operations = plan.operations.len();
    let late: Vec<usize> = (0..operations)
        .filter(|&i| !plan.operations[i].signals.is_empty())
        .collect();
    if !late.is_empty() {
        let from = *rng.pick(&late);
        let point = *rng.pick(&plan.operations[from].signals);
        let to = rng.between(0, from);
        add_or_replace(rng, &mut plan.operations[to].waits, 3, point);
    }
    plan
}

// ---------------------------------------------------------------------------
// Families for the benchmark. All pass.

/// A family of plans of any size up to 1,024 operations.
#[derive(Clone, Copy, PartialEq, Eq, Debug)]
pub enum Family {
    Greatest,
    OneSemaphore,
    AgainstPlanOrder,
    WokenAtOnce,
    RandomCounts,
    Worst,
    ManySemaphores,
    ManyRandomCounts,
    HandedOver,
}

impl Family {
    pub const ALL: [Family; 9] = [
        Family::Greatest,
        Family::OneSemaphore,
        Family::AgainstPlanOrder,
        Family::WokenAtOnce,
        Family::RandomCounts,
        Family::Worst,
        Family::ManySemaphores,
        Family::ManyRandomCounts,
        Family::HandedOver,
    ];

    /// Those of the longest plans that pass, one in each form.
    pub const GREATEST: [Family; 2] = [Family::Greatest, Family::ManySemaphores];

    pub fn name(self) -> &'static str {
        match self {
            Family::Greatest => "greatest",
            Family::OneSemaphore => "one semaphore",
            Family::AgainstPlanOrder => "plan order against run order",
            Family::WokenAtOnce => "many queues woken at once",
            Family::RandomCounts => "random counts",
            Family::Worst => "worst found by search",
            Family::ManySemaphores => "greatest, 1,024 semaphores",
            Family::ManyRandomCounts => "random, 1,024 semaphores",
            Family::HandedOver => "greatest, handed over",
        }
    }

    pub fn plan(self, rng: &mut Rng, operations: usize) -> Plan {
        match self {
            Family::Greatest => Shape::GREATEST.plan(rng, operations),
            Family::OneSemaphore => one_semaphore(rng, operations, false),
            Family::AgainstPlanOrder => against_plan_order(rng, operations, false),
            Family::WokenAtOnce => woken_at_once(rng, operations, false),
            Family::RandomCounts => Shape::GREATEST.random_counts().plan(rng, operations),
            Family::Worst => Shape::WORST.plan(rng, operations),
            Family::ManySemaphores => Shape::GREATEST_OF_ALL.plan(rng, operations),
            Family::ManyRandomCounts => {
                let shape = Shape::GREATEST_OF_ALL.random_counts();
                shape.plan(rng, operations)
            }
            Family::HandedOver => self.handed_plan(rng, operations),
        }
    }

    /// A plan of the family in which several queues signal some semaphores, each
    /// after a wait for the signal before, and any queue is the owner. Passes too.
    pub fn handed_plan(self, rng: &mut Rng, operations: usize) -> Plan {
        let shape = match self {
            Family::Worst => Shape::WORST,
            Family::ManySemaphores | Family::ManyRandomCounts => Shape::GREATEST_OF_ALL,
            // In a run that is near the plan's order more signals come in turn.
            Family::HandedOver => Shape {
                window: 32,
                ..Shape::GREATEST
            },
            _ => Shape::GREATEST,
        };
        let shape = shape.handed(50);
        let mut plan = match self {
            Family::OneSemaphore => one_semaphore(rng, operations, true),
            Family::AgainstPlanOrder => against_plan_order(rng, operations, true),
            Family::WokenAtOnce => woken_at_once(rng, operations, true),
            Family::Greatest | Family::Worst | Family::ManySemaphores | Family::HandedOver => {
                shape.plan(rng, operations)
            }
            Family::RandomCounts | Family::ManyRandomCounts => {
                shape.random_counts().plan(rng, operations)
            }
        };
        for owner in &mut plan.owners {
            *owner = rng.below(plan.axes.len()) as u8;
        }
        plan
    }
}

/// All signals and waits are on one semaphore: queue 0 signals it twice in each
/// operation, fifteen queues wait for any of its values. If it is handed over,
/// queues 0 to 3 signal it, and the others wait.
fn one_semaphore(rng: &mut Rng, operations: usize, handed: bool) -> Plan {
    let mut plan = Plan {
        axes: axes(rng, 16),
        owners: vec![0],
        sizes: vec![4096; 16],
        operations: Vec::new(),
    };
    let mut value = 0;
    let signalling = if handed { 4 } else { 1 };
    for position in 0..operations {
        let mut operation = Operation::default();
        if position % 2 == 0 {
            if handed {
                operation.queue = rng.below(signalling) as u8;
            }
            if handed && value > 0 {
                operation.waits.push(Point {
                    semaphore: 0,
                    value,
                });
            }
            for _ in 0..2 {
                value += rng.between(1, 5) as u64;
                operation.signals.push(Point {
                    semaphore: 0,
                    value,
                });
            }
        } else {
            operation.queue = rng.between(signalling, 15) as u8;
        }
        let buffer = u16::from(operation.queue);
        operation.marks.push(Mark {
            buffer,
            free: position % 3 == 0,
        });
        plan.operations.push(operation);
    }
    let waiting = |o: &&mut Operation| o.signals.is_empty();
    for operation in plan.operations.iter_mut().filter(waiting) {
        for _ in 0..3 {
            let value = rng.between(1, value as usize) as u64;
            operation.waits.push(Point {
                semaphore: 0,
                value,
            });
        }
    }
    plan
}

/// Sixteen stages, each waiting for the one after it in the plan: the plan
/// lists the last stage first, so that nothing is ready until the plan's end. If
/// semaphores are handed over, there are 48 more, each signalled by the first step
/// or a later one of a stage, then by the step after it of the next queue, and so
/// on, as long as there are steps.
fn against_plan_order(rng: &mut Rng, operations: usize, handed: bool) -> Plan {
    let semaphores = if handed { 64 } else { 16 };
    let mut plan = Plan {
        axes: axes(rng, 16),
        owners: (0..16).cycle().take(semaphores).collect(),
        sizes: vec![4096; 16],
        operations: Vec::new(),
    };
    let length = |stage: usize| (operations + stage) / 16;
    for queue in 0..16 {
        // Queue 15 runs first and is the longest.
        for step in 1..=length(queue) as u64 {
            let mut operation = Operation {
                queue: queue as u8,
                ..Operation::default()
            };
            let signal = Point {
                semaphore: queue as u16,
                value: step,
            };
            operation.signals.push(signal);
            if queue < 15 {
                let semaphore = queue as u16 + 1;
                operation.waits.push(Point {
                    semaphore,
                    value: step,
                });
            }
            let turn = queue as u64;
            if let Some(which) = step.checked_sub(turn + 1).filter(|&w| handed && w < 48) {
                let semaphore = 16 + which as u16;
                if turn > 0 {
                    operation.waits.push(Point {
                        semaphore,
                        value: turn,
                    });
                }
                operation.signals.push(Point {
                    semaphore,
                    value: turn + 1,
                });
            }
            let buffer = queue as u16;
            operation.marks.push(Mark {
                buffer,
                free: false,
            });
            operation.marks.push(Mark { buffer, free: true });
            plan.operations.push(operation);
        }
    }
    plan
}

/// The last queue signals three semaphores in turn; at each signal all other
/// queues wake, run one operation, and sleep again. If semaphores are handed over,
/// the last two queues take turns to signal, each after the other.
fn woken_at_once(rng: &mut Rng, operations: usize, handed: bool) -> Plan {
    let mut plan = Plan {
        axes: axes(rng, 16),
        owners: vec![15, 15, 15],
        sizes: vec![4096; if handed { 16 } else { 15 }],
        operations: Vec::new(),
    };
    for position in 0..operations {
        let round = (position / 16) as u64;
        let signalling = if handed && round % 2 == 1 { 14 } else { 15 };
        let mut operation = Operation::default();
        if position % 16 == 0 {
            operation.queue = signalling;
            if handed && round > 0 {
                operation.waits.push(Point {
                    semaphore: ((round - 1) % 3) as u16,
                    value: round,
                });
            }
            let semaphore = (round % 3) as u16;
            operation.signals.push(Point {
                semaphore,
                value: round + 1,
            });
        } else {
            operation.queue = (position % 16 - 1) as u8;
            if operation.queue == signalling {
                operation.queue = 15;
            }
            // This round's signal last: the waits before it are met already.
            for back in [2, 1, 0] {
                let Some(earlier) = round.checked_sub(back) else {
                    continue;
                };
                let semaphore = (earlier % 3) as u16;
                operation.waits.push(Point {
                    semaphore,
                    value: earlier + 1,
                });
            }
            let buffer = u16::from(operation.queue);
            operation.marks.push(Mark {
                buffer,
                free: round % 2 == 1,
            });
        }
        plan.operations.push(operation);
    }
    plan
}

// ---------------------------------------------------------------------------
// The question for a wait.

/// A plan of many operations with few signals, so that some buffers are freed
/// where a signal comes after, and others where none does. Passes.
pub fn few_signals(rng: &mut Rng, operations: usize) -> Plan {
    let one_in = *rng.pick(&[12, 12, 100]);
    let shape = *rng.pick(&[Shape::GREATEST, Shape::GREATEST_OF_ALL]);
    let shape = shape.handed(*rng.pick(&[0, 0, 80]));
    shape.plan_with(rng, operations, |rng| {
        let signals = match rng.below(one_in) {
            0 => rng.between(1, 2),
            _ => 0,
        };
        [rng.below(2), signals, rng.below(2)]
    })
}

/// A queue and a buffer to ask about: mostly a buffer that is freed last. An
/// empty list counts as one of one entry.
pub fn question(rng: &mut Rng, plan: &Plan) -> (u32, u32) {
    let mut last_is_free = vec![false; plan.sizes.len()];
    for mark in plan.operations.iter().flat_map(|o| &o.marks) {
        last_is_free[usize::from(mark.buffer)] = mark.free;
    }
    let freed: Vec<usize> = (0..plan.sizes.len()).filter(|&b| last_is_free[b]).collect();
    let buffer = if freed.is_empty() || rng.percent(25) {
        rng.below(plan.sizes.len().max(1))
    } else {
        *rng.pick(&freed)
    };
    (rng.below(plan.axes.len().max(1)) as u32, buffer as u32)
}

// ---------------------------------------------------------------------------
// Damage.

/// The same plan with a wait for 0 put into a list of waits, or in the place of
/// another; none where a plan has no room for one.
pub fn with_wait_for_zero(rng: &mut Rng, plan: &Plan) -> Option<Plan> {
    if plan.operations.is_empty() || plan.owners.is_empty() {
        return None;
    }
    let mut plan = plan.clone();
    let wait = Point {
        semaphore: rng.below(plan.owners.len()) as u16,
        value: 0,
    };
    // Of three the one with most waits, so that it is not always the first.
    let tries = [(); 3].map(|()| rng.below(plan.operations.len()));
    let at = tries
        .into_iter()
        .max_by_key(|&i| plan.operations[i].waits.len())?;
    add_or_replace(rng, &mut plan.operations[at].waits, 3, wait);
    Some(plan)
}

/// The same plan with every wait of every operation: those that miss some wait
/// for any signals. So nothing can run first, and it is stuck at operation 0.
pub fn with_all_waits(rng: &mut Rng, plan: &Plan) -> Plan {
    let mut plan = plan.clone();
    let signals = plan.operations.iter().flat_map(|o| &o.signals);
    let signals: Vec<Point> = signals.copied().collect();
    for operation in &mut plan.operations {
        while operation.waits.len() < 3 {
            operation.waits.push(*rng.pick(&signals));
        }
    }
    plan
}

/// Another value for one byte: near by, at an end, or any.
pub fn other_byte(rng: &mut Rng, byte: u8) -> u8 {
    let other = match rng.below(6) {
        0 => byte.wrapping_add(1),
        1 => byte.wrapping_sub(1),
        2 => 0,
        3 => 255,
        4 => byte ^ (1 << rng.below(8)),
        _ => rng.word() as u8,
    };
    if other == byte {
        byte ^ 1
    } else {
        other
    }
}

/// One to three random damages: a byte changed, the end cut off, bytes put in,
/// taken out, or appended, an axis written over another.
pub fn damaged(rng: &mut Rng, bytes: &[u8]) -> Vec<u8> {
    let mut bytes = bytes.to_vec();
    let first = Form::of(&bytes).lead().len();
    let queues = usize::from(bytes[first]);
    if queues >= 2 && rng.percent(10) {
        let axis = |queue| first + 1 + 8 * queue;
        let from = axis(rng.below(queues));
        bytes.copy_within(from..from + 8, axis(rng.below(queues)));
    }
    for _ in 0..rng.between(1, 3) {
        let at = rng.below(bytes.len() + 1);
        match rng.below(8) {
            0 => bytes.truncate(at),
            1 => bytes.insert(at, rng.below(4) as u8),
            2 if at < bytes.len() => {
                bytes.remove(at);
            }
            3 => bytes.extend((0..rng.between(1, 9)).map(|_| rng.word() as u8)),
            _ if at < bytes.len() => bytes[at] = other_byte(rng, bytes[at]),
            _ => {}
        }
    }
    bytes
}

/// Bytes that are no plan, small ones more often than not; some begin as the
/// second form does.
pub fn random_bytes(rng: &mut Rng) -> Vec<u8> {
    let mut bytes = match rng.below(5) {
        0 => Form::Second.lead().to_vec(),
        _ => Vec::new(),
    };
    let length = rng.between(0, 80);
    let small = rng.percent(80);
    bytes.extend((0..length).map(|_| {
        if small {
            rng.below(3) as u8
        } else {
            rng.word() as u8
        }
    }));
    bytes
}

/// A plan as if it were stored in the other form, or without its lead, or with
/// another first byte.
pub fn in_other_form(rng: &mut Rng, plan: &Plan) -> Vec<u8> {
    let mut bytes = plan.bytes();
    match rng.below(4) {
        0 => bytes[0] = *rng.pick(&[240, 241, 242, 243, 255]),
        1 if plan.form() == Form::Second => {
            bytes.remove(0);
        }
        1 => bytes.insert(0, 242),
        _ => bytes = plan.bytes_in(plan.form().other()),
    }
    bytes
}

/// A list of numbers for the writer, damaged: also by what fits no byte.
pub fn damaged_numbers(rng: &mut Rng, numbers: &[u64]) -> Vec<u64> {
    let mut numbers = numbers.to_vec();
    for _ in 0..rng.between(1, 2) {
        let at = rng.below(numbers.len() + 1);
        match rng.below(8) {
            0 => numbers.truncate(at),
            1 => numbers.insert(at, rng.below(4) as u64),
            2 if at < numbers.len() => {
                numbers.remove(at);
            }
            3 => numbers.push(rng.word()),
            _ if at < numbers.len() => numbers[at] = other_number(rng, numbers[at]),
            _ => {}
        }
    }
    numbers
}

fn other_number(rng: &mut Rng, number: u64) -> u64 {
    let wide = 1 << *rng.pick(&[8, 16, 32, 63]);
    match rng.below(7) {
        0 => number.wrapping_add(1),
        1 => number.wrapping_sub(1),
        2 => number.wrapping_add(wide),
        3 => wide - 1,
        4 => wide,
        5 => u64::MAX,
        _ => rng.below(300) as u64,
    }
}

// ---------------------------------------------------------------------------
// Frontiers.

/// A well-formed frontier of at most `most` entries. Few axes and few epochs,
/// so that two frontiers share axes and epochs tie.
pub fn frontier(rng: &mut Rng, most: usize) -> Raw {
    let length = rng.between(0, most);
    let range = *rng.pick(&[most + 4, 2 * most + 4, 64]);
    let mut axes: Vec<u64> = Vec::new();
    while axes.len() < length {
        let axis = match rng.below(24) {
            0 => u64::MAX - rng.below(2) as u64,
            1 => rng.word(),
            _ => rng.below(range) as u64,
        };
        if !axes.contains(&axis) {
            axes.push(axis);
        }
    }
    axes.sort_unstable();
    let mut frontier = EMPTY;
    for (slot, axis) in axes.into_iter().enumerate() {
        frontier[slot] = axis;
        frontier[EPOCHS + slot] = match rng.below(24) {
            0 => u64::MAX,
            1 => 1 + (rng.word() >> 1),
            _ => rng.between(1, 9) as u64,
        };
    }
    frontier[LENGTH] = length as u64;
    frontier[TAINT] = u64::from(rng.percent(30));
    frontier
}

/// A frontier that the first one mostly reaches: entries left out or lowered.
pub fn frontier_below(rng: &mut Rng, frontier: &Raw) -> Raw {
    let mut below = EMPTY;
    let mut length = 0;
    for slot in 0..frontier[LENGTH] as usize {
        if rng.percent(30) {
            continue;
        }
        below[length] = frontier[slot];
        let epoch = frontier[EPOCHS + slot];
        below[EPOCHS + length] = match rng.below(12) {
            0 => epoch.saturating_add(1),
            1..=4 => epoch.saturating_sub(1).max(1),
            _ => epoch,
        };
        length += 1;
    }
    below[LENGTH] = length as u64;
    below[TAINT] = u64::from(rng.percent(30));
    below
}

/// A frontier with one number changed: mostly badly formed.
pub fn spoiled_frontier(rng: &mut Rng, frontier: &Raw) -> Raw {
    let mut spoiled = *frontier;
    let length = frontier[LENGTH] as usize;
    let inside = rng.below(length.max(1));
    match rng.below(8) {
        0 => spoiled[LENGTH] = rng.below(20) as u64,
        1 => spoiled[LENGTH] = *rng.pick(&[17, 1 << 32, u64::MAX]),
        2 => spoiled[TAINT] = *rng.pick(&[2, 256, 1 << 32, u64::MAX]),
        3 => spoiled[EPOCHS + inside] = 0,
        4 if length >= 2 => {
            let slot = rng.below(length - 1);
            spoiled[slot] = spoiled[slot + 1];
        }
        5 if length >= 2 => {
            let slot = rng.below(length - 1);
            spoiled.swap(slot, slot + 1);
        }
        6 => spoiled[rng.below(16)] = rng.below(3) as u64,
        _ => spoiled[EPOCHS + rng.below(16)] = rng.below(3) as u64,
    }
    spoiled
}
