//! The wait that would free a buffer: small plans on the reference and, if it
//! is linked, the C library; every question of random small plans against brute
//! force, and longer plans judged by every run.

mod small;

use harness::brute::{self, Judgement};
use harness::faults::{Fault, Faulty};
use harness::generate::{self, Rng};
use harness::plan::{Operation, Plan, Point};
use harness::reference::{self, Reference};
use harness::side::{told, OwnRooms, Side, Told, Wait};
use small::{all_sides, operation, plan, t3, t9};

const PATTERN: u32 = 0xA5A5_A5A5;
const WIDE_PATTERN: u64 = 0xA5A5_A5A5_A5A5_A5A5;

/// Told, the wait, and all that is left in table and list.
type Suggested = (Told, Wait, OwnRooms);

/// Asks with these lengths lent.
fn ask_lent(plan: &Plan, queue: u32, buffer: u32, lengths: [usize; 2]) -> Suggested {
    let bytes = plan.bytes();
    all_sides(|side| {
        let (mut left, mut wait) = (OwnRooms::filled(PATTERN, lengths), [WIDE_PATTERN; 2]);
        let rooms = &mut left.lend();
        let told = told(|told| side.suggest(&bytes, queue, buffer, rooms, &mut wait, told));
        (told, wait, left)
    })
}

/// The same with three numbers too many of each, which stay untouched. What the
/// plan's check leaves in table and list is there.
fn ask(plan: &Plan, queue: u32, buffer: u32) -> (Told, Wait) {
    let operations = plan.operations.len();
    let lengths = [16 * operations + 3, 2 * operations + 3];
    let (told, wait, left) = ask_lent(plan, queue, buffer, lengths);
    let mut wanted = OwnRooms::filled(PATTERN, lengths);
    reference::check(&plan.bytes(), &mut wanted.lend());
    assert_eq!(left, wanted);
    (told, wait)
}

const NONE_NEEDED: (Told, Wait) = (Told::answered(0), [0, 0]);
const NONE_WOULD_HELP: (Told, Wait) = (Told::answered(2), [0, 0]);

fn wait_for(semaphore: u64, value: u64) -> (Told, Wait) {
    (Told::answered(1), [semaphore, value])
}

fn refused(number: u64, place: u64) -> (Told, Wait) {
    (Told::refused(number, place), [0, 0])
}

/// Queue 0 fills b0, queue 1 frees it and then signals; queue 2 knows nothing
/// of it, and queue 3 has no operations. b1 is held, b2 has no mark, and b3 is
/// freed by the last operation, after which nothing signals.
fn four_buffers() -> Plan {
    let operations = vec![
        operation(0, &[], &[(0, 5)], &[("use", 0), ("use", 1)]),
        operation(1, &[(0, 1)], &[], &[("free", 0)]),
        operation(1, &[], &[(1, 7), (2, 3)], &[]),
        operation(2, &[], &[(3, 9)], &[]),
        operation(1, &[], &[(1, 8)], &[]),
        operation(0, &[], &[], &[("use", 3), ("free", 3)]),
    ];
    plan(4, &[0, 1, 1, 2], 4, operations)
}

#[test]
fn each_answer() {
    let plan = four_buffers();
    // Of S0=5, S1=7, S2=3, S3=9 and S1=8, in plan order, S1=7 is the first
    // that comes after the free, and the first of two in its list.
    for queue in [0, 2, 3] {
        assert_eq!(ask(&plan, queue, 0), wait_for(1, 7), "queue {queue}");
    }
    assert_eq!(ask(&plan, 1, 0), NONE_NEEDED, "reusable");
    for queue in 0..4 {
        assert_eq!(ask(&plan, queue, 1), NONE_WOULD_HELP, "held");
        assert_eq!(ask(&plan, queue, 2), NONE_NEEDED, "fresh");
    }
    assert_eq!(ask(&plan, 0, 3), NONE_NEEDED, "reusable by its own queue");
    for queue in 1..4 {
        assert_eq!(ask(&plan, queue, 3), refused(19, 3), "queue {queue}");
    }
    assert_eq!(ask(&t3(), 2, 0), NONE_WOULD_HELP, "T3");
}

#[test]
fn signals_of_the_freeing_operation() {
    // Two in the freeing operation: the first in its list, not the lower one.
    let both = [(1, 9), (0, 1)];
    let plan_with = |signals: &[(u16, u64)]| {
        let operations = vec![operation(0, &[], signals, &[("use", 0), ("free", 0)])];
        plan(2, &[0, 0], 1, operations)
    };
    assert_eq!(ask(&plan_with(&both), 1, 0), wait_for(1, 9));
    assert_eq!(ask(&plan_with(&both[1..]), 1, 0), wait_for(0, 1));
    assert_eq!(ask(&plan_with(&[]), 1, 0), refused(19, 0));
    let greatest = [(0, u64::MAX)];
    assert_eq!(ask(&plan_with(&greatest), 1, 0), wait_for(0, u64::MAX));
}

/// Signals before the free do not help, nor do those of other queues that know
/// nothing of it, wherever they are in the plan.
#[test]
fn signals_that_do_not_free() {
    let operations = vec![
        operation(0, &[], &[(0, 1)], &[("use", 0)]),
        operation(1, &[], &[(1, 1)], &[]),
        operation(0, &[], &[], &[("free", 0)]),
        operation(1, &[], &[(1, 2)], &[]),
    ];
    let mut plan = plan(3, &[0, 1], 1, operations);
    assert_eq!(ask(&plan, 2, 0), refused(19, 0));
    // Once the queue of the free signals, another queue hands that on.
    plan.operations
        .push(operation(1, &[(0, 2)], &[(1, 3)], &[]));
    plan.operations.push(operation(0, &[], &[(0, 2)], &[]));
    assert_eq!(ask(&plan, 2, 0), wait_for(1, 3));
}

#[test]
fn no_such_queue_or_buffer() {
    let plan = four_buffers();
    assert_eq!(ask(&plan, 4, 4), refused(12, 4));
    assert_eq!(ask(&plan, u32::MAX, 3), refused(12, u64::from(u32::MAX)));
    assert_eq!(ask(&plan, 1, 4), refused(13, 4));
    assert_eq!(ask(&plan, 2, 259), refused(13, 259));
    let empty = small::plan(0, &[], 0, Vec::new());
    assert_eq!(ask(&empty, 0, 0), refused(12, 0));
    let unused = small::plan(1, &[], 1, Vec::new());
    assert_eq!(ask(&unused, 0, 0), NONE_NEEDED);
}

#[test]
fn the_plan_is_refused_first() {
    for (queue, buffer) in [(0, 0), (1, 0), (2, 0), (0, 1)] {
        assert_eq!(ask(&t9(), queue, buffer), refused(11, 1));
    }
}

#[test]
fn lent_lengths() {
    let plan = four_buffers();
    let lengths = [([95, 11], 96), ([96, 11], 12), ([95, 12], 96)];
    for (buffer, queue) in [(0, 2), (1, 0), (2, 0), (3, 2), (4, 4)] {
        for (lengths, needed) in lengths {
            let left = ask_lent(&plan, queue, buffer, lengths);
            let (told, wait) = refused(9, needed);
            assert_eq!(left, (told, wait, OwnRooms::filled(PATTERN, lengths)));
        }
    }
}

/// One queue signals, one frees after a wait for the last signal, and a third
/// has no operations: the longer plan would have an operation too many.
fn longest(signals_after: bool) -> Plan {
    let signal = |value| operation(0, &[], &[(0, value)], &[]);
    let mut operations: Vec<Operation> = (1..=1022).map(signal).collect();
    operations.push(operation(1, &[(0, 1022)], &[], &[("free", 0)]));
    let after: &[(u16, u64)] = if signals_after { &[(1, 4)] } else { &[] };
    operations.push(operation(1, &[], after, &[]));
    plan(3, &[0, 1], 1, operations)
}

#[test]
fn the_longest_plan() {
    assert_eq!(ask(&longest(true), 2, 0), wait_for(1, 4));
    assert_eq!(ask(&longest(false), 2, 0), refused(19, 0));
}

/// The plan with one operation more.
fn longer(plan: &Plan, queue: u32, wait: Point) -> Plan {
    let mut longer = plan.clone();
    longer.operations.push(Operation {
        queue: queue as u8,
        waits: vec![wait],
        ..Operation::default()
    });
    longer
}

/// Does the wait free the buffer, by every run of the longer plan? It must pass.
fn frees_by_runs(plan: &Plan, queue: u32, buffer: u32, wait: Point) -> bool {
    let longer = longer(plan, queue, wait);
    let Judgement::Passed { rows, .. } = brute::judge(&longer) else {
        panic!("the longer plan of {plan} with {wait:?} on {queue}");
    };
    brute::reuse(&longer, &rows, queue as usize, buffer as usize) == 1
}

/// Brute force and the reference must agree on this question of a passed plan;
/// and for plans that are short enough, every signal is tried by all runs of
/// the longer plan.
fn agree(
    plan: &Plan,
    rows: &[Vec<usize>],
    runs: &brute::EveryRun,
    queue: u32,
    buffer: u32,
) -> Told {
    let operations = plan.operations.len();
    let mut rooms = OwnRooms::new(operations);
    let (bytes, mut wait) = (plan.bytes(), [9; 2]);
    let told = reference::suggest(&bytes, queue, buffer, &mut rooms.lend(), &mut wait);
    let wanted = brute::suggest(plan, (rows, runs), queue as usize, buffer as usize);
    assert_eq!((told, wait), wanted, "{queue} {buffer} of {plan}");
    let not_ordered = told.answer == 1 || told.number == 19;
    if not_ordered && operations < brute::MOST_OPERATIONS {
        let mut signals = plan.operations.iter().flat_map(|o| &o.signals);
        let first = signals.find(|&&signal| frees_by_runs(plan, queue, buffer, signal));
        let first = first.map(|signal| [signal.semaphore.into(), signal.value]);
        let found = (told.answer == 1).then_some(wait);
        assert_eq!(found, first, "{queue} {buffer} of {plan}");
    }
    told
}

/// Every queue and buffer of random small plans.
#[test]
fn every_question_by_brute_force() {
    let (mut answers, mut nineteen) = ([0; 3], 0);
    for seed in 0..4000 {
        let rng = &mut Rng::new(seed);
        let plan = generate::random_plan(rng, 1 + seed as usize % brute::MOST_OPERATIONS);
        let Judgement::Passed { rows, runs, .. } = brute::judge(&plan) else {
            continue;
        };
        for queue in 0..plan.axes.len() {
            for buffer in 0..plan.sizes.len() {
                let told = agree(&plan, &rows, &runs, queue as u32, buffer as u32);
                match told.number {
                    0 => answers[told.answer as usize] += 1,
                    _ => nineteen += 1,
                }
            }
        }
    }
    assert!(answers.iter().all(|&count| count > 300), "{answers:?}");
    assert!(nineteen > 300, "{nineteen}");
}

/// Does this side answer a question of some random small plan otherwise than
/// brute force?
fn brute_force_differs(side: &dyn Side) -> bool {
    (0..4000).any(|seed| {
        let rng = &mut Rng::new(seed);
        let plan = generate::random_plan(rng, 1 + seed as usize % brute::MOST_OPERATIONS);
        let Judgement::Passed { rows, runs, .. } = brute::judge(&plan) else {
            return false;
        };
        let (queue, buffer) = generate::question(rng, &plan);
        if queue as usize >= plan.axes.len() || buffer as usize >= plan.sizes.len() {
            return false;
        }
        let (bytes, mut rooms) = (plan.bytes(), OwnRooms::new(plan.operations.len()));
        let (rooms, mut wait) = (&mut rooms.lend(), [9; 2]);
        let told = told(|told| side.suggest(&bytes, queue, buffer, rooms, &mut wait, told));
        let wanted = brute::suggest(&plan, (&rows, &runs), queue as usize, buffer as usize);
        (told, wait) != wanted
    })
}

/// Brute force finds each seeded fault of the question, 14 to 21, and none in
/// the reference.
#[test]
fn brute_force_finds_faults() {
    assert!(!brute_force_differs(&Reference));
    for &fault in &Fault::ALL[13..21] {
        assert!(brute_force_differs(&Faulty(fault)), "{fault:?}");
    }
}

/// Pipelines: the wait is for the operation that freed the buffer last.
#[test]
fn pipelines() {
    let mut waits = 0;
    for seed in 0..60 {
        let rng = &mut Rng::new(seed);
        let plan = generate::camera_pipeline(rng, 1 + seed as usize % 4, 6);
        for _ in 0..4 {
            let (queue, buffer) = generate::question(rng, &plan);
            let (advised, [semaphore, value]) = ask(&plan, queue, buffer);
            if advised.answer != 1 {
                continue;
            }
            waits += 1;
            let freeing = |o: &&Operation| {
                let mut marks = o.marks.iter();
                marks.any(|mark| u32::from(mark.buffer) == buffer && mark.free)
            };
            let last = plan.operations.iter().rfind(freeing).expect("a free");
            let signal = last.signals[0];
            assert_eq!(
                [u64::from(signal.semaphore), signal.value],
                [semaphore, value]
            );
            let told = all_sides(|side| {
                let longer = longer(&plan, queue, signal);
                let (bytes, mut rooms) = (longer.bytes(), OwnRooms::new(longer.operations.len()));
                told(|told| side.reuse(&bytes, queue, buffer, &mut rooms.lend(), told))
            });
            assert_eq!(told, Told::answered(1));
        }
    }
    assert!(waits > 50, "{waits}");
}
