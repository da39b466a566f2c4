//! Semaphores handed from queue to queue: small plans on the reference, by brute
//! force and, if it is linked, on the C library; and plans where only owners
//! signal, judged by the rules that tie a semaphore to its owner as well.

mod small;

use harness::brute::{self, Met, Runs};
use harness::faults::{Fault, Faulty};
use harness::generate::{self, Family, Rng};
use harness::plan::{Operation, Plan};
use harness::reference::{self, owners, Reference};
use harness::side::{told, OwnRooms, Side, Told, STATE};
use harness::traces;
use small::{all_sides, operation, plan};
use std::collections::BTreeMap;

/// What a side tells of a plan, and what it leaves.
fn told_and_left(side: &dyn Side, plan: &Plan) -> (Told, OwnRooms) {
    let (bytes, operations) = (plan.bytes(), plan.operations.len());
    let mut left = OwnRooms::filled(7, [16 * operations, 2 * operations]);
    let told = told(|told| side.check(&bytes, &mut left.lend(), told));
    (told, left)
}

/// The same, from every side and by brute force.
fn check(plan: &Plan) -> (Told, OwnRooms) {
    let checked = all_sides(|side| told_and_left(side, plan));
    assert_eq!(checked, brute::judge(plan).told_and_left(plan, 7), "{plan}");
    checked
}

fn refused(plan: &Plan, number: u64, place: u64) {
    assert_eq!(check(plan).0, Told::refused(number, place));
}

fn row(left: &OwnRooms, operation: usize, queues: usize) -> &[u32] {
    &left.table[16 * operation..16 * operation + queues]
}

/// Queue 0 signals 1, queue 1 waits for it and signals 2, queue 2 waits for that.
fn handed(owner: u8) -> Plan {
    let operations = vec![
        operation(0, &[], &[(0, 1)], &[]),
        operation(1, &[(0, 1)], &[(0, 2)], &[]),
        operation(2, &[(0, 2)], &[], &[]),
    ];
    plan(3, &[owner], 0, operations)
}

#[test]
fn t14_handed_on() {
    for owner in 0..3 {
        let (told, left) = check(&handed(owner));
        assert_eq!(told, Told::PASSED);
        assert_eq!(left.list, [0, 1, 2, 1, 1, 1]);
        let rows = [[1, 0, 0], [1, 1, 0], [1, 1, 1]];
        for (operation, wanted) in rows.iter().enumerate() {
            assert_eq!(row(&left, operation, 3), wanted);
        }
    }
    // The owner must still name a queue: the byte after the axes and the count.
    let mut bytes = handed(0).bytes();
    bytes[26] = 3;
    let told =
        all_sides(|side| told(|told| side.check(&bytes, &mut OwnRooms::new(3).lend(), told)));
    assert_eq!(told, Told::refused(4, 26));
}

#[test]
fn t15_without_an_order() {
    let unordered = vec![
        operation(0, &[], &[(0, 1)], &[]),
        operation(1, &[], &[(0, 2)], &[]),
    ];
    refused(&plan(2, &[0], 0, unordered), 17, 1);
    let both = vec![operation(0, &[], &[(0, 1), (0, 2)], &[])];
    assert_eq!(check(&plan(1, &[0], 0, both)).0, Told::PASSED);
}

#[test]
fn t16_back_again() {
    let with = |waits: &[(u16, u64)]| {
        let operations = vec![
            operation(0, &[], &[(0, 1)], &[]),
            operation(1, &[(0, 1)], &[(0, 2)], &[]),
            operation(0, waits, &[(0, 3)], &[]),
        ];
        plan(2, &[0], 0, operations)
    };
    refused(&with(&[]), 17, 2);
    // The wait for 1 rests on what its own queue has signalled.
    refused(&with(&[(0, 1)]), 17, 2);
    let (told, left) = check(&with(&[(0, 2)]));
    assert_eq!(told, Told::PASSED);
    assert_eq!(row(&left, 2, 2), [2, 1]);
}

/// A chain of other waits orders two signals as well.
#[test]
fn handed_by_another_semaphore() {
    let operations = vec![
        operation(0, &[], &[(0, 1), (1, 1)], &[]),
        operation(1, &[(1, 1)], &[(1, 2)], &[]),
        operation(2, &[(1, 2)], &[(0, 2)], &[]),
    ];
    assert_eq!(check(&plan(3, &[2, 2], 0, operations)).0, Told::PASSED);
}

#[test]
fn t17_plan_order_is_not_run_order() {
    let operations = vec![
        operation(1, &[(1, 1)], &[(0, 1)], &[]),
        operation(0, &[], &[(1, 1), (0, 2)], &[]),
    ];
    refused(&plan(2, &[0, 0], 0, operations), 17, 1);
}

#[test]
fn t18_order_of_refusals() {
    let broken_mark = |free: &[(&str, u16)], stuck: &[(u16, u64)]| {
        let operations = vec![
            operation(0, &[], &[(0, 1)], &[("free", 0)]),
            operation(1, &[], &[], free),
            operation(2, stuck, &[(0, 2), (1, 1)], &[]),
        ];
        plan(3, &[0, 2], 1, operations)
    };
    // A broken mark at 1, and 17 at 2; without the mark as well.
    refused(&broken_mark(&[("use", 0)], &[]), 17, 2);
    refused(&broken_mark(&[], &[]), 17, 2);
    // In turn, the mark is named.
    refused(&broken_mark(&[("use", 0)], &[(0, 1)]), 11, 1);
    // Out of turn at 1, and operation 2 waits for itself.
    let operations = vec![
        operation(0, &[], &[(0, 1)], &[]),
        operation(1, &[], &[(0, 2)], &[]),
        operation(2, &[(1, 1)], &[(1, 1)], &[]),
    ];
    refused(&plan(3, &[0, 2], 0, operations), 10, 2);
    // S=2, then S=1 by another queue; 8 comes after 7, and before 17.
    let falling = vec![
        operation(0, &[], &[(0, 2)], &[]),
        operation(1, &[], &[(0, 1)], &[]),
    ];
    refused(&plan(2, &[0], 0, falling), 7, 1);
    let too_high = vec![
        operation(0, &[], &[(0, 1)], &[]),
        operation(1, &[], &[(0, 2)], &[]),
        operation(1, &[(0, 3)], &[], &[]),
    ];
    refused(&plan(2, &[0], 0, too_high), 8, 2);
}

/// By values operation 0 would be in a run, and 10 would be at 1.
#[test]
fn t19_the_trap() {
    let operations = vec![
        operation(2, &[(0, 1)], &[], &[]),
        operation(0, &[(1, 1)], &[(0, 1), (1, 1)], &[]),
        operation(1, &[], &[(0, 2)], &[]),
    ];
    let plan = plan(3, &[0, 0], 0, operations);
    refused(&plan, 10, 0);
    let reached = |met| Runs::of(&plan, met).reached[..3].to_vec();
    assert_eq!(reached(Met::ByWhatItRestsOn), [false, false, true]);
    assert_eq!(reached(Met::ByValue), [true, false, true]);
}

/// By values there would be a full run, and 17 at 2.
#[test]
fn stuck_though_full_by_value() {
    let operations = vec![
        operation(0, &[(0, 1)], &[], &[]),
        operation(0, &[], &[(0, 1)], &[]),
        operation(1, &[], &[(0, 2)], &[]),
    ];
    refused(&plan(2, &[0], 0, operations), 10, 0);
}

#[test]
fn lent_lengths_come_before_17() {
    let operations = vec![
        operation(0, &[], &[(0, 1)], &[]),
        operation(1, &[], &[(0, 2)], &[]),
    ];
    let bytes = plan(2, &[0], 0, operations).bytes();
    for (lengths, wanted) in [
        ([31, 4], Told::refused(9, 32)),
        ([32, 3], Told::refused(9, 4)),
        ([33, 5], Told::refused(17, 1)),
    ] {
        let (told, left) = all_sides(|side| {
            let mut left = OwnRooms::filled(7, lengths);
            let told = told(|told| side.check(&bytes, &mut left.lend(), told));
            (told, left)
        });
        assert_eq!(told, wanted);
        let mut untouched = OwnRooms::filled(7, lengths);
        if wanted.number == 17 {
            untouched.table[..32].fill(0);
            untouched.list[..4].fill(0);
        }
        assert_eq!(left, untouched);
    }
}

#[test]
fn questions_of_a_handed_plan() {
    let mut plan = handed(2);
    plan.sizes = vec![64];
    plan.operations[0].marks = operation(0, &[], &[], &[("free", 0)]).marks;
    let bytes = plan.bytes();
    // S0=1 is after the free, and the first in plan order.
    let advised = all_sides(|side| {
        let (mut rooms, mut wait) = (OwnRooms::new(3), [9; 2]);
        let rooms = &mut rooms.lend();
        let reused = told(|told| side.reuse(&bytes, 2, 0, rooms, told));
        assert_eq!(reused, Told::answered(1));
        plan_without_last(&plan, |bytes| {
            let told = told(|told| side.suggest(bytes, 2, 0, rooms, &mut wait, told));
            (told, wait)
        })
    });
    assert_eq!(advised, (Told::answered(1), [0, 1]));
    // Operation 2 before operation 1: the wait for 2 is not met, S0 is at 1.
    let traced = |steps: &[u16]| {
        all_sides(|side| {
            let (mut rooms, mut state, mut found) = (OwnRooms::new(3), vec![9; STATE], [9; 6]);
            let (trace, rooms) = (traces::stored(steps), &mut rooms.lend());
            let told = told(|told| {
                side.trace(&bytes, &trace, rooms, &mut state, &mut found, told);
            });
            (
                told.answer,
                found,
                [state[0], state[1], state[2], state[16]],
            )
        })
    };
    assert_eq!(traced(&[0, 2]), (5, [1, 2, 0, 0, 0, 0], [1, 0, 0, 1]));
    assert_eq!(traced(&[0, 1]), (1, [2, 0, 0, 0, 0, 0], [1, 1, 0, 2]));
    assert_eq!(traced(&[0, 1, 2]), (0, [3, 0, 0, 0, 0, 0], [1, 1, 1, 2]));
}

fn plan_without_last<T>(plan: &Plan, ask: impl FnOnce(&[u8]) -> T) -> T {
    let mut plan = plan.clone();
    plan.operations.pop();
    ask(&plan.bytes())
}

// ---------------------------------------------------------------------------
// What the generators make.

fn number_of(plan: &Plan) -> u64 {
    let mut rooms = OwnRooms::new(plan.operations.len());
    reference::check(&plan.bytes(), &mut rooms.lend()).number
}

/// How many queues signal a semaphore.
fn queues_of(plan: &Plan, semaphore: u16) -> u32 {
    let mut queues = 0u16;
    for operation in &plan.operations {
        let mut signals = operation.signals.iter();
        if signals.any(|signal| signal.semaphore == semaphore) {
            queues |= 1 << operation.queue;
        }
    }
    queues.count_ones()
}

/// Semaphores that several queues signal.
fn handed_semaphores(plan: &Plan) -> usize {
    let semaphores = 0..plan.owners.len() as u16;
    semaphores.filter(|&s| queues_of(plan, s) > 1).count()
}

/// Handed plans of every family pass, and with a wait missing some are 17; not
/// where queues are woken at once, for the sleepers' waits order the signals too.
#[test]
fn families() {
    for family in Family::ALL {
        let mut refused = 0;
        for (seed, operations) in [64, 128, 512, 1024, 1024].into_iter().enumerate() {
            let rng = &mut Rng::new(seed as u64);
            let plan = family.handed_plan(rng, operations);
            assert_eq!(plan.operations.len(), operations);
            assert!(handed_semaphores(&plan) > 0, "{family:?} {operations}");
            assert_eq!(number_of(&plan), 0, "{family:?} {operations}");
            let without = (0..40).map(|_| generate::without_one_wait(rng, &plan));
            refused += without.filter(|plan| number_of(plan) == 17).count();
        }
        let ordered_twice = family == Family::WokenAtOnce;
        assert_eq!(refused == 0, ordered_twice, "{family:?}");
    }
}

/// Of the family's signals half are on semaphores that several queues signal.
#[test]
fn half_handed_over() {
    for operations in [64, 256, 1024] {
        let plan = Family::HandedOver.plan(&mut Rng::new(1), operations);
        let signals = plan.operations.iter().flat_map(|o| &o.signals);
        let handed = signals.filter(|signal| queues_of(&plan, signal.semaphore) > 1);
        let share = 100 * handed.count() / (2 * operations);
        assert!(
            (40..=60).contains(&share),
            "{share} in a hundred of {operations}"
        );
    }
}

#[test]
fn pipelines() {
    let mut numbers = BTreeMap::new();
    for seed in 0..200 {
        let rng = &mut Rng::new(seed);
        let plan = generate::handed_pipeline(rng, 1 + seed as usize % 4, 12);
        assert_eq!(number_of(&plan), 0);
        for spoiled in [
            generate::without_one_wait(rng, &plan),
            generate::with_deadlock(rng, &plan),
        ] {
            *numbers.entry(number_of(&spoiled)).or_insert(0) += 1;
        }
    }
    assert!(numbers[&10] > 50 && numbers[&17] > 50, "{numbers:?}");
}

/// By values a trap is stuck elsewhere, or not stuck.
#[test]
fn traps() {
    let mut by_value = [0; 2];
    for seed in 0..300 {
        let plan = generate::trap(&mut Rng::new(seed));
        let (told, _) = check(&plan);
        assert_eq!(told.number, 10, "{plan}");
        let reached = Runs::of(&plan, Met::ByValue).reached;
        let stuck = reached[..plan.operations.len()].iter().position(|r| !r);
        assert_ne!(stuck, Some(told.place as usize), "{plan}");
        by_value[usize::from(stuck.is_none())] += 1;
    }
    assert!(by_value.iter().all(|&count| count > 50), "{by_value:?}");
}

/// Every plan of three operations on three queues, each with at most one wait, for
/// 1 or 2, and one signal, to 1 to 3, on two semaphores, whose signals rise: each
/// side and brute force agree.
#[test]
fn every_plan_of_three_operations() {
    let lists = |most: u64| {
        let points = (0..2).flat_map(move |s| (1..=most).map(move |value| vec![(s, value)]));
        std::iter::once(vec![]).chain(points)
    };
    let mut each = Vec::new();
    for queue in 0..3 {
        for waits in lists(2) {
            each.extend(lists(3).map(|signals| operation(queue, &waits, &signals, &[])));
        }
    }
    let rises = |first: &Operation, second: &Operation| {
        let mut signals = first.signals.iter().zip(&second.signals);
        signals.all(|(one, other)| one.semaphore != other.semaphore || one.value < other.value)
    };
    let mut numbers = BTreeMap::new();
    let mut judged = plan(3, &[2, 0], 0, vec![Operation::default(); 3]);
    for first in &each {
        for second in each.iter().filter(|second| rises(first, second)) {
            let both = |third: &&Operation| rises(first, third) && rises(second, third);
            for third in each.iter().filter(both) {
                for (to, from) in judged.operations.iter_mut().zip([first, second, third]) {
                    to.clone_from(from);
                }
                *numbers.entry(check(&judged).0.number).or_insert(0) += 1;
            }
        }
    }
    assert!([0, 8, 10, 17].iter().eq(numbers.keys()), "{numbers:?}");
}

/// Where signals are in turn, a wait is met once its semaphore has come to its
/// value: the runs are the same by values, as a device goes by them.
#[test]
fn values_tell_the_same_of_signals_in_turn() {
    let [mut handed, mut differ] = [0; 2];
    for seed in 0..12_000 {
        let plan = generate::random_plan(&mut Rng::new(seed), 6);
        let number = number_of(&plan);
        if handed_semaphores(&plan) == 0 || matches!(number, 7 | 8 | 10) {
            continue;
        }
        let [rests, values] = [Met::ByWhatItRestsOn, Met::ByValue].map(|met| Runs::of(&plan, met));
        if number == 17 {
            differ += usize::from(rests.every != values.every);
        } else {
            assert!(rests.every == values.every, "{plan}");
            handed += 1;
        }
    }
    assert!(handed > 500 && differ > 20, "{handed} {differ}");
}

/// Does this side tell or leave something else of some small plan than brute
/// force?
fn brute_force_differs(side: &dyn Side) -> bool {
    (0..4000).any(|seed| {
        let rng = &mut Rng::new(seed);
        let plan = match seed % 8 {
            0 => generate::trap(rng),
            _ => generate::random_plan(rng, brute::MOST_OPERATIONS),
        };
        told_and_left(side, &plan) != brute::judge(&plan).told_and_left(&plan, 7)
    })
}

/// Brute force finds each seeded fault of handovers, 28 to 39, and none in the
/// reference.
#[test]
fn brute_force_finds_faults() {
    assert!(!brute_force_differs(&Reference));
    for &fault in &Fault::ALL[27..39] {
        assert!(brute_force_differs(&Faulty(fault)), "{fault:?}");
    }
}

// ---------------------------------------------------------------------------
// R95: where only owners signal, nothing changes.

/// The plan without the signals of queues that are not the owner.
fn by_owners_alone(plan: &Plan) -> Plan {
    let mut plan = plan.clone();
    let owners = plan.owners.clone();
    for operation in &mut plan.operations {
        let owns = |s: u16| owners[usize::from(s)] == operation.queue;
        operation.signals.retain(|signal| owns(signal.semaphore));
    }
    plan
}

fn only_owners_signal(plan: &Plan) -> bool {
    let by_owner = |o: &Operation| {
        let mut signals = o.signals.iter();
        signals.all(|signal| plan.owners[usize::from(signal.semaphore)] == o.queue)
    };
    plan.operations.iter().all(by_owner)
}

/// Number, place and all that is left, and what a trace is told, by both rules.
fn agree_with_owners(rng: &mut Rng, plan: &Plan) -> u64 {
    assert!(only_owners_signal(plan));
    let (bytes, operations) = (plan.bytes(), plan.operations.len());
    let lengths = [16 * operations, 2 * operations].map(|needed| match rng.below(12) {
        0 => needed.saturating_sub(1),
        _ => needed + rng.below(3),
    });
    let checked = all_sides(|side| {
        let mut left = OwnRooms::filled(7, lengths);
        let told = told(|told| side.check(&bytes, &mut left.lend(), told));
        (told, left)
    });
    let mut left = OwnRooms::filled(7, lengths);
    let by_owners = owners::check(&bytes, &mut left.lend());
    assert_eq!(checked, (by_owners, left), "{plan}");
    if by_owners.number == 0 {
        let mut steps = traces::steps(rng, plan);
        steps.truncate(traces::MOST_STEPS);
        let trace = traces::stored(&steps);
        let followed = all_sides(|side| {
            let (mut rooms, mut state, mut found) = (OwnRooms::new(operations), [9; STATE], [9; 6]);
            let rooms = &mut rooms.lend();
            let told = told(|told| {
                side.trace(&bytes, &trace, rooms, &mut state, &mut found, told);
            });
            (told.answer, found, state)
        });
        let by_value = owners::follow(&bytes, &steps).expect("a plan that passes is read");
        assert_eq!(followed, by_value, "{steps:?} of {plan}");
    }
    by_owners.number
}

#[test]
fn only_owners() {
    let mut numbers = BTreeMap::new();
    for seed in 0..30_000 {
        let rng = &mut Rng::new(seed);
        let most = if seed % 4 == 0 { 40 } else { 7 };
        let plan = by_owners_alone(&generate::random_plan(rng, most));
        *numbers.entry(agree_with_owners(rng, &plan)).or_insert(0) += 1;
    }
    for number in [0, 7, 8, 9, 10, 11] {
        assert!(numbers.get(&number) > Some(&200), "{numbers:?}");
    }
    assert_eq!(numbers.len(), 6, "{numbers:?}");
    for seed in 0..60 {
        let rng = &mut Rng::new(seed);
        let plan = generate::camera_pipeline(rng, 1 + seed as usize % 4, 8);
        for plan in [
            generate::without_one_wait(rng, &plan),
            generate::with_deadlock(rng, &plan),
            generate::reordered(rng, &plan),
        ] {
            agree_with_owners(rng, &plan);
        }
        agree_with_owners(rng, &plan);
    }
    let families = Family::ALL.into_iter();
    for family in families.filter(|&family| family != Family::HandedOver) {
        for operations in [64, 300, 1024] {
            let rng = &mut Rng::new(operations as u64);
            let plan = family.plan(rng, operations);
            let missing = generate::without_one_wait(rng, &plan);
            let deadlock = generate::with_deadlock(rng, &plan);
            for plan in [plan, missing, deadlock] {
                agree_with_owners(rng, &plan);
            }
        }
    }
}

/// Where another queue signals, the rules by owners do give 6.
#[test]
fn by_owners_six() {
    let mut six = 0;
    for seed in 0..2000 {
        let plan = generate::random_plan(&mut Rng::new(seed), 7);
        let mut rooms = OwnRooms::new(plan.operations.len());
        let told = owners::check(&plan.bytes(), &mut rooms.lend());
        assert!(told.number != 6 || !only_owners_signal(&plan), "{plan}");
        assert!(told.number != 0 || only_owners_signal(&plan), "{plan}");
        six += usize::from(told.number == 6);
    }
    assert!(six > 500, "{six}");
}

/// By owners 6 comes before 7 for one signal, and both in the order of the plan.
#[test]
fn by_owners_six_before_seven() {
    let judge = |operations| {
        let plan = plan(2, &[0, 1], 0, operations);
        let told = owners::check(&plan.bytes(), &mut OwnRooms::new(3).lend());
        (told.number, told.place)
    };
    let (first, foreign) = (&[(0, 2)], &[(0, 1)]);
    let both = vec![
        operation(0, &[], first, &[]),
        operation(1, &[], foreign, &[]),
    ];
    assert_eq!(judge(both), (6, 1));
    let falling = operation(0, &[], foreign, &[]);
    let seven = vec![
        operation(0, &[], first, &[]),
        falling,
        operation(1, &[], first, &[]),
    ];
    assert_eq!(judge(seven), (7, 1));
    let in_list = vec![operation(0, &[], &[(0, 0), (1, 1)], &[])];
    assert_eq!(judge(in_list), (7, 0));
    let in_list = vec![operation(0, &[], &[(1, 1), (0, 0)], &[])];
    assert_eq!(judge(in_list), (6, 0));
}

/// Where only owners signal and signals rise, the runs are the same by values and
/// by what waits rest on, also if a wait is for more than is ever signalled; and
/// every run raises every semaphore in order.
#[test]
fn the_same_runs() {
    let (mut judged, mut eight) = (0, 0);
    for seed in 0..8000 {
        let plan = by_owners_alone(&generate::random_plan(&mut Rng::new(seed), 6));
        let number = number_of(&plan);
        if number == 7 {
            continue;
        }
        let [rests, values] = [Met::ByWhatItRestsOn, Met::ByValue].map(|met| Runs::of(&plan, met));
        assert!(rests.every == values.every, "{plan}");
        assert!(rests.all_raise && values.all_raise, "{plan}");
        judged += 1;
        eight += usize::from(number == 8);
    }
    assert!(judged > 5000 && eight > 500, "{judged} {eight}");
}
