//! The reference against brute force and against itself, on random input.

use harness::brute::{self, Judgement};
use harness::generate::{self, Family, Rng};
use harness::plan::Plan;
use harness::reference;
use harness::side::{OwnRooms, Raw, Told, EMPTY, EPOCHS, LENGTH, TAINT};
use std::collections::BTreeMap;

/// What brute force and the reference say must agree, with all that is lent.
fn agree(plan: &Plan) -> u64 {
    let operations = plan.operations.len();
    let mut left = OwnRooms::filled(9, [16 * operations, 2 * operations]);
    let told = reference::check(&plan.bytes(), &mut left.lend());
    let judgement = brute::judge(plan);
    assert_eq!((told, left), judgement.told_and_left(plan, 9), "{plan}");
    if let Judgement::Passed { rows, .. } = judgement {
        agree_on_reuse(plan, &rows, plan.axes.len());
        agree_on_frontiers(plan, &rows);
    }
    told.number
}

fn agree_on_reuse(plan: &Plan, rows: &[Vec<usize>], queues: usize) {
    let mut rooms = OwnRooms::new(plan.operations.len());
    for queue in 0..queues {
        for buffer in 0..plan.sizes.len() {
            let (q, b) = (queue as u32, buffer as u32);
            let told = reference::reuse(&plan.bytes(), q, b, &mut rooms.lend());
            let verdict = brute::reuse(plan, rows, queue, buffer);
            assert_eq!(told, Told::answered(verdict), "{plan}");
        }
    }
}

fn agree_on_frontiers(plan: &Plan, rows: &[Vec<usize>]) {
    let mut rooms = OwnRooms::new(plan.operations.len());
    for (operation, row) in rows.iter().enumerate() {
        let entries = plan.axes.iter().zip(row).filter(|(_, &epoch)| epoch > 0);
        let entries: Vec<_> = entries
            .map(|(&axis, &epoch)| (axis, epoch as u64))
            .collect();
        for capacity in 1..=4 {
            let wanted = brute::keep_largest(entries.clone(), capacity);
            let mut out = [7; 34];
            let told = reference::frontier_of(
                &plan.bytes(),
                operation as u32,
                capacity as u32,
                &mut rooms.lend(),
                &mut out,
            );
            assert_eq!(told, Told::PASSED, "{plan}");
            assert!(reference::well_formed(&out));
            assert_eq!(plain(&out), wanted, "{plan}");
        }
    }
}

#[test]
fn reference_against_brute_force() {
    let mut numbers = BTreeMap::new();
    for seed in 0..6000 {
        let mut rng = Rng::new(seed);
        let plan = generate::random_plan(&mut rng, brute::MOST_OPERATIONS);
        *numbers.entry(agree(&plan)).or_insert(0) += 1;
    }
    for number in [0, 7, 8, 10, 11, 17] {
        assert!(numbers.get(&number) > Some(&100), "{numbers:?}");
    }
}

#[test]
fn small_pipelines_against_brute_force() {
    for seed in 0..500 {
        let mut rng = Rng::new(seed);
        let mut plan = generate::camera_pipeline(&mut rng, 1, 2);
        plan.operations.truncate(rng.between(1, 7));
        let other = match rng.below(4) {
            0 => plan,
            1 => generate::without_one_wait(&mut rng, &plan),
            2 => generate::with_deadlock(&mut rng, &plan),
            _ => generate::reordered(&mut rng, &plan),
        };
        agree(&other);
    }
}

/// A plan of each kind the generators make.
fn some_plans(rng: &mut Rng) -> Vec<Plan> {
    let mut plans: Vec<Plan> = (0..200).map(|_| generate::random_plan(rng, 40)).collect();
    plans.push(generate::camera_pipeline(rng, 3, 10));
    plans.extend(Family::ALL.map(|family| family.plan(rng, 64)));
    plans.extend(Family::GREATEST.map(|family| family.plan(rng, 1024)));
    plans.push(generate::with_all_waits(rng, &plans[plans.len() - 1]));
    plans
}

#[test]
fn round_trips() {
    let rng = &mut Rng::new(1);
    for plan in some_plans(rng) {
        let (bytes, numbers) = (plan.bytes(), plan.numbers());
        let mut read = vec![7; numbers.len() + 2];
        let told = reference::read(&bytes, &mut read);
        assert_eq!(told, Told::answered(numbers.len() as u64));
        assert_eq!(read[..numbers.len()], numbers);
        assert_eq!(read[numbers.len()..], [7, 7]);
        let mut written = vec![7; bytes.len() + 2];
        let told = reference::write(&numbers, &mut written);
        assert_eq!(told, Told::answered(bytes.len() as u64));
        assert_eq!(written[..bytes.len()], bytes);
        assert_eq!(written[bytes.len()..], [7, 7]);
        assert_eq!(Plan::from_numbers(&numbers), plan);
        too_little_room(&bytes, &numbers);
    }
}

fn too_little_room(bytes: &[u8], numbers: &[u64]) {
    let mut room = vec![7; numbers.len() - 1];
    let told = reference::read(bytes, &mut room);
    assert_eq!(told, Told::refused(9, numbers.len() as u64));
    assert!(room.iter().all(|&number| number == 7));
    let mut room = vec![7; bytes.len() - 1];
    let told = reference::write(numbers, &mut room);
    assert_eq!(told, Told::refused(9, bytes.len() as u64));
    assert!(room.iter().all(|&byte| byte == 7));
}

/// R8: what is readable is written back byte for byte. What is not leaves the
/// room untouched.
#[test]
fn damaged_bytes() {
    let rng = &mut Rng::new(2);
    for _ in 0..20_000 {
        let plan = generate::random_plan(rng, 5);
        let bytes = generate::damaged(rng, &plan.bytes());
        let mut room = vec![7; bytes.len() + 1];
        let told = reference::read(&bytes, &mut room);
        if told.number == 0 {
            let mut written = vec![0; bytes.len()];
            let numbers = &room[..told.answer as usize];
            let back = reference::write(numbers, &mut written);
            assert_eq!(back, Told::answered(bytes.len() as u64));
            assert_eq!(written, bytes);
        } else {
            assert!(matches!(told.number, 1..=5 | 16));
            assert!(told.place <= bytes.len() as u64);
            assert!(room.iter().all(|&number| number == 7));
        }
    }
}

/// R38: a plan cut short anywhere is 1 at the first byte of the field cut.
#[test]
fn truncations() {
    let rng = &mut Rng::new(3);
    let bytes = generate::camera_pipeline(rng, 2, 2).bytes();
    let mut last_place = 0;
    for length in 0..bytes.len() {
        let told = reference::check(&bytes[..length], &mut OwnRooms::new(0).lend());
        assert_eq!(told.number, 1);
        assert!(last_place <= told.place && told.place <= length as u64);
        assert!(told.place + 8 > length as u64);
        last_place = told.place;
    }
}

/// The writer judges a number that fits no byte by the field's own rule.
#[test]
fn wide_numbers() {
    let write = |numbers: &[u64]| {
        let told = reference::write(numbers, &mut [0; 64]);
        (told.number, told.place)
    };
    assert_eq!(write(&[]), (1, 0));
    assert_eq!(write(&[0, 0, 0]), (1, 3));
    assert_eq!(write(&[0, 0, 0, 0]), (0, 0));
    assert_eq!(write(&[0, 0, 0, 0, 0]), (3, 4));
    assert_eq!(write(&[256, 0, 0, 0]), (2, 0));
    assert_eq!(write(&[0, 0, 65536, 0]), (2, 2));
    assert_eq!(write(&[1, u64::MAX, 1, 256, 0, 0]), (4, 3));
    assert_eq!(write(&[2, 5, 5, 0, 0, 0]), (5, 2));
    assert_eq!(write(&[0, 0, 1, (1 << 32) - 1, 0]), (0, 0));
    assert_eq!(write(&[0, 0, 1, 1 << 32, 0]), (4, 3));
    assert_eq!(write(&[1, 3, 0, 1, 0, 1, 0, 0, 0, 1, 0, 2]), (4, 11));
    assert_eq!(write(&[1, 3, 0, 1, 0, 1, 0, 0, 0, 1, 256, 0]), (4, 10));
}

#[test]
fn families_pass_at_every_size() {
    for family in Family::ALL {
        for operations in [64, 128, 256, 512, 1024] {
            let plan = family.plan(&mut Rng::new(4), operations);
            assert_eq!(plan.operations.len(), operations);
            let mut rooms = OwnRooms::new(operations);
            let told = reference::check(&plan.bytes(), &mut rooms.lend());
            assert_eq!(told, Told::PASSED, "{family:?} {operations}");
        }
    }
}

#[test]
fn pipelines_pass_unless_spoiled() {
    let mut numbers = BTreeMap::new();
    for seed in 0..200 {
        let rng = &mut Rng::new(seed);
        let plan = generate::camera_pipeline(rng, 1 + seed as usize % 4, 12);
        let judge = |plan: &Plan| {
            let mut rooms = OwnRooms::new(plan.operations.len());
            reference::check(&plan.bytes(), &mut rooms.lend()).number
        };
        assert_eq!(judge(&plan), 0);
        let spoiled = [
            generate::without_one_wait(rng, &plan),
            generate::with_deadlock(rng, &plan),
        ];
        for plan in &spoiled {
            *numbers.entry(judge(plan)).or_insert(0) += 1;
        }
    }
    assert!(numbers[&10] > 50 && numbers[&11] > 50, "{numbers:?}");
}

// ---------------------------------------------------------------------------

fn plain(frontier: &Raw) -> brute::Frontier {
    let length = frontier[LENGTH] as usize;
    let entries = (0..length).map(|slot| (frontier[slot], frontier[EPOCHS + slot]));
    (entries.collect(), frontier[TAINT] == 1)
}

#[test]
fn frontiers_against_plain_lists() {
    let rng = &mut Rng::new(6);
    for _ in 0..20_000 {
        let left = generate::frontier(rng, 16);
        let right = match rng.below(2) {
            0 => generate::frontier(rng, 16),
            _ => generate::frontier_below(rng, &left),
        };
        let capacity = rng.between(1, 16);
        let (told, merged) = reference::merge(&left, &right, capacity as u32);
        assert_eq!(told, Told::PASSED);
        assert!(reference::well_formed(&merged));
        let wanted = brute::merge(&plain(&left), &plain(&right), capacity);
        assert_eq!(plain(&merged), wanted);

        let answer = match brute::dominates(&plain(&left), &plain(&right)) {
            Some(yes) => u64::from(yes),
            None => 2,
        };
        assert_eq!(reference::dominates(&left, &right), Told::answered(answer));

        let (axis, epoch) = (rng.below(20) as u64, rng.below(10) as u64);
        let listed = plain(&left).0.into_iter().find(|entry| entry.0 == axis);
        let wanted = listed.map_or((Told::answered(0), 0), |entry| (Told::answered(1), entry.1));
        assert_eq!(reference::lookup(&left, axis), wanted);

        let one = match epoch {
            0 => vec![],
            _ => vec![(axis, epoch)],
        };
        let wanted = brute::merge(&plain(&left), &(one, false), capacity);
        let (told, raised) = reference::raise(&left, axis, epoch, capacity as u32);
        assert_eq!((told, plain(&raised)), (Told::PASSED, wanted));
    }
}

/// R66: the laws of merge where nothing is cut.
#[test]
fn merge_laws() {
    let rng = &mut Rng::new(7);
    let merge = |a: &Raw, b: &Raw| reference::merge(a, b, 16).1;
    for _ in 0..5000 {
        let [a, b, c] = [(); 3].map(|_| generate::frontier(rng, 5));
        assert_eq!(merge(&a, &a), a);
        assert_eq!(merge(&a, &b), merge(&b, &a));
        assert_eq!(merge(&merge(&a, &b), &c), merge(&a, &merge(&b, &c)));
    }
}

#[test]
fn refused_frontiers() {
    let mut bad = EMPTY;
    bad[TAINT] = 2;
    let out = |number| (Told::refused(number, 0), EMPTY);
    assert_eq!(reference::merge(&bad, &EMPTY, 0), out(15));
    assert_eq!(reference::merge(&bad, &EMPTY, 17), out(15));
    assert_eq!(reference::merge(&bad, &EMPTY, 1), out(14));
    assert_eq!(reference::merge(&EMPTY, &bad, 1), out(14));
    assert_eq!(reference::raise(&bad, 1, 0, 0), out(15));
    assert_eq!(reference::raise(&bad, 1, 0, 1), out(14));
    assert_eq!(reference::dominates(&EMPTY, &bad), Told::refused(14, 0));
    assert_eq!(reference::dominates(&bad, &EMPTY), Told::refused(14, 0));
}
