//! Waits for 0, refused by 16 while a plan is read, in bytes or in a list; on the
//! reference and, if it is linked, the C library. Places are counted from the plan
//! too.

mod small;

use harness::faults::{Fault, Faulty};
use harness::generate::{self, Family, Rng};
use harness::plan::Plan;
use harness::reference;
use harness::side::{told, OwnRooms, Side, Told};
use small::{all_sides, operation, plan};

const PATTERN: u32 = 0xA5A5_A5A5;

/// What every side's reader and check say, number and place; a refusal by either
/// leaves everything as it was, unless it is 10, 17 or 11.
fn judge(bytes: &[u8]) -> [Told; 2] {
    all_sides(|side| {
        let mut room = vec![7; 23_828];
        let read = told(|told| side.read(bytes, &mut room, told));
        if read.number != 0 {
            assert!(room.iter().all(|&number| number == 7));
        }
        let mut rooms = OwnRooms::filled(PATTERN, [16 * 8, 2 * 8]);
        let checked = told(|told| side.check(bytes, &mut rooms.lend(), told));
        if matches!(checked.number, 1..=9 | 16) {
            assert_eq!(rooms, OwnRooms::filled(PATTERN, [16 * 8, 2 * 8]));
        }
        [read, checked]
    })
}

/// Both refuse these bytes alike.
fn refused(bytes: &[u8], number: u64, place: u64) {
    let wanted = Told::refused(number, place);
    assert_eq!(judge(bytes), [wanted; 2], "{bytes:?}");
}

/// The reader takes these bytes, and the check refuses them.
fn only_the_check(plan: &Plan, number: u64, place: u64) {
    let [read, checked] = judge(&plan.bytes());
    assert_eq!(read, Told::answered(plan.numbers().len() as u64));
    assert_eq!(checked, Told::refused(number, place));
}

/// One queue and one semaphore: the operation begins at byte 15.
fn one(waits: &[(u16, u64)], signals: &[(u16, u64)]) -> Plan {
    let plan = plan(1, &[0], 0, vec![operation(0, waits, signals, &[])]);
    assert_eq!(plan.wait_at(0, 0)[0][0], 15 + 2);
    plan
}

#[test]
fn a_wait_for_zero() {
    let bytes = one(&[(0, 0)], &[]).bytes();
    refused(&bytes, 16, 18);
    // It is judged as soon as it is read, whatever comes after it, or nothing.
    refused(&bytes[..26], 16, 18);
    refused(&[&bytes[..26], &[255]].concat(), 16, 18);
    refused(&[&bytes[..], &[0]].concat(), 16, 18);
    // A value that is cut short, after each of its bytes.
    for length in 18..26 {
        refused(&bytes[..length], 1, 18);
    }
    // Each of its bytes alone makes it a wait above 0.
    for at in 18..26 {
        let mut bytes = bytes.clone();
        bytes[at] = 1;
        assert_eq!(judge(&bytes)[1], Told::refused(8, 0));
    }
}

#[test]
fn an_unknown_semaphore_comes_first() {
    refused(&one(&[(1, 0)], &[]).bytes(), 4, 17);
    refused(&one(&[(0, 0), (1, 0)], &[]).bytes(), 16, 18);
    refused(&one(&[(0, 1), (1, 0)], &[]).bytes(), 4, 26);
}

#[test]
fn the_second_of_two() {
    refused(&one(&[(0, 1), (0, 0)], &[]).bytes(), 16, 27);
    refused(&one(&[(0, 1), (0, 0), (0, 0)], &[(0, 1)]).bytes(), 16, 27);
    refused(&one(&[(0, 1), (0, 1), (0, 0)], &[(0, 1)]).bytes(), 16, 36);
}

#[test]
fn too_many_waits_come_first() {
    refused(&one(&[(0, 0); 4], &[]).bytes(), 2, 16);
    let mut bytes = one(&[(0, 0)], &[]).bytes();
    bytes[16] = 4;
    refused(&bytes, 2, 16);
}

#[test]
fn what_comes_later_does_not_matter() {
    // A bad queue before it; a bad count, a bad mark and bytes too many after it.
    let mut bytes = one(&[(0, 0)], &[(0, 1)]).bytes();
    bytes[15] = 1;
    refused(&bytes, 4, 15);
    bytes[15] = 0;
    bytes[26] = 3;
    refused(&bytes, 16, 18);
    // Signals that fall, and a wait that nothing meets, are judged after reading.
    refused(&one(&[(0, 0)], &[(0, 2), (0, 1)]).bytes(), 16, 18);
    refused(&one(&[(0, 9), (0, 0)], &[]).bytes(), 16, 27);
}

/// A signal has any value; 0 is 7.
#[test]
fn a_signal_of_zero() {
    only_the_check(&one(&[], &[(0, 0)]), 7, 0);
    only_the_check(&one(&[], &[(0, 1), (0, 0)]), 7, 0);
    only_the_check(&one(&[(0, 1)], &[(0, 0)]), 7, 0);
}

/// The least value is 1; above the highest signal it is 8, without exception.
#[test]
fn a_wait_for_one() {
    only_the_check(&one(&[(0, 1)], &[]), 8, 0);
    only_the_check(&one(&[(0, u64::MAX)], &[]), 8, 0);
    let both = vec![
        operation(0, &[], &[(0, 1)], &[]),
        operation(0, &[(0, 1)], &[], &[]),
    ];
    let [read, checked] = judge(&plan(1, &[0], 0, both).bytes());
    assert_eq!((read.number, checked), (0, Told::PASSED));
}

/// In the second form a semaphore's position has two bytes: the value is at 85.
#[test]
fn in_the_second_form() {
    let wide = |semaphore, value| {
        let operations = vec![operation(0, &[(semaphore, value)], &[], &[])];
        plan(1, &[0; 65], 0, operations)
    };
    let bytes = wide(64, 0).bytes();
    refused(&bytes, 16, 85);
    refused(&bytes[..92], 1, 85);
    refused(&wide(65, 0).bytes(), 4, 83);
    only_the_check(&wide(64, 1), 8, 0);
}

// ---------------------------------------------------------------------------
// The writer.

fn write(numbers: &[u64]) -> Told {
    all_sides(|side| {
        let mut room = [0xA5; 128];
        let told = told(|told| side.write(numbers, &mut room, told));
        let written = if told.number == 0 { told.answer } else { 0 };
        assert!(room[written as usize..].iter().all(|&byte| byte == 0xA5));
        told
    })
}

#[test]
fn lists() {
    let refused = |numbers: &[u64], number, place| {
        assert_eq!(write(numbers), Told::refused(number, place), "{numbers:?}");
    };
    refused(&[1, 7, 1, 0, 0, 1, 0, 1, 0, 0, 0, 0], 16, 9);
    refused(&[1, 7, 1, 0, 0, 1, 0, 1, 1, 0, 0, 0], 4, 8);
    refused(&[1, 7, 1, 0, 0, 1, 0, 1, 0], 1, 9);
    // As soon as it is read: with nothing after it, and with a bad number.
    refused(&[1, 7, 1, 0, 0, 1, 0, 1, 0, 0], 16, 9);
    refused(&[1, 7, 1, 0, 0, 1, 0, 1, 0, 0, 9], 16, 9);
    refused(&[1, 7, 1, 0, 0, 1, 0, 4, 0, 0, 0, 0], 2, 7);
    refused(&[1, 7, 1, 0, 0, 1, 0, 2, 0, 1, 0, 0, 0, 0], 16, 11);
    assert_eq!(
        write(&[1, 7, 1, 0, 0, 1, 0, 1, 0, 1, 0, 0]),
        Told::answered(28)
    );
    // A signal of 0 can be stored.
    assert_eq!(
        write(&[1, 7, 1, 0, 0, 1, 0, 0, 1, 0, 0, 0]),
        Told::answered(28)
    );
}

/// With too little room 16 still comes first, for reader and writer.
#[test]
fn room_comes_after() {
    let plan = one(&[(0, 0)], &[]);
    let (bytes, numbers) = (plan.bytes(), plan.numbers());
    let read = all_sides(|side| told(|told| side.read(&bytes, &mut [], told)));
    assert_eq!(read, Told::refused(16, 18));
    let written = all_sides(|side| told(|told| side.write(&numbers, &mut [], told)));
    assert_eq!(written, Told::refused(16, 9));
    let checked = all_sides(|side| {
        let rooms = &mut OwnRooms::new(0);
        told(|told| side.check(&bytes, &mut rooms.lend(), told))
    });
    assert_eq!(checked, Told::refused(16, 18));
}

/// Every question about a plan gives it, and hands back nothing.
#[test]
fn questions() {
    let bytes = one(&[(0, 0)], &[]).bytes();
    let asked = all_sides(|side| {
        let mut rooms = OwnRooms::filled(PATTERN, [16, 2]);
        let mut lent = rooms.lend();
        let (mut wait, mut sent) = ([9; 2], [9; 34]);
        let (mut state, mut found) = (vec![9; 1040], [9; 6]);
        let asked = [
            told(|told| side.reuse(&bytes, 9, 9, &mut lent, told)),
            told(|told| side.suggest(&bytes, 9, 9, &mut lent, &mut wait, told)),
            told(|told| side.frontier(&bytes, 9, 99, &mut lent, &mut sent, told)),
            told(|told| side.trace(&bytes, &[], &mut lent, &mut state, &mut found, told)),
        ];
        assert_eq!(rooms, OwnRooms::filled(PATTERN, [16, 2]));
        assert_eq!((wait, sent, found), ([0; 2], [0; 34], [0; 6]));
        assert!(state.iter().all(|&number| number == 9));
        asked
    });
    assert_eq!(asked, [Told::refused(16, 18); 4]);
}

// ---------------------------------------------------------------------------
// Places counted from the plan.

/// What reading a plan with waits for 0 gives by counting: in bytes, in a list.
fn counted(plan: &Plan) -> Option<[Told; 2]> {
    let (operation, wait) = plan.first_wait_for_zero()?;
    let [_, value] = plan.wait_at(operation, wait);
    Some(value.map(|place| Told::refused(16, place as u64)))
}

/// A random plan with one to three waits for 0.
fn some_zeros(rng: &mut Rng) -> Option<Plan> {
    let mut plan = match rng.below(8) {
        0 => generate::camera_pipeline(rng, 2, 4),
        1 => generate::handed_pipeline(rng, 2, 4),
        _ => generate::random_plan(rng, 12),
    };
    for _ in 0..rng.between(1, 3) {
        plan = generate::with_wait_for_zero(rng, &plan)?;
    }
    Some(plan)
}

/// Does this side's reader, writer or check differ from what is counted, or leave
/// something, or its reader refuse by 16 a plan without waits for 0?
fn differs(side: &dyn Side) -> bool {
    (0..3000).any(|seed| {
        let rng = &mut Rng::new(seed);
        let Some(plan) = some_zeros(rng) else {
            return false;
        };
        let (bytes, wanted) = (plan.bytes(), counted(&plan).expect("a wait for 0"));
        let mut rooms = OwnRooms::filled(PATTERN, [16 * 64, 2 * 64]);
        let untouched = rooms.clone();
        let read = |bytes: &[u8]| told(|told| side.read(bytes, &mut [], told));
        let checked = told(|told| side.check(&bytes, &mut rooms.lend(), told));
        let written = told(|told| side.write(&plan.numbers(), &mut [], told));
        let cut = &bytes[..wanted[0].place as usize + rng.below(8)];
        let mut more = bytes.clone();
        more.push(0);
        let without = generate::random_plan(rng, 12);
        let mut unknown = plan.clone();
        if let Some((operation, wait)) = unknown.first_wait_for_zero() {
            unknown.operations[operation].waits[wait].semaphore = unknown.owners.len() as u16;
        }
        [read(&bytes), checked] != [wanted[0]; 2]
            || rooms != untouched
            || written != wanted[1]
            || read(&more) != wanted[0]
            || read(cut) != Told::refused(1, wanted[0].place)
            || read(&unknown.bytes()).number != 4
            || read(&without.bytes()).number != 9
    })
}

/// Counting finds each seeded fault of waits for 0, 40 to 49, and none in the
/// reference or the library.
#[test]
fn counting_finds_faults() {
    all_sides(|side| assert!(!differs(side)));
    for &fault in &Fault::ALL[39..49] {
        assert!(differs(&Faulty(fault)), "{fault:?}");
    }
}

/// What the generators make has no wait for 0, but for the fault.
#[test]
fn only_as_a_fault() {
    let read = |plan: &Plan| reference::read(&plan.bytes(), &mut []).number;
    for seed in 0..3000 {
        let rng = &mut Rng::new(seed);
        let plan = generate::random_plan(rng, 40);
        assert_eq!((plan.first_wait_for_zero(), read(&plan)), (None, 9));
        if let Some(plan) = generate::with_wait_for_zero(rng, &plan) {
            assert_eq!(read(&plan), 16, "{plan}");
        }
        let traps = generate::trap(rng);
        assert_eq!(traps.first_wait_for_zero(), None);
    }
    for family in Family::ALL {
        for operations in [64, 1024] {
            let rng = &mut Rng::new(7);
            for plan in [
                family.plan(rng, operations),
                family.handed_plan(rng, operations),
            ] {
                assert_eq!(plan.first_wait_for_zero(), None, "{family:?}");
            }
        }
    }
}
