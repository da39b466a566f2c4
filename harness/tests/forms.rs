//! The two stored forms: bad input, the limit between them, plans with more than
//! 64 semaphores; on the reference and, if it is linked, the C library.

mod small;

use harness::brute::{self, Judgement};
use harness::generate::{self, Family, Rng};
use harness::plan::{Form, Operation, Plan};
use harness::side::{told, OwnRooms, Told, STATE};
use small::{all_sides, operation, plan, t3, t9};

/// Number and place that the reader gives, with room for any plan.
fn read(bytes: &[u8]) -> (u64, u64) {
    let told = all_sides(|side| {
        let mut room = vec![0; 23_828];
        told(|told| side.read(bytes, &mut room, told))
    });
    (told.number, told.place)
}

/// Number and place that the check gives.
fn check(bytes: &[u8]) -> (u64, u64) {
    let told = all_sides(|side| {
        let mut rooms = OwnRooms::new(1024);
        told(|told| side.check(bytes, &mut rooms.lend(), told))
    });
    (told.number, told.place)
}

/// What the writer tells and writes.
fn write(numbers: &[u64]) -> (Told, Vec<u8>) {
    all_sides(|side| {
        let mut room = vec![0xA5; 69_768];
        let told = told(|told| side.write(numbers, &mut room, told));
        room.truncate(told.answer as usize);
        (told, room)
    })
}

#[test]
fn bad_bytes() {
    let refused = |bytes: &[u8], number, place| {
        assert_eq!(read(bytes), (number, place), "{bytes:02x?}");
        assert_eq!(check(bytes), (number, place), "{bytes:02x?}");
    };
    refused(&[0xF2], 1, 1);
    refused(&[0xF2, 0x11], 2, 1);
    refused(&[0xF2, 0x00, 0x40], 1, 2);
    // 64, 0 and 1,025 semaphores, whatever follows.
    for count in [[0x40, 0x00], [0x00, 0x00], [0x01, 0x04]] {
        for rest in [&[][..], &[0], &[0; 80], &[0xFF; 80]] {
            let bytes = [&[0xF2, 0x00], &count[..], rest].concat();
            refused(&bytes, 2, 2);
        }
    }
    refused(&[0xF2, 0x00, 0x41, 0x00], 1, 4);
    refused(&[0xF2, 0x00, 0x41, 0x00, 0x00], 4, 4);
    refused(&[0x00, 0x41], 2, 1);
    for length in [1, 2, 100, 70_000, 1_000_000] {
        let mut bytes = vec![0; length];
        bytes[0] = 0xF3;
        refused(&bytes, 2, 0);
    }
    refused(&vec![0; 1_000_000], 3, 6);
}

/// One queue and so many semaphores, and an operation with one wait.
fn one_wait(semaphores: usize, semaphore: u16, value: u64) -> Plan {
    let operations = vec![operation(0, &[(semaphore, value)], &[], &[])];
    plan(1, &vec![0; semaphores], 0, operations)
}

#[test]
fn bad_position() {
    // Lead, axis and its count, owners and their count, two counts: the operation
    // begins at 81, its wait's position at 83.
    let bytes = one_wait(65, 65, 1).bytes();
    assert_eq!(bytes[81..85], [0, 1, 65, 0]);
    assert_eq!(read(&bytes), (4, 83));
    assert_eq!(check(&bytes), (4, 83));
    assert_eq!(read(&bytes[..84]), (1, 83));
    assert_eq!(check(&bytes[..84]), (1, 83));
    // The higher byte counts: 256 and 64 more are not 64.
    let bytes = one_wait(65, 320, 1).bytes();
    assert_eq!(read(&bytes), (4, 83));
    assert_eq!(read(&one_wait(65, 64, 1).bytes()), (0, 0));
    assert_eq!(check(&one_wait(65, 64, 1).bytes()), (8, 0));
    assert_eq!(check(&one_wait(1024, 1023, 1).bytes()), (8, 0));
}

/// A list of numbers is judged by 0 to 1,024, at the list's own position.
#[test]
fn bad_lists() {
    let refused = |numbers: &[u64], number, place| {
        let told = Told::refused(number, place);
        assert_eq!(write(numbers), (told, Vec::new()), "{numbers:?}");
    };
    for rest in [&[][..], &[0], &[0; 2000]] {
        refused(&[&[0, 1025][..], rest].concat(), 2, 1);
        refused(&[&[0, u64::MAX][..], rest].concat(), 2, 1);
    }
    refused(&[0], 1, 1);
    refused(&[17], 2, 0);
    refused(&[u64::MAX], 2, 0);
    refused(&[u64::MAX - 1, 1025], 2, 0);
    refused(&[0, 65], 1, 2);
    refused(&[0, 65, 0], 4, 2);
    refused(&[2, 5, 5, 1025], 5, 2);
    let mut numbers = one_wait(65, 65, 1).numbers();
    refused(&numbers, 4, 72);
    numbers[72] = 64;
    numbers.push(0);
    refused(&numbers, 3, 76);
}

#[test]
fn limit_between_the_forms() {
    for (semaphores, form) in [
        (0, Form::First),
        (1, Form::First),
        (64, Form::First),
        (65, Form::Second),
        (66, Form::Second),
        (1024, Form::Second),
    ] {
        let plan = plan(1, &vec![0; semaphores], 0, Vec::new());
        let (bytes, numbers) = (plan.bytes_in(form), plan.numbers());
        let length = bytes.len() as u64;
        assert_eq!(numbers.len(), semaphores + 5);
        assert_eq!(bytes.starts_with(&[242]), form == Form::Second);
        assert_eq!(write(&numbers), (Told::answered(length), bytes.clone()));
        assert_eq!(read(&bytes), (0, 0), "{semaphores}");
        assert_eq!(check(&bytes), (0, 0), "{semaphores}");
        // In the other form the number of semaphores is refused. In one byte
        // 1,024 is 0, and owners follow where buffers should.
        let other = plan.bytes_in(form.other());
        let refused = match (form, semaphores) {
            (Form::First, _) => (2, 10),
            (Form::Second, 1024) => (3, 14),
            (Form::Second, _) => (2, 9),
        };
        assert_eq!(read(&other), refused, "{semaphores}");
    }
    // R12: the length counts the lead.
    let numbers = plan(1, &[0; 65], 0, Vec::new()).numbers();
    let told = all_sides(|side| told(|told| side.write(&numbers, &mut [], told)));
    assert_eq!(told, Told::refused(9, 81));
}

/// Where every list is at its limit, each operation waits, and nothing can run
/// first. What runs first in the longest plans that pass has no wait.
#[test]
fn greatest_sizes() {
    for (family, greatest, passing) in [
        (Family::Greatest, (63_686, 22_868), (63_659, 22_862)),
        (Family::ManySemaphores, (69_768, 23_828), (69_738, 23_822)),
    ] {
        for handed in [false, true] {
            let rng = &mut Rng::new(9);
            let longest = match handed {
                false => family.plan(rng, 1024),
                true => family.handed_plan(rng, 1024),
            };
            let waits_less = |o: &&Operation| o.waits.len() < 3;
            assert_eq!(longest.operations.iter().filter(waits_less).count(), 1);
            let stuck = generate::with_all_waits(rng, &longest);
            for (plan, sizes, answer) in [(longest, passing, (0, 0)), (stuck, greatest, (10, 0))] {
                let stored = plan.bytes();
                assert_eq!((stored.len(), plan.numbers().len()), sizes);
                assert_eq!(check(&stored), answer);
                assert_eq!(write(&plan.numbers()).1, stored);
                let longer = [&stored[..], &[0]].concat();
                assert_eq!(read(&longer), (3, stored.len() as u64));
                assert_eq!(check(&stored[..stored.len() - 1]).0, 1);
            }
        }
    }
}

/// The same plan with other semaphores in front: a plan in the second form that
/// says what the plan in the first form does.
fn shifted(plan: &Plan, by: u16) -> Plan {
    let mut plan = plan.clone();
    plan.owners.splice(0..0, (0..by).map(|_| 0));
    for operation in &mut plan.operations {
        for point in operation.waits.iter_mut().chain(&mut operation.signals) {
            point.semaphore += by;
        }
    }
    plan
}

#[test]
fn more_semaphores_change_nothing_else() {
    for plan in [t3(), t9(), small::t7()] {
        let ask = |plan: &Plan| {
            all_sides(|side| {
                let mut left = OwnRooms::filled(7, [16 * 8, 2 * 8]);
                let told = told(|told| side.check(&plan.bytes(), &mut left.lend(), told));
                (told, left)
            })
        };
        let wanted = ask(&plan);
        for by in [65, 256, 1000] {
            let wide = shifted(&plan, by);
            assert_eq!(wide.form(), Form::Second);
            assert_eq!(ask(&wide), wanted);
            match brute::judge(&wide) {
                Judgement::Passed { .. } => assert_eq!(wanted.0, Told::PASSED),
                Judgement::Refused { number, place } => {
                    assert_eq!(wanted.0, Told::refused(number, place));
                }
            }
        }
    }
}

/// The state has a place for each of 1,024 semaphores, and a wait can be for the
/// last one.
#[test]
fn questions_of_the_last_semaphore() {
    let operations = vec![
        operation(0, &[], &[(1023, 7)], &[("use", 0), ("free", 0)]),
        operation(1, &[(1023, 5)], &[], &[]),
    ];
    let owners: Vec<u8> = vec![0; 1024];
    let plan = plan(3, &owners, 1, operations);
    let bytes = plan.bytes();
    let (told_trace, state) = all_sides(|side| {
        let (mut rooms, mut state, mut found) = (OwnRooms::new(2), vec![9; STATE], [9; 6]);
        let (rooms, lent) = (&mut rooms.lend(), &mut state);
        let told = told(|told| side.trace(&bytes, &[1, 0, 0, 0], rooms, lent, &mut found, told));
        (told, state)
    });
    assert_eq!(told_trace, Told::answered(1));
    let mut wanted = vec![0; 1040];
    (wanted[0], wanted[16 + 1023]) = (1, 7);
    assert_eq!(state, wanted);
    let advised = all_sides(|side| {
        let (mut rooms, mut wait) = (OwnRooms::new(2), [9; 2]);
        let rooms = &mut rooms.lend();
        let told = told(|told| side.suggest(&bytes, 2, 0, rooms, &mut wait, told));
        (told, wait)
    });
    assert_eq!(advised, (Told::answered(1), [1023, 7]));
}
