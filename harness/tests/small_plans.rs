//! T1 to T13 of R79 against the reference and, if it is linked, the C
//! library; the small plans against brute force too.

mod small;

use harness::brute::{self, Judgement};
use harness::plan::Plan;
use harness::reference;
use harness::side::{told, OwnRooms, Raw, Told, EMPTY, EPOCHS, LENGTH, TAINT};
use small::{all_sides, operation, plan, t3, t7, t9};

const PATTERN: u32 = 0xA5A5_A5A5;

/// Told, the rows' first columns, the run, the ready numbers.
type Checked = (Told, Vec<Vec<u32>>, Vec<u32>, Vec<u32>);

/// Checks stored bytes, with some numbers too many lent, which stay untouched.
fn check_bytes(bytes: &[u8], operations: usize, queues: usize) -> Checked {
    let (told, OwnRooms { table, list }) = all_sides(|side| {
        let mut left = OwnRooms::filled(PATTERN, [16 * operations + 3, 2 * operations + 3]);
        let told = told(|told| side.check(bytes, &mut left.lend(), told));
        (told, left)
    });
    assert_eq!(table[16 * operations..], [PATTERN; 3]);
    assert_eq!(list[2 * operations..], [PATTERN; 3]);
    let rows = table.chunks_exact(16).map(|row| row[..queues].to_vec());
    let (run, ready) = list[..2 * operations].split_at(operations);
    (told, rows.collect(), run.to_vec(), ready.to_vec())
}

/// Checks a plan, by brute force too.
fn check(plan: &Plan) -> Checked {
    let checked = check_bytes(&plan.bytes(), plan.operations.len(), plan.axes.len());
    match brute::judge(plan) {
        Judgement::Refused { number, place } => assert_eq!(checked.0, refused(number, place)),
        Judgement::Passed {
            run, ready, rows, ..
        } => {
            assert_eq!(checked.0, Told::PASSED);
            let same = |a: &[u32], b: &[usize]| a.iter().map(|&x| x as usize).eq(b.iter().copied());
            assert!(same(&checked.2, &run) && same(&checked.3, &ready));
            assert!(checked.1.iter().zip(&rows).all(|(a, b)| same(a, b)));
        }
    }
    checked
}

fn refused(number: u64, place: u64) -> Told {
    Told::refused(number, place)
}

#[test]
fn t1_zero_bytes() {
    assert_eq!(check_bytes(&[0; 6], 0, 0).0, Told::PASSED);
    assert_eq!(check_bytes(&[0; 5], 0, 0).0, refused(1, 4));
    assert_eq!(check_bytes(&[0; 7], 0, 0).0, refused(3, 6));
}

#[test]
fn t2_one_operation() {
    let bytes = [1, 7, 0, 0, 0, 0, 0, 0, 0, 0, 0, 0, 1, 0, 0, 0, 0, 0];
    let (told, rows, run, ready) = check_bytes(&bytes, 1, 1);
    assert_eq!(told, Told::PASSED);
    assert_eq!((rows, run, ready), (vec![vec![1]], vec![0], vec![1]));
}

#[test]
fn first_byte_17() {
    assert_eq!(check_bytes(&[17], 0, 0).0, refused(2, 0));
}

#[test]
fn t3_three_queues() {
    assert_eq!(t3().bytes().len(), 96);
    let (told, rows, run, ready) = check(&t3());
    assert_eq!(told, Told::PASSED);
    assert_eq!(rows, [[1, 0, 0], [1, 1, 0], [1, 1, 1]]);
    assert_eq!((run, ready), (vec![0, 1, 2], vec![1, 1, 1]));
}

#[test]
fn t4_deadlock() {
    let operations = vec![
        operation(0, &[(1, 1)], &[(0, 1)], &[]),
        operation(1, &[(0, 1)], &[(1, 1)], &[]),
    ];
    let (told, rows, run, ready) = check(&plan(2, &[0, 1], 0, operations));
    assert_eq!(told, refused(10, 0));
    assert_eq!(rows, [[0, 0], [0, 0]]);
    assert_eq!((run, ready), (vec![0, 0], vec![0, 0]));
}

#[test]
fn t5_waits_for_itself() {
    let operations = vec![operation(0, &[(0, 1)], &[(0, 1)], &[])];
    assert_eq!(check(&plan(1, &[0], 0, operations)).0, refused(10, 0));
}

#[test]
fn t6_plan_order_is_not_run_order() {
    let operations = vec![
        operation(1, &[(0, 1)], &[], &[]),
        operation(0, &[], &[(0, 1)], &[]),
    ];
    let (told, rows, run, _) = check(&plan(2, &[0], 0, operations));
    assert_eq!(told, Told::PASSED);
    assert_eq!((rows, run), (vec![vec![1, 1], vec![1, 0]], vec![1, 0]));
}

#[test]
fn t7_a_wait_imports_the_signal_it_needs() {
    let (told, rows, ..) = check(&t7());
    assert_eq!(told, Told::PASSED);
    assert_eq!(rows[5], [2, 1]);
}

#[test]
fn t8_resolution() {
    let with_wait = |value| {
        let operations = vec![
            operation(0, &[], &[(0, 3)], &[]),
            operation(0, &[], &[(0, 7)], &[]),
            operation(1, &[(0, value)], &[], &[]),
        ];
        check(&plan(2, &[0], 0, operations))
    };
    assert_eq!(with_wait(4).1[2], [2, 1]);
    assert_eq!(with_wait(3).1[2], [1, 1]);
    assert_eq!(with_wait(8).0, refused(8, 2));
}

#[test]
fn t9_use_after_free_without_wait() {
    assert_eq!(check(&t9()).0, refused(11, 1));
}

#[test]
fn t10_free_then_use_in_one_operation() {
    let operations = vec![operation(0, &[], &[], &[("free", 0), ("use", 0)])];
    assert_eq!(check(&plan(1, &[], 1, operations)).0, refused(11, 0));
}

#[test]
fn t11_unordered_free() {
    let operations = vec![
        operation(0, &[], &[], &[("use", 0)]),
        operation(1, &[], &[], &[("free", 0)]),
    ];
    assert_eq!(check(&plan(2, &[], 1, operations)).0, refused(11, 0));
}

fn frontier(entries: &[(u64, u64)], tainted: bool) -> Raw {
    let mut frontier = EMPTY;
    for (slot, &(axis, epoch)) in entries.iter().enumerate() {
        frontier[slot] = axis;
        frontier[EPOCHS + slot] = epoch;
    }
    frontier[LENGTH] = entries.len() as u64;
    frontier[TAINT] = u64::from(tainted);
    frontier
}

const A: u64 = 10;
const B: u64 = 20;
const C: u64 = 30;

#[test]
fn t12_merge_with_eviction() {
    let (left, right) = (
        frontier(&[(A, 5), (B, 3)], false),
        frontier(&[(B, 7), (C, 4)], false),
    );
    let merged = all_sides(|side| {
        let mut merged = [7; 34];
        let told = told(|told| side.merge(&left, &right, 2, &mut merged, told));
        (told, merged)
    });
    let wanted = frontier(&[(A, 5), (B, 7)], true);
    assert_eq!(merged, (Told::PASSED, wanted));
}

#[test]
fn t13_dominance() {
    let right = frontier(&[(A, 3), (C, 4)], false);
    let over = |tainted| {
        let left = frontier(&[(A, 5), (B, 7)], tainted);
        all_sides(|side| told(|told| side.dominates(&left, &right, told)))
    };
    assert_eq!(over(false), Told::answered(0));
    assert_eq!(over(true), Told::answered(2));
    let tainted = frontier(&[(A, 3)], true);
    let left = frontier(&[(A, 5)], false);
    let told = all_sides(|side| told(|told| side.dominates(&left, &tainted, told)));
    assert_eq!(told, Told::answered(2));
}

#[test]
fn the_greatest_signal() {
    let one = |signals: &[(u16, u64)]| {
        let operations = vec![operation(0, &[], signals, &[])];
        check(&plan(1, &[0], 0, operations)).0
    };
    assert_eq!(one(&[(0, u64::MAX)]), Told::PASSED);
    assert_eq!(one(&[(0, u64::MAX), (0, u64::MAX)]), refused(7, 0));
    assert_eq!(one(&[(0, u64::MAX), (0, 5)]), refused(7, 0));
}

#[test]
fn lent_lengths() {
    let bytes = t3().bytes();
    let check = |table_len, list_len| {
        all_sides(|side| {
            let mut left = OwnRooms::filled(PATTERN, [table_len, list_len]);
            let told = told(|told| side.check(&bytes, &mut left.lend(), told));
            let untouched = left == OwnRooms::filled(PATTERN, [table_len, list_len]);
            assert_eq!(untouched, told.number != 0);
            told
        })
    };
    assert_eq!(check(47, 5), refused(9, 48));
    assert_eq!(check(48, 5), refused(9, 6));
    assert_eq!(check(48, 6), Told::PASSED);
}

#[test]
fn reuse_verdicts() {
    let ask = |plan: &Plan, queue, buffer| {
        all_sides(|side| {
            let (bytes, mut rooms) = (plan.bytes(), OwnRooms::new(plan.operations.len()));
            told(|told| side.reuse(&bytes, queue, buffer, &mut rooms.lend(), told))
        })
    };
    let operations = vec![
        operation(0, &[], &[(0, 1)], &[("use", 0), ("use", 1)]),
        operation(1, &[(0, 1)], &[], &[("free", 0)]),
        operation(2, &[(0, 1)], &[], &[]),
    ];
    let plan = plan(4, &[0], 3, operations);
    assert_eq!(ask(&plan, 3, 2), Told::answered(0), "fresh");
    assert_eq!(ask(&plan, 0, 1), Told::answered(2), "held");
    assert_eq!(ask(&plan, 1, 0), Told::answered(1), "reusable");
    assert_eq!(ask(&plan, 2, 0), Told::answered(3), "not ordered");
    assert_eq!(ask(&plan, 3, 0), Told::answered(3), "no operations");
    assert_eq!(ask(&plan, 4, 9), refused(12, 4));
    assert_eq!(ask(&plan, 3, 3), refused(13, 3));
}

#[test]
fn frontier_sent_out() {
    let bytes = t3().bytes();
    let ask = |operation, capacity| {
        all_sides(|side| {
            let (mut rooms, mut out) = (OwnRooms::new(3), [7; 34]);
            let rooms = &mut rooms.lend();
            let told =
                told(|told| side.frontier(&bytes, operation, capacity, rooms, &mut out, told));
            (told, out)
        })
    };
    // The axes are 100, 99, 98; of equal epochs the larger axis stays.
    let whole = frontier(&[(98, 1), (99, 1), (100, 1)], false);
    assert_eq!(ask(2, 3), (Told::PASSED, whole));
    let cut = frontier(&[(99, 1), (100, 1)], true);
    assert_eq!(ask(2, 2), (Told::PASSED, cut));
    assert_eq!(ask(3, 0), (refused(21, 3), EMPTY));
    assert_eq!(ask(2, 0), (refused(15, 0), EMPTY));
    assert_eq!(ask(2, 17), (refused(15, 0), EMPTY));
}

#[test]
fn rows_that_reach() {
    let (first, second) = ([1, 2, 3], [1, 2, 2]);
    assert!(std::ptr::eq(
        reference::reaching_row(&first, &second),
        &first[..]
    ));
    assert!(std::ptr::eq(
        reference::reaching_row(&second, &first),
        &first[..]
    ));
    let equal = [1, 2, 3];
    assert!(std::ptr::eq(
        reference::reaching_row(&equal, &first),
        &equal[..]
    ));
    assert!(reference::reaching_row(&first, &[2, 1, 3]).is_empty());
    assert!(reference::reaching_row(&first, &first[..2]).is_empty());
}
