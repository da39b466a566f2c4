//! Small plans of R79, and the sides that judge them.

#![allow(dead_code)] // Each test takes what it needs.

use harness::c_api;
use harness::plan::{Mark, Operation, Plan, Point};
use harness::reference::Reference;
use harness::side::Side;

/// Makes the same call on every side; all must hand back the same.
pub fn all_sides<T: PartialEq + std::fmt::Debug>(call: impl Fn(&dyn Side) -> T) -> T {
    let told = call(&Reference);
    if let Some(library) = c_api::library() {
        assert_eq!(call(library.as_ref()), told);
    }
    told
}

fn points(list: &[(u16, u64)]) -> Vec<Point> {
    let point = |&(semaphore, value)| Point { semaphore, value };
    list.iter().map(point).collect()
}

/// Uses and frees of buffers, in list order.
fn marks(list: &[(&str, u16)]) -> Vec<Mark> {
    let mark = |&(kind, buffer): &(&str, u16)| Mark {
        buffer,
        free: kind == "free",
    };
    list.iter().map(mark).collect()
}

pub fn operation(
    queue: u8,
    waits: &[(u16, u64)],
    signals: &[(u16, u64)],
    list: &[(&str, u16)],
) -> Operation {
    Operation {
        queue,
        waits: points(waits),
        signals: points(signals),
        marks: marks(list),
    }
}

pub fn plan(queues: u64, owners: &[u8], buffers: usize, operations: Vec<Operation>) -> Plan {
    Plan {
        axes: (0..queues).map(|queue| 100 - queue).collect(),
        owners: owners.to_vec(),
        sizes: vec![64; buffers],
        operations,
    }
}

pub fn t3() -> Plan {
    let operations = vec![
        operation(0, &[], &[(0, 1)], &[("use", 0)]),
        operation(1, &[(0, 1)], &[(1, 1)], &[("use", 0), ("free", 0)]),
        operation(2, &[(1, 1)], &[], &[("use", 0)]),
    ];
    plan(3, &[0, 1], 1, operations)
}

pub fn t7() -> Plan {
    let mut operations: Vec<Operation> = (1..=5)
        .map(|value| operation(0, &[], &[(0, value)], &[]))
        .collect();
    operations.push(operation(1, &[(0, 2)], &[], &[]));
    plan(2, &[0], 0, operations)
}

pub fn t9() -> Plan {
    let operations = vec![
        operation(0, &[], &[], &[("use", 0), ("free", 0)]),
        operation(1, &[], &[], &[("use", 0)]),
    ];
    plan(2, &[], 1, operations)
}
