//! The numbers of the C header are those of the greatest plans and of what the
//! reference writes.

use harness::generate::{self, Family, Rng};
use harness::side::{Found, Raw, STATE};
use harness::traces;

const HEADER: &str = include_str!("../../include/cundvrest.h");

/// The number that the header defines by this name.
fn defined(name: &str) -> usize {
    let mut lines = HEADER.lines();
    let value = lines.find_map(|line| {
        let mut words = line.split_whitespace();
        let named = words.next() == Some("#define") && words.next() == Some(name);
        named.then(|| words.next())?
    });
    let value = value.unwrap_or_else(|| panic!("the header defines no {name}"));
    value.parse().expect("a number")
}

#[test]
fn sizes() {
    let operations = defined("CUNDVREST_MOST_OPERATIONS");
    let rng = &mut Rng::new(0);
    let longest = Family::ManySemaphores.plan(rng, operations);
    let plan = generate::with_all_waits(rng, &longest);
    assert_eq!(plan.owners.len(), defined("CUNDVREST_MOST_SEMAPHORES"));
    assert_eq!(plan.bytes().len(), defined("CUNDVREST_MOST_BYTES"));
    assert_eq!(plan.numbers().len(), defined("CUNDVREST_MOST_NUMBERS"));
    assert_eq!(defined("CUNDVREST_STATE"), STATE);
    assert_eq!(defined("CUNDVREST_FOUND"), Found::default().len());
    assert_eq!(
        defined("CUNDVREST_FRONTIER"),
        size_of::<Raw>() / size_of::<u64>()
    );
    let longest = traces::stored(&[0; traces::MOST_STEPS]);
    assert_eq!(longest.len(), defined("CUNDVREST_MOST_TRACE_BYTES"));
}
