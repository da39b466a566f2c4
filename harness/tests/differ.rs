//! The differential test as a program: it passes as it is, and finds each
//! seeded fault.

use std::process::{Command, Output};

fn differ(arguments: &[&str]) -> Output {
    let mut command = Command::new(env!("CARGO_BIN_EXE_differ"));
    command.args(arguments).output().expect("differ starts")
}

#[test]
fn finds_no_difference() {
    let output = differ(&["--seed", "1", "--count", "3000"]);
    let printed = String::from_utf8_lossy(&output.stdout);
    assert_eq!(output.status.code(), Some(0), "{printed}");
}

#[test]
fn finds_each_seeded_fault() {
    for fault in 1..=49 {
        let output = differ(&["--seed", "1", "--fault", &fault.to_string()]);
        let printed = String::from_utf8_lossy(&output.stdout);
        assert_eq!(output.status.code(), Some(1), "fault {fault}: {printed}");
        assert!(printed.contains("DIFFERENCE"), "fault {fault}: {printed}");
    }
}

/// A difference is repeated by the seed printed with it.
#[test]
fn repeats_a_difference() {
    let output = differ(&["--seed", "1", "--fault", "2"]);
    let printed = String::from_utf8_lossy(&output.stdout);
    let (_, repeat) = printed.split_once("repeat with ").expect("a way to repeat");
    let mut arguments: Vec<&str> = repeat.split_whitespace().collect();
    arguments.extend(["--fault", "2"]);
    let again = differ(&arguments);
    assert_eq!(again.status.code(), Some(1));
    let again = String::from_utf8_lossy(&again.stdout);
    let difference = |printed: &str| {
        let (_, rest) = printed.split_once("DIFFERENCE")?;
        rest.split_once("after ").map(|found| found.0.to_string())
    };
    assert_eq!(difference(&again), difference(&printed));
}

#[test]
fn refuses_unknown_arguments() {
    assert_eq!(differ(&["--fault", "50"]).status.code(), Some(2));
    assert_eq!(differ(&["--count"]).status.code(), Some(2));
    assert_eq!(differ(&["--colour", "1"]).status.code(), Some(2));
}
