//! Checks the stored plan in a file and prints the verdict: `passed 0`, or
//! `refused NUMBER PLACE`. Exits with 0, 1, or 2 where there is no verdict.

use std::io::Write;
use std::process::ExitCode;

/// What every call tells.
struct Told {
    number: u64,
    place: u64,
}

#[link(name = "cundvrest", kind = "static")]
extern "C" {
    fn cundvrest_check(
        plan: *const u8,
        plan_len: usize,
        table: *mut u32,
        table_len: usize,
        list: *mut u32,
        list_len: usize,
        told: *mut [u64; 3],
    );
}

/// Checks a stored plan. A pass leaves the rows in `table` and the standard run
/// in `list`: 16 and 2 numbers for each operation.
fn check(plan: &[u8], table: &mut [u32], list: &mut [u32]) -> Told {
    let mut told = [0; 3];
    // SAFETY: each pointer comes from a reference with its length beside it,
    // what is written is borrowed mutably and so overlaps nothing, and the
    // library keeps no pointer.
    unsafe {
        cundvrest_check(
            plan.as_ptr(),
            plan.len(),
            table.as_mut_ptr(),
            table.len(),
            list.as_mut_ptr(),
            list.len(),
            &mut told,
        );
    }
    let [number, place, _] = told;
    Told { number, place }
}

fn main() -> ExitCode {
    let mut arguments = std::env::args_os().skip(1);
    let (Some(path), None) = (arguments.next(), arguments.next()) else {
        eprintln!("usage: check FILE");
        return ExitCode::from(2);
    };
    let plan = match std::fs::read(&path) {
        Ok(plan) => plan,
        Err(error) => {
            eprintln!("{}: {error}", path.to_string_lossy());
            return ExitCode::from(2);
        }
    };
    let told = check(&plan, &mut [0; 16 * 1024], &mut [0; 2 * 1024]);
    let line = match told.number {
        0 => "passed 0".to_string(),
        number => format!("refused {number} {}", told.place),
    };
    if let Err(error) = writeln!(std::io::stdout(), "{line}") {
        eprintln!("standard output: {error}");
        return ExitCode::from(2);
    }
    ExitCode::from(u8::from(told.number != 0))
}
