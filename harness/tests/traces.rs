//! Recorded traces held against small plans: cases of T1, T3, T7 and T9 on the
//! reference and, if it is linked, the C library; every short trace of random
//! small plans against brute force.

mod small;

use harness::brute::{self, Judgement};
use harness::generate::{self, Rng};
use harness::plan::Plan;
use harness::reference;
use harness::side::{told, Found, OwnRooms, Told, STATE};
use harness::traces;
use small::{all_sides, plan, t3, t7, t9};

const PATTERN: u32 = 0xA5A5_A5A5;
const WIDE_PATTERN: u64 = 0xA5A5_A5A5_A5A5_A5A5;

/// Told, what is found, and all that is left in table, list and state.
type Traced = (Told, Found, OwnRooms, Vec<u64>);

/// Holds stored bytes against a plan with these lengths lent.
fn ask_lent(plan: &Plan, trace: &[u8], [table, list, state]: [usize; 3]) -> Traced {
    let bytes = plan.bytes();
    all_sides(|side| {
        let mut left = OwnRooms::filled(PATTERN, [table, list]);
        let (mut state, mut found) = (vec![WIDE_PATTERN; state], [WIDE_PATTERN; 6]);
        let (rooms, lent) = (&mut left.lend(), &mut state);
        let told = told(|told| side.trace(&bytes, trace, rooms, lent, &mut found, told));
        (told, found, left, state)
    })
}

/// The same with three numbers too many of each, which stay untouched. What a
/// passed plan's check leaves in table and list is there.
fn ask(plan: &Plan, trace: &[u8]) -> (Told, Found, Vec<u64>) {
    let operations = plan.operations.len();
    let [table, list] = [16 * operations + 3, 2 * operations + 3];
    let (told, found, left, state) = ask_lent(plan, trace, [table, list, STATE + 3]);
    let mut wanted = OwnRooms::filled(PATTERN, [table, list]);
    reference::check(&plan.bytes(), &mut wanted.lend());
    assert_eq!(left, wanted);
    assert_eq!(state[STATE..], [WIDE_PATTERN; 3]);
    (told, found, state[..STATE].to_vec())
}

/// What an answer hands back: the answer, then step, operation and wait, then
/// the numbers of these queues and semaphores, the others being 0.
fn answered(
    answer: u64,
    [step, operation, wait]: [u64; 3],
    queues: &[u64],
    semaphores: &[u64],
) -> (Told, Found, Vec<u64>) {
    let mut state = vec![0; STATE];
    state[..queues.len()].copy_from_slice(queues);
    state[16..16 + semaphores.len()].copy_from_slice(semaphores);
    let found = [step, operation, wait, 0, 0, 0];
    (Told::answered(answer), found, state)
}

/// What a refusal hands back.
fn refused(number: u64, place: u64) -> (Told, Found, Vec<u64>) {
    let told = Told::refused(number, place);
    (told, [0; 6], vec![WIDE_PATTERN; STATE])
}

fn t1() -> Plan {
    plan(0, &[], 0, Vec::new())
}

const FULL: u64 = 0;
const UNFINISHED: u64 = 1;
const UNKNOWN: u64 = 2;
const REPEATED: u64 = 3;
const NOT_FIRST: u64 = 4;
const WAIT_NOT_MET: u64 = 5;

#[test]
fn full_and_unfinished() {
    let full = ask(&t3(), &[3, 0, 0, 0, 1, 0, 2, 0]);
    assert_eq!(full, answered(FULL, [3, 0, 0], &[1, 1, 1], &[1, 1]));
    let unfinished = ask(&t3(), &[2, 0, 0, 0, 1, 0]);
    assert_eq!(
        unfinished,
        answered(UNFINISHED, [2, 0, 0], &[1, 1, 0], &[1, 1])
    );
    let nothing = ask(&t3(), &[0, 0]);
    assert_eq!(nothing, answered(UNFINISHED, [0, 0, 0], &[], &[]));
    let empty = ask(&t1(), &[0, 0]);
    assert_eq!(empty, answered(FULL, [0, 0, 0], &[], &[]));
}

#[test]
fn each_reason() {
    let unknown = ask(&t3(), &[1, 0, 3, 0]);
    assert_eq!(unknown, answered(UNKNOWN, [0, 3, 0], &[], &[]));
    let unknown = ask(&t1(), &[1, 0, 255, 255]);
    assert_eq!(unknown, answered(UNKNOWN, [0, 65_535, 0], &[], &[]));
    let repeated = ask(&t3(), &[2, 0, 0, 0, 0, 0]);
    assert_eq!(repeated, answered(REPEATED, [1, 0, 0], &[1], &[1]));
    let not_first = ask(&t7(), &[1, 0, 1, 0]);
    assert_eq!(not_first, answered(NOT_FIRST, [0, 1, 0], &[], &[]));
    let not_met = ask(&t3(), &[1, 0, 1, 0]);
    assert_eq!(not_met, answered(WAIT_NOT_MET, [0, 1, 0], &[], &[]));
    // The wait for 2 is met by the second signal, and the first is too little.
    let not_met = ask(&t7(), &[2, 0, 0, 0, 5, 0]);
    assert_eq!(not_met, answered(WAIT_NOT_MET, [1, 5, 0], &[1], &[1]));
    let met = ask(&t7(), &[3, 0, 0, 0, 1, 0, 5, 0]);
    assert_eq!(met, answered(UNFINISHED, [3, 0, 0], &[2, 1], &[2]));
}

#[test]
fn badly_formed() {
    for trace in [&[][..], &[0], &[1, 0], &[0, 0, 0]] {
        for plan in [t1(), t3(), t7()] {
            assert_eq!(ask(&plan, trace), refused(22, 0), "{trace:?}");
        }
        assert_eq!(ask(&t9(), trace), refused(11, 1), "{trace:?}");
    }
    let whole = traces::stored(&[0, 1, 2]);
    for length in 0..whole.len() {
        assert_eq!(ask(&t3(), &whole[..length]), refused(22, 0), "{length}");
    }
}

#[test]
fn the_plan_is_refused_first() {
    for trace in [&[][..], &[0, 0], &[1, 0, 0, 0], &[2, 0, 0, 0, 1, 0]] {
        assert_eq!(ask(&t9(), trace), refused(11, 1), "{trace:?}");
    }
}

#[test]
fn lent_lengths() {
    // Whatever the trace: 9 for the state, with rows and run.
    for trace in [&[][..], &[0, 0], &[1, 0, 0, 0], &[3, 0, 0, 0, 1, 0, 2, 0]] {
        for length in [0, 1, 16, 79, 80, STATE - 1] {
            let (told, found, left, state) = ask_lent(&t3(), trace, [48, 6, length]);
            assert_eq!((told, found), (Told::refused(9, 1040), [0; 6]));
            assert_eq!(left.table[32..36], [1, 1, 1, 0]);
            assert_eq!(left.list, [0, 1, 2, 1, 1, 1]);
            assert_eq!(state, vec![WIDE_PATTERN; length]);
        }
        // Table, then list, then state.
        let short = STATE - 1;
        for (lengths, needed) in [
            ([47, 5, short], 48),
            ([48, 5, short], 6),
            ([47, 6, STATE], 48),
        ] {
            let left = ask_lent(&t3(), trace, lengths);
            let [table, list, state] = lengths;
            let untouched = (
                Told::refused(9, needed),
                [0; 6],
                OwnRooms::filled(PATTERN, [table, list]),
                vec![WIDE_PATTERN; state],
            );
            assert_eq!(left, untouched);
        }
    }
    let (told, ..) = ask_lent(&t3(), &[0, 0], [48, 6, STATE]);
    assert_eq!(told, Told::answered(UNFINISHED));
    // T9: zeros in table and list, the state untouched.
    let left = ask_lent(&t9(), &[0, 0], [32, 4, 79]);
    let untouched = vec![WIDE_PATTERN; 79];
    assert_eq!(
        left,
        (Told::refused(11, 1), [0; 6], OwnRooms::new(2), untouched)
    );
}

#[test]
fn the_longest_trace() {
    let zeros = traces::stored(&[0; traces::MOST_STEPS]);
    assert_eq!(zeros.len(), 131_072);
    assert_eq!(
        ask(&t3(), &zeros),
        answered(REPEATED, [1, 0, 0], &[1], &[1])
    );
    assert_eq!(ask(&t3(), &zeros[..131_071]), refused(22, 0));
    let mut longer = zeros.clone();
    longer.push(0);
    assert_eq!(ask(&t3(), &longer), refused(22, 0));
    // A count of two bytes cannot say 65,536.
    assert_eq!(ask(&t3(), &traces::stored(&[0; 65_536])), refused(22, 0));
}

/// Brute force and the reference must agree on this trace of a passed plan.
fn agree(plan: &Plan, runs: &brute::EveryRun, steps: &[u16]) -> u64 {
    let mut rooms = OwnRooms::new(plan.operations.len());
    let (mut state, mut found) = ([9; STATE], [9; 6]);
    let bytes = plan.bytes();
    let trace = traces::stored(steps);
    let told = reference::trace(&bytes, &trace, &mut rooms.lend(), &mut state, &mut found);
    let (answer, wanted, wanted_state) = brute::follow(plan, runs, steps);
    assert_eq!(told, Told::answered(answer), "{steps:?} of {plan}");
    assert_eq!(found, wanted, "{steps:?} of {plan}");
    assert_eq!(state, wanted_state, "{steps:?} of {plan}");
    answer
}

/// Each list of up to so many numbers below a limit.
fn each_list(most: usize, limit: u16, visit: &mut impl FnMut(&[u16])) {
    fn extend(list: &mut Vec<u16>, most: usize, limit: u16, visit: &mut impl FnMut(&[u16])) {
        visit(list);
        if list.len() < most {
            for number in 0..limit {
                list.push(number);
                extend(list, most, limit, visit);
                list.pop();
            }
        }
    }
    extend(&mut Vec::new(), most, limit, visit);
}

/// Every trace of at most one step more than the plan has operations.
#[test]
fn every_short_trace() {
    let mut answers = [0; 6];
    for seed in 0..1500 {
        let plan = generate::random_plan(&mut Rng::new(seed), 3);
        let Judgement::Passed { runs, .. } = brute::judge(&plan) else {
            continue;
        };
        let operations = plan.operations.len();
        each_list(operations + 1, operations as u16 + 1, &mut |steps| {
            answers[agree(&plan, &runs, steps) as usize] += 1;
        });
    }
    assert!(answers.iter().all(|&count| count > 100), "{answers:?}");
}

#[test]
fn random_traces() {
    let mut answers = [0; 6];
    for seed in 0..6000 {
        let rng = &mut Rng::new(seed);
        let plan = generate::random_plan(rng, brute::MOST_OPERATIONS);
        if let Judgement::Passed { runs, .. } = brute::judge(&plan) {
            let mut steps = traces::steps(rng, &plan);
            steps.truncate(traces::MOST_STEPS);
            answers[agree(&plan, &runs, &steps) as usize] += 1;
        }
    }
    assert!(answers.iter().all(|&count| count > 50), "{answers:?}");
}

/// A random run is full, and of each run every part up to a step is a run.
#[test]
fn runs_of_pipelines() {
    for seed in 0..40 {
        let rng = &mut Rng::new(seed);
        let plan = generate::camera_pipeline(rng, 1 + seed as usize % 4, 6);
        let run = traces::random_run(rng, &plan);
        for length in 0..=run.len() {
            let (told, found, _) = ask(&plan, &traces::stored(&run[..length]));
            let full = length == plan.operations.len();
            assert_eq!(told, Told::answered(if full { FULL } else { UNFINISHED }));
            assert_eq!(found, [length as u64, 0, 0, 0, 0, 0]);
        }
    }
}
