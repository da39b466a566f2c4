//! The differential test: the reference and the other side judge the same
//! plans and frontiers, and everything handed back or left in lent slices must
//! be equal. Plans of up to seven operations are judged by brute force too.

use harness::brute::{self, EveryRun, Judgement, Met, Runs};
use harness::faults::{self, Fault, Faulty};
use harness::generate::{self, Family, Rng};
use harness::plan::{Form, Operation, Plan, Point};
use harness::reference::{self, Reference};
use harness::side::{
    told, Found, OwnRooms, Raw, Rooms, Side, Told, Wait, EPOCHS, LENGTH, STATE, TAINT,
};
use harness::traces::{self, MOST_STEPS};
use std::process::ExitCode;
use std::sync::atomic::{AtomicU64, Ordering};
use std::time::{Instant, SystemTime, UNIX_EPOCH};

const USAGE: &str = "\
differ [--seed N] [--count N] [--fault N] [--trace]
  --seed N    the seed of the first case; the case after it has seed N + 1
  --count N   stop after this many plans (200000)
  --fault N   compare with the reference under seeded fault 1 to 49 instead of
              with the C library
  --trace     print each case's seed before it is judged";

/// The most operations of a plan.
const MOST_OPERATIONS: usize = 1024;

/// With fewer plans than this, not every number need occur.
const ENOUGH_PLANS: u64 = 20_000;

// ---------------------------------------------------------------------------
// The functions compared, and how often each number occurred.

#[derive(Clone, Copy)]
enum Function {
    Read,
    Write,
    Check,
    Reuse,
    Suggest,
    Frontier,
    Trace,
    Lookup,
    Merge,
    Raise,
    Dominates,
}

/// Names, and the numbers that each function must have given.
const FUNCTIONS: [(&str, &[usize]); 11] = [
    ("read", &[0, 1, 2, 3, 4, 5, 16, 9]),
    ("write", &[0, 1, 2, 3, 4, 5, 16, 9]),
    ("check", &[0, 1, 2, 3, 4, 5, 16, 7, 8, 9, 10, 17, 11]),
    (
        "reuse",
        &[0, 1, 2, 3, 4, 5, 16, 7, 8, 9, 10, 17, 11, 12, 13],
    ),
    (
        "suggest",
        &[0, 1, 2, 3, 4, 5, 16, 7, 8, 9, 10, 17, 11, 12, 13, 19],
    ),
    (
        "frontier",
        &[0, 1, 2, 3, 4, 5, 16, 7, 8, 9, 10, 17, 11, 15, 21],
    ),
    ("trace", &[0, 1, 2, 3, 4, 5, 16, 7, 8, 9, 10, 17, 11, 22]),
    ("lookup", &[0]),
    ("merge", &[0, 14, 15]),
    ("raise", &[0, 14, 15]),
    ("dominates", &[0, 14]),
];

#[derive(Default)]
struct Tally {
    plans: u64,
    by_brute_force: u64,
    waits_by_brute_force: u64,
    traces_by_brute_force: u64,
    numbers: [[u64; NUMBERS]; FUNCTIONS.len()],
    verdicts: [u64; 4],
    /// Answers of the question for a wait.
    advice: [u64; 3],
    /// Waits that free, by the place of the signal among all of the plan: the
    /// first, the second, the third, a later one.
    freeing: [u64; 4],
    /// Waits for the first of two signals in one operation.
    first_of_two: u64,
    /// Waits and refusals by 19 on plans of 1,024 operations.
    longest_asked: [u64; 2],
    /// Longer plans that were checked and asked.
    longer_plans: u64,
    dominance: [u64; 3],
    /// Axes that were absent, and listed.
    looked_up: [u64; 2],
    /// Lookups in badly formed frontiers that listed something.
    listed_badly: u64,
    /// Answers of the trace question.
    followed: [u64; 6],
    /// Unmet waits by their position.
    unmet: [u64; 3],
    /// How often 9 was given for the state, and how often though the trace was
    /// badly formed.
    short_states: [u64; 2],
    /// Traces of 65,535 steps that were followed.
    longest_traces: u64,
    second_form: SecondForm,
    handovers: [u64; HANDOVERS.len()],
    zeros: [u64; ZEROS.len()],
}

/// What must occur of values of 0, by counting places in the plan.
#[derive(Clone, Copy)]
enum Zero {
    First,
    Second,
    Third,
    SecondForm,
    Long,
    Followed,
    Cut,
    Unknown,
    Signal,
}

/// What each of them is, in the same order.
const ZEROS: [&str; 9] = [
    "16 for the first wait of a list",
    "16 for the second wait of a list",
    "16 for the third wait of a list",
    "16 in the second form",
    "16 in a plan of 64 operations or more",
    "16 before a field that is bad or cut",
    "1 for a value of a wait for 0 that is cut short",
    "4 for a wait for 0 on no semaphore of the plan",
    "7 for a signal of 0",
];

/// What must occur of plans with a semaphore that several queues signal.
#[derive(Clone, Copy)]
enum Handover {
    Passed,
    ByOthers,
    PassedSecondForm,
    PassedLong,
    RefusedLong,
    Traced,
    NotMet,
    Advised,
    FallsInSome,
    FallsInAll,
    BrokenLower,
    BrokenNotLower,
    StuckToo,
    StuckElsewhere,
    FullByValue,
}

/// What each of them is, in the same order.
const HANDOVERS: [&str; 15] = [
    "a plan passed in which two queues signal a semaphore",
    "a plan passed in which the owner of a signalled semaphore does not signal it",
    "such a plan in the second form passed",
    "such a plan of 64 operations or more passed",
    "a plan of 64 operations or more was refused by 17",
    "a trace of such a plan was followed",
    "a wait on a semaphore that two queues signal was not met",
    "a wait on a semaphore that two queues signal was advised",
    "17 where some full run raises in order",
    "17 where no full run raises in order",
    "17 with a broken mark of a lower operation",
    "17 with a broken mark of the same or a higher operation",
    "10 where what is not stuck would be refused by 17",
    "10 whose place would be another by values",
    "10 where there is a full run by values",
];

/// How often what concerns plans in the second form occurred.
#[derive(Default)]
struct SecondForm {
    passed: u64,
    /// Plans that begin as the second form does and have 64 semaphores or fewer.
    too_few: u64,
    written: u64,
    by_brute_force: u64,
    traced: u64,
    waits: u64,
}

impl SecondForm {
    fn counts(&self) -> [u64; 6] {
        [
            self.passed,
            self.too_few,
            self.written,
            self.by_brute_force,
            self.traced,
            self.waits,
        ]
    }
}

/// Numbers 0 to 22.
const NUMBERS: usize = 23;

impl Tally {
    fn add(&mut self, function: Function, told: Told) {
        self.numbers[function as usize][told.number as usize] += 1;
        match (function, told.number) {
            (Function::Reuse, 0) => self.verdicts[told.answer as usize] += 1,
            (Function::Suggest, 0) => self.advice[told.answer as usize] += 1,
            (Function::Trace, 0) => self.followed[told.answer as usize] += 1,
            (Function::Lookup, 0) => self.looked_up[told.answer as usize] += 1,
            (Function::Dominates, 0) => self.dominance[told.answer as usize] += 1,
            _ => {}
        }
    }

    fn add_handover(&mut self, handover: Handover, occurs: bool) {
        self.handovers[handover as usize] += u64::from(occurs);
    }

    fn print(&self) {
        print!("number");
        for (name, _) in FUNCTIONS {
            print!("{name:>10}");
        }
        println!();
        for number in 0..NUMBERS {
            if self.numbers.iter().all(|counts| counts[number] == 0) {
                continue;
            }
            print!("{number:>6}");
            for counts in &self.numbers {
                print!("{:>10}", counts[number]);
            }
            println!();
        }
        println!("reuse verdicts 0 to 3: {:?}", self.verdicts);
        println!(
            "waits none needed, one, none would help: {:?}; longer plans checked: {}",
            self.advice, self.longer_plans
        );
        println!(
            "waits for the first, second, third, a later signal: {:?}; first of two: {}",
            self.freeing, self.first_of_two
        );
        println!(
            "1,024 operations: {} waits, {} times 19",
            self.longest_asked[0], self.longest_asked[1]
        );
        println!(
            "traces full, unfinished, unknown, repeated, not first, wait not met: {:?}",
            self.followed
        );
        println!("first unmet waits 0 to 2: {:?}", self.unmet);
        println!(
            "traces of {MOST_STEPS} steps: {}; state too short: {}, trace badly formed too: {}",
            self.longest_traces, self.short_states[0], self.short_states[1]
        );
        println!(
            "second form passed, too few, written, by brute force, traced, waits: {:?}",
            self.second_form.counts()
        );
        let handovers = HANDOVERS.iter().zip(&self.handovers);
        for (name, count) in handovers.chain(ZEROS.iter().zip(&self.zeros)) {
            println!("{count:>10} times {name}");
        }
        println!("dominance no, yes, unknown: {:?}", self.dominance);
        println!(
            "axes absent, listed: {:?}; listed in a badly formed frontier: {}",
            self.looked_up, self.listed_badly
        );
    }

    /// The first function and number that never occurred.
    fn missing(&self) -> Option<String> {
        for ((name, wanted), counts) in FUNCTIONS.iter().zip(&self.numbers) {
            if let Some(number) = wanted.iter().find(|&&number| counts[number] == 0) {
                return Some(format!("{name} never gave {number}"));
            }
        }
        let answers = [&self.verdicts[..], &self.dominance, &self.looked_up];
        if answers.concat().contains(&0) || self.listed_badly == 0 {
            return Some("an answer never occurred".to_string());
        }
        if let Some(answer) = self.advice.iter().position(|&count| count == 0) {
            return Some(format!("suggest never answered {answer}"));
        }
        if self.freeing.contains(&0) || self.first_of_two == 0 {
            return Some("a wait for a signal of some place never occurred".to_string());
        }
        if self.longest_asked.contains(&0) || self.longer_plans == 0 {
            return Some("no wait or no 19 on 1,024 operations, or no longer plan".to_string());
        }
        if let Some(answer) = self.followed.iter().position(|&count| count == 0) {
            return Some(format!("trace never answered {answer}"));
        }
        if self.unmet.contains(&0) {
            return Some("no wait of some position was the first unmet one".to_string());
        }
        if self.short_states.contains(&0) || self.longest_traces == 0 {
            return Some("a state was never too short, or no trace was long".to_string());
        }
        if self.second_form.counts().contains(&0) {
            return Some("something of the second form never occurred".to_string());
        }
        if let Some(which) = self.handovers.iter().position(|&count| count == 0) {
            return Some(format!("never {}", HANDOVERS[which]));
        }
        if let Some(which) = self.zeros.iter().position(|&count| count == 0) {
            return Some(format!("never {}", ZEROS[which]));
        }
        None
    }
}

// ---------------------------------------------------------------------------
// What is lent to a call.

/// Lengths of the lent slices of one call.
#[derive(Clone, Copy, Default)]
struct Lengths {
    numbers: usize,
    bytes: usize,
    table: usize,
    list: usize,
    state: usize,
}

/// Numbers on either side of a lent slice, to see writes outside it.
const GUARD: usize = 8;

/// A lent slice between guards, filled with a pattern beforehand and compared
/// whole afterwards.
#[derive(Default, PartialEq)]
struct Room<T>(Vec<T>);

impl<T: Clone + PartialEq + std::fmt::Debug> Room<T> {
    fn fill(&mut self, length: usize, pattern: T) {
        self.0.clear();
        self.0.resize(GUARD + length + GUARD, pattern);
    }

    fn lend(&mut self) -> &mut [T] {
        let end = self.0.len() - GUARD;
        &mut self.0[GUARD..end]
    }

    fn print_difference(&self, other: &Room<T>, name: &str) {
        let first = self.0.iter().zip(&other.0).position(|(a, b)| a != b);
        if let Some(at) = first {
            let end = self.0.len().min(at + 16);
            let length = self.0.len() - 2 * GUARD;
            let place = at as isize - GUARD as isize;
            println!("{name} of {length} from {place} on:");
            println!("  reference  {:?}", &self.0[at..end]);
            println!("  other side {:?}", &other.0[at..end]);
        }
    }
}

impl Room<u64> {
    fn lend_frontier(&mut self) -> &mut Raw {
        let frontier = self.lend().first_chunk_mut();
        frontier.expect("a whole frontier is lent")
    }

    fn lend_wait(&mut self) -> &mut Wait {
        let wait = self.lend().first_chunk_mut();
        wait.expect("two numbers are lent")
    }

    fn lend_found(&mut self) -> &mut Found {
        let found = self.lend().first_chunk_mut();
        found.expect("six numbers are lent")
    }
}

impl Room<Told> {
    fn lend_told(&mut self) -> &mut Told {
        &mut self.lend()[0]
    }
}

/// The table and the run list.
#[derive(Default, PartialEq)]
struct CheckRooms {
    table: Room<u32>,
    list: Room<u32>,
}

impl CheckRooms {
    fn lend(&mut self) -> Rooms<'_> {
        Rooms {
            table: self.table.lend(),
            list: self.list.lend(),
        }
    }
}

/// Everything that may be lent to a call.
#[derive(Default, PartialEq)]
struct Lent {
    numbers: Room<u64>,
    bytes: Room<u8>,
    rooms: CheckRooms,
    wait: Room<u64>,
    frontier: Room<u64>,
    state: Room<u64>,
    found: Room<u64>,
    told: Room<Told>,
}

impl Lent {
    fn fill(&mut self, lengths: Lengths, pattern: u64) {
        self.numbers.fill(lengths.numbers, pattern);
        self.bytes.fill(lengths.bytes, pattern as u8);
        self.rooms.table.fill(lengths.table, pattern as u32);
        self.rooms.list.fill(lengths.list, pattern as u32);
        self.wait.fill(WAIT, pattern);
        self.frontier.fill(FRONTIER, pattern);
        self.state.fill(lengths.state, pattern);
        self.found.fill(FOUND, pattern);
        let untold = Told {
            number: pattern,
            place: pattern,
            answer: pattern,
        };
        self.told.fill(1, untold);
    }

    /// Prints where two differ.
    fn print_difference(&self, other: &Lent) {
        self.numbers.print_difference(&other.numbers, "numbers");
        self.bytes.print_difference(&other.bytes, "bytes");
        let (rooms, others) = (&self.rooms, &other.rooms);
        rooms.table.print_difference(&others.table, "table");
        rooms.list.print_difference(&others.list, "list");
        self.wait.print_difference(&other.wait, "wait");
        self.frontier.print_difference(&other.frontier, "frontier");
        self.state.print_difference(&other.state, "state");
        self.found.print_difference(&other.found, "found");
        self.told.print_difference(&other.told, "told");
    }
}

/// Numbers of a wait.
const WAIT: usize = 2;
/// Numbers in a lent frontier.
const FRONTIER: usize = 34;
/// Numbers of what a trace's answer names.
const FOUND: usize = 6;

// ---------------------------------------------------------------------------
// The comparison.

/// A difference ends the run; what it is has been printed.
struct Different;

type Compared<T> = Result<T, Different>;

struct Differ {
    other: Box<dyn Side>,
    tally: Tally,
    ours: Lent,
    theirs: Lent,
    print_seeds: bool,
}

/// The seed of the case being judged, for the message of a panic.
static SEED: AtomicU64 = AtomicU64::new(0);

impl Differ {
    /// Makes the same call on both sides and compares all it hands back.
    fn compare(
        &mut self,
        rng: &mut Rng,
        function: Function,
        lengths: Lengths,
        call: impl Fn(&dyn Side, &mut Lent),
        print_input: impl Fn(),
    ) -> Compared<Told> {
        let pattern = rng.word();
        self.ours.fill(lengths, pattern);
        self.theirs.fill(lengths, pattern);
        call(&Reference, &mut self.ours);
        call(self.other.as_ref(), &mut self.theirs);
        if self.ours == self.theirs {
            let told = *self.ours.told.lend_told();
            self.tally.add(function, told);
            return Ok(told);
        }
        println!("DIFFERENCE in {}", FUNCTIONS[function as usize].0);
        println!("reference:  {:?}", self.ours.told.lend_told());
        let theirs = self.theirs.told.lend_told();
        println!("other side: {theirs:?} ({})", self.other.name());
        self.ours.print_difference(&self.theirs);
        print_input();
        Err(Different)
    }

    /// Every function that takes a plan.
    fn plan(&mut self, rng: &mut Rng, bytes: &[u8]) -> Compared<()> {
        self.tally.plans += 1;
        let numbers = self.reader(rng, bytes)?;
        self.writer(rng, &numbers)?;
        if rng.percent(40) {
            let damaged = generate::damaged_numbers(rng, &numbers);
            self.writer(rng, &damaged)?;
        }
        let counts = Counts::of(rng, &numbers);
        let steps = some_steps(rng, &numbers);
        let plan = (!numbers.is_empty()).then(|| Plan::from_numbers(&numbers));
        self.check(rng, bytes, plan.as_ref(), counts)?;
        self.brute_force(rng, bytes, &steps)?;
        self.reuse(rng, bytes, counts)?;
        self.suggest(rng, bytes, plan.as_ref(), counts)?;
        self.sent_out(rng, bytes, counts)?;
        let mut trace = traces::stored(&steps);
        if rng.percent(15) {
            trace = traces::damaged(rng, &trace);
        }
        self.trace(rng, bytes, &trace, counts)?;
        let told = *self.ours.told.lend_told();
        if let Some(plan) = plan.filter(|plan| told.number == 0 && signallers(plan).any_handed()) {
            let wait = unmet_wait(&plan, told, self.ours.found.lend_found());
            let not_met = wait.is_some_and(|wait| signallers(&plan).handed(wait.semaphore));
            self.tally.add_handover(Handover::Traced, true);
            self.tally.add_handover(Handover::NotMet, not_met);
        }
        Ok(())
    }

    /// Hands back the plan's numbers, none if it is unreadable.
    fn reader(&mut self, rng: &mut Rng, bytes: &[u8]) -> Compared<Vec<u64>> {
        let numbers = faults::parse(bytes).map_or(Vec::new(), |plan| plan.numbers());
        let lengths = Lengths {
            numbers: some_length(rng, numbers.len()),
            ..Lengths::default()
        };
        self.compare(
            rng,
            Function::Read,
            lengths,
            |side, lent| side.read(bytes, lent.numbers.lend(), lent.told.lend_told()),
            || print_plan(bytes),
        )?;
        Ok(numbers)
    }

    fn writer(&mut self, rng: &mut Rng, numbers: &[u64]) -> Compared<()> {
        let needed = match reference::write(numbers, &mut []) {
            Told {
                number: 9, place, ..
            } => place as usize,
            _ => 0,
        };
        let lengths = Lengths {
            bytes: some_length(rng, needed),
            ..Lengths::default()
        };
        let told = self.compare(
            rng,
            Function::Write,
            lengths,
            |side, lent| side.write(numbers, lent.bytes.lend(), lent.told.lend_told()),
            || println!("numbers {numbers:?}"),
        )?;
        let wide = told.number == 0 && in_second_form(self.ours.bytes.lend());
        self.tally.second_form.written += u64::from(wide);
        Ok(())
    }

    fn check(
        &mut self,
        rng: &mut Rng,
        bytes: &[u8],
        plan: Option<&Plan>,
        counts: Counts,
    ) -> Compared<()> {
        let lengths = lent_to_check(rng, counts);
        let told = self.compare(
            rng,
            Function::Check,
            lengths,
            |side, lent| side.check(bytes, &mut lent.rooms.lend(), lent.told.lend_told()),
            || print_plan(bytes),
        )?;
        if in_second_form(bytes) {
            let second_form = &mut self.tally.second_form;
            second_form.passed += u64::from(told.number == 0);
            second_form.too_few += u64::from(too_few(bytes, told));
        }
        let long = counts.operations >= 64;
        match plan {
            Some(plan) if told.number == 0 => {
                let signallers = signallers(plan);
                let handed = signallers.any_handed();
                let second = in_second_form(bytes);
                self.tally.add_handover(Handover::Passed, handed);
                let others = signallers.not_the_owner(plan);
                self.tally.add_handover(Handover::ByOthers, others);
                let wide = handed && second;
                self.tally.add_handover(Handover::PassedSecondForm, wide);
                self.tally
                    .add_handover(Handover::PassedLong, handed && long);
            }
            _ => {
                let refused = long && told.number == 17;
                self.tally.add_handover(Handover::RefusedLong, refused);
            }
        }
        Ok(())
    }

    fn reuse(&mut self, rng: &mut Rng, bytes: &[u8], counts: Counts) -> Compared<()> {
        let lengths = lent_to_check(rng, counts);
        let queue = some_position(rng, counts.queues);
        let buffer = some_position(rng, counts.buffers);
        self.compare(
            rng,
            Function::Reuse,
            lengths,
            |side, lent| {
                let (rooms, told) = (&mut lent.rooms.lend(), lent.told.lend_told());
                side.reuse(bytes, queue, buffer, rooms, told);
            },
            || {
                println!("queue {queue}, buffer {buffer}");
                print_plan(bytes);
            },
        )?;
        Ok(())
    }

    fn suggest(
        &mut self,
        rng: &mut Rng,
        bytes: &[u8],
        plan: Option<&Plan>,
        counts: Counts,
    ) -> Compared<()> {
        let signals = plan.into_iter().flat_map(|plan| &plan.operations);
        let signals: usize = signals.map(|operation| operation.signals.len()).sum();
        // The reference takes as many checks as there are signals.
        if signals > 200 && !rng.percent(15) {
            return Ok(());
        }
        let lengths = lent_to_check(rng, counts);
        let (queue, buffer) = some_question(rng, plan, counts);
        let print = || {
            println!("queue {queue}, buffer {buffer}");
            print_plan(bytes);
        };
        let told = self.compare(
            rng,
            Function::Suggest,
            lengths,
            |side, lent| {
                let (rooms, told) = (&mut lent.rooms.lend(), lent.told.lend_told());
                side.suggest(bytes, queue, buffer, rooms, lent.wait.lend_wait(), told);
            },
            print,
        )?;
        let longest = counts.operations == MOST_OPERATIONS;
        self.tally.longest_asked[0] += u64::from(longest && told.answer == 1);
        self.tally.longest_asked[1] += u64::from(longest && told.number == 19);
        let Some(plan) = plan.filter(|_| told.answer == 1) else {
            return Ok(());
        };
        let wait = as_point(self.theirs.wait.lend_wait());
        self.count_wait(plan, wait);
        let handed = signallers(plan).handed(wait.semaphore);
        self.tally.add_handover(Handover::Advised, handed);
        self.tally.second_form.waits += u64::from(in_second_form(bytes));
        if !longest && !self.freed(plan, queue, buffer, wait) {
            print();
            return Err(Different);
        }
        Ok(())
    }

    /// Which signal of the plan a wait is for.
    fn count_wait(&mut self, plan: &Plan, wait: Point) {
        let mut signals = plan.operations.iter().flat_map(|o| &o.signals);
        let place = signals.position(|&signal| signal == wait);
        let place = place.expect("a wait is for a signal of the plan");
        self.tally.freeing[place.min(3)] += 1;
        let mut lists = plan.operations.iter().map(|o| &o.signals);
        let first_of_two = lists.any(|list| list.len() == 2 && list[0] == wait);
        self.tally.first_of_two += u64::from(first_of_two);
    }

    /// R89 by the other side itself: with the operation added, the plan passes
    /// and the queue may take the buffer anew.
    fn freed(&mut self, plan: &Plan, queue: u32, buffer: u32, wait: Point) -> bool {
        let mut longer = plan.clone();
        longer.operations.push(Operation {
            queue: queue as u8,
            waits: vec![wait],
            ..Operation::default()
        });
        let mut rooms = OwnRooms::new(longer.operations.len());
        let (bytes, rooms) = (longer.bytes(), &mut rooms.lend());
        let checked = told(|told| self.other.check(&bytes, rooms, told));
        let asked = told(|told| self.other.reuse(&bytes, queue, buffer, rooms, told));
        self.tally.longer_plans += 1;
        let freed = checked == Told::PASSED && asked == Told::answered(1);
        if !freed {
            println!("DIFFERENCE: the longer plan with {wait:?}: {checked:?}, then {asked:?}");
        }
        freed
    }

    fn sent_out(&mut self, rng: &mut Rng, bytes: &[u8], counts: Counts) -> Compared<()> {
        let lengths = lent_to_check(rng, counts);
        let operation = some_position(rng, counts.operations);
        let capacity = some_capacity(rng);
        self.compare(
            rng,
            Function::Frontier,
            lengths,
            |side, lent| {
                let (rooms, told) = (&mut lent.rooms.lend(), lent.told.lend_told());
                let frontier = lent.frontier.lend_frontier();
                side.frontier(bytes, operation, capacity, rooms, frontier, told);
            },
            || {
                println!("operation {operation}, capacity {capacity}");
                print_plan(bytes);
            },
        )?;
        Ok(())
    }

    fn trace(&mut self, rng: &mut Rng, bytes: &[u8], trace: &[u8], counts: Counts) -> Compared<()> {
        let lengths = Lengths {
            state: some_length(rng, STATE),
            ..lent_to_check(rng, counts)
        };
        let told = self.compare(
            rng,
            Function::Trace,
            lengths,
            |side, lent| {
                let (rooms, told) = (&mut lent.rooms.lend(), lent.told.lend_told());
                let (state, found) = (lent.state.lend(), lent.found.lend_found());
                side.trace(bytes, trace, rooms, state, found, told);
            },
            || {
                let shown = trace.len().min(200);
                println!("trace of {} bytes: {:?}", trace.len(), &trace[..shown]);
                print_plan(bytes);
            },
        )?;
        let enough =
            lengths.table >= 16 * counts.operations && lengths.list >= 2 * counts.operations;
        if told.number == 9 && enough {
            self.tally.short_states[0] += 1;
            self.tally.short_states[1] += u64::from(!traces::well_formed(trace));
        }
        self.tally.second_form.traced += u64::from(told.number == 0 && in_second_form(bytes));
        if told.answer == 5 {
            let wait = self.ours.found.lend_found()[2];
            self.tally.unmet[wait as usize] += 1;
        }
        if told.number == 0 && trace.len() == 2 + 2 * MOST_STEPS {
            self.tally.longest_traces += 1;
        }
        Ok(())
    }

    /// The reference against every run of the plan.
    fn brute_force(&mut self, rng: &mut Rng, bytes: &[u8], steps: &[u16]) -> Compared<()> {
        let plan = match faults::parse(bytes) {
            Some(plan) if plan.operations.len() <= brute::MOST_OPERATIONS => plan,
            _ => return Ok(()),
        };
        self.tally.by_brute_force += 1;
        self.tally.second_form.by_brute_force += u64::from(in_second_form(bytes));
        let judgement = brute::judge(&plan);
        let wanted = judgement.told_and_left(&plan, !0);
        let operations = plan.operations.len();
        let mut left = OwnRooms::filled(!0, [16 * operations, 2 * operations]);
        let told = reference::check(bytes, &mut left.lend());
        if (told, &left) != (wanted.0, &wanted.1) {
            println!("DIFFERENCE between the reference and brute force");
            println!("reference:   {told:?} {left:?}");
            println!("brute force: {judgement:?}");
            print_plan(bytes);
            return Err(Different);
        }
        let Judgement::Passed { rows, runs, .. } = judgement else {
            self.count_refusal(&plan, told);
            return Ok(());
        };
        if !plan.axes.is_empty() && !plan.sizes.is_empty() {
            reuse_by_brute_force(rng, &plan, &rows)?;
            suggest_by_brute_force(rng, &plan, &rows, &runs)?;
            self.tally.waits_by_brute_force += 1;
        }
        if steps.len() <= MOST_STEPS {
            self.followed_by_brute_force(&plan, &runs, steps)?;
        }
        Ok(())
    }

    /// What else holds of a plan that brute force refuses by 10 or 17.
    fn count_refusal(&mut self, plan: &Plan, told: Told) {
        let place = told.place as usize;
        match told.number {
            10 => {
                let reached = Runs::of(plan, Met::ByWhatItRestsOn).reached;
                let rest = brute::judge(&only(plan, &reached));
                let out_of_turn = matches!(rest, Judgement::Refused { number: 17, .. });
                self.tally.add_handover(Handover::StuckToo, out_of_turn);
                let by_value = Runs::of(plan, Met::ByValue).reached;
                let stuck = by_value[..plan.operations.len()].iter().position(|r| !r);
                let elsewhere = stuck.is_some_and(|stuck| stuck != place);
                self.tally.add_handover(Handover::StuckElsewhere, elsewhere);
                self.tally
                    .add_handover(Handover::FullByValue, stuck.is_none());
            }
            17 => {
                let runs = Runs::of(plan, Met::ByWhatItRestsOn);
                let some = runs.some_full_raises;
                self.tally.add_handover(Handover::FallsInSome, some);
                self.tally.add_handover(Handover::FallsInAll, !some);
                let broken = runs.lowest_broken(plan);
                let lower = broken.is_some_and(|broken| broken < place);
                let not_lower = broken.is_some_and(|broken| broken >= place);
                self.tally.add_handover(Handover::BrokenLower, lower);
                self.tally.add_handover(Handover::BrokenNotLower, not_lower);
            }
            _ => {}
        }
    }

    /// The reference's trace question against every run of a passed plan.
    fn followed_by_brute_force(
        &mut self,
        plan: &Plan,
        runs: &EveryRun,
        steps: &[u16],
    ) -> Compared<()> {
        let (answer, found, state) = brute::follow(plan, runs, steps);
        let mut rooms = OwnRooms::new(plan.operations.len());
        let (mut our_state, mut our_found) = ([!0; STATE], [!0; FOUND]);
        let told = reference::trace(
            &plan.bytes(),
            &traces::stored(steps),
            &mut rooms.lend(),
            &mut our_state,
            &mut our_found,
        );
        if (told, our_found, our_state) != (Told::answered(answer), found, state) {
            println!("DIFFERENCE between the reference and brute force, trace {steps:?}");
            println!("reference:   {told:?} {our_found:?} {our_state:?}");
            println!("brute force: {answer} {found:?} {state:?}");
            print_plan(&plan.bytes());
            return Err(Different);
        }
        self.tally.traces_by_brute_force += 1;
        Ok(())
    }

    fn frontiers(&mut self, rng: &mut Rng) -> Compared<()> {
        let most = *rng.pick(&[2, 4, 16]);
        let mut left = generate::frontier(rng, most);
        let mut right = match rng.below(3) {
            0 => generate::frontier_below(rng, &left),
            _ => generate::frontier(rng, most),
        };
        if rng.percent(10) {
            left = generate::spoiled_frontier(rng, &left);
        }
        if rng.percent(10) {
            right = generate::spoiled_frontier(rng, &right);
        }
        let capacity = some_capacity(rng);
        let listed = left[LENGTH].clamp(1, 16) as usize;
        let axis = match rng.below(3) {
            0 => rng.word(),
            1 => left[rng.below(listed)],
            _ => rng.below(24) as u64,
        };
        let epoch = match rng.below(6) {
            0 => 0,
            1 => rng.word(),
            _ => rng.below(10) as u64,
        };
        let none = Lengths::default();
        let print = || {
            println!("left {left:?}\nright {right:?}");
            println!("capacity {capacity}, axis {axis}, epoch {epoch}");
        };
        if reference::well_formed(&left) {
            self.compare(
                rng,
                Function::Lookup,
                none,
                |side, lent| {
                    let epoch = &mut lent.frontier.lend_frontier()[0];
                    side.lookup(&left, axis, epoch, lent.told.lend_told());
                },
                print,
            )?;
        } else {
            self.lookup_badly_formed(&left, axis)?;
        }
        self.compare(
            rng,
            Function::Merge,
            none,
            |side, lent| {
                let merged = lent.frontier.lend_frontier();
                side.merge(&left, &right, capacity, merged, lent.told.lend_told());
            },
            print,
        )?;
        self.compare(
            rng,
            Function::Raise,
            none,
            |side, lent| {
                let raised = lent.frontier.lend_frontier();
                side.raise(&left, axis, epoch, capacity, raised, lent.told.lend_told());
            },
            print,
        )?;
        self.compare(
            rng,
            Function::Dominates,
            none,
            |side, lent| side.dominates(&left, &right, lent.told.lend_told()),
            print,
        )?;
        Ok(())
    }

    /// What the rules leave open in a badly formed frontier: anything that is
    /// listed is in a slot below the length. With a length above 16 or a taint
    /// above 1 every axis is absent.
    fn lookup_badly_formed(&mut self, frontier: &Raw, axis: u64) -> Compared<()> {
        let mut epoch = !0;
        let told = told(|told| self.other.lookup(frontier, axis, &mut epoch, told));
        let length = frontier[LENGTH].min(16) as usize;
        let in_a_slot = frontier[LENGTH] <= 16
            && frontier[TAINT] <= 1
            && (0..length).any(|slot| (frontier[slot], frontier[EPOCHS + slot]) == (axis, epoch));
        match told {
            Told::PASSED if epoch == 0 => return Ok(()),
            told if told == Told::answered(1) && in_a_slot => {
                self.tally.listed_badly += 1;
                return Ok(());
            }
            _ => {}
        }
        println!("DIFFERENCE in lookup, badly formed: {told:?} {epoch}");
        println!("frontier {frontier:?}, axis {axis}");
        Err(Different)
    }

    /// One case: a plan, or every damage of some kind to one.
    fn case(&mut self, seed: u64) -> Compared<()> {
        SEED.store(seed, Ordering::Relaxed);
        if self.print_seeds {
            eprintln!("seed {seed}");
        }
        let rng = &mut Rng::new(seed);
        self.frontiers(rng)?;
        match rng.below(10_000) {
            0..3 => self.every_truncation(rng),
            3 => self.every_byte_changed(rng),
            4..24 => self.greatest(rng),
            24..54 => {
                let family = *rng.pick(&Family::ALL);
                let operations = rng.between(64, 1024);
                let plan = match rng.below(3) {
                    0 => family.plan(rng, operations),
                    1 => family.handed_plan(rng, operations),
                    _ => {
                        let plan = family.handed_plan(rng, operations);
                        generate::without_one_wait(rng, &plan)
                    }
                };
                self.plan(rng, &plan.bytes())
            }
            54..134 => {
                let operations = match rng.below(4) {
                    0 => rng.between(64, MOST_OPERATIONS - 1),
                    _ => MOST_OPERATIONS,
                };
                let plan = generate::few_signals(rng, operations);
                self.plan(rng, &plan.bytes())
            }
            134..600 => {
                let bytes = generate::random_bytes(rng);
                self.plan(rng, &bytes)
            }
            600..650 => {
                let plan = small_plan(rng);
                let bytes = generate::in_other_form(rng, &plan);
                self.plan(rng, &bytes)
            }
            650..2000 => {
                let plan = small_plan(rng);
                let damaged = generate::damaged(rng, &plan.bytes());
                self.plan(rng, &damaged)
            }
            2000..2100 => {
                let plan = generate::trap(rng);
                self.plan(rng, &plan.bytes())
            }
            2100..2250 => self.zero(rng),
            2250..2600 => {
                let plan = pipeline(rng);
                self.plan(rng, &plan.bytes())
            }
            2600..3600 => {
                let plan = generate::random_plan(rng, 40);
                self.plan(rng, &plan.bytes())
            }
            _ => {
                let plan = small_plan(rng);
                self.plan(rng, &plan.bytes())
            }
        }
    }

    /// Each truncation of a plan, of its list of numbers for the writer, and of
    /// a run's trace.
    fn every_truncation(&mut self, rng: &mut Rng) -> Compared<()> {
        let plan = base_plan(rng);
        let (bytes, numbers) = (plan.bytes(), plan.numbers());
        for length in 0..=bytes.len() {
            self.plan(rng, &bytes[..length])?;
        }
        for length in 0..=numbers.len() {
            self.writer(rng, &numbers[..length])?;
        }
        let counts = Counts::of(rng, &numbers);
        let trace = traces::stored(&traces::random_run(rng, &plan));
        for length in 0..=trace.len() {
            self.trace(rng, &bytes, &trace[..length], counts)?;
        }
        Ok(())
    }

    /// Each byte of a trace changed to a few others; each byte of a plan, to
    /// every other value if it is short, to a few if it is longer.
    fn every_byte_changed(&mut self, rng: &mut Rng) -> Compared<()> {
        let plan = base_plan(rng);
        let mut bytes = plan.bytes();
        let counts = Counts::of(rng, &plan.numbers());
        let mut trace = traces::stored(&traces::random_run(rng, &plan));
        for at in 0..trace.len() {
            let byte = trace[at];
            for _ in 0..3 {
                trace[at] = generate::other_byte(rng, byte);
                self.trace(rng, &bytes, &trace, counts)?;
            }
            trace[at] = byte;
        }
        for at in 0..bytes.len() {
            let byte = bytes[at];
            if bytes.len() <= 50 {
                for other in (0..=255).filter(|&other| other != byte) {
                    bytes[at] = other;
                    self.plan(rng, &bytes)?;
                }
            } else {
                for _ in 0..3 {
                    bytes[at] = generate::other_byte(rng, byte);
                    self.plan(rng, &bytes)?;
                }
            }
            bytes[at] = byte;
        }
        Ok(())
    }

    /// A plan with a value of 0. What is told is counted from the plan as well.
    fn zero(&mut self, rng: &mut Rng) -> Compared<()> {
        let plan = match rng.below(8) {
            0 => pipeline(rng),
            1 if rng.percent(20) => {
                let operations = rng.between(64, MOST_OPERATIONS);
                rng.pick(&Family::ALL).handed_plan(rng, operations)
            }
            _ => small_plan(rng),
        };
        if rng.percent(15) {
            return self.signal_of_zero(rng, plan);
        }
        let Some(mut plan) = generate::with_wait_for_zero(rng, &plan) else {
            return Ok(());
        };
        let zero = plan.first_wait_for_zero();
        let (operation, wait) = zero.expect("a wait for 0 was put in");
        let [semaphore, value] = plan.wait_at(operation, wait);
        let told = |number, places: [usize; 2]| places.map(|p| Told::refused(number, p as u64));
        let (mut wanted, mut occurs) = (
            told(16, value),
            vec![[Zero::First, Zero::Second, Zero::Third][wait]],
        );
        let (mut bytes, mut numbers) = (plan.bytes(), plan.numbers());
        match rng.below(6) {
            0 => {
                bytes.truncate(value[0] + rng.below(8));
                numbers.truncate(value[1]);
                (wanted, occurs) = (told(1, value), vec![Zero::Cut]);
            }
            1 => {
                plan.operations[operation].waits[wait].semaphore = plan.owners.len() as u16;
                (bytes, numbers) = (plan.bytes(), plan.numbers());
                (wanted, occurs) = (told(4, semaphore), vec![Zero::Unknown]);
            }
            2 => {
                bytes.truncate(value[0] + 8);
                bytes.extend((0..rng.below(4)).map(|_| 255));
                numbers.truncate(value[1] + 1);
                numbers.extend((0..rng.below(4)).map(|_| u64::MAX));
                occurs.push(Zero::Followed);
            }
            _ => {}
        }
        if wanted[0].number == 16 {
            let long = plan.operations.len() >= 64;
            occurs.extend(long.then_some(Zero::Long));
            occurs.extend(in_second_form(&bytes).then_some(Zero::SecondForm));
        }
        self.counted(rng, (&bytes, &numbers), wanted)?;
        for zero in occurs {
            self.tally.zeros[zero as usize] += 1;
        }
        Ok(())
    }

    /// Reader and writer against what is counted from the plan; then all else.
    fn counted(
        &mut self,
        rng: &mut Rng,
        (bytes, numbers): (&[u8], &[u64]),
        wanted: [Told; 2],
    ) -> Compared<()> {
        let told = [
            reference::read(bytes, &mut []),
            reference::write(numbers, &mut []),
        ];
        if told != wanted {
            println!("DIFFERENCE between the reference and what is counted");
            println!("reference: {told:?}\ncounted:   {wanted:?}");
            print_plan(bytes);
            return Err(Different);
        }
        self.writer(rng, numbers)?;
        self.plan(rng, bytes)
    }

    /// A plan with a signal of 0, which can be read, and is 7 if no signal before
    /// it is.
    fn signal_of_zero(&mut self, rng: &mut Rng, mut plan: Plan) -> Compared<()> {
        let signals = plan.operations.iter_mut().enumerate();
        let first = signals
            .flat_map(|(position, o)| o.signals.first_mut().map(|signal| (position, signal)))
            .next();
        let Some((position, signal)) = first else {
            return Ok(());
        };
        signal.value = 0;
        let bytes = plan.bytes();
        let told = reference::check(&bytes, &mut OwnRooms::new(0).lend());
        if told != Told::refused(7, position as u64) {
            println!("DIFFERENCE: a signal of 0 in operation {position}: {told:?}");
            print_plan(&bytes);
            return Err(Different);
        }
        self.tally.zeros[Zero::Signal as usize] += 1;
        self.plan(rng, &bytes)
    }

    /// One of the longest plans that pass, or one with every list at its limit,
    /// which is stuck: as it is, changed, cut, too long.
    fn greatest(&mut self, rng: &mut Rng) -> Compared<()> {
        let (family, passing, greatest) = match rng.below(2) {
            0 => (Family::Greatest, 63_659, 63_686),
            _ => (Family::ManySemaphores, 69_738, 69_768),
        };
        let mut plan = match rng.below(2) {
            0 => family.plan(rng, MOST_OPERATIONS),
            _ => family.handed_plan(rng, MOST_OPERATIONS),
        };
        assert_eq!(plan.bytes().len(), passing);
        if rng.percent(30) {
            plan = generate::with_all_waits(rng, &plan);
            assert_eq!(plan.bytes().len(), greatest);
        }
        let bytes = plan.bytes();
        self.plan(rng, &bytes)?;
        let mut changed = bytes.clone();
        let at = rng.below(bytes.len());
        changed[at] = generate::other_byte(rng, bytes[at]);
        self.plan(rng, &changed)?;
        let shorter = rng.below(bytes.len());
        self.plan(rng, &bytes[..shorter])?;
        let mut longer = bytes;
        let more = rng.between(1, 3000);
        longer.extend((0..more).map(|_| rng.word() as u8));
        self.plan(rng, &longer)
    }
}

/// The reference's reuse question against the rows that brute force reads off
/// the runs of a passed plan.
fn reuse_by_brute_force(rng: &mut Rng, plan: &Plan, rows: &[Vec<usize>]) -> Compared<()> {
    let (queue, buffer) = (rng.below(plan.axes.len()), rng.below(plan.sizes.len()));
    let verdict = brute::reuse(plan, rows, queue, buffer);
    let (bytes, mut rooms) = (plan.bytes(), OwnRooms::new(plan.operations.len()));
    let (queue, buffer) = (queue as u32, buffer as u32);
    let told = reference::reuse(&bytes, queue, buffer, &mut rooms.lend());
    if told != Told::answered(verdict) {
        println!("DIFFERENCE between the reference and brute force");
        println!("queue {queue}, buffer {buffer}: {told:?}, {verdict}");
        print_plan(&bytes);
        return Err(Different);
    }
    Ok(())
}

/// The reference's question for a wait against the runs of a passed plan.
fn suggest_by_brute_force(
    rng: &mut Rng,
    plan: &Plan,
    rows: &[Vec<usize>],
    runs: &EveryRun,
) -> Compared<()> {
    let (queue, buffer) = generate::question(rng, plan);
    let wanted = brute::suggest(plan, (rows, runs), queue as usize, buffer as usize);
    let (bytes, mut rooms) = (plan.bytes(), OwnRooms::new(plan.operations.len()));
    let mut wait = [!0; WAIT];
    let told = reference::suggest(&bytes, queue, buffer, &mut rooms.lend(), &mut wait);
    if (told, wait) != wanted {
        println!("DIFFERENCE between the reference and brute force");
        println!("queue {queue}, buffer {buffer}: {told:?} {wait:?}, {wanted:?}");
        print_plan(&bytes);
        return Err(Different);
    }
    Ok(())
}

// ---------------------------------------------------------------------------
// What is given to a call.

/// How much a plan lists.
#[derive(Clone, Copy)]
struct Counts {
    queues: usize,
    buffers: usize,
    operations: usize,
}

impl Counts {
    /// An unreadable plan has no numbers: then any small counts.
    fn of(rng: &mut Rng, numbers: &[u64]) -> Counts {
        let Some(&queues) = numbers.first() else {
            return Counts {
                queues: 1,
                buffers: 1,
                operations: rng.below(8),
            };
        };
        let queues = queues as usize;
        let semaphores = numbers[queues + 1] as usize;
        let buffers = numbers[queues + semaphores + 2] as usize;
        Counts {
            queues,
            buffers,
            operations: numbers[queues + semaphores + buffers + 3] as usize,
        }
    }
}

/// For each semaphore the queues that signal it, a bit for each.
struct Signallers(Vec<u16>);

fn signallers(plan: &Plan) -> Signallers {
    let mut queues = vec![0; plan.owners.len()];
    for operation in &plan.operations {
        for signal in &operation.signals {
            queues[usize::from(signal.semaphore)] |= 1 << operation.queue;
        }
    }
    Signallers(queues)
}

impl Signallers {
    fn handed(&self, semaphore: u16) -> bool {
        self.0[usize::from(semaphore)].count_ones() > 1
    }

    fn any_handed(&self) -> bool {
        self.0.iter().any(|queues| queues.count_ones() > 1)
    }

    /// Is some semaphore signalled, and not by its owner?
    fn not_the_owner(&self, plan: &Plan) -> bool {
        let mut semaphores = self.0.iter().zip(&plan.owners);
        semaphores.any(|(&queues, &owner)| queues != 0 && queues >> owner & 1 == 0)
    }
}

/// The wait that an answer of the trace question names.
fn unmet_wait(plan: &Plan, told: Told, found: &Found) -> Option<Point> {
    let [_, operation, wait, ..] = found.map(|number| number as usize);
    (told.answer == 5).then(|| plan.operations[operation].waits[wait])
}

/// The plan with these operations alone.
fn only(plan: &Plan, kept: &[bool]) -> Plan {
    let operations = plan.operations.iter().zip(kept);
    let operations = operations.filter(|(_, &kept)| kept);
    Plan {
        operations: operations.map(|(o, _)| o.clone()).collect(),
        ..plan.clone()
    }
}

fn in_second_form(bytes: &[u8]) -> bool {
    Form::of(bytes) == Form::Second
}

/// Is a plan in the second form refused for a number of semaphores that the first
/// has room for? That number comes after the axes.
fn too_few(bytes: &[u8], told: Told) -> bool {
    let at = told.place as usize;
    let after_axes = bytes.get(1).map(|&queues| 2 + 8 * usize::from(queues)) == Some(at);
    let count = bytes.get(at..).and_then(|rest| rest.first_chunk());
    told.number == 2 && after_axes && count.is_some_and(|&count| u16::from_le_bytes(count) <= 64)
}

/// A length for a lent slice: enough more often than not.
fn some_length(rng: &mut Rng, needed: usize) -> usize {
    match rng.below(16) {
        0 => rng.below(needed + 1),
        1 => needed.saturating_sub(1),
        2..8 => needed,
        _ => needed + rng.between(1, 40),
    }
}

fn lent_to_check(rng: &mut Rng, counts: Counts) -> Lengths {
    Lengths {
        table: some_length(rng, 16 * counts.operations),
        list: some_length(rng, 2 * counts.operations),
        ..Lengths::default()
    }
}

/// A trace of a plan; one of few small numbers for an unreadable plan.
fn some_steps(rng: &mut Rng, numbers: &[u64]) -> Vec<u16> {
    if numbers.is_empty() {
        return (0..rng.below(4)).map(|_| rng.below(4) as u16).collect();
    }
    traces::steps(rng, &Plan::from_numbers(numbers))
}

/// A position in a list of about this length, sometimes far outside.
fn some_position(rng: &mut Rng, length: usize) -> u32 {
    match rng.below(20) {
        0 => rng.word() as u32,
        1 => length as u32,
        2 => rng.below(256) as u32,
        _ => rng.below(length.max(1)) as u32,
    }
}

/// A queue and a buffer to ask about, mostly of a plan that can be read.
fn some_question(rng: &mut Rng, plan: Option<&Plan>, counts: Counts) -> (u32, u32) {
    match plan {
        Some(plan) if rng.percent(80) => generate::question(rng, plan),
        _ => (
            some_position(rng, counts.queues),
            some_position(rng, counts.buffers),
        ),
    }
}

/// A wait as a plan has it.
fn as_point(&mut [semaphore, value]: &mut Wait) -> Point {
    let semaphore = semaphore as u16;
    Point { semaphore, value }
}

fn some_capacity(rng: &mut Rng) -> u32 {
    match rng.below(20) {
        0 => 0,
        1 => 17,
        2 => rng.word() as u32,
        _ => rng.between(1, 16) as u32,
    }
}

fn small_plan(rng: &mut Rng) -> Plan {
    generate::random_plan(rng, brute::MOST_OPERATIONS)
}

/// Cameras to host: as it should be, with a wait missing, with a deadlock, or
/// with the operations in another order.
fn pipeline(rng: &mut Rng) -> Plan {
    let (cameras, frames) = (rng.between(1, 4), rng.between(1, 10));
    let plan = match rng.below(3) {
        0 => generate::handed_pipeline(rng, cameras, frames),
        _ => generate::camera_pipeline(rng, cameras, frames),
    };
    match rng.below(4) {
        0 => plan,
        1 => generate::without_one_wait(rng, &plan),
        2 => generate::with_deadlock(rng, &plan),
        _ => generate::reordered(rng, &plan),
    }
}

/// A plan to be damaged in each place.
fn base_plan(rng: &mut Rng) -> Plan {
    match rng.below(3) {
        0 => generate::camera_pipeline(rng, 2, 3),
        1 => generate::random_plan(rng, 2),
        _ => small_plan(rng),
    }
}

fn print_plan(bytes: &[u8]) {
    print!("plan of {} bytes:", bytes.len());
    for byte in bytes {
        print!(" {byte:02x}");
    }
    println!();
    match faults::parse(bytes) {
        Some(plan) => print!("{plan}"),
        None => println!("unreadable: {:?}", reference::read(bytes, &mut [])),
    }
}

// ---------------------------------------------------------------------------

struct Options {
    seed: u64,
    count: u64,
    fault: Option<Fault>,
    print_seeds: bool,
}

impl Options {
    fn parse(mut arguments: impl Iterator<Item = String>) -> Option<Options> {
        let now = SystemTime::now().duration_since(UNIX_EPOCH);
        let mut options = Options {
            seed: now.map_or(1, |now| now.as_micros() as u64),
            count: 200_000,
            fault: None,
            print_seeds: false,
        };
        while let Some(argument) = arguments.next() {
            if argument == "--trace" {
                options.print_seeds = true;
                continue;
            }
            let value: u64 = arguments.next()?.parse().ok()?;
            match argument.as_str() {
                "--seed" => options.seed = value,
                "--count" => options.count = value,
                "--fault" => {
                    let position = usize::try_from(value).ok()?.checked_sub(1)?;
                    options.fault = Some(*Fault::ALL.get(position)?);
                }
                _ => return None,
            }
        }
        Some(options)
    }

    fn other_side(&self) -> Box<dyn Side> {
        if let Some(fault) = self.fault {
            return Box::new(Faulty(fault));
        }
        harness::c_api::library().unwrap_or_else(|| {
            println!("no C library is linked: only reference and brute force are compared");
            Box::new(Reference)
        })
    }
}

fn run(options: &Options) -> Compared<Tally> {
    let other = options.other_side();
    println!("first seed {}, against {}", options.seed, other.name());
    let mut differ = Differ {
        other,
        tally: Tally::default(),
        ours: Lent::default(),
        theirs: Lent::default(),
        print_seeds: options.print_seeds,
    };
    let mut seed = options.seed;
    while differ.tally.plans < options.count {
        if let Err(Different) = differ.case(seed) {
            println!("after {} plans", differ.tally.plans);
            println!("repeat with --seed {seed} --count 1");
            return Err(Different);
        }
        seed = seed.wrapping_add(1);
    }
    println!("last seed {}", seed.wrapping_sub(1));
    Ok(differ.tally)
}

fn main() -> ExitCode {
    let Some(options) = Options::parse(std::env::args().skip(1)) else {
        eprintln!("{USAGE}");
        return ExitCode::from(2);
    };
    let start = Instant::now();
    // A panic, such as a broken claim in brute force, is a failure with a seed.
    let outcome = std::panic::catch_unwind(|| run(&options));
    let Ok(outcome) = outcome else {
        let seed = SEED.load(Ordering::Relaxed);
        println!("repeat with --seed {seed} --count 1");
        return ExitCode::FAILURE;
    };
    let Ok(tally) = outcome else {
        return ExitCode::FAILURE;
    };
    tally.print();
    println!(
        "{} plans, {} of them, {} waits and {} traces by brute force too, in {:.1} s: no difference",
        tally.plans,
        tally.by_brute_force,
        tally.waits_by_brute_force,
        tally.traces_by_brute_force,
        start.elapsed().as_secs_f64()
    );
    match tally.missing() {
        Some(missing) if options.count >= ENOUGH_PLANS => {
            println!("FAILED: {missing}");
            ExitCode::FAILURE
        }
        Some(missing) => {
            println!("too few plans to judge that {missing}");
            ExitCode::SUCCESS
        }
        None => ExitCode::SUCCESS,
    }
}
