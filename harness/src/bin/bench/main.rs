//! The benchmark: the C library's check beside the reference's, on each family
//! of plans and each size, the trace question beside the check, the question for
//! a wait beside the reuse question, then the other functions. Prints a table,
//! and draws time over size as an SVG if a path is given. With `--before LIBRARY`
//! it times the linked library beside a shared library built earlier instead.

use harness::generate::{Family, Rng};
use harness::reference::Reference;
use harness::side::{told, Found, OwnRooms, Raw, Side, Told, Wait, EMPTY, STATE};
use harness::timing::{self, in_turn, Turn, PAIRS};
use harness::traces;
use std::hint::black_box;
use std::process::ExitCode;

mod plot;

const SIZES: [usize; 5] = [64, 128, 256, 512, 1024];
/// Plans of a family and size that a call takes in turn: one plan checked over
/// and over would be learnt by heart by the processor's branch predictor.
const PLANS: u64 = 32;
/// Operations of all plans of a family and size that two libraries check in
/// turn: as many as 32 of the largest plans have. Of 32 plans with 64 operations
/// the predictor learns a part, now more and now less, and on random lists a
/// library took up to 1.12 of the time of its own copy.
const COMPARED: usize = 32 * 1024;
/// What a trace may take of the time of its plan's check.
const TRACE_LIMIT: f64 = 1.15;

/// What the question for a wait may take of the time of the reuse question.
const SUGGEST_LIMIT: f64 = 1.1;

/// The C library if this build links it, then the reference.
struct Sides {
    library: Option<Box<dyn Side>>,
}

/// Median times of one call in nanoseconds, and the median ratio of pairs.
struct Measured {
    library: Option<f64>,
    reference: f64,
    ratio: Option<f64>,
}

impl Measured {
    /// The times of one of so many calls that were measured together.
    fn of_one(self, calls: u64) -> Measured {
        Measured {
            library: self.library.map(|time| time / calls as f64),
            reference: self.reference / calls as f64,
            ratio: self.ratio,
        }
    }
}

impl Sides {
    /// Measures the same call on both sides, turn by turn.
    fn measure(&self, mut call: impl FnMut(&dyn Side)) -> Measured {
        let Some(library) = self.library.as_deref() else {
            return Measured {
                library: None,
                reference: timing::alone(|| call(&Reference)),
                ratio: None,
            };
        };
        let both = in_turn(PAIRS, |turn| match turn {
            Turn::First => call(library),
            Turn::Second => call(&Reference),
        });
        Measured {
            library: Some(both.first),
            reference: both.second,
            ratio: Some(both.ratio),
        }
    }
}

// ---------------------------------------------------------------------------
// Tables.

/// One family's measurements, size by size.
type Series = (Family, Vec<Measured>);

fn measure_families(sides: &Sides) -> Vec<Series> {
    println!("check, microseconds for one call");
    println!(
        "{:<30}{:>6}{:>8}{:>12}{:>12}{:>8}",
        "family", "size", "bytes", "C library", "reference", "ratio"
    );
    Family::ALL
        .map(|family| {
            let measured = SIZES.map(|size| measure_check(sides, family, size));
            (family, measured.into())
        })
        .into()
}

/// So many plans of a family and size, in bytes.
fn plans_of(family: Family, size: usize, many: u64) -> Vec<Vec<u8>> {
    let plans = (0..many).map(|seed| family.plan(&mut Rng::new(seed), size).bytes());
    plans.collect()
}

fn measure_check(sides: &Sides, family: Family, size: usize) -> Measured {
    let plans = plans_of(family, size, PLANS);
    let bytes = plans.iter().map(Vec::len).sum::<usize>() / plans.len();
    let (mut rooms, mut told) = (OwnRooms::new(size), Told::default());
    let rooms = &mut rooms.lend();
    let measured = sides.measure(|side| {
        for plan in &plans {
            side.check(black_box(plan), rooms, &mut told);
            assert_eq!(told.number, 0, "a family's plans pass");
        }
    });
    let measured = measured.of_one(PLANS);
    println!(
        "{:<30}{size:>6}{bytes:>8}{:>12}{:>12.2}{:>8}",
        family.name(),
        optional(measured.library.map(|time| time / 1e3)),
        measured.reference / 1e3,
        optional(measured.ratio),
    );
    measured
}

/// Small plans, of which most of the time is what does not depend on the plan.
/// Each is one plan, checked over and over: its branches are foretold.
const SMALL: [(&str, &[u8]); 3] = [
    (
        "T3, three operations",
        include_bytes!("../../../../plans/t3-three-queues.plan"),
    ),
    (
        "two frames, five operations",
        include_bytes!("../../../../plans/two-frames.plan"),
    ),
    (
        "camera, 128 operations",
        include_bytes!("../../../../plans/camera.plan"),
    ),
];

/// The check of small plans, whatever measures it.
fn small_calls(measure: &mut Measure) {
    let (mut rooms, mut told) = (OwnRooms::new(128), Told::default());
    let rooms = &mut rooms.lend();
    for (name, plan) in SMALL {
        measure(&format!("check, {name}"), 1, &mut |side| {
            side.check(black_box(plan), rooms, &mut told);
        });
    }
}

/// Two places after the point, or a dash.
fn optional(value: Option<f64>) -> String {
    value.map_or("-".to_string(), |value| format!("{value:.2}"))
}

/// Time for each operation at 1,024 operations over that at 256.
fn print_growth(series: &[Series]) {
    let (small, large) = (2, 4);
    println!("\ngrowth: time for each operation at 1024 over that at 256");
    println!("{:<30}{:>12}{:>12}", "family", "C library", "reference");
    for (family, measured) in series {
        let growth = |at_small: f64, at_large: f64| {
            (at_large / SIZES[large] as f64) / (at_small / SIZES[small] as f64)
        };
        let library = measured[small].library.zip(measured[large].library);
        let library = library.map(|(small, large)| growth(small, large));
        let reference = growth(measured[small].reference, measured[large].reference);
        println!(
            "{:<30}{:>12}{reference:>12.2}",
            family.name(),
            optional(library)
        );
    }
}

/// A full run held against its plan, beside the check of the same plan by the
/// same side, and beside the reference.
fn measure_traces(sides: &Sides) {
    let side = sides.library.as_deref().unwrap_or(&Reference);
    println!(
        "\ntrace of a full run and check of the same plan by the {}, microseconds for one call",
        side.name()
    );
    println!(
        "{:<30}{:>6}{:>12}{:>12}{:>8}{:>12}{:>8}",
        "family", "size", "trace", "check", "ratio", "reference", "ratio"
    );
    let mut largest = 0.0_f64;
    for family in Family::ALL {
        for size in [64, 256, 1024] {
            let ratio = measure_trace(sides, side, family, size);
            largest = largest.max(ratio);
        }
    }
    println!("largest ratio of a trace to its check: {largest:.2} (limit {TRACE_LIMIT})");
}

/// Plans of a family and size, each with the steps of a random full run.
fn with_runs(family: Family, size: usize) -> impl Iterator<Item = (Vec<u8>, Vec<u16>)> {
    (0..PLANS).map(move |seed| {
        let rng = &mut Rng::new(seed);
        let plan = family.plan(rng, size);
        (plan.bytes(), traces::random_run(rng, &plan))
    })
}

fn measure_trace(sides: &Sides, side: &dyn Side, family: Family, size: usize) -> f64 {
    let plans = with_runs(family, size).map(|(plan, run)| (plan, traces::stored(&run)));
    let plans: Vec<_> = plans.collect();
    let (mut rooms, mut told) = (OwnRooms::new(size), Told::default());
    let rooms = &mut rooms.lend();
    let (mut state, mut found) = ([0; STATE], Found::default());
    let beside = in_turn(PAIRS, |turn| {
        for (plan, trace) in &plans {
            let (plan, trace) = (black_box(plan), black_box(trace));
            match turn {
                Turn::First => {
                    side.trace(plan, trace, rooms, &mut state, &mut found, &mut told);
                }
                Turn::Second => side.check(plan, rooms, &mut told),
            }
            assert_eq!(told, Told::PASSED, "a full run of a plan that passes");
        }
    });
    let measured = measure_traces_of(sides, &plans, size);
    let microseconds = |time: f64| time / PLANS as f64 / 1e3;
    println!(
        "{:<30}{size:>6}{:>12.2}{:>12.2}{:>8.2}{:>12.2}{:>8}",
        family.name(),
        microseconds(beside.first),
        microseconds(beside.second),
        beside.ratio,
        measured.reference / 1e3,
        optional(measured.ratio),
    );
    beside.ratio
}

/// Traces held against their plans of this size, on both sides.
fn measure_traces_of(sides: &Sides, plans: &[(Vec<u8>, Vec<u8>)], size: usize) -> Measured {
    let (mut rooms, mut told) = (OwnRooms::new(size), Told::default());
    let rooms = &mut rooms.lend();
    let (mut state, mut found) = ([0; STATE], Found::default());
    let measured = sides.measure(|side| {
        for (plan, trace) in plans {
            let (plan, trace) = (black_box(plan), black_box(trace));
            side.trace(plan, trace, rooms, &mut state, &mut found, &mut told);
        }
    });
    measured.of_one(PLANS)
}

/// Traces of which all steps after a full run depart: only the first of them is
/// looked at.
fn measure_long_trace(sides: &Sides) -> Measured {
    let plans = with_runs(Family::Greatest, 1024).map(|(plan, mut run)| {
        run.resize(traces::MOST_STEPS, 0);
        (plan, traces::stored(&run))
    });
    let plans: Vec<_> = plans.collect();
    measure_traces_of(sides, &plans, 1024)
}

/// The question for a wait beside the reuse question on the same queue and
/// buffer by the same side, and for small plans beside the reference, which
/// checks a longer plan for each signal.
fn measure_suggestions(sides: &Sides) {
    let side = sides.library.as_deref().unwrap_or(&Reference);
    println!(
        "\nsuggest and reuse of the same queue and buffer by the {}, microseconds for one call",
        side.name()
    );
    println!("signals: those passed over before one frees the buffer");
    println!(
        "{:<30}{:>6}{:>8}{:>12}{:>12}{:>8}{:>12}{:>8}",
        "family", "size", "signals", "suggest", "reuse", "ratio", "reference", "ratio"
    );
    let sizes = match sides.library {
        Some(_) => &[64, 256, 1024][..],
        None => &[64],
    };
    let mut largest = 0.0_f64;
    for family in Family::ALL {
        for &size in sizes {
            let asked: Vec<_> = (0..PLANS)
                .filter_map(|seed| asked(side, family, size, seed))
                .collect();
            if !asked.is_empty() {
                largest = largest.max(measure_suggestion(sides, side, family, size, &asked));
            }
        }
    }
    if sides.library.is_some() {
        println!("largest ratio of suggest to reuse: {largest:.2} (limit {SUGGEST_LIMIT})");
    }
}

/// A plan with a queue and a buffer whose verdict is 3, and how many signals of
/// the plan are passed over before one frees the buffer.
struct Asked {
    plan: Vec<u8>,
    queue: u32,
    buffer: u32,
    passed_over: usize,
}

/// The buffer that is freed last of all, so that most signals are passed over.
/// None if each queue is ordered after each free.
fn asked(side: &dyn Side, family: Family, size: usize, seed: u64) -> Option<Asked> {
    let tree = family.plan(&mut Rng::new(seed), size);
    let plan = tree.bytes();
    let mut rooms = OwnRooms::new(size);
    let rooms = &mut rooms.lend();
    let mut not_ordered = |queue: u32, buffer: u32| {
        told(|told| side.reuse(&plan, queue, buffer, rooms, told)) == Told::answered(3)
    };
    let marks = tree.operations.iter().flat_map(|o| &o.marks).rev();
    let frees = marks.filter(|mark| mark.free).map(|mark| mark.buffer);
    let (queue, buffer) = frees.map(u32::from).find_map(|buffer| {
        let mut queues = 0..tree.axes.len() as u32;
        let queue = queues.find(|&queue| not_ordered(queue, buffer))?;
        Some((queue, buffer))
    })?;
    let mut wait = Wait::default();
    told(|told| side.suggest(&plan, queue, buffer, rooms, &mut wait, told));
    let signals = || tree.operations.iter().flat_map(|o| &o.signals);
    let freeing = signals().position(|signal| wait == [signal.semaphore.into(), signal.value]);
    let passed_over = freeing.unwrap_or_else(|| signals().count());
    Some(Asked {
        plan,
        queue,
        buffer,
        passed_over,
    })
}

fn measure_suggestion(
    sides: &Sides,
    side: &dyn Side,
    family: Family,
    size: usize,
    asked: &[Asked],
) -> f64 {
    let mut rooms = OwnRooms::new(size);
    let rooms = &mut rooms.lend();
    let (mut wait, mut told) = (Wait::default(), Told::default());
    let beside = in_turn(PAIRS, |turn| {
        for asked in asked {
            let (plan, queue, buffer) = (black_box(&asked.plan), asked.queue, asked.buffer);
            match turn {
                Turn::First => side.suggest(plan, queue, buffer, rooms, &mut wait, &mut told),
                Turn::Second => side.reuse(plan, queue, buffer, rooms, &mut told),
            }
        }
    });
    // The reference takes too long for plans that are not small.
    let measured = (size == 64).then(|| {
        sides.measure(|side| {
            for asked in asked {
                let (plan, queue, buffer) = (black_box(&asked.plan), asked.queue, asked.buffer);
                side.suggest(plan, queue, buffer, rooms, &mut wait, &mut told);
            }
        })
    });
    let microseconds = |time: f64| time / asked.len() as f64 / 1e3;
    let passed_over = asked.iter().map(|asked| asked.passed_over).sum::<usize>() / asked.len();
    println!(
        "{:<30}{size:>6}{passed_over:>8}{:>12.2}{:>12.2}{:>8.2}{:>12}{:>8}",
        family.name(),
        microseconds(beside.first),
        microseconds(beside.second),
        beside.ratio,
        optional(measured.as_ref().map(|both| microseconds(both.reference))),
        optional(measured.and_then(|both| both.ratio)),
    );
    beside.ratio
}

fn measure_others(sides: &Sides) {
    println!("\nsmall plans and other functions, nanoseconds for one call");
    println!(
        "{:<44}{:>12}{:>12}{:>8}",
        "call", "C library", "reference", "ratio"
    );
    let print = |name: &str, measured: Measured| {
        println!(
            "{name:<44}{:>12}{:>12.0}{:>8}",
            measured
                .library
                .map_or("-".to_string(), |time| format!("{time:.0}")),
            measured.reference,
            optional(measured.ratio)
        );
    };
    let mut measure = |name: &str, calls: u64, call: &mut Call| {
        print(name, sides.measure(call).of_one(calls));
    };
    small_calls(&mut measure);
    for family in Family::GREATEST {
        plan_calls(family, &mut measure);
    }
    print(
        "trace of 65,535 steps, greatest plan",
        measure_long_trace(sides),
    );
    frontier_calls(&mut measure);
    lookup_calls(&mut measure);
}

/// Something that is asked of one side.
type Call<'a> = dyn FnMut(&dyn Side) + 'a;
/// Measures and prints by a name what is so many calls of one function.
type Measure<'a> = dyn FnMut(&str, u64, &mut Call) + 'a;

/// What every library can be asked of the greatest plans of a family, besides
/// their check.
fn plan_calls(family: Family, measure: &mut Measure) {
    let plans = (0..PLANS).map(|seed| family.plan(&mut Rng::new(seed), 1024));
    let plans: Vec<_> = plans.map(|plan| (plan.bytes(), plan.numbers())).collect();
    let mut read_room = vec![0; plans[0].1.len()];
    let mut write_room = vec![0; plans[0].0.len()];
    let (mut rooms, mut told) = (OwnRooms::new(1024), Told::default());
    let (rooms, mut out) = (&mut rooms.lend(), EMPTY);
    let mut measure = |function: &str, call: &mut Call| {
        measure(&format!("{function}, {}", family.name()), PLANS, call);
    };
    measure("read", &mut |side| {
        for (bytes, _) in &plans {
            side.read(black_box(bytes), &mut read_room, &mut told);
        }
    });
    measure("write", &mut |side| {
        for (_, numbers) in &plans {
            side.write(black_box(numbers), &mut write_room, &mut told);
        }
    });
    measure("reuse", &mut |side| {
        for (bytes, _) in &plans {
            side.reuse(black_box(bytes), 3, 200, rooms, &mut told);
        }
    });
    measure("frontier sent out", &mut |side| {
        for (bytes, _) in &plans {
            side.frontier(black_box(bytes), 1023, 8, rooms, &mut out, &mut told);
        }
    });
}

/// What every library can do with frontiers.
fn frontier_calls(measure: &mut Measure) {
    let (mut out, mut told) = (EMPTY, Told::default());
    for (name, [left, right]) in frontier_pairs() {
        measure(&format!("merge, {name}"), 1, &mut |side| {
            side.merge(black_box(&left), black_box(&right), 16, &mut out, &mut told);
        });
        measure(&format!("dominates, {name}"), 1, &mut |side| {
            side.dominates(black_box(&left), black_box(&right), &mut told);
        });
    }
    let [left, _] = frontier_pairs()[0].1;
    for (name, axis) in RAISED {
        measure(&format!("raise, 16 entries, {name}"), 1, &mut |side| {
            let (old, axis) = (black_box(&left), black_box(axis));
            side.raise(old, axis, 99, 16, &mut out, &mut told);
        });
    }
}

/// Lookups. What is timed of each, on both sides alike: a call through the trait
/// that goes on to one function, which writes the epoch and the three numbers
/// where they are lent. Nothing is filled before it or read after it.
fn lookup_calls(measure: &mut Measure) {
    let [left, _] = frontier_pairs()[0].1;
    for (name, offset) in LOOKED_UP {
        let (axes, mut epoch, mut told) = (looked_up(offset), 0, Told::default());
        let name = format!("lookup, 16 entries, {name}");
        measure(&name, LOOKUPS, &mut |side| {
            for &axis in &axes {
                side.lookup(black_box(&left), axis, &mut epoch, &mut told);
            }
        });
    }
}

/// Axes to look up in a frontier of sixteen entries with even axes: all of them,
/// and as many that lie between.
const LOOKED_UP: [(&str, u64); 2] = [("all its axes", 0), ("absent axes", 1)];
/// Lookups in one measurement. In a shorter round the branch predictor would
/// learn by heart which axis comes next.
const LOOKUPS: u64 = 16_384;

/// Sixteen axes, each as often as the others, in random order.
fn looked_up(offset: u64) -> Vec<u64> {
    let rng = &mut Rng::new(offset);
    let mut axes: Vec<u64> = (0..LOOKUPS).map(|k| 2 * (k % 16) + offset).collect();
    rng.shuffle(&mut axes);
    axes
}

/// Axes to raise in a frontier of sixteen entries with even axes.
const RAISED: [(&str, u64); 2] = [("a listed axis", 14), ("an axis not listed", 15)];

/// Two frontiers of sixteen entries each: the left has even axes.
fn frontier_pairs() -> [(&'static str, [Raw; 2]); 2] {
    let full = |offset: u64, epoch: u64| {
        let mut frontier = EMPTY;
        for slot in 0..16 {
            frontier[slot] = 2 * slot as u64 + offset;
            frontier[16 + slot] = epoch + (slot as u64 * 7) % 16;
        }
        frontier[32] = 16;
        frontier
    };
    [
        ("16 and 16 on the same axes", [full(0, 20), full(0, 1)]),
        ("16 and 16 on other axes, cut", [full(0, 20), full(1, 15)]),
    ]
}

// ---------------------------------------------------------------------------
// A library before a change, and the one after it.

fn compare(after: &dyn Side, before: &dyn Side) {
    println!(
        "this library and {}, nanoseconds for one call",
        before.name()
    );
    println!("{:<44}{:>12}{:>12}{:>8}", "call", "this", "before", "ratio");
    let mut measure = |name: &str, calls: u64, call: &mut Call| {
        let pairs = in_turn(PAIRS, |turn| match turn {
            Turn::First => call(after),
            Turn::Second => call(before),
        });
        println!(
            "{name:<44}{:>12.0}{:>12.0}{:>8.3}",
            pairs.first / calls as f64,
            pairs.second / calls as f64,
            pairs.ratio
        );
    };
    small_calls(&mut measure);
    let (mut rooms, mut told) = (OwnRooms::new(1024), Told::default());
    let rooms = &mut rooms.lend();
    for family in Family::ALL
        .into_iter()
        .filter(|&family| takes(before, family))
    {
        for size in SIZES {
            let many = (COMPARED / size) as u64;
            let plans = plans_of(family, size, many);
            let name = format!("check, {}, {size}", family.name());
            measure(&name, many, &mut |side| {
                for plan in &plans {
                    side.check(black_box(plan), rooms, &mut told);
                }
            });
        }
    }
    for family in Family::GREATEST
        .into_iter()
        .filter(|&family| takes(before, family))
    {
        plan_calls(family, &mut measure);
    }
    frontier_calls(&mut measure);
}

/// Does a side pass the family's plans at all? One built earlier may not know
/// their form, or that any queue may signal.
fn takes(side: &dyn Side, family: Family) -> bool {
    let plan = family.plan(&mut Rng::new(0), SIZES[0]).bytes();
    let mut rooms = OwnRooms::new(SIZES[0]);
    told(|told| side.check(&plan, &mut rooms.lend(), told)) == Told::PASSED
}

/// `bench --before LIBRARY`.
fn main_before(path: Option<String>) -> Result<(), String> {
    let path = path.ok_or("--before needs the path of a shared library")?;
    let after = harness::c_api::library().ok_or("no C library is linked")?;
    let before = harness::c_api::earlier(&path)?;
    compare(&*after, &*before);
    Ok(())
}

// ---------------------------------------------------------------------------

fn main() -> ExitCode {
    let mut words = std::env::args().skip(1);
    let path = words.next();
    if path.as_deref() == Some("--before") {
        return match main_before(words.next()) {
            Ok(()) => ExitCode::SUCCESS,
            Err(error) => {
                eprintln!("bench: {error}");
                ExitCode::FAILURE
            }
        };
    }
    let sides = Sides {
        library: harness::c_api::library(),
    };
    if sides.library.is_none() {
        println!("no C library is linked: the reference alone is measured");
    }
    let series = measure_families(&sides);
    print_growth(&series);
    measure_traces(&sides);
    measure_suggestions(&sides);
    measure_others(&sides);
    if let Some(path) = path {
        if let Err(error) = std::fs::write(&path, plot::plot(&series)) {
            eprintln!("{path}: {error}");
            return ExitCode::FAILURE;
        }
        println!("\nplot written to {path}");
    }
    ExitCode::SUCCESS
}
