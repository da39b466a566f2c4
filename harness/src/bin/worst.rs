//! The search for a costly plan: hill climbing from the greatest plans over the
//! dials of `Shape`, by the time that the library takes to check plans of 1,024
//! operations. Which dial is turned, and how far, follows from the seed; whether
//! the shape is kept is measured, in turn with the costliest so far. Prints
//! each shape that is kept.

use harness::c_api;
use harness::generate::{Rng, Shape, WaitOrder};
use harness::side::{OwnRooms, Side, Told};
use harness::timing::timed;
use std::hint::black_box;
use std::process::ExitCode;
use std::time::Duration;

const OPERATIONS: usize = 1024;
/// Plans of one shape that are checked in turn.
const PLANS: usize = 32;
/// Rounds of checks, for a first look and for a second.
const ROUNDS: [usize; 2] = [4, 16];
/// A shape is kept if it takes at least so much of the costliest's time.
const GAIN: f64 = 1.005;

/// A shape with one or two dials turned.
fn turned(rng: &mut Rng, shape: &Shape) -> Shape {
    let mut shape = *shape;
    for _ in 0..rng.between(1, 2) {
        turn_one(rng, &mut shape);
    }
    shape
}

fn turn_one(rng: &mut Rng, shape: &mut Shape) {
    match rng.below(16) {
        0 => turn_list(rng, &mut shape.lists[0], 3),
        1 => turn_list(rng, &mut shape.lists[1], 2),
        2 => turn_list(rng, &mut shape.lists[2], 4),
        3 => shape.queues = rng.between(2, 16),
        4 => shape.stay = some_percent(rng),
        5 => shape.semaphores = rng.between(1, 4),
        6 => shape.skew = some_percent(rng),
        7 => shape.window = 1 << rng.between(0, 10),
        8 => shape.recent = 1 << rng.between(0, 11),
        9 => shape.since = some_percent(rng),
        10 => shape.latest = some_percent(rng),
        11 => shape.less = some_percent(rng),
        12 => shape.ends = [(); 2].map(|()| some_percent(rng) / 2),
        13 => {
            let orders = [WaitOrder::Random, WaitOrder::Rising, WaitOrder::Falling];
            shape.wait_order = *rng.pick(&orders);
        }
        14 => shape.handed = some_percent(rng),
        _ => {
            shape.buffers = 1 << rng.between(0, 8);
            shape.never_freed = rng.between(0, shape.buffers.div_ceil(2));
        }
    }
}

fn turn_list(rng: &mut Rng, list: &mut [usize; 2], most: usize) {
    let ends = [rng.between(0, most), rng.between(0, most)];
    *list = [ends[0].min(ends[1]), ends[0].max(ends[1])];
}

fn some_percent(rng: &mut Rng) -> usize {
    *rng.pick(&[0, 5, 10, 25, 50, 75, 90, 100])
}

/// Plans of a shape, in bytes.
fn plans_of(shape: &Shape) -> Vec<Vec<u8>> {
    let plans = (0..PLANS as u64).map(|seed| shape.plan(&mut Rng::new(seed), OPERATIONS).bytes());
    plans.collect()
}

/// Microseconds of one check of each shape's plans, shape by shape in turn: of
/// each plan the fastest of so many rounds, which other work on the machine slows
/// least. Plans of two shapes with one seed can be much alike, so they are not
/// checked one after the other: the second would have been learnt by heart.
fn times<const SHAPES: usize>(
    library: &dyn Side,
    rounds: usize,
    shapes: [&[Vec<u8>]; SHAPES],
) -> [f64; SHAPES] {
    let (mut rooms, mut told) = (OwnRooms::new(OPERATIONS), Told::default());
    let rooms = &mut rooms.lend();
    let mut fastest = [[Duration::MAX; PLANS]; SHAPES];
    for _ in 0..rounds {
        for (plans, fastest) in shapes.iter().zip(&mut fastest) {
            for (plan, fastest) in plans.iter().zip(fastest) {
                let time = timed(|| library.check(black_box(plan), rooms, &mut told));
                *fastest = time.min(*fastest);
                assert_eq!(told, Told::PASSED, "the plans of a shape pass");
            }
        }
    }
    let sum = |times: [Duration; PLANS]| times.iter().sum::<Duration>().as_secs_f64();
    fastest.map(|times| 1e6 * sum(times) / PLANS as f64)
}

fn climb(library: &dyn Side, seed: u64, steps: u64) {
    let rng = &mut Rng::new(seed);
    let greatest = plans_of(&Shape::GREATEST);
    let mut worst = Shape::GREATEST;
    let mut plans = greatest.clone();
    for step in 0..steps {
        let shape = turned(rng, &worst);
        if shape == worst {
            continue;
        }
        let others = plans_of(&shape);
        let costlier = |&rounds: &usize| {
            let [time, worst] = times(library, rounds, [&others, &plans]);
            time >= GAIN * worst
        };
        if ROUNDS.iter().all(costlier) {
            let [time, before] = times(library, ROUNDS[1], [&others, &greatest]);
            let ratio = time / before;
            (worst, plans) = (shape, others);
            println!("step {step}: {time:.1} us, {ratio:.3} of the greatest\n{worst:?}");
        }
    }
    println!("{worst:#?}");
}

fn main() -> ExitCode {
    let words: Vec<String> = std::env::args().skip(1).collect();
    let numbers: Option<Vec<u64>> = words.iter().map(|word| word.parse().ok()).collect();
    let (Some(&[seed, steps]), Some(library)) = (numbers.as_deref(), c_api::library()) else {
        eprintln!("usage: worst SEED STEPS, with the C library linked");
        return ExitCode::from(2);
    };
    climb(&*library, seed, steps);
    ExitCode::SUCCESS
}
