//! A budget: what a run takes before its first stage, what a stage takes in a window besides its samples, and what a sample takes;
//! and what that foretells, beside what is measured.
//!
//! A run is taken to last as long as
//!
//! run + zero * capacity + the sum over its stages of (stage + sample * n)
//!
//! and the four are reckoned from four runs: two with an empty order, at capacities of 0 and 4,096, and two of eight stages of a
//! kind, at windows of 64 and 4,096. Strings are quiet: a loud one has no time of a sample that holds at both windows, for in a
//! short one, where the same noise comes again soon, the processor foresees how its samples are bent.

use std::hint::black_box;
use std::time::Duration;

use crate::ENGINE;
use crate::cases;
use crate::cases::Case;
use crate::cases::QUIET;
use crate::cases::WINDOWS;
use crate::cases::several;
use crate::sides::Engine;
use crate::stages::KINDS;
use crate::stages::Kind;
use crate::stages::Stage;
use crate::stages::WIDTH;
use crate::time;

const SHORT: usize = WINDOWS[0];
const LONG: usize = WINDOWS[2];
const COUNT: usize = 8;

/// The nanoseconds of a run.
fn measured(case: &Case, n: usize, budget: Duration) -> f64 {
    let mut engine = Engine::new(&ENGINE, case, n);
    let [nanoseconds] = time::fastest(budget, [&mut || _ = black_box(engine.run())]);
    nanoseconds
}

/// What every run takes, whatever its stages.
struct Run {
    run: f64,
    zero: f64,
}

impl Run {
    fn new(budget: Duration) -> Self {
        let [run, long] = [0, LONG].map(|capacity| measured(&Case::empty(), capacity, budget));
        Self { run, zero: (long - run) / LONG as f64 }
    }
}

/// What a stage of a kind takes.
struct Cost {
    name: &'static str,
    stage: f64,
    sample: f64,
}

fn costs(run: &Run, budget: Duration) -> Vec<Cost> {
    let cost = |kind: &Kind| {
        let case = Case::new(kind.name, several(*kind, COUNT), QUIET);
        let alone = |n| (measured(&case, n, budget) - run.run - run.zero * n as f64) / COUNT as f64;
        let (short, long) = (alone(SHORT), alone(LONG));
        let sample = (long - short) / (LONG - SHORT) as f64;
        Cost { name: kind.name, stage: short - sample * SHORT as f64, sample }
    };
    KINDS.iter().map(cost).collect()
}

/// What the budget foretells of a case, part by part, beside what is measured: microseconds, and parts of a hundred. The last part
/// is how much of the time that the window lasts is taken.
fn foretell(case: &Case, run: &Run, costs: &[Cost], budget: Duration) {
    let cost = |stage: &Stage| costs.iter().find(|cost| cost.name == stage.kind.name).expect("a kind's cost");
    let stages: f64 = case.stages.iter().map(|stage| cost(stage).stage).sum();
    let sample: f64 = case.stages.iter().map(|stage| cost(stage).sample).sum();
    for n in WINDOWS {
        let parts = [run.run, run.zero * n as f64, stages, sample * n as f64];
        let (sum, measured) = (parts.iter().sum::<f64>(), measured(case, n, budget));
        print!("| {} | {n} |", case.name);
        parts.iter().for_each(|part| print!(" {:.2} ({:.0} %) |", part / 1e3, 100.0 * part / sum));
        let lasts = WIDTH * n as f64 * 1e9;
        print!(" {:.2} | {:.2} | **{:.2}** |", sum / 1e3, measured / 1e3, measured / sum);
        println!(" {:.2} % |", 100.0 * measured / lasts);
    }
}

pub fn tables(budget: Duration) {
    let run = Run::new(budget);
    let costs = costs(&run, budget);
    println!("\n## A budget (ns)\n");
    println!("| a run | each zero of the capacity |\n|---|---|\n| {:.0} | {:.3} |\n", run.run, run.zero);
    println!("| kind | a stage in a window | each of its samples |\n|---|---|---|");
    costs.iter().for_each(|Cost { name, stage, sample }| println!("| {name} | {stage:.0} | {sample:.2} |"));
    println!("\n## The budget beside what is measured (µs)\n");
    print!("| patch | window | run | zeros | stages | samples | budget | measured | measured / budget |");
    println!(" of the window at 44,100 a second |\n|---|---|---|---|---|---|---|---|---|---|");
    let each = format!("one of each of {} kinds", KINDS.len());
    for case in [cases::patches().cases.swap_remove(0), Case::new(each, cases::one_of_each(), QUIET)] {
        foretell(&case, &run, &costs, budget * 4);
    }
}
