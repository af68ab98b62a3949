//! How a run's time grows: over the number of stages, the window and the length of rings. Of each run first that both sides give
//! the same bits, then a line: what grows, the kind, stages, window, slots of a ring, and the nanoseconds of the engine and of the
//! Rust.

use std::time::Duration;

use crate::ENGINE;
use crate::cases::Case;
use crate::cases::QUIET;
use crate::cases::several;
use crate::measured;
use crate::sides;
use crate::stages;
use crate::stages::BUFFER_SIZE;
use crate::stages::Kind;
use crate::stages::LOW_PASS_2;
use crate::stages::PASS;
use crate::stages::Stage;
use crate::stages::WAVEGUIDE;
use crate::stages::WIDTH;

const KINDS: [Kind; 3] = [WAVEGUIDE, LOW_PASS_2, PASS];

/// While one grows the other two stay so.
const STAGES: usize = 16;
const WINDOW: usize = 512;
const RING: usize = BUFFER_SIZE + 1;

/// The lowest string on a ring goes back by nine tenths of it; the others are above it, by two octaves and a third at the most.
fn run(over: &str, kind: Kind, stages: usize, window: usize, ring: usize, budget: Duration) {
    let sized = |stage: Stage| Stage { buffer_size: ring - 1, ..stage };
    let stages = several(kind, stages).into_iter().map(sized).collect();
    let mut case = Case::new(kind.name, stages, QUIET);
    case.values = stages::values(1.0 / (WIDTH * 0.9 * ring as f64));
    sides::compare_at(&case, &[&ENGINE], window);
    let [ours, theirs] = measured(&case, window, budget);
    println!("{over},{},{},{window},{ring},{ours:.0},{theirs:.0}", case.name, case.stages.len());
}

pub fn lines(budget: Duration) {
    println!("over,kind,stages,window,ring,engine,rust");
    for kind in KINDS {
        let counts = [1, 2, 4, 8, 12, 16, 20, 24, 28, 32].into_iter();
        counts.for_each(|stages| run("stages", kind, stages, WINDOW, RING, budget));
    }
    for kind in KINDS {
        let windows = [0].into_iter().chain((0..13).map(|power| 1 << power));
        windows.for_each(|window| run("window", kind, STAGES, window, RING, budget));
    }
    (6..16).for_each(|power| run("ring", WAVEGUIDE, STAGES, WINDOW, 1 << power, budget));
}
