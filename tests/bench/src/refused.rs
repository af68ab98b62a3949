//! Runs that are refused, by the number: 32 stages, each of which passes a buffer on, and one fault. The Rust has no such answers,
//! so that nothing stands beside them.

use crate::cases::Case;
use crate::cases::QUIET;
use crate::cases::several;
use crate::records::Functions;
use crate::sides::Engine;
use crate::stages::PAN;
use crate::stages::PASS;
use crate::stages::WAVEGUIDE;

/// What is wrong with a run, in it as a whole or at one of its stages.
pub struct Fault {
    pub number: usize,
    pub name: &'static str,
    pub by_stage: bool,
    make: fn(&mut Engine, k: usize),
}

/// In the order in which they are looked for, between two runs that are accepted.
pub const FAULTS: [Fault; 13] = [
    Fault { number: 0, name: "none: an empty order", by_stage: false, make: |engine, _| engine.order.clear() },
    Fault {
        number: 22,
        name: "a kind that is unknown",
        by_stage: true,
        make: |engine, k| engine.patch.stages[k].kind = 99,
    },
    Fault { number: 1, name: "33 stages", by_stage: false, make: |engine, _| engine.patch.count = 33 },
    Fault { number: 1, name: "the last of the zeros is -0.0", by_stage: false, make: last_zero },
    Fault { number: 2, name: "a window too long", by_stage: false, make: |engine, _| engine.n += 1 },
    Fault { number: 3, name: "a stage twice in the order", by_stage: false, make: |engine, _| engine.order[31] = 0 },
    Fault { number: 4, name: "a ring too long", by_stage: true, make: ring_too_long },
    Fault { number: 4, name: "rings that do not fit", by_stage: false, make: rings_that_do_not_fit },
    Fault { number: 5, name: "no such buffer", by_stage: true, make: |engine, k| engine.patch.stages[k].output = 32 },
    Fault { number: 8, name: "both outputs the same", by_stage: true, make: outputs_the_same },
    Fault {
        number: 6,
        name: "a slot past the values",
        by_stage: true,
        make: |engine, k| engine.patch.stages[k].out_level.slot = 99,
    },
    Fault { number: 7, name: "an output that is an input", by_stage: true, make: output_is_input },
    Fault { number: 0, name: "none: an empty window", by_stage: false, make: |engine, _| engine.n = 0 },
];

/// The parts of a run, each with the fault that ends it and whether that is at the first or the last of the stages, and for how
/// many stages something is done in it.
pub const PARTS: [(&str, &str, usize, f64); 7] = [
    ("the call, until the first stage is named", "a kind that is unknown", 0, 1.0),
    ("naming 31 more stages", "a kind that is unknown", 1, 31.0),
    ("records taken over; checks 1 and 2", "a window too long", 0, 1.0),
    ("check 3", "a stage twice in the order", 0, 32.0),
    ("check 4; checks 5, 8, 6 and 7 of the first stage", "an output that is an input", 0, 1.0),
    ("checks 5, 8, 6 and 7 of 31 more stages", "an output that is an input", 1, 31.0),
    ("32 stages without a sample", "none: an empty window", 0, 32.0),
];

fn last_zero(engine: &mut Engine, _: usize) {
    *engine.zeros.last_mut().expect("a capacity above 0") = -0.0;
}

fn ring_too_long(engine: &mut Engine, k: usize) {
    engine.patch.stages[k] = several(WAVEGUIDE, 1)[0].flat();
    engine.patch.stages[k].buffer_size = 32_768;
}

fn rings_that_do_not_fit(engine: &mut Engine, _: usize) {
    engine.patch.stages = [several(WAVEGUIDE, 1)[0].flat(); 32];
    engine.rings.pop();
}

fn outputs_the_same(engine: &mut Engine, k: usize) {
    engine.patch.stages[k] = several(PAN, 1)[0].flat();
    engine.patch.stages[k].second_output = engine.patch.stages[k].output;
}

fn output_is_input(engine: &mut Engine, k: usize) {
    let stage = &mut engine.patch.stages[k];
    stage.first_input = stage.output;
    engine.pools.internal.stale[stage.output / 2] = false;
}

impl Fault {
    /// The runs with the fault at the first stage and at the last, and that they are refused so.
    pub fn engines(&self, functions: &'static Functions, capacity: usize) -> [Engine; 2] {
        [0, 31].map(|k| {
            let mut engine = Engine::new(functions, &Case::new(self.name, several(PASS, 32), QUIET), capacity);
            (self.make)(&mut engine, k);
            let answer = engine.run();
            let stage = if self.by_stage && self.number != 4 { k } else { 32 };
            assert_eq!((answer.number, answer.stage), (self.number, stage), "refused: {}", self.name);
            engine
        })
    }
}
