//! Single writes into one buffer, and plain loops over slices of the same length.

use std::hint::black_box;

use crate::cases::Case;
use crate::cases::QUIET;
use crate::records::Functions;
use crate::sides::Engine;
use crate::sides::noise;

pub const SAMPLES: usize = 4_096;

/// So small that what is added again and again stays a number. No compiler knows it.
fn level() -> f64 {
    black_box(1e-9)
}

/// A write of lent values, of one buffer or of the product of two, into a buffer that is stale or is not.
pub struct Write {
    pub name: String,
    inputs: usize,
    stale: bool,
    values: Vec<f64>,
}

pub fn all() -> Vec<Write> {
    let each = |(stale, how): (bool, &str)| {
        let write =
            |(inputs, what)| Write { name: format!("{what}, {how}"), inputs, stale, values: noise(QUIET, SAMPLES) };
        ["lent values", "one buffer", "product of two"].into_iter().enumerate().map(write).collect::<Vec<_>>()
    };
    [(true, "stored"), (false, "added")].into_iter().flat_map(each).collect()
}

impl Write {
    pub fn engine(&self, functions: &'static Functions) -> Engine {
        let mut engine = Engine::new(functions, &Case::empty(), SAMPLES);
        engine.pools.internal.stale = [self.stale; 16];
        engine
    }

    pub fn by(&self, engine: &mut Engine) {
        engine.write(self.inputs, &self.values, level());
    }

    /// The same as a plain loop.
    pub fn plain(&self) -> impl FnMut() {
        let (first, second, mut output) = (noise(QUIET, SAMPLES), noise(QUIET, SAMPLES), vec![0.0; SAMPLES]);
        let (inputs, stale, level) = (self.inputs, self.stale, level());
        move || plain(black_box(&mut output), [&first, &second], inputs, black_box(stale), level)
    }
}

#[inline(never)]
fn plain(output: &mut [f64], [first, second]: [&[f64]; 2], inputs: usize, stale: bool, level: f64) {
    let samples = output.iter_mut().zip(first.iter().zip(second));
    match (inputs, stale) {
        (2, true) => samples.for_each(|(out, (a, b))| *out = a * b * level),
        (2, false) => samples.for_each(|(out, (a, b))| *out += a * b * level),
        (_, true) => samples.for_each(|(out, (a, _))| *out = a * level),
        (_, false) => samples.for_each(|(out, (a, _))| *out += a * level),
    }
}
