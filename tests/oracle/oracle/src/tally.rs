//! What was met on the way to an answer.

use std::collections::BTreeMap;

use crate::reach::Reach;

/// How many there are of each number.
pub type Numbers = BTreeMap<u64, u64>;

/// Samples by their class, things in their circumstances, and crossings of several circumstances.
#[derive(Default)]
pub struct Tally {
    samples: [u64; CLASSES.len()],
    pub met: BTreeMap<(&'static str, &'static str), u64>,
    pub crossed: BTreeMap<[&'static str; 4], u64>,
    /// The outcomes by their number.
    pub outcomes: Numbers,
    /// What strings and rings were told to reach, by its number.
    pub reaches: Numbers,
    /// How many samples stages have put out.
    pub rendered: u64,
}

const CLASSES: [&str; 4] = ["zero", "NaN", "infinite", "other"];

impl Tally {
    pub fn meet(&mut self, thing: &'static str, circumstance: &'static str) {
        *self.met.entry((thing, circumstance)).or_default() += 1;
    }

    pub fn cross(&mut self, circumstances: [&'static str; 4]) {
        *self.crossed.entry(circumstances).or_default() += 1;
    }

    pub fn reach(&mut self, reach: Reach) {
        *self.reaches.entry(reach as u64).or_default() += 1;
    }

    pub fn sample(&mut self, sample: f64) {
        let class = match sample {
            0.0 => 0,
            _ if sample.is_nan() => 1,
            _ if sample.is_infinite() => 2,
            _ => 3,
        };
        self.samples[class] += 1;
    }

    /// How many samples there are of each class.
    pub fn samples(&self) -> impl Iterator<Item = (&'static str, u64)> {
        CLASSES.into_iter().zip(self.samples)
    }

    pub fn add(&mut self, other: Tally) {
        self.samples.iter_mut().zip(other.samples).for_each(|(sum, count)| *sum += count);
        other.met.into_iter().for_each(|(thing, count)| *self.met.entry(thing).or_default() += count);
        other.crossed.into_iter().for_each(|(thing, count)| *self.crossed.entry(thing).or_default() += count);
        other.outcomes.into_iter().for_each(|(number, count)| *self.outcomes.entry(number).or_default() += count);
        other.reaches.into_iter().for_each(|(number, count)| *self.reaches.entry(number).or_default() += count);
        self.rendered += other.rendered;
    }
}
