//! How far document 01's sine and cosine lie from the platform's.

use std::f64::consts::TAU;

use stand_ins::cosine_turns;
use stand_ins::sine_turns;

use crate::random::Random;

const GRID: u64 = 6_000_000;
const RANDOM: u64 = 6_000_000;
const BOUND: f64 = 1.0 / (1u64 << 48) as f64;

/// The greatest difference met, and the turn at which it was.
struct Greatest {
    name: &'static str,
    ours: fn(f64) -> f64,
    platform: fn(f64) -> f64,
    turns: u64,
    difference: f64,
    at: f64,
}

impl Greatest {
    fn new(name: &'static str, ours: fn(f64) -> f64, platform: fn(f64) -> f64) -> Self {
        Self { name, ours, platform, turns: 0, difference: 0.0, at: 0.0 }
    }

    fn meet(&mut self, turn: f64) {
        self.turns += 1;
        let difference = ((self.ours)(turn) - (self.platform)(turn)).abs();
        if difference > self.difference || difference.is_nan() {
            (self.difference, self.at) = (difference, turn);
        }
    }

    /// A grid over the turns up to `most`, random ones even and by magnitude, and the edges with their neighbours.
    fn measure(&mut self, most: f64) -> bool {
        let mut random = Random::new(&[48]);
        (0..=GRID).for_each(|k| self.meet(most * k as f64 / GRID as f64));
        (0..RANDOM / 2).for_each(|_| self.meet(random.uniform(0.0, most)));
        (0..RANDOM / 2).for_each(|_| self.meet(most * random.logarithmic(1e-18, 1.0)));
        for eighth in 0..=8 {
            let (mut up, mut down) = (f64::from(eighth) / 8.0, f64::from(eighth) / 8.0);
            for _ in 0..1_000 {
                [up, down].into_iter().filter(|turn| (0.0..=most).contains(turn)).for_each(|turn| self.meet(turn));
                (up, down) = (up.next_up(), down.next_down());
            }
        }
        [-0.0, f64::MIN_POSITIVE].into_iter().for_each(|turn| self.meet(turn));
        println!(
            "{}: {} turns from -0.0 to {most}, greatest difference 2^{:.2} at {:016x} ({:?})",
            self.name,
            self.turns,
            self.difference.log2(),
            self.at.to_bits(),
            self.at
        );
        self.difference <= BOUND
    }
}

/// Whether both lie within 2^-48 of the platform's.
pub fn measure_sine() -> bool {
    let sine = Greatest::new("sine", sine_turns, |turn| (TAU * turn).sin()).measure(1.0);
    let cosine = Greatest::new("cosine", cosine_turns, |turn| (TAU * turn).cos()).measure(0.5);
    println!("{}", if sine && cosine { "both within 2^-48" } else { "NOT within 2^-48" });
    sine && cosine
}
