//! Random f64 numbers by what they are for: mostly such as an instrument meets, some of them hostile.

use crate::random::Random;

/// What a number is for.
#[derive(Clone, Copy, Debug, PartialEq)]
pub enum Role {
    OutLevel,
    Limit,
    Cutoff,
    Resonance,
    Quality,
    Frequency,
    Phase,
    StringFrequency,
    Feedback,
    LeftLevel,
    RightLevel,
    LeftGain,
    RightGain,
    Sample,
    Width,
    Fraction,
    Turn,
}

impl Role {
    pub fn name(self) -> &'static str {
        match self {
            Role::OutLevel => "out_level",
            Role::Limit => "limit",
            Role::Cutoff => "cutoff",
            Role::Resonance => "resonance",
            Role::Quality => "quality",
            Role::Frequency | Role::StringFrequency => "frequency",
            Role::Phase => "phase",
            Role::Feedback => "feedback",
            Role::LeftLevel => "left level",
            Role::RightLevel => "right level",
            Role::LeftGain => "left gain",
            Role::RightGain => "right gain",
            Role::Sample => "sample",
            Role::Width => "width",
            Role::Fraction => "fraction",
            Role::Turn => "turn",
        }
    }

    /// "Only out_level and phase may be absent", and document 02's pair of levels as a whole.
    pub fn may_be_absent(self) -> bool {
        matches!(self, Role::OutLevel | Role::Phase) || self.is_of_a_pair()
    }

    /// Whether it may be absent only where its neighbour is.
    pub fn is_of_a_pair(self) -> bool {
        matches!(self, Role::LeftLevel | Role::RightLevel)
    }
}

const TINY: f64 = f64::from_bits(1);

/// Numbers at which functions of f64 turn; each comes with either sign, and its neighbours come too.
const EDGES: [f64; 22] = [
    0.0,
    0.0,
    TINY,
    f64::MIN_POSITIVE,
    1e-20,
    f64::EPSILON,
    0.125,
    0.25,
    0.5,
    0.75,
    1.0,
    1.0,
    7.0,
    (1u64 << 52) as f64,
    (1u64 << 53) as f64,
    1e16,
    1e154,
    1e300,
    f64::MAX,
    f64::INFINITY,
    f64::INFINITY,
    f64::NAN,
];

pub struct Values {
    pub random: Random,
    /// How many of 256 numbers are hostile.
    pub hostility: u64,
    /// The sample width to which frequencies are fitted.
    pub width: f64,
    /// The ring length to which frequencies of strings and fractions of rings are fitted.
    pub ring: u64,
}

impl Values {
    pub fn new(seeds: &[u64]) -> Self {
        let mut random = Random::new(seeds);
        let hostility = random.pick(&[0, 0, 0, 0, 0, 2, 8, 64]);
        let mut values = Self { random, hostility: 0, width: 1.0, ring: 1 };
        values.width = values.musical(Role::Width);
        values.hostility = hostility;
        values
    }

    pub fn number(&mut self, role: Role) -> f64 {
        if self.random.below(256) < self.hostility { self.hostile() } else { self.musical(role) }
    }

    pub fn numbers(&mut self, role: Role, count: u64) -> Vec<f64> {
        (0..count).map(|_| self.number(role)).collect()
    }

    pub fn hostile(&mut self) -> f64 {
        let edge = self.random.pick(&EDGES);
        let near = match self.random.below(6) {
            0 => edge.next_up(),
            1 => edge.next_down(),
            _ => edge,
        };
        let bits = if near.is_nan() { self.nan() } else { near.to_bits() };
        f64::from_bits(bits ^ (self.random.below(2) << 63))
    }

    /// The bits of a NaN, quiet or signalling.
    fn nan(&mut self) -> u64 {
        self.random.pick(&[0x7ff8_0000_0000_0000, 0x7ff0_0000_0000_0000]) | self.random.between(1, (1 << 51) - 1)
    }

    fn musical(&mut self, role: Role) -> f64 {
        let random = &mut self.random;
        let odd = random.once_in(6);
        match role {
            Role::OutLevel | Role::LeftLevel | Role::RightLevel | Role::LeftGain | Role::RightGain => match odd {
                true => random.pick(&[0.0, 1.0, -1.0, 2.0]),
                false => random.uniform(-1.2, 1.2),
            },
            Role::Limit => random.uniform(-0.3, 1.2),
            Role::Cutoff => random.logarithmic(1e-4, 0.4) / self.width,
            Role::Resonance if odd => random.pick(&[0.0, 0.125, 0.25, 0.375, 0.5]) / self.width,
            Role::Resonance => random.uniform(0.0, 0.55) / self.width,
            Role::Quality if odd => random.pick(&[0.0, -1.0, 1e-10, 1e-11, 1e10, f64::MAX]),
            Role::Quality => random.logarithmic(0.05, 30.0),
            Role::Frequency if odd => -random.logarithmic(1e-3, 2.0) / self.width,
            Role::Frequency => random.logarithmic(1e-3, 0.5) / self.width,
            Role::Phase if odd => random.below(17) as f64 / 8.0 - 1.0,
            Role::Phase => random.uniform(-1.0, 2.0),
            Role::StringFrequency => random.uniform(0.0, 1.2 * self.ring as f64).recip() / self.width,
            Role::Feedback => random.uniform(-1.05, 1.05),
            Role::Sample if odd => random.pick(&[0.0, -0.0, 1.0, -1.0, 0.5, 3.0]),
            Role::Sample => random.uniform(-1.0, 1.0),
            Role::Width if odd => random.uniform(0.001, 0.2),
            Role::Width => random.pick(&[44_100.0f64, 48_000.0, 96_000.0, 64.0, 8.0]).recip(),
            Role::Fraction => self.fraction(odd),
            Role::Turn => self.turn(odd),
        }
    }

    /// A fraction of a ring: whole and half steps of it with their neighbours, its ends, anything around 0 to 1, and what no ring
    /// has.
    fn fraction(&mut self, odd: bool) -> f64 {
        let steps = self.ring.max(2) - 1;
        let step = self.random.below(2 * steps + 1) as f64 / 2.0 / steps as f64;
        let end = self.random.pick(&[0.0, 1.0]);
        match self.random.below(16) {
            0 => self.random.pick(&[-0.0, f64::INFINITY, f64::NEG_INFINITY, f64::NAN]),
            1..4 => self.neighbour(end),
            _ if odd => self.random.uniform(-0.2, 1.2),
            _ => self.neighbour(step),
        }
    }

    /// A turn: eighths with their neighbours, small ones, and any other.
    fn turn(&mut self, odd: bool) -> f64 {
        match self.random.below(4) {
            0 => {
                let eighth = self.random.below(9) as f64 / 8.0;
                self.neighbour(eighth)
            }
            1 if odd => self.random.logarithmic(1e-300, 1.0),
            1 => self.random.logarithmic(1e-9, 1.0),
            2 => self.random.uniform(0.0, 0.5),
            _ => self.random.uniform(0.0, 1.0),
        }
    }

    pub fn neighbour(&mut self, x: f64) -> f64 {
        self.random.pick(&[x, x, x.next_up(), x.next_down()])
    }
}
