//! What the comb and the all-pass are asked: a sample at the whole delay, a sample at a fraction of it, silence; and a sample at a
//! fraction that tells what it reaches.

use super::over_ring;
use crate::values::Role;
use crate::values::Values;
use crate::words::Pass;
use crate::words::Passed;
use crate::words::Tape;

#[derive(Clone, Debug, Default)]
pub enum Operation {
    ProcessSample(f64),
    ProcessSampleFract(f64, f64),
    #[default]
    Mute,
    ProcessSampleFractTold(f64, f64),
}

const OPERATIONS: [Operation; 4] = [
    Operation::ProcessSample(0.0),
    Operation::ProcessSampleFract(0.0, 0.0),
    Operation::Mute,
    Operation::ProcessSampleFractTold(0.0, 0.0),
];

impl Pass for Operation {
    fn pass(&mut self, tape: &mut dyn Tape) -> Passed {
        tape.variant(self, &OPERATIONS)?;
        match self {
            Operation::ProcessSample(input) => tape.number(input),
            Operation::ProcessSampleFract(fraction, input) | Operation::ProcessSampleFractTold(fraction, input) => {
                tape.number(fraction)?;
                tape.number(input)
            }
            Operation::Mute => Ok(()),
        }
    }
}

impl over_ring::Operation for Operation {
    fn random(values: &mut Values) -> Self {
        let input = values.number(Role::Sample);
        match values.random.below(40) {
            0 => Operation::Mute,
            1..12 => Operation::ProcessSample(input),
            12..24 => Operation::ProcessSampleFract(values.number(Role::Fraction), input),
            _ => Operation::ProcessSampleFractTold(values.number(Role::Fraction), input),
        }
    }

    fn name(&self) -> &'static str {
        match self {
            Operation::ProcessSample(_) => "process_sample",
            Operation::ProcessSampleFract(..) => "process_sample_fract",
            Operation::Mute => "mute",
            Operation::ProcessSampleFractTold(..) => "process_sample_fract told",
        }
    }

    fn told(&self) -> Option<f64> {
        match *self {
            Operation::ProcessSampleFractTold(fraction, _) => Some(fraction),
            _ => None,
        }
    }
}

impl Operation {
    /// Performs it by the three methods that the comb and the all-pass both have.
    pub fn perform<M>(
        &self,
        machine: &mut M,
        process_sample: fn(&mut M, f64) -> f64,
        process_sample_fract: fn(&mut M, f64, f64) -> f64,
        mute: fn(&mut M),
    ) -> f64 {
        match *self {
            Operation::ProcessSample(input) => process_sample(machine, input),
            Operation::ProcessSampleFract(fraction, input) | Operation::ProcessSampleFractTold(fraction, input) => {
                process_sample_fract(machine, fraction, input)
            }
            Operation::Mute => {
                mute(machine);
                0.0
            }
        }
    }
}
