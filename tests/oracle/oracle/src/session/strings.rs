//! Random strings that stand at an end of what their ring reaches: frequencies and cutoffs for which the quotient of document 01
//! is 0, 1 or next to one of them, infinite, or no number.

use microwave::magnetron::waveguide::Reflectance;

use super::parameter::Parameter;
use crate::reach;
use crate::values::Role;
use crate::values::Values;

/// Puts frequency and cutoff among the string's parameters. They are fitted to the sample width that most windows have.
pub fn aim(values: &mut Values, reflectance: &Reflectance, size: u64, parameters: &mut [Parameter]) {
    let cutoff = match values.random.below(8) {
        // The low-pass has an infinite delay, or none, or one at which each rounding of its damping shows.
        0 => 0.0,
        1..3 => values.width.recip(),
        3..6 => values.random.uniform(0.05, 0.15) / values.width,
        _ => values.number(Role::Cutoff),
    };
    let frequency = match values.random.below(8) {
        0 => values.random.pick(&[0.0, -0.0, f64::NEG_INFINITY, f64::MIN, f64::NAN]),
        _ => {
            let quotient = values.random.pick(&[-0.5, 0.0, 0.0, 0.0, 0.5, 1.0, 1.0, 1.0, 1.5]);
            let samples = quotient * size as f64 + reach::low_pass_delay(cutoff, values.width);
            values.neighbour(reach::length_factor(reflectance) / (values.width * samples))
        }
    };
    parameters[1] = Parameter::Fixed(frequency);
    parameters[2] = Parameter::Fixed(cutoff);
}
