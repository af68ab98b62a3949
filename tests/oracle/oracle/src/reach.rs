//! A second reading of document 02's request Five: what is told of a number that a ring is asked for, and of a string by the
//! quotient that document 01 gives it. The Rust holds the number and tells nothing, so these answers do not come from it: they
//! are written from the documents alone.

use std::f64::consts::TAU;

use microwave::magnetron::waveguide::Reflectance;

use crate::refusals::MOST_STAGES;
use crate::refusals::Verdict;
use crate::session::Stage;
use crate::session::Window;
use crate::session::kind::Kind;
use crate::session::parameter::Parameter;

/// The answers, each at the place that is its number.
#[derive(Clone, Copy, Debug, Default, PartialEq)]
pub enum Reach {
    #[default]
    Within,
    Below,
    Above,
    NotANumber,
}

pub type Reaches = [Reach; MOST_STAGES as usize];

/// "Whether it was below 0, above 1, not a number, or within."
pub fn of(number: f64) -> Reach {
    match number {
        _ if number.is_nan() => Reach::NotANumber,
        _ if number < 0.0 => Reach::Below,
        _ if number > 1.0 => Reach::Above,
        _ => Reach::Within,
    }
}

/// "For each stage number, the answer of its last sample, and 'within' for stages without a ring, unordered stages, empty
/// windows and refusals."
pub fn of_run(stages: &[Stage], window: &Window, verdict: Verdict) -> Reaches {
    let mut reaches = Reaches::default();
    if verdict.is_ok() && window.n > 0 {
        for &number in &window.order {
            let quotient = quotient(&stages[number as usize], window);
            reaches[number as usize] = quotient.map_or(Reach::Within, of);
        }
    }
    reaches
}

/// "Low-pass rate 1/w; length_factor/(w*frequency) minus the low-pass delay, over buffer_size"; nothing where the stage is no
/// string, or lacks a number.
pub fn quotient(stage: &Stage, window: &Window) -> Option<f64> {
    let Kind::Waveguide(reflectance, buffer_size) = &stage.kind else {
        return None;
    };
    let (frequency, cutoff) = (value(&stage.parameters[1], window)?, value(&stage.parameters[2], window)?);
    let samples = length_factor(reflectance) / (window.width * frequency);
    Some((samples - low_pass_delay(cutoff, window.width)) / *buffer_size as f64)
}

/// "Factors 1 and 1, or -1 and 0.5": the second of them.
pub fn length_factor(reflectance: &Reflectance) -> f64 {
    match reflectance {
        Reflectance::Positive => 1.0,
        Reflectance::Negative => 0.5,
    }
}

/// "Damping d = max(1 - TAU*cutoff/rate, 0); delay d/(1-d)." Of a NaN and 0 the maximum is 0.
pub fn low_pass_delay(cutoff: f64, width: f64) -> f64 {
    let rest = 1.0 - TAU * cutoff / (1.0 / width);
    let damping = if rest > 0.0 { rest } else { 0.0 };
    damping / (1.0 - damping)
}

/// "A fixed number, a slot, the window's seconds (sample width w times n), or absent."
fn value(parameter: &Parameter, window: &Window) -> Option<f64> {
    match *parameter {
        Parameter::Absent => None,
        Parameter::Fixed(number) => Some(number),
        Parameter::Slot(slot) => window.values.get(slot as usize).copied(),
        Parameter::WindowSeconds => Some(window.width * window.n as f64),
    }
}

#[cfg(test)]
mod tests {
    use super::*;
    use crate::refusals::Refusal;
    use crate::small::internal;
    use crate::small::stage;
    use crate::small::string;
    use crate::small::window;

    /// A string without a low-pass delay, which asks for so many samples at a sample width of 0.25.
    fn asking(samples: f64, buffer_size: u64) -> Stage {
        let parameters = [0.5, 4.0 / samples, 8.0, 0.5].map(Parameter::Fixed).to_vec();
        Stage { parameters, ..stage(&string(buffer_size), &[internal(0)], &[internal(1)]) }
    }

    #[test]
    fn edges() {
        let all = [-f64::INFINITY, -f64::from_bits(1), -0.0, 0.0, 1.0, 1.0f64.next_up(), f64::INFINITY, f64::NAN];
        assert_eq!(all.map(|number| of(number) as u64), [1, 1, 0, 0, 0, 2, 2, 3]);
    }

    #[test]
    fn quotients() {
        let quotient = |samples, size| quotient(&asking(samples, size), &window(true, 1, &[0])).unwrap();
        let finite = [(2.0, 2), (1.0, 2), (4.0, 2), (-1.0, 4)].map(|(samples, size)| quotient(samples, size));
        assert_eq!(finite, [1.0, 0.5, 2.0, -0.25]);
        assert_eq!([1.0, -1.0].map(|samples| quotient(samples, 0)), [f64::INFINITY, -f64::INFINITY]);
        assert!(quotient(0.0, 0).is_nan());
    }

    #[test]
    fn by_number_and_only_where_it_runs() {
        let stages = [asking(3.0, 2), asking(1.0, 2), asking(-1.0, 2), asking(f64::NAN, 2)];
        let told = |n, order: &[u64], verdict| {
            let reaches = of_run(&stages, &window(true, n, order), verdict);
            [0, 1, 2, 3, 4].map(|number| reaches[number] as u64)
        };
        assert_eq!(told(1, &[3, 0, 1, 2], Ok(())), [2, 0, 1, 3, 0]);
        assert_eq!(told(3, &[2, 1], Ok(())), [0, 0, 1, 0, 0]);
        assert_eq!(told(0, &[3, 0, 1, 2], Ok(())), [0; 5]);
        assert_eq!(told(1, &[3, 0, 1, 2], Err(Refusal { number: 7, stage: 0 })), [0; 5]);
    }
}
