//! Sort 6: the comb, with each pairing of a response and a limit that is named in document 01 or in the Rust.

use microwave::magnetron::util::CombFilter;
use microwave::magnetron::util::DelayLine;
use microwave::magnetron::util::Interaction;
use microwave::magnetron::util::OnePoleLowPass;
use microwave::magnetron::util::SoftClip;
use microwave::magnetron::util::SuccessiveInteractions;

use super::over_ring;
use super::over_ring::Machine;
use super::sampled::Operation;
use crate::values::Role;
use crate::values::Values;
use crate::words::Pass;
use crate::words::Passed;
use crate::words::Tape;

#[derive(Clone, Debug)]
enum Response {
    Gain { gain: f64 },
    LowPassThenGain { cutoff: f64, rate: f64, state: f64, gain: f64 },
}

const RESPONSES: [Response; 2] =
    [Response::Gain { gain: 0.0 }, Response::LowPassThenGain { cutoff: 0.0, rate: 0.0, state: 0.0, gain: 0.0 }];

#[derive(Clone, Debug)]
enum Limit {
    Gain(f64),
    SoftClip(f64),
}

const LIMITS: [Limit; 2] = [Limit::Gain(0.0), Limit::SoftClip(0.0)];

#[derive(Clone, Debug)]
pub struct Settings {
    response: Response,
    limit: Limit,
}

impl Default for Settings {
    fn default() -> Self {
        Self { response: Response::Gain { gain: 0.0 }, limit: Limit::Gain(0.0) }
    }
}

impl Pass for Settings {
    fn pass(&mut self, tape: &mut dyn Tape) -> Passed {
        tape.variant(&mut self.response, &RESPONSES)?;
        match &mut self.response {
            Response::Gain { gain } => tape.number(gain)?,
            Response::LowPassThenGain { cutoff, rate, state, gain } => {
                [cutoff, rate, state, gain].into_iter().try_for_each(|number| tape.number(number))?;
            }
        }
        tape.variant(&mut self.limit, &LIMITS)?;
        match &mut self.limit {
            Limit::Gain(number) | Limit::SoftClip(number) => tape.number(number),
        }
    }
}

/// What a response remembers.
trait Remembers {
    fn memory(&mut self) -> Vec<f64>;
}

impl Remembers for f64 {
    fn memory(&mut self) -> Vec<f64> {
        Vec::new()
    }
}

impl Remembers for SuccessiveInteractions<OnePoleLowPass, f64> {
    fn memory(&mut self) -> Vec<f64> {
        vec![self.first().state]
    }
}

impl<R: Interaction + Remembers, L: Interaction> Machine<Operation> for CombFilter<R, L> {
    fn step(&mut self, operation: &Operation) -> f64 {
        operation.perform(self, Self::process_sample, Self::process_sample_fract, Self::mute)
    }

    fn line(&self) -> &DelayLine {
        &self.delay_line
    }

    fn memory(&mut self) -> Vec<f64> {
        self.response_fn().memory()
    }
}

fn comb<R, L>(line: DelayLine, response: R, limit: L) -> Box<dyn Machine<Operation>>
where
    R: Interaction + Remembers + 'static,
    L: Interaction + 'static,
{
    let mut comb = CombFilter::new(0, response, limit);
    comb.delay_line = line;
    Box::new(comb)
}

impl over_ring::Settings for Settings {
    const NAME: &'static str = "comb";
    type Operation = Operation;

    fn machine(&self, line: DelayLine) -> Box<dyn Machine<Operation>> {
        let low_pass = |cutoff, rate, state, gain| {
            let mut low_pass = OnePoleLowPass::new(cutoff, rate);
            low_pass.state = state;
            low_pass.followed_by(gain)
        };
        match (&self.response, &self.limit) {
            (&Response::Gain { gain }, &Limit::Gain(limit)) => comb(line, gain, limit),
            (&Response::Gain { gain }, &Limit::SoftClip(until)) => comb(line, gain, SoftClip::new(until)),
            (&Response::LowPassThenGain { cutoff, rate, state, gain }, &Limit::Gain(limit)) => {
                comb(line, low_pass(cutoff, rate, state, gain), limit)
            }
            (&Response::LowPassThenGain { cutoff, rate, state, gain }, &Limit::SoftClip(until)) => {
                comb(line, low_pass(cutoff, rate, state, gain), SoftClip::new(until))
            }
        }
    }

    fn memory(&self) -> Vec<f64> {
        match self.response {
            Response::Gain { .. } => Vec::new(),
            Response::LowPassThenGain { state, .. } => vec![state],
        }
    }

    fn random(values: &mut Values) -> Self {
        let gain = values.number(Role::Feedback);
        let response = match values.random.once_in(2) {
            true => Response::Gain { gain },
            false => Response::LowPassThenGain {
                cutoff: values.number(Role::Cutoff),
                rate: values.width.recip(),
                state: values.number(Role::Sample),
                gain,
            },
        };
        let limit = match values.random.below(4) {
            0 => Limit::Gain(1.0),
            1 => Limit::Gain(values.number(Role::Feedback)),
            2 => Limit::SoftClip(0.9),
            _ => Limit::SoftClip(values.number(Role::Limit)),
        };
        Self { response, limit }
    }
}
