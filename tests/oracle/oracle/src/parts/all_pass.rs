//! Sort 7: the all-pass delay.

use microwave::magnetron::util::AllPassDelay;
use microwave::magnetron::util::DelayLine;

use super::over_ring;
use super::over_ring::Machine;
use super::sampled::Operation;
use crate::values::Role;
use crate::values::Values;
use crate::words::Pass;
use crate::words::Passed;
use crate::words::Tape;

#[derive(Clone, Debug, Default)]
pub struct Settings {
    feedback: f64,
}

impl Pass for Settings {
    fn pass(&mut self, tape: &mut dyn Tape) -> Passed {
        tape.number(&mut self.feedback)
    }
}

impl Machine<Operation> for AllPassDelay {
    fn step(&mut self, operation: &Operation) -> f64 {
        operation.perform(self, Self::process_sample, Self::process_sample_fract, Self::mute)
    }

    fn line(&self) -> &DelayLine {
        &self.delay_line
    }
}

impl over_ring::Settings for Settings {
    const NAME: &'static str = "all-pass";
    type Operation = Operation;

    fn machine(&self, line: DelayLine) -> Box<dyn Machine<Operation>> {
        let mut delay = AllPassDelay::new(0, self.feedback);
        delay.delay_line = line;
        Box::new(delay)
    }

    fn random(values: &mut Values) -> Self {
        Self { feedback: values.number(Role::Feedback) }
    }
}
