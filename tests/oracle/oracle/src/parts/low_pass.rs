//! Sort 5: the one-pole low-pass.

use microwave::magnetron::util::Interaction;
use microwave::magnetron::util::OnePoleLowPass;

use crate::answer::Answer;
use crate::answer::Answered;
use crate::case::Sort;
use crate::shrink::fewer;
use crate::values::Role;
use crate::values::Values;
use crate::words::Pass;
use crate::words::Passed;
use crate::words::Tape;

#[derive(Clone, Debug, Default)]
pub enum Operation {
    ProcessSample(f64),
    DelaySamples,
    SetCutoff(f64, f64),
    #[default]
    Mute,
}

const OPERATIONS: [Operation; 4] =
    [Operation::ProcessSample(0.0), Operation::DelaySamples, Operation::SetCutoff(0.0, 0.0), Operation::Mute];

impl Pass for Operation {
    fn pass(&mut self, tape: &mut dyn Tape) -> Passed {
        tape.variant(self, &OPERATIONS)?;
        match self {
            Operation::ProcessSample(input) => tape.number(input),
            Operation::SetCutoff(cutoff, rate) => {
                tape.number(cutoff)?;
                tape.number(rate)
            }
            Operation::DelaySamples | Operation::Mute => Ok(()),
        }
    }
}

#[derive(Clone, Debug, Default)]
pub struct LowPass {
    cutoff: f64,
    rate: f64,
    state: f64,
    operations: Vec<Operation>,
}

impl Pass for LowPass {
    fn pass(&mut self, tape: &mut dyn Tape) -> Passed {
        [&mut self.cutoff, &mut self.rate, &mut self.state].into_iter().try_for_each(|number| tape.number(number))?;
        tape.list(&mut self.operations)
    }
}

/// What an operation answers, 0.0 where it has nothing to say, and its name.
fn step(filter: &mut OnePoleLowPass, operation: &Operation) -> (f64, &'static str) {
    match *operation {
        Operation::ProcessSample(input) => (filter.process_sample(input), "process_sample"),
        Operation::DelaySamples => (filter.delay_samples(), "delay_samples"),
        Operation::SetCutoff(cutoff, rate) => {
            filter.set_cutoff(cutoff, rate);
            (0.0, "set_cutoff")
        }
        Operation::Mute => {
            filter.mute();
            (0.0, "mute")
        }
    }
}

impl Sort for LowPass {
    const WAYS: &'static [fn(&Self) -> Vec<Self>] =
        &[|case| fewer(&case.operations).into_iter().map(|operations| Self { operations, ..case.clone() }).collect()];

    fn answer(&self, answer: &mut Answer) -> Answered {
        let mut filter = OnePoleLowPass::new(self.cutoff, self.rate);
        filter.state = self.state;
        for operation in &self.operations {
            let (sample, name) = step(&mut filter, operation);
            answer.samples("sample", &[sample]);
            answer.tally.meet("low-pass", name);
        }
        answer.samples("damping, state", &[filter.damping, filter.state]);
        Ok(())
    }

    fn random(values: &mut Values, _refused: bool) -> Self {
        let settings = |values: &mut Values| {
            let rate = if values.random.once_in(16) { values.hostile() } else { values.width.recip() };
            (values.number(Role::Cutoff), rate)
        };
        let (cutoff, rate) = settings(values);
        let state = values.number(Role::Sample);
        let operations = (0..values.random.below(80)).map(|_| match values.random.below(40) {
            0 => Operation::Mute,
            1..4 => {
                let (cutoff, rate) = settings(values);
                Operation::SetCutoff(cutoff, rate)
            }
            4..8 => Operation::DelaySamples,
            _ => Operation::ProcessSample(values.number(Role::Sample)),
        });
        let operations = operations.collect();
        Self { cutoff, rate, state, operations }
    }

    fn show(&self) -> String {
        format!("{self:?}")
    }
}
