//! Sort 4: the soft clip.

use microwave::magnetron::util::Interaction;
use microwave::magnetron::util::SoftClip;

use crate::answer::Answer;
use crate::answer::Answered;
use crate::case::Sort;
use crate::shrink::fewer;
use crate::values::Role;
use crate::values::Values;
use crate::words::Pass;
use crate::words::Passed;
use crate::words::Tape;

#[derive(Clone, Debug, Default)]
pub struct Clips {
    linear_until: f64,
    inputs: Vec<f64>,
}

impl Pass for Clips {
    fn pass(&mut self, tape: &mut dyn Tape) -> Passed {
        tape.number(&mut self.linear_until)?;
        let mut count = self.inputs.len() as u64;
        tape.word(&mut count)?;
        tape.numbers(&mut self.inputs, count)
    }
}

impl Sort for Clips {
    const WAYS: &'static [fn(&Self) -> Vec<Self>] =
        &[|case| fewer(&case.inputs).into_iter().map(|inputs| Self { inputs, ..case.clone() }).collect()];

    fn answer(&self, answer: &mut Answer) -> Answered {
        let mut clip = SoftClip::new(self.linear_until);
        for &input in &self.inputs {
            answer.samples("sample", &[clip.process_sample(input)]);
            answer.tally.meet("soft clip", "sample");
        }
        Ok(())
    }

    fn random(values: &mut Values, _refused: bool) -> Self {
        let linear_until = values.number(Role::Limit);
        let mut inputs = values.numbers(Role::Sample, 64);
        inputs.extend([linear_until, -linear_until, linear_until.next_up()]);
        inputs.iter_mut().for_each(|input| *input *= values.random.pick(&[1.0, 1.0, 1.5, 4.0]));
        Self { linear_until, inputs }
    }

    fn show(&self) -> String {
        format!("{self:?}")
    }
}
