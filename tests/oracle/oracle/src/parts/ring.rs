//! Sort 3: the ring by itself.

use microwave::magnetron::util::DelayLine;

use super::over_ring;
use super::over_ring::Machine;
use crate::values::Role;
use crate::values::Values;
use crate::words::Pass;
use crate::words::Passed;
use crate::words::Tape;

/// A ring has no settings.
#[derive(Clone, Debug, Default)]
pub struct Bare;

#[derive(Clone, Debug, Default)]
pub enum Operation {
    #[default]
    Advance,
    /// The same where the host lends the cursor.
    AdvanceLent,
    Write(f64),
    GetDelayed,
    GetDelayedFract(f64),
    Mute,
    /// `GetDelayedFract` that tells what it reaches.
    GetDelayedFractTold(f64),
}

const OPERATIONS: [Operation; 7] = [
    Operation::Advance,
    Operation::AdvanceLent,
    Operation::Write(0.0),
    Operation::GetDelayed,
    Operation::GetDelayedFract(0.0),
    Operation::Mute,
    Operation::GetDelayedFractTold(0.0),
];

impl Pass for Bare {
    fn pass(&mut self, _tape: &mut dyn Tape) -> Passed {
        Ok(())
    }
}

impl Pass for Operation {
    fn pass(&mut self, tape: &mut dyn Tape) -> Passed {
        tape.variant(self, &OPERATIONS)?;
        match self {
            Operation::Write(number) | Operation::GetDelayedFract(number) | Operation::GetDelayedFractTold(number) => {
                tape.number(number)
            }
            _ => Ok(()),
        }
    }
}

impl Machine<Operation> for DelayLine {
    fn step(&mut self, operation: &Operation) -> f64 {
        match *operation {
            Operation::Advance | Operation::AdvanceLent => self.advance(),
            Operation::Write(sample) => self.write(sample),
            Operation::GetDelayed => return self.get_delayed(),
            Operation::GetDelayedFract(fraction) | Operation::GetDelayedFractTold(fraction) => {
                return self.get_delayed_fract(fraction);
            }
            Operation::Mute => self.mute(),
        }
        0.0
    }

    fn line(&self) -> &DelayLine {
        self
    }
}

impl over_ring::Settings for Bare {
    const NAME: &'static str = "ring";
    type Operation = Operation;

    fn machine(&self, line: DelayLine) -> Box<dyn Machine<Operation>> {
        Box::new(line)
    }

    fn random(_values: &mut Values) -> Self {
        Self
    }
}

impl over_ring::Operation for Operation {
    fn random(values: &mut Values) -> Self {
        match values.random.below(64) {
            0 => Operation::Mute,
            1..8 => Operation::AdvanceLent,
            8..20 => Operation::Advance,
            20..30 => Operation::Write(values.number(Role::Sample)),
            30..36 => Operation::GetDelayed,
            36..48 => Operation::GetDelayedFract(values.number(Role::Fraction)),
            _ => Operation::GetDelayedFractTold(values.number(Role::Fraction)),
        }
    }

    fn name(&self) -> &'static str {
        match self {
            Operation::Advance => "advance",
            Operation::AdvanceLent => "advance lent",
            Operation::Write(_) => "write",
            Operation::GetDelayed => "get_delayed",
            Operation::GetDelayedFract(_) => "get_delayed_fract",
            Operation::Mute => "mute",
            Operation::GetDelayedFractTold(_) => "get_delayed_fract told",
        }
    }

    fn told(&self) -> Option<f64> {
        match *self {
            Operation::GetDelayedFractTold(fraction) => Some(fraction),
            _ => None,
        }
    }
}
