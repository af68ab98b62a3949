//! The parameters of a stage, as the Rust's automation takes them.

use magnetron::automation::Automatable;
use magnetron::automation::Automated;
use magnetron::automation::AutomationFactory;
use magnetron::automation::CreationInfo;
use magnetron::automation::QueryInfo;
use magnetron::automation::RenderWindowSecs;

use crate::words::Pass;
use crate::words::Passed;
use crate::words::Tape;

#[derive(Clone, Debug, Default)]
pub enum Parameter {
    #[default]
    Absent,
    Fixed(f64),
    Slot(u64),
    WindowSeconds,
}

const PARAMETERS: [Parameter; 4] =
    [Parameter::Absent, Parameter::Fixed(0.0), Parameter::Slot(0), Parameter::WindowSeconds];

impl Pass for Parameter {
    fn pass(&mut self, tape: &mut dyn Tape) -> Passed {
        tape.variant(self, &PARAMETERS)?;
        match self {
            Parameter::Fixed(number) => tape.number(number),
            Parameter::Slot(slot) => tape.word(slot),
            Parameter::Absent | Parameter::WindowSeconds => Ok(()),
        }
    }
}

impl Parameter {
    pub fn given(&self) -> Option<&Self> {
        match self {
            Parameter::Absent => None,
            _ => Some(self),
        }
    }
}

impl CreationInfo for Parameter {
    type Context = ();
}

/// A stage is asked to process with the values that are lent for the window.
impl QueryInfo for Parameter {
    type Context<'a> = &'a [f64];
}

impl Automatable<Parameter> for Parameter {
    type Output = Self;

    fn create(&self, _factory: &mut AutomationFactory<Parameter>) -> Self {
        self.clone()
    }
}

impl Automated<Parameter> for Parameter {
    type Output<'a> = f64;

    fn query(&mut self, render_window_secs: f64, values: &[f64]) -> f64 {
        match *self {
            Parameter::Fixed(number) => number,
            Parameter::Slot(slot) => values[slot as usize],
            Parameter::WindowSeconds => {
                Automated::<Parameter>::query(&mut RenderWindowSecs, render_window_secs, values)
            }
            Parameter::Absent => unreachable!("an absent parameter is not given to the Rust"),
        }
    }
}
