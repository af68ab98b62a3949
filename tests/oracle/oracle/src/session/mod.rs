//! Sort 1: a session of runs, as it stands in a stream.

mod coverage;
mod create;
mod faults;
pub mod kind;
pub mod parameter;
mod random;
mod run;
mod show;
mod smaller;
mod strings;

pub use coverage::CIRCUMSTANCES;
pub use coverage::PARAMETERS;
pub use coverage::WINDOWS;
pub use coverage::rarest_pair;
pub use coverage::rarest_string;
use kind::Kind;
use parameter::Parameter;
pub use show::show_stage;

use crate::answer::Answer;
use crate::answer::Answered;
use crate::case::Sort;
use crate::lengths::MOST_CELLS;
use crate::lengths::MOST_ORDER;
use crate::lengths::MOST_VALUES;
use crate::pools::Buffer;
use crate::pools::Pool;
use crate::pools::Pools;
use crate::pools::ROOM;
use crate::refusals::MOST_STAGES;
use crate::values::Values;
use crate::words::Pass;
use crate::words::Passed;
use crate::words::Stop;
use crate::words::Tape;

#[derive(Clone, Debug, Default)]
pub struct Session {
    /// Whether answers include states and rings.
    pub with_states: bool,
    /// Whether answers include what each stage reaches.
    pub with_reaches: bool,
    pub pools: Pools,
    pub values: Vec<f64>,
    pub rings: Vec<f64>,
    /// As lent; `stages` holds no more than 32.
    pub stage_count: u64,
    pub stages: Vec<Stage>,
    pub states: Vec<State>,
    pub windows: Vec<Window>,
}

#[derive(Clone, Debug, Default)]
pub struct Stage {
    pub kind: Kind,
    pub inputs: Vec<Buffer>,
    /// One, or left and right.
    pub outputs: Vec<Buffer>,
    pub parameters: Vec<Parameter>,
}

/// A stage's state record: every kind's numbers in the order of the format, and the ring's position.
#[derive(Clone, Debug, Default, PartialEq)]
pub struct State {
    pub numbers: [f64; 10],
    pub position: u64,
}

#[derive(Clone, Debug, Default)]
pub struct Window {
    pub prepare: bool,
    /// What the host does with each external buffer first; empty where it leaves them all.
    pub settings: Vec<Setting>,
    pub n: u64,
    pub width: f64,
    pub values: Vec<f64>,
    pub order: Vec<u64>,
}

#[derive(Clone, Debug, Default)]
pub enum Setting {
    #[default]
    Left,
    Stale,
    Stored(Vec<f64>),
}

impl Pass for Session {
    fn pass(&mut self, tape: &mut dyn Tape) -> Passed {
        let mut flags = u64::from(self.with_states) + 2 * u64::from(self.with_reaches);
        tape.at_most(&mut flags, 3)?;
        (self.with_states, self.with_reaches) = (flags & 1 != 0, flags & 2 != 0);
        self.pools.pass_sizes(tape)?;
        let lengths = self.pools.pass_lengths(tape)?;
        let (mut values, mut rings) = (self.values.len() as u64, self.rings.len() as u64);
        tape.at_most(&mut values, MOST_VALUES)?;
        tape.at_most(&mut rings, MOST_CELLS)?;

        tape.word(&mut self.stage_count)?;
        tape.items(&mut self.stages, self.stage_count.min(MOST_STAGES), Stage::pass)?;

        self.pools.pass_contents(tape, lengths)?;
        tape.numbers(&mut self.values, values)?;
        tape.numbers(&mut self.rings, rings)?;
        self.pools.marks.pass(tape)?;
        tape.items(&mut self.states, MOST_STAGES, State::pass)?;

        let mut count = self.windows.len() as u64;
        tape.word(&mut count)?;
        tape.items(&mut self.windows, count, |window, tape| window.pass(tape, &self.pools, values))
    }
}

impl Pass for Stage {
    fn pass(&mut self, tape: &mut dyn Tape) -> Passed {
        self.kind.pass(tape)?;
        tape.items(&mut self.inputs, self.kind.inputs() as u64, Buffer::pass)?;
        tape.items(&mut self.outputs, self.kind.outputs() as u64, Buffer::pass)?;
        tape.items(&mut self.parameters, self.kind.roles().len() as u64, Parameter::pass)
    }
}

impl Pass for State {
    fn pass(&mut self, tape: &mut dyn Tape) -> Passed {
        self.numbers.iter_mut().try_for_each(|number| tape.number(number))?;
        tape.word(&mut self.position)
    }
}

impl Window {
    fn pass(&mut self, tape: &mut dyn Tape, pools: &Pools, values: u64) -> Passed {
        let set = !self.settings.is_empty();
        let mut actions = u64::from(self.prepare) + 2 * u64::from(set);
        tape.at_most(&mut actions, 3)?;
        self.prepare = actions & 1 != 0;
        tape.word(&mut self.n)?;
        tape.number(&mut self.width)?;
        if actions & 2 != 0 {
            self.pass_settings(tape, pools)?;
        }
        tape.numbers(&mut self.values, values)?;
        let mut length = self.order.len() as u64;
        tape.at_most(&mut length, MOST_ORDER)?;
        tape.items(&mut self.order, length, |stage, tape| tape.at_most(stage, 255))
    }

    /// One setting for each external buffer; what is stored must fit the lent slice.
    fn pass_settings(&mut self, tape: &mut dyn Tape, pools: &Pools) -> Passed {
        let external = &pools.external;
        if external.count > ROOM as u64 {
            return Err(Stop);
        }
        self.settings.resize(external.count as usize, Setting::default());
        for (index, setting) in self.settings.iter_mut().enumerate() {
            tape.variant(setting, &[Setting::Left, Setting::Stale, Setting::Stored(Vec::new())])?;
            if let Setting::Stored(samples) = setting {
                if !fits(external, index, self.n) {
                    return Err(Stop);
                }
                tape.numbers(samples, self.n)?;
            }
        }
        Ok(())
    }
}

impl Session {
    /// The same with states and rings at zero, as the Rust begins.
    pub fn with_new_states(self) -> Self {
        Self { states: vec![State::default(); self.states.len()], rings: vec![0.0; self.rings.len()], ..self }
    }

    /// How many words answer a window.
    pub fn answer_length(&self) -> usize {
        let shown = 3 + self.pools.internal.samples.len() + self.pools.external.samples.len() + 2 * ROOM;
        let states = if self.with_states { 11 * self.states.len() + self.rings.len() } else { 0 };
        let reaches = if self.with_reaches { MOST_STAGES as usize } else { 0 };
        shown + states + reaches
    }
}

/// How many cells the rings of a patch take together.
pub fn cells(stages: &[Stage]) -> u64 {
    let sizes = stages.iter().filter_map(|stage| stage.kind.buffer_size());
    sizes.fold(0, |sum, size| sum.saturating_add(size).saturating_add(1))
}

/// Whether `n` samples from the first of external buffer `index` on lie in the lent slice.
fn fits(external: &Pool, index: usize, n: u64) -> bool {
    u128::from(external.capacity) * index as u128 + u128::from(n) <= external.samples.len() as u128
}

impl Sort for Session {
    const WAYS: &'static [fn(&Self) -> Vec<Self>] = smaller::WAYS;

    fn answer(&self, answer: &mut Answer) -> Answered {
        self.answer_windows(answer)
    }

    fn random(values: &mut Values, refused: bool) -> Self {
        random::session(values, refused)
    }

    fn show(&self) -> String {
        show::show(self)
    }
}
