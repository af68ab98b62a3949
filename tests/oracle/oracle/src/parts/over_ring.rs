//! What stands over a ring that a host lends: the ring itself, the comb and the all-pass are asked in one manner.

use std::fmt::Debug;

use microwave::magnetron::util::DelayLine;

use crate::answer::Answer;
use crate::answer::Answered;
use crate::case::Sort;
use crate::edges;
use crate::lengths::MOST_CELLS;
use crate::reach;
use crate::reach::Reach;
use crate::refusals;
use crate::shrink::fewer;
use crate::values::Role;
use crate::values::Values;
use crate::words::Pass;
use crate::words::Passed;
use crate::words::Tape;

/// What a machine over a ring is asked.
pub trait Operation: Clone + Debug + Default + Pass {
    fn random(values: &mut Values) -> Self;

    fn name(&self) -> &'static str;

    /// The number that the ring is asked for, where it is told what it reaches.
    fn told(&self) -> Option<f64>;
}

/// What works on a ring, one operation at a time.
pub trait Machine<Operation> {
    /// The operation's sample, 0.0 where it has none.
    fn step(&mut self, operation: &Operation) -> f64;

    fn line(&self) -> &DelayLine;

    /// What it remembers besides the ring.
    fn memory(&mut self) -> Vec<f64> {
        Vec::new()
    }
}

/// How a machine is set up.
pub trait Settings: Clone + Debug + Default + Pass + 'static {
    const NAME: &'static str;
    type Operation: Operation;

    fn machine(&self, line: DelayLine) -> Box<dyn Machine<Self::Operation>>;

    /// What the machine remembers besides the ring before its first operation.
    fn memory(&self) -> Vec<f64> {
        Vec::new()
    }

    fn random(values: &mut Values) -> Self;
}

#[derive(Clone, Debug, Default)]
pub struct OverRing<S: Settings> {
    position: u64,
    cells: Vec<f64>,
    settings: S,
    operations: Vec<S::Operation>,
}

impl<S: Settings> Pass for OverRing<S> {
    fn pass(&mut self, tape: &mut dyn Tape) -> Passed {
        let mut length = self.cells.len() as u64;
        tape.at_most(&mut length, MOST_CELLS)?;
        tape.word(&mut self.position)?;
        tape.numbers(&mut self.cells, length)?;
        self.settings.pass(tape)?;
        tape.list(&mut self.operations)
    }
}

impl<S: Settings> Sort for OverRing<S> {
    const WAYS: &'static [fn(&Self) -> Vec<Self>] = &[
        |case| fewer(&case.operations).into_iter().map(|operations| Self { operations, ..case.clone() }).collect(),
        |case| {
            let lengths = [case.cells.len() / 2, case.cells.len().saturating_sub(1)];
            let shorter = lengths.into_iter().filter(|&length| length > case.position as usize);
            shorter.map(|length| Self { cells: case.cells[..length].to_vec(), ..case.clone() }).collect()
        },
        |case| (0..case.position.min(1)).map(|position| Self { position, ..case.clone() }).collect(),
        |case| {
            let filled = case.cells.iter().filter(|cell| cell.to_bits() != 0).take(1);
            filled.map(|_| Self { cells: vec![0.0; case.cells.len()], ..case.clone() }).collect()
        },
    ];

    /// The number, stage and sample of each operation, and what it reaches where that is told; then position, cells and memory
    /// at the end.
    fn answer(&self, answer: &mut Answer) -> Answered {
        let verdict = refusals::ring(self.cells.len(), self.position);
        let line = || DelayLine { buffer: self.cells.clone(), position: self.position as usize };
        let mut machine = verdict.is_ok().then(|| self.settings.machine(line()));
        for operation in &self.operations {
            answer.verdict(verdict);
            let sample = machine.as_mut().map_or(0.0, |machine| machine.step(operation));
            answer.samples("sample", &[sample]);
            if let Some(number) = operation.told() {
                let reach = verdict.map_or(Reach::Within, |()| reach::of(number));
                answer.reaches(&[reach]);
                answer.tally.meet("reach over a ring", edges::edge(number));
                answer.tally.reach(reach);
            }
            let circumstance = if verdict.is_ok() { operation.name() } else { "refused" };
            answer.tally.meet(S::NAME, circumstance);
        }
        let memory = machine.as_mut().map_or_else(|| self.settings.memory(), |machine| machine.memory());
        let lent = line();
        let line = machine.as_ref().map_or(&lent, |machine| machine.line());
        answer.part("position");
        answer.word(line.position as u64);
        answer.samples("cells", &line.buffer);
        answer.samples("memory", &memory);
        Ok(())
    }

    fn random(values: &mut Values, refused: bool) -> Self {
        let (length, position) = random_ring(values, refused);
        values.ring = length.max(1);
        let cells = values.numbers(Role::Sample, length);
        let settings = S::random(values);
        let operations = (0..values.random.below(60)).map(|_| S::Operation::random(values)).collect();
        Self { position, cells, settings, operations }
    }

    fn show(&self) -> String {
        format!("{}: {self:?}", S::NAME)
    }
}

/// Length and position: short rings, and the longest at times; or such as are refused.
fn random_ring(values: &mut Values, refused: bool) -> (u64, u64) {
    let random = &mut values.random;
    let usual = random.between(4, 40);
    let length = if random.once_in(200) { 32_768 } else { random.pick(&[1, 2, 3, usual, usual, usual]) };
    let position = random.below(length);
    match (refused, random.below(16)) {
        (false, _) => (length, position),
        (true, 0) => (32_768 + random.pick(&[1, 2, 100]), position),
        (true, 1..6) => (0, random.pick(&[0, 1, u64::MAX])),
        (true, _) => (length, length + random.pick(&[0, 1, u64::MAX >> 1])),
    }
}
