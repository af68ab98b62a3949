//! Sort 9: prepare, and the reset flag.

use crate::answer::Answer;
use crate::answer::Answered;
use crate::case::Sort;
use crate::laid::Begin;
use crate::laid::Laid;
use crate::pools::Pools;
use crate::random_pools;
use crate::refusals;
use crate::show;
use crate::shrink::fewer;
use crate::values::Values;
use crate::words::Pass;
use crate::words::Passed;
use crate::words::Tape;

#[derive(Clone, Debug, Default)]
enum Operation {
    Prepare(u64),
    #[default]
    SetReset,
}

const OPERATIONS: [Operation; 2] = [Operation::Prepare(0), Operation::SetReset];

impl Pass for Operation {
    fn pass(&mut self, tape: &mut dyn Tape) -> Passed {
        tape.variant(self, &OPERATIONS)?;
        match self {
            Operation::Prepare(n) => tape.word(n),
            Operation::SetReset => Ok(()),
        }
    }
}

impl Operation {
    /// The reset flag that the Rust's writer has then.
    fn perform(&self, pools: &mut Pools, reset: bool) -> bool {
        match *self {
            Operation::Prepare(n) => {
                let mut laid = Laid::new(pools, 1.0);
                let reset = laid.write(n as usize, Begin::Prepared, |writer| writer.reset());
                laid.lift(pools);
                reset
            }
            Operation::SetReset => {
                // The pools may be bad, and have no part in it.
                Laid::new(&Pools::default(), 1.0).write(0, Begin::AsItStands { reset }, |writer| {
                    writer.set_reset();
                    writer.reset()
                })
            }
        }
    }
}

#[derive(Clone, Debug, Default)]
pub struct Prepare {
    pools: Pools,
    reset: bool,
    operations: Vec<Operation>,
}

impl Pass for Prepare {
    fn pass(&mut self, tape: &mut dyn Tape) -> Passed {
        self.pools.pass(tape)?;
        tape.flag(&mut self.reset)?;
        tape.list(&mut self.operations)
    }
}

impl Sort for Prepare {
    const WAYS: &'static [fn(&Self) -> Vec<Self>] =
        &[|case| fewer(&case.operations).into_iter().map(|operations| Self { operations, ..case.clone() }).collect()];

    fn answer(&self, answer: &mut Answer) -> Answered {
        let (mut pools, mut reset) = (self.pools.clone(), self.reset);
        for operation in &self.operations {
            let (verdict, name) = match operation {
                Operation::Prepare(n) => (refusals::prepare(&pools, *n), "prepare"),
                Operation::SetReset => (Ok(()), "set_reset"),
            };
            if verdict.is_ok() {
                reset = operation.perform(&mut pools, reset);
            }
            answer.verdict(verdict);
            answer.part("reset");
            answer.flags(&[reset]);
            pools.answer_marks(answer);
            answer.tally.meet("prepare", if verdict.is_ok() { name } else { "refused" });
        }
        pools.answer_samples(answer);
        Ok(())
    }

    fn random(values: &mut Values, refused: bool) -> Self {
        let mut pools = random_pools::pools(values);
        let operations = (0..values.random.below(8)).map(|_| match values.random.below(3) {
            0 => Operation::SetReset,
            1 if refused => Operation::Prepare(random_pools::long_window(values, &pools)),
            _ => Operation::Prepare(random_pools::window(values, &pools)),
        });
        let operations = operations.collect();
        if refused && values.random.once_in(2) {
            random_pools::add_fault(values, &mut pools);
        }
        Self { pools, reset: values.random.once_in(2), operations }
    }

    fn show(&self) -> String {
        format!("{}  reset {}, {:?}\n", show::pools(&self.pools), self.reset, self.operations)
    }
}
