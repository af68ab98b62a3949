//! Sort 8: single reads and writes.

use magnetron::stage::StageActivity;

use crate::answer::Answer;
use crate::answer::Answered;
use crate::case::Sort;
use crate::laid::Begin;
use crate::laid::Laid;
use crate::lengths::MOST_ZEROS;
use crate::panics;
use crate::pools::Buffer;
use crate::pools::Pools;
use crate::random_pools;
use crate::refusals;
use crate::refusals::Verdict;
use crate::show;
use crate::shrink::fewer;
use crate::values::Role;
use crate::values::Values;
use crate::words::Pass;
use crate::words::Passed;
use crate::words::Tape;

/// What is done with a buffer: it is read, or written from lent values, from one buffer or from the product of two.
#[derive(Clone, Debug, Default)]
enum Action {
    #[default]
    Read,
    Values(Vec<f64>),
    Buffer(Buffer),
    Product(Buffer, Buffer),
}

#[derive(Clone, Debug, Default)]
struct Operation {
    action: Action,
    n: u64,
    buffer: Buffer,
    level: Option<f64>,
}

impl Pass for Operation {
    fn pass(&mut self, tape: &mut dyn Tape) -> Passed {
        let none = Buffer::default();
        let actions = [Action::Read, Action::Values(Vec::new()), Action::Buffer(none), Action::Product(none, none)];
        tape.variant(&mut self.action, &actions)?;
        tape.word(&mut self.n)?;
        self.buffer.pass(tape)?;
        if let Action::Read = self.action {
            return Ok(());
        }
        pass_level(&mut self.level, tape)?;
        match &mut self.action {
            Action::Read => Ok(()),
            Action::Values(values) => {
                let mut length = values.len() as u64;
                tape.at_most(&mut length, MOST_ZEROS)?;
                tape.numbers(values, length)
            }
            Action::Buffer(input) => input.pass(tape),
            Action::Product(first, second) => {
                first.pass(tape)?;
                second.pass(tape)
            }
        }
    }
}

/// 0, or 1 and the bits.
fn pass_level(level: &mut Option<f64>, tape: &mut dyn Tape) -> Passed {
    let mut given = u64::from(level.is_some());
    tape.at_most(&mut given, 1)?;
    *level = (given == 1).then(|| level.unwrap_or_default());
    level.iter_mut().try_for_each(|level| tape.number(level))
}

impl Operation {
    fn verdict(&self, pools: &Pools) -> Verdict {
        match &self.action {
            Action::Read => refusals::read(pools, self.n, self.buffer),
            Action::Values(values) => refusals::write(pools, self.n, Some(values.len()), &[], self.buffer),
            Action::Buffer(input) => refusals::write(pools, self.n, None, &[*input], self.buffer),
            Action::Product(first, second) => refusals::write(pools, self.n, None, &[*first, *second], self.buffer),
        }
    }

    fn name(&self) -> &'static str {
        match self.action {
            Action::Read => "read",
            Action::Values(_) => "write values",
            Action::Buffer(_) => "write a buffer",
            Action::Product(..) => "write a product",
        }
    }

    /// What the Rust reads, or the activity of what it writes.
    fn perform(&self, pools: &mut Pools) -> (Vec<f64>, StageActivity) {
        let mut laid = Laid::new(pools, 1.0);
        let done = laid.write(self.n as usize, Begin::AsItStands { reset: false }, |writer| {
            let output = self.buffer.into();
            let activity = match &self.action {
                Action::Read => return (writer.read(output).to_vec(), StageActivity::Exhausted),
                Action::Values(values) => {
                    let mut values = values.iter().copied();
                    writer.read_0_write_1(output, self.level, || values.next().unwrap_or_default())
                }
                &Action::Buffer(input) => writer.read_1_write_1(input.into(), output, self.level, |sample| sample),
                &Action::Product(first, second) => {
                    let inputs = (first.into(), second.into());
                    writer.read_2_write_1(inputs, output, self.level, |first, second| first * second)
                }
            };
            (Vec::new(), activity)
        });
        laid.lift(pools);
        done
    }

    fn random(values: &mut Values, pools: &Pools, refused: bool) -> Self {
        let mut fault = || refused && values.random.once_in(8);
        let (long, stray) = (fault(), [fault(), fault(), fault()]);
        let n = if long { random_pools::long_window(values, pools) } else { random_pools::window(values, pools) };
        let [buffer, first, second] = stray.map(|stray| match stray {
            true => random_pools::stray_buffer(values, pools),
            false => random_pools::buffer(values, pools),
        });
        let level = values.random.once_in(2).then(|| values.number(Role::OutLevel));
        let action = match values.random.below(4) {
            0 => Action::Read,
            1 => Action::Buffer(first),
            2 => Action::Product(first, second),
            _ => {
                let other = values.random.pick(&[0, n.saturating_sub(1), n.saturating_add(1)]);
                let length = if refused && values.random.once_in(3) { other } else { n };
                Action::Values(values.numbers(Role::Sample, length.min(MOST_ZEROS)))
            }
        };
        Self { action, n, buffer, level }
    }
}

#[derive(Clone, Debug, Default)]
pub struct Single {
    pools: Pools,
    operations: Vec<Operation>,
}

impl Pass for Single {
    fn pass(&mut self, tape: &mut dyn Tape) -> Passed {
        self.pools.pass(tape)?;
        tape.list(&mut self.operations)
    }
}

impl Single {
    /// Has the Rust do each operation on the pools as they are lent, where the table accepts it or refuses it with 5 or 7:
    /// the table's number, and where the Rust panics.
    pub fn attempts(&self) -> impl Iterator<Item = (u64, Option<String>)> {
        self.operations.iter().filter_map(|operation| {
            let [number, _] = refusals::outcome(operation.verdict(&self.pools));
            let attempt = || drop(operation.perform(&mut self.pools.clone()));
            matches!(number, 0 | 5 | 7).then(|| (number, panics::place(attempt)))
        })
    }
}

impl Sort for Single {
    const WAYS: &'static [fn(&Self) -> Vec<Self>] =
        &[|case| fewer(&case.operations).into_iter().map(|operations| Self { operations, ..case.clone() }).collect()];

    fn answer(&self, answer: &mut Answer) -> Answered {
        let mut pools = self.pools.clone();
        for operation in &self.operations {
            let verdict = operation.verdict(&pools);
            let (part, activity) = match verdict {
                Ok(()) => operation.perform(&mut pools),
                Err(_) => Default::default(),
            };
            answer.verdict(verdict);
            match operation.action {
                Action::Read => {
                    answer.part("length of the part");
                    answer.word(part.len() as u64);
                    answer.samples("part", &part);
                }
                _ => answer.activity(activity),
            }
            answer.tally.meet("single", if verdict.is_ok() { operation.name() } else { "refused" });
        }
        pools.answer_samples(answer);
        pools.answer_marks(answer);
        Ok(())
    }

    fn random(values: &mut Values, refused: bool) -> Self {
        let mut single = Self { pools: random_pools::pools(values), operations: Vec::new() };
        let mut now = single.pools.clone();
        for _ in 0..values.random.below(16) {
            let operation = Operation::random(values, &now, refused);
            match (operation.verdict(&now), &operation.action) {
                (Err(_), _) if !refused => continue,
                (Err(_), _) | (Ok(()), Action::Read) => (),
                (Ok(()), _) => now.marks.set(operation.buffer, false),
            }
            single.operations.push(operation);
        }
        if refused && values.random.once_in(2) {
            random_pools::add_fault(values, &mut single.pools);
        }
        single
    }

    fn show(&self) -> String {
        format!("{}  {:?}\n", show::pools(&self.pools), self.operations)
    }
}
