//! Sort 2: the small functions of f64.

use stand_ins::cosine_turns;
use stand_ins::held;
use stand_ins::maximum;
use stand_ins::minimum;
use stand_ins::sine_turns;

use crate::answer::Answer;
use crate::answer::Answered;
use crate::answer::bits;
use crate::case::Sort;
use crate::lengths::MOST_SAMPLES;
use crate::shrink::fewer;
use crate::values::Role;
use crate::values::Values;
use crate::words::Pass;
use crate::words::Passed;
use crate::words::Tape;

struct Function {
    name: &'static str,
    /// What its arguments are like; as many as it takes.
    arguments: &'static [Role],
    answer: fn(&[f64]) -> u64,
}

const ANY: Role = Role::Sample;

/// The standard library's functions where it has them, the stand-ins elsewhere.
const FUNCTIONS: [Function; 14] = [
    Function { name: "maximum", arguments: &[ANY, ANY], answer: |x| bits(maximum(x[0], x[1])) },
    Function { name: "minimum", arguments: &[ANY, ANY], answer: |x| bits(minimum(x[0], x[1])) },
    Function { name: "held", arguments: &[ANY, ANY, ANY], answer: |x| bits(held(x[0], x[1], x[2])) },
    Function { name: "absolute", arguments: &[ANY], answer: |x| bits(x[0].abs()) },
    Function { name: "copysign", arguments: &[ANY, ANY], answer: |x| bits(x[0].copysign(x[1])) },
    Function { name: "recip", arguments: &[ANY], answer: |x| bits(x[0].recip()) },
    Function { name: "whole_part", arguments: &[ANY], answer: |x| bits(x[0].trunc()) },
    Function { name: "fract", arguments: &[ANY], answer: |x| bits(x[0].fract()) },
    Function { name: "rem_euclid_one", arguments: &[ANY], answer: |x| bits(x[0].rem_euclid(1.0)) },
    Function { name: "round_up", arguments: &[ANY], answer: |x| round_up(x[0]) },
    Function { name: "gap", arguments: &[ANY], answer: |x| bits(round_up(x[0]) as f64 - x[0]) },
    Function { name: "sine_turns", arguments: &[Role::Turn], answer: |x| bits(sine_turns(x[0])) },
    Function { name: "cosine_turns", arguments: &[Role::Turn], answer: |x| bits(cosine_turns(x[0])) },
    Function { name: "all_plus_zero", arguments: &[ANY], answer: |x| all_plus_zero(x) },
];

/// The one function that takes all its arguments at once.
const ALL_PLUS_ZERO: u64 = 13;

/// The whole number at or next above x, for x from 0 to 2^53; 0 for any other x.
fn round_up(x: f64) -> u64 {
    if (0.0..=9007199254740992.0).contains(&x) { x.ceil() as u64 } else { 0 }
}

fn all_plus_zero(samples: &[f64]) -> u64 {
    u64::from(samples.iter().all(|sample| sample.to_bits() == 0))
}

#[derive(Clone, Debug, Default)]
pub struct Numbers {
    function: u64,
    arguments: Vec<f64>,
}

impl Numbers {
    fn function(&self) -> &'static Function {
        &FUNCTIONS[self.function as usize]
    }
}

impl Pass for Numbers {
    fn pass(&mut self, tape: &mut dyn Tape) -> Passed {
        tape.at_most(&mut self.function, FUNCTIONS.len() as u64 - 1)?;
        let arity = self.function().arguments.len() as u64;
        let mut count = self.arguments.len() as u64 / arity;
        let most = if self.function == ALL_PLUS_ZERO { MOST_SAMPLES } else { u64::MAX };
        tape.at_most(&mut count, most)?;
        tape.numbers(&mut self.arguments, count.saturating_mul(arity))
    }
}

impl Sort for Numbers {
    const WAYS: &'static [fn(&Self) -> Vec<Self>] = &[|case| {
        let calls: Vec<_> = case.arguments.chunks(case.function().arguments.len()).collect();
        fewer(&calls).into_iter().map(|calls| Self { arguments: calls.concat(), ..*case }).collect()
    }];

    fn answer(&self, answer: &mut Answer) -> Answered {
        let Function { name, arguments, answer: work } = self.function();
        answer.part(name);
        answer.tally.meet("numbers", name);
        match self.function {
            ALL_PLUS_ZERO => answer.word(work(&self.arguments)),
            _ => self.arguments.chunks(arguments.len()).for_each(|chunk| answer.word(work(chunk))),
        }
        Ok(())
    }

    fn random(values: &mut Values, _refused: bool) -> Self {
        let function = values.random.below(FUNCTIONS.len() as u64);
        let roles = FUNCTIONS[function as usize].arguments;
        if function == ALL_PLUS_ZERO {
            return Self { function, arguments: zeros(values) };
        }
        let arguments = (0..64).flat_map(|_| {
            values.hostility = values.random.pick(&[0, 128, 256]);
            tuple(values, roles)
        });
        Self { function, arguments: arguments.collect() }
    }

    fn show(&self) -> String {
        format!("{} of {:?}", self.function().name, self.arguments)
    }
}

/// The arguments of one call; at times they repeat or negate each other, or spread over all magnitudes.
fn tuple(values: &mut Values, roles: &[Role]) -> Vec<f64> {
    let mut tuple: Vec<_> = roles.iter().map(|&role| values.number(role)).collect();
    for k in 0..tuple.len() {
        match values.random.below(16) {
            0 if k > 0 => tuple[k] = tuple[k - 1],
            1 if k > 0 => tuple[k] = -tuple[k - 1],
            2 | 3 if roles[k] == ANY => tuple[k] *= values.random.logarithmic(1e-4, 1e17),
            4 if roles[k] == ANY => tuple[k] = values.random.below(1 << 20) as f64 / 4.0,
            5 if roles[k] == ANY => tuple[k] = f64::from_bits(values.random.next()),
            _ => (),
        }
    }
    tuple
}

/// Zeros, of which at times one is something else.
fn zeros(values: &mut Values) -> Vec<f64> {
    let length = values.random.below(40);
    let mut zeros = vec![0.0; length as usize];
    if values.random.once_in(2)
        && let Some(zero) = zeros.get_mut(values.random.below(length) as usize)
    {
        *zero = values.hostile();
    }
    zeros
}
