//! Where documents 01 and 02 part from the Rust: the smallest input of each difference, what they say to it, what the Rust does
//! and what the program does. docs/DIFFERENCES.md has the same in words.

use std::error::Error;
use std::f64::consts::TAU;
use std::hint::black_box;

use microwave::magnetron::oscillator::OscillatorType;

use crate::answer;
use crate::answer::Answer;
use crate::case::Case;
use crate::panics;
use crate::program::Program;
use crate::refusals;
use crate::refusals::NO_STAGE;
use crate::session::Session;
use crate::session::Stage;
use crate::session::kind::Kind;
use crate::show;
use crate::small::good_pools;
use crate::small::internal;
use crate::small::lent;
use crate::small::stage;
use crate::small::string;
use crate::small::window;
use crate::words::words;

/// A session of one window that 01 or 02 refuses, and whether the Rust panics there. Where it does not, it goes on. What it has
/// done to its buffers may show in a second window, which is accepted.
struct Difference {
    name: &'static str,
    session: Session,
    panics: Vec<bool>,
}

/// Whether the Rust and the program do what docs/DIFFERENCES.md says. The inputs are shown where they are asked for.
pub fn run(program: &Program, inputs: bool) -> Result<bool, Box<dyn Error>> {
    let mut as_listed = true;
    for difference in listed() {
        if inputs {
            print!("\n{}", Case::Session(difference.session.clone()).show());
        }
        as_listed &= difference.show(program)?;
    }
    as_listed &= show_numbers(program)?;
    println!("the listed differences are {}\n", if as_listed { "as listed" } else { "NOT AS LISTED" });
    Ok(as_listed)
}

fn listed() -> Vec<Difference> {
    let square = || stage(&Kind::Oscillator(OscillatorType::Square), &[], &[internal(0)]);
    let pass = |input, output| stage(&Kind::Pass, &[internal(input)], &[internal(output)]);
    let pan = stage(&Kind::Pan, &[internal(0)], &[internal(0); 2]);
    let string = stage(&string(32_768), &[internal(0)], &[internal(0)]);
    let one = |stages: Vec<Stage>| lent(good_pools([1, 0], [1, 0]), stages);
    let two = lent(good_pools([1, 1], [2, 1]), vec![square()]);
    let long = lent(good_pools([1, 0], [4_097, 0]), vec![square()]);
    let difference = |name, panics, lent: Session, n, order: &[u64]| Difference {
        name,
        session: Session { windows: vec![window(false, n, order)], ..lent.with_new_states() },
        panics: vec![panics],
    };
    let mut lost = difference("an empty window with equal outputs", false, one(vec![pan, square()]), 0, &[0]);
    lost.session.windows.push(window(false, 1, &[1]));
    lost.panics.push(true);
    vec![
        difference("a buffer that isn't there", true, one(vec![pass(1, 0)]), 1, &[0]),
        difference("a later stage's buffer that isn't there", true, one(vec![square(), pass(0, 1)]), 1, &[0, 1]),
        difference("an output that is an input, not stale", true, one(vec![pass(0, 0)]), 1, &[0]),
        lost,
        difference("a window longer than the capacity", true, one(Vec::new()), 2, &[]),
        difference("a short external pool that nothing reads", false, two, 2, &[0]),
        difference("a capacity over its bound", false, long, 4_097, &[0]),
        difference("a buffer_size over its bound", false, one(vec![string]), 0, &[0]),
    ]
}

impl Difference {
    fn show(self, program: &Program) -> Result<bool, Box<dyn Error>> {
        let Self { name, session, panics } = self;
        let (window, samples) = (&session.windows[0], &session.pools.internal.samples);
        let [number, stage] = refusals::outcome(session.judge(window));
        let (places, pools) = session.run_unchecked(&session.windows);
        let [before, after] = [samples, &pools.internal.samples].map(|samples| show::numbers(samples));
        println!("{name}: the documents and the program {number}, stage {stage}");
        println!("  the Rust {}; of the internal samples {before} it leaves {after}", panics::doing(&places[0]));
        places[1..].iter().for_each(|place| println!("  in the next window the Rust {}", panics::doing(place)));
        let unchanged = samples.iter().map(|sample| sample.to_bits());
        let refused: Vec<u64> = [number, stage, 0].into_iter().chain(unchanged).collect();
        let case = Case::Session(session.clone());
        let mut answer = Answer::default();
        case.answer(&mut answer).map_err(|why| why.0)?;
        let as_listed = answer.words().starts_with(&refused) && places.iter().map(Option::is_some).eq(panics);
        Ok(answers(program, &case, answer.words())? && as_listed)
    }
}

/// The differences in numbers: a case of the format, the answer of 01 or 02, and what the platform's function gives. The
/// oracle's Rust does not have them: it was given these functions.
fn show_numbers(program: &Program) -> Result<bool, Box<dyn Error>> {
    let [zero, minus, turn, half] = [0.0, -0.0, 0.2, 0.5].map(black_box);
    let sine = f64::from_bits(0x3fee_6f0e_1344_5500);
    let numbers = [
        ("maximum(-0.0, 0.0)", words![2, 0, 1, minus, zero], -0.0, minus.max(zero)),
        ("minimum(0.0, -0.0)", words![2, 1, 1, zero, minus], 0.0, zero.min(minus)),
        ("sine of 0.2 turns", words![2, 11, 1, turn], sine, (TAU * turn).sin()),
        ("sine of 0.5 turns", words![2, 11, 1, half], 0.0, (TAU * half).sin()),
    ];
    let mut as_listed = true;
    for (name, words, answer, platform) in numbers {
        let case = Case::of_words(&words).ok_or("a case that can't be read")?;
        as_listed &= answers(program, &case, &[answer.to_bits()])?;
        let [ours, theirs] = [answer, platform].map(f64::to_bits);
        println!("{name}: ours {ours:016x} ({answer:?}), the Rust here {theirs:016x} ({platform:?})");
    }
    println!("a lent phase of 7, Sin: ours NaN, the Rust can't be lent one");
    let nan = [0, NO_STAGE, 1, answer::bits(f64::NAN)];
    Ok(answers(program, &Case::Session(phase_of_seven()), &nan)? && as_listed)
}

fn phase_of_seven() -> Session {
    let sine = stage(&Kind::Oscillator(OscillatorType::Sin), &[], &[internal(0)]);
    let mut session = lent(good_pools([1, 0], [1, 0]), vec![sine]).with_new_states();
    session.states[0].numbers[0] = 7.0;
    session.windows = vec![window(false, 1, &[0])];
    session
}

/// Whether the program's answer begins with these words.
fn answers(program: &Program, case: &Case, words: &[u64]) -> Result<bool, Box<dyn Error>> {
    let (said, ()) = program.ask(&case.bytes(), || ())?;
    let begins: Vec<u64> = said.words().take(words.len()).collect();
    if begins != words {
        let begins = &begins[..begins.len().min(4)];
        println!("  NOT AS LISTED: the program answers {begins:x?} .. to\n{}", case.show());
    }
    Ok(begins == words)
}
