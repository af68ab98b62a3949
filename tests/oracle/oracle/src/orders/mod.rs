//! Demand 3 at scale: random patches, each run in two orders from the same start. Where dependent stages stand in the same
//! sequence in both, everything must end the same; where two of them have changed places, it is told how often it does not.
//! The Rust is not asked: the program is held against itself.

mod dependence;
mod report;
mod trial;

use std::error::Error;
use std::time::Instant;

use report::Report;
use trial::Ended;
use trial::Trial;

use crate::case::Case;
use crate::compare::smallest;
use crate::program::Program;
use crate::session::Session;

/// A patch makes so many sessions: in its own order, in a consistent one, in an inconsistent one.
pub const SESSIONS: u64 = 3;

/// About how many bytes of cases the program is asked at once.
const BATCH: usize = 1 << 22;

/// How many other orders are tried for each step towards a smaller session.
const TRIED: u64 = 8;

/// Whether all consistent orders ended the same. From new states the oracle itself can be the program.
pub fn run(program: &Program, patches: u64, seed: u64, new_states: bool) -> Result<bool, Box<dyn Error>> {
    let begin = Instant::now();
    let mut report = Report::default();
    let mut trials = (0..patches).map(|number| Trial::random(seed, number, new_states));
    loop {
        let batch = batch(&mut trials);
        if batch.is_empty() {
            break;
        }
        for (trial, ended) in batch.iter().zip(ask(program, &batch)?) {
            if !ended.consistent_same {
                show(program, &trial.session);
                return Ok(false);
            }
            report.add(trial, &ended);
        }
    }
    print!("{report}");
    println!("every consistent order ended the same: seed {seed}, {:.0} s\n", begin.elapsed().as_secs_f64());
    Ok(true)
}

fn batch(trials: &mut impl Iterator<Item = Trial>) -> Vec<Trial> {
    let (mut batch, mut size) = (Vec::new(), 0);
    while size < BATCH
        && let Some(trial) = trials.next()
    {
        size += trial.stream().len();
        batch.push(trial);
    }
    batch
}

/// How the trials end.
fn ask(program: &Program, trials: &[Trial]) -> Result<Vec<Ended>, String> {
    let stream: Vec<u8> = trials.iter().flat_map(Trial::stream).collect();
    let (said, ()) = program.ask(&stream, || ())?;
    let words: Vec<u64> = said.words().collect();
    let mut rest = &words[..];
    trials.iter().map(|trial| trial.ended(&mut rest).ok_or("the program's answer is too short".to_owned())).collect()
}

/// Shows a session that ends otherwise in a consistent order, as small as it gets.
fn show(program: &Program, session: &Session) {
    let other_end = |session: &Session| {
        let trials: Vec<_> = (0..TRIED).map(|number| Trial::of(session.clone(), number)).collect();
        let ended = ask(program, &trials).unwrap_or_default();
        let place = ended.iter().position(|ended| !ended.consistent_same)?;
        Some(trials[place].consistent.clone())
    };
    let differs = |case: &Case| matches!(case, Case::Session(session) if other_end(session).is_some());
    let case = smallest(Case::Session(session.clone()), differs);
    println!("DIFFERENT in consistent orders\nsort {}\n{}", case.sort(), case.show());
    if let Case::Session(session) = case
        && let Some(other) = other_end(&session)
    {
        let orders = other.windows.iter().map(|window| format!("{:?}", window.order));
        println!("the other orders: {}", orders.collect::<Vec<_>>().join(", "));
    }
}
