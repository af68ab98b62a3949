//! The Rust and another program, asked the same: every word of their answers compared.

mod report;
mod smallest;

use std::error::Error;
use std::fs;
use std::path::PathBuf;

pub use report::Report;
pub use smallest::smallest;

use crate::answer::Answer;
use crate::case::Case;
use crate::listed;
use crate::program::Program;
use crate::program::Said;
use crate::words::Reader;

pub struct Compare {
    pub program: Program,
    /// Where the smallest differing case is put.
    pub failing: PathBuf,
}

type Failed = Box<dyn Error>;

/// About how many bytes of cases the program is asked at once.
const BATCH: usize = 1 << 23;

/// One case in so many is likely to be refused.
pub const REFUSED: u64 = 5;

/// The listed cases, then random ones: so many of each sort.
pub fn cases(sorts: Vec<u64>, seed: u64, count: u64) -> Result<impl Iterator<Item = Case>, String> {
    let mut listed = listed::cases("")?;
    listed.retain(|case| sorts.contains(&case.sort()));
    let random = sorts.into_iter().flat_map(move |sort| {
        (0..count).map(move |number| Case::random(sort, seed, number, number % REFUSED == REFUSED - 1))
    });
    Ok(listed.into_iter().chain(random))
}

/// The Rust's answer to a stream of cases, with the sort of each case and the word at which its part of the answer ends.
struct Answers {
    answer: Answer,
    parts: Vec<(u64, usize)>,
}

impl Compare {
    /// Asks all cases, up to one to which the program answers otherwise than the Rust: that one in words, at its smallest.
    pub fn first_different(
        &self,
        mut cases: impl Iterator<Item = Case>,
        report: &mut Report,
    ) -> Result<Option<String>, Failed> {
        let mut stream = batch(&mut cases);
        while !stream.is_empty() {
            // The next cases are made while the program is at these.
            let (said, (answers, next)) = self.program.ask(&stream, || (answer_all(&stream), batch(&mut cases)))?;
            let answers = answers?;
            let different = first_difference(&answers.answer, &said);
            let ends = answers.parts.iter().map(|part| part.1);
            let place = different.map(|word| ends.take_while(|&end| end <= word).count());
            report.add(&answers.parts, answers.answer);
            if let Some(place) = place {
                return self.explain(&stream, place).map(Some);
            }
            stream = next;
        }
        Ok(None)
    }

    /// What the program says to a stream, and what the Rust answers.
    fn ask(&self, stream: &[u8]) -> Result<(Said, Answers), Failed> {
        let (said, answers) = self.program.ask(stream, || answer_all(stream))?;
        Ok((said, answers?))
    }

    fn differs(&self, case: &Case) -> Result<bool, Failed> {
        let Some(stream) = case.written() else {
            return Ok(false);
        };
        let (said, answers) = self.ask(&stream)?;
        Ok(first_difference(&answers.answer, &said).is_some())
    }

    /// Makes the case at that place of the stream as small as it gets, keeps it, and puts it into words.
    fn explain(&self, stream: &[u8], place: usize) -> Result<String, Failed> {
        let mut stream = Reader(stream);
        let mut cases = (0..=place).map_while(|_| Case::read(&mut stream).ok().flatten());
        let Some(case) = cases.nth(place) else {
            return Ok("DIFFERENT: the program goes on behind the last answer".to_owned());
        };
        if !self.differs(&case)? {
            let show = case.show();
            return Ok(format!(
                "DIFFERENT, but not by itself: the program carries something over between cases\n{show}"
            ));
        }
        let case = smallest(case, |case| self.differs(case).unwrap_or(false));
        fs::write(&self.failing, case.bytes())?;
        let (said, answers) = self.ask(&case.bytes())?;
        let (kept, sort, show) = (self.failing.display(), case.sort(), case.show());
        let how = describe(&answers.answer, &said);
        Ok(format!("DIFFERENT, at its smallest, kept in {kept}\nsort {sort}\n{show}\n{how}"))
    }
}

/// The next cases as one stream; an empty one where none are left.
fn batch(cases: &mut impl Iterator<Item = Case>) -> Vec<u8> {
    let mut stream = Vec::new();
    while stream.len() < BATCH
        && let Some(case) = cases.next()
    {
        stream.extend(case.bytes());
    }
    stream
}

/// What the Rust answers to a stream of cases.
fn answer_all(stream: &[u8]) -> Result<Answers, String> {
    let (mut answer, mut parts) = (Answer::default(), Vec::new());
    let mut stream = Reader(stream);
    while let Some(case) = Case::read(&mut stream).map_err(|_| "the stream stops inside a case")? {
        case.answer(&mut answer).map_err(|why| format!("a case without an answer: {}", why.0))?;
        parts.push((case.sort(), answer.words().len()));
    }
    Ok(Answers { answer, parts })
}

/// The first word in which the program's output is not the answer.
fn first_difference(answer: &Answer, said: &Said) -> Option<usize> {
    let ours = answer.words();
    let different = ours.iter().zip(said.words()).position(|(our, their)| *our != their);
    different.or((8 * ours.len() != said.output.len()).then_some(ours.len().min(said.output.len() / 8)))
}

fn describe(answer: &Answer, said: &Said) -> String {
    let Some(place) = first_difference(answer, said) else {
        return "the two agree now".to_owned();
    };
    let [ours, theirs] = [answer.words().get(place).copied(), said.words().nth(place)].map(|word| match word {
        None => "nothing".to_owned(),
        Some(plain @ 0..0x1_0000_0000) => plain.to_string(),
        Some(word) => format!("{word:016x} ({:?})", f64::from_bits(word)),
    });
    let ended = if said.status.success() { String::new() } else { format!("; it ended with {}", said.status) };
    format!("{}: the oracle {ours}, the program {theirs}{ended}", answer.place(place))
}
