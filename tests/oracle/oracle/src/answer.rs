//! The words of an answer, with what each part of them is.

use magnetron::stage::StageActivity;

use crate::reach::Reach;
use crate::refusals;
use crate::refusals::Verdict;
use crate::tally::Tally;

/// Why a case has no answer here.
#[derive(Debug)]
pub struct Unanswerable(pub &'static str);

pub type Answered = Result<(), Unanswerable>;

#[derive(Default)]
pub struct Answer {
    words: Vec<u64>,
    parts: Vec<(usize, &'static str)>,
    pub tally: Tally,
}

/// The bits of a number on output: every NaN is the same.
pub fn bits(number: f64) -> u64 {
    if number.is_nan() { 0x7ff8_0000_0000_0000 } else { number.to_bits() }
}

impl Answer {
    pub fn words(&self) -> &[u64] {
        &self.words
    }

    /// Says what the words from here on are.
    pub fn part(&mut self, name: &'static str) {
        self.parts.push((self.words.len(), name));
    }

    pub fn word(&mut self, word: u64) {
        self.words.push(word);
    }

    pub fn flags(&mut self, flags: &[bool]) {
        self.words.extend(flags.iter().map(|&flag| u64::from(flag)));
    }

    pub fn sample(&mut self, sample: f64) {
        self.words.push(bits(sample));
        self.tally.sample(sample);
    }

    pub fn samples(&mut self, name: &'static str, samples: &[f64]) {
        self.part(name);
        samples.iter().for_each(|&sample| self.sample(sample));
    }

    pub fn verdict(&mut self, verdict: Verdict) {
        self.outcome("number, stage", refusals::outcome(verdict));
    }

    /// A refusal's number, or 0, and where it is at fault.
    pub fn outcome(&mut self, name: &'static str, outcome: [u64; 2]) {
        self.part(name);
        self.words.extend(outcome);
        *self.tally.outcomes.entry(outcome[0]).or_default() += 1;
    }

    pub fn activity(&mut self, activity: StageActivity) {
        self.part("activity");
        self.words.push(activity as u64);
    }

    pub fn reaches(&mut self, reaches: &[Reach]) {
        self.part("reach");
        self.words.extend(reaches.iter().map(|&reach| reach as u64));
    }

    /// What the word at `index` is: the part, which of its name, and the word's place in it.
    pub fn place(&self, index: usize) -> String {
        let before = self.parts.partition_point(|&(start, _)| start <= index);
        let Some(&(start, name)) = self.parts[..before].last() else {
            return format!("word {index}");
        };
        let earlier = self.parts[..before - 1].iter().filter(|part| part.1 == name).count();
        format!("{name} #{earlier}, word {} of it", index - start)
    }
}
