//! A second reading of patch files, written from document 02 alone: what is due at each place of a file, and what is due next
//! because of what stands there. It rests on the kinds of stages as sort 1 has them.

use std::iter;

use crate::refusals::MOST_STAGES;
use crate::session::kind::KINDS;
use crate::session::kind::Kind;

const ENDS_EARLY: u64 = 20;
const OTHER_VERSION: u64 = 21;
const UNKNOWN: u64 = 22;
const TOO_LARGE: u64 = 23;
const LEFT_OVER: u64 = 24;
const TOO_MANY_STAGES: u64 = 25;

/// A number that goes on behind so many bytes is none.
const LONGEST: usize = 5;

/// What is due at a place of a file.
#[derive(Clone, Copy, Debug, PartialEq)]
pub enum Due {
    Version,
    Count,
    Kind,
    /// One of so many.
    Choice(u64),
    /// A buffer, a size or a slot. The run judges it.
    Plain,
    Mark,
    /// The eight bytes of a fixed number.
    Bits,
}

/// How many marks of a parameter there are, and those behind which something stands.
pub const MARKS: u64 = 4;
const FIXED: u64 = 1;
const SLOT: u64 = 2;

/// Why there is no patch, and where what is at fault begins.
#[derive(Clone, Copy, Debug)]
pub struct Fault {
    pub number: u64,
    pub offset: usize,
}

impl Fault {
    pub fn name(&self) -> &'static str {
        self.said().0
    }

    pub fn meaning(&self) -> &'static str {
        self.said().1
    }

    /// The number, and the document's words for it.
    fn said(&self) -> (&'static str, &'static str) {
        match self.number {
            ENDS_EARLY => ("20", "the bytes end early"),
            OTHER_VERSION => ("21", "version"),
            UNKNOWN => ("22", "unknown kind, choice or parameter mark"),
            TOO_LARGE => ("23", "a number too large or longer than five bytes"),
            LEFT_OVER => ("24", "bytes left over"),
            _ => ("25", "more than 32 stages"),
        }
    }
}

/// What stands at a place.
pub struct Item {
    pub due: Due,
    pub offset: usize,
    pub word: u64,
}

/// The items of a file one by one, up to the first fault.
pub struct Items<'f> {
    file: &'f [u8],
    offset: usize,
    due: Agenda,
}

impl<'f> Items<'f> {
    pub fn new(file: &'f [u8]) -> Self {
        Self { file, offset: 0, due: Agenda::new() }
    }
}

impl Iterator for Items<'_> {
    type Item = Result<Item, Fault>;

    fn next(&mut self) -> Option<Self::Item> {
        let (offset, rest) = (self.offset, &self.file[self.offset..]);
        let Some(due) = self.due.take() else {
            return (!rest.is_empty()).then_some(Err(Fault { number: LEFT_OVER, offset }));
        };
        let known = due.stands_in(rest).and_then(|(word, length)| due.judged(word).map(|()| (word, length)));
        Some(known.map_err(|number| Fault { number, offset }).map(|(word, length)| {
            self.offset += length;
            self.due.add(due, word);
            Item { due, offset, word }
        }))
    }
}

/// All that is due from a place on, as far as it is known there. What is next stands last.
pub struct Agenda(Vec<Due>);

impl Agenda {
    /// At the beginning of a file.
    pub fn new() -> Self {
        Self(vec![Due::Count, Due::Version])
    }

    pub fn take(&mut self) -> Option<Due> {
        self.0.pop()
    }

    /// What is due because of the word at a place comes before all else.
    pub fn add(&mut self, due: Due, word: u64) {
        match (due, word) {
            (Due::Count, stages) => self.0.extend(iter::repeat_n(Due::Kind, stages as usize)),
            (Due::Kind, kind) => self.add_stage(&KINDS[kind as usize]),
            (Due::Mark, FIXED) => self.0.push(Due::Bits),
            (Due::Mark, SLOT) => self.0.push(Due::Plain),
            _ => (),
        }
    }

    /// Choices, buffer_size, inputs and outputs, parameters: the last of them first.
    fn add_stage(&mut self, kind: &Kind) {
        let plain = usize::from(kind.buffer_size().is_some()) + kind.inputs() + kind.outputs();
        self.0.extend(kind.roles().iter().map(|_| Due::Mark));
        self.0.extend(iter::repeat_n(Due::Plain, plain));
        self.0.extend(kind.choices().iter().rev().map(|&count| Due::Choice(count as u64)));
    }
}

impl Due {
    /// The word at the beginning of these bytes, and how many of them it takes.
    fn stands_in(self, rest: &[u8]) -> Result<(u64, usize), u64> {
        match self {
            Due::Bits => rest.first_chunk().map(|bytes| (u64::from_le_bytes(*bytes), 8)).ok_or(ENDS_EARLY),
            _ => number(rest),
        }
    }

    /// Whether the word means something here; else the refusal's number.
    fn judged(self, word: u64) -> Result<(), u64> {
        let (good, number) = match self {
            Due::Version => (word == 1, OTHER_VERSION),
            Due::Count => (word <= MOST_STAGES, TOO_MANY_STAGES),
            Due::Kind => (word < KINDS.len() as u64, UNKNOWN),
            Due::Choice(count) => (word < count, UNKNOWN),
            Due::Mark => (word < MARKS, UNKNOWN),
            Due::Plain | Due::Bits => return Ok(()),
        };
        if good { Ok(()) } else { Err(number) }
    }
}

/// A number in groups of seven bits, low group first, and how many bytes it takes.
fn number(rest: &[u8]) -> Result<(u64, usize), u64> {
    let looked_at = &rest[..rest.len().min(LONGEST)];
    let Some(last) = looked_at.iter().position(|byte| byte & 0x80 == 0) else {
        return Err(if looked_at.len() == LONGEST { TOO_LARGE } else { ENDS_EARLY });
    };
    let groups = looked_at[..=last].iter().map(|byte| u64::from(byte & 0x7f));
    let value = groups.rev().fold(0, |value, group| value << 7 | group);
    if value <= u64::from(u32::MAX) { Ok((value, last + 1)) } else { Err(TOO_LARGE) }
}

#[cfg(test)]
mod tests {
    use super::*;

    /// A refusal's number and offset, or 0 and the number of items.
    fn outcome(file: &[u8]) -> (u64, usize) {
        let items: Result<Vec<_>, _> = Items::new(file).collect();
        items.map_or_else(|fault| (fault.number, fault.offset), |items| (0, items.len()))
    }

    #[test]
    fn a_fault_is_judged_as_soon_as_it_is_read() {
        assert_eq!(outcome(&[]), (ENDS_EARLY, 0));
        assert_eq!(outcome(&[2]), (OTHER_VERSION, 0));
        assert_eq!(outcome(&[1]), (ENDS_EARLY, 1));
        assert_eq!(outcome(&[1, 0]), (0, 2));
        assert_eq!(outcome(&[1, 0, 0, 0]), (LEFT_OVER, 2));
        assert_eq!(outcome(&[1, 33]), (TOO_MANY_STAGES, 1));
        assert_eq!(outcome(&[1, 1, 15]), (UNKNOWN, 2));
        assert_eq!(outcome(&[1, 1, 11, 5, 9]), (UNKNOWN, 3));
        assert_eq!(outcome(&[1, 1, 11, 4, 2]), (UNKNOWN, 4));
        assert_eq!(outcome(&[1, 1, 0, 8, 9, 4]), (UNKNOWN, 5));
        assert_eq!(outcome(&[1, 1, 0, 8, 9, 1, 0, 0, 0, 0, 0, 0, 0]), (ENDS_EARLY, 6));
        assert_eq!(outcome(&[1, 1, 0, 8, 9, 1, 0, 0, 0, 0, 0, 0, 0, 0]), (0, 7));
    }

    #[test]
    fn pan_has_three_buffers_and_four_parameters() {
        assert_eq!(outcome(&[1, 1, 14]), (ENDS_EARLY, 3));
        assert_eq!(outcome(&[1, 1, 14, 0, 2, 9, 0, 0, 3, 3]), (0, 10));
        assert_eq!(outcome(&[1, 1, 14, 0, 2, 9, 0, 0, 3]), (ENDS_EARLY, 9));
        assert_eq!(outcome(&[1, 1, 14, 0, 2, 9, 0, 0, 3, 3, 3]), (LEFT_OVER, 10));
    }

    #[test]
    fn a_number_is_judged_at_its_fifth_byte() {
        assert_eq!(outcome(&[1, 0x80, 0x80, 0x80, 0x80]), (ENDS_EARLY, 1));
        assert_eq!(outcome(&[1, 0x80, 0x80, 0x80, 0x80, 0]), (0, 2));
        assert_eq!(outcome(&[1, 0x80, 0x80, 0x80, 0x80, 0x10]), (TOO_LARGE, 1));
        assert_eq!(outcome(&[1, 0x80, 0x80, 0x80, 0x80, 0x80]), (TOO_LARGE, 1));
        assert_eq!(outcome(&[1, 0xff, 0xff, 0xff, 0xff, 0x0f]), (TOO_MANY_STAGES, 1));
        assert_eq!(number(&[0xff, 0xff, 0xff, 0xff, 0x0f]), Ok((u64::from(u32::MAX), LONGEST)));
    }
}
