//! A case of any sort: how it is read, written, answered, made at random, made smaller and shown.

use std::io::Read;

use crate::answer::Answer;
use crate::answer::Answered;
use crate::parts::AllPass;
use crate::parts::Clips;
use crate::parts::Comb;
use crate::parts::LowPass;
use crate::parts::Numbers;
use crate::parts::Prepare;
use crate::parts::Ring;
use crate::parts::Single;
use crate::patch_file::PatchFile;
use crate::session::Session;
use crate::values::Values;
use crate::words::Pass;
use crate::words::Reader;
use crate::words::Stop;
use crate::words::Tape;
use crate::words::Writer;

/// What each sort of case can do.
pub trait Sort: Clone + Default + Pass + 'static {
    /// Ways to cases that are a little less.
    const WAYS: &'static [fn(&Self) -> Vec<Self>];

    /// Puts the answer's words behind those that are there.
    fn answer(&self, answer: &mut Answer) -> Answered;

    /// A case that no check refuses, or one that is likely to be refused.
    fn random(values: &mut Values, refused: bool) -> Self;

    /// What a reader needs in order to see what the case does.
    fn show(&self) -> String;
}

/// Says once which sorts there are.
macro_rules! sorts {
    ($($number:literal $name:ident),*) => {
        #[derive(Clone)]
        pub enum Case { $($name($name)),* }

        pub const SORTS: &[u64] = &[$($number),*];

        impl Case {
            fn of(sort: u64) -> Result<Self, Stop> {
                match sort { $($number => Ok(Self::$name($name::default())),)* _ => Err(Stop) }
            }

            pub fn sort(&self) -> u64 {
                match self { $(Self::$name(_) => $number),* }
            }

            pub fn answer(&self, answer: &mut Answer) -> Answered {
                match self { $(Self::$name(case) => case.answer(answer)),* }
            }

            /// Cases that are a little less in one way, if there is a way of that number.
            pub fn smaller(&self, way: usize) -> Option<Vec<Self>> {
                match self {
                    $(Self::$name(case) => {
                        let way = $name::WAYS.get(way)?;
                        Some(way(case).into_iter().map(Self::$name).collect())
                    }),*
                }
            }

            pub fn show(&self) -> String {
                match self { $(Self::$name(case) => case.show()),* }
            }

            fn pass(&mut self, tape: &mut dyn Tape) -> Result<(), Stop> {
                match self { $(Self::$name(case) => case.pass(tape)),* }
            }

            /// The case of that number among those of a seed.
            pub fn random(sort: u64, seed: u64, number: u64, refused: bool) -> Self {
                let mut values = Values::new(&[seed, sort, number, u64::from(refused)]);
                match sort {
                    $($number => Self::$name($name::random(&mut values, refused)),)*
                    _ => panic!("there is no sort {sort}"),
                }
            }
        }
    };
}

sorts!(1 Session, 2 Numbers, 3 Ring, 4 Clips, 5 LowPass, 6 Comb, 7 AllPass, 8 Single, 9 Prepare, 10 PatchFile);

impl Case {
    /// The next case of a stream, or nothing where it has ended.
    pub fn read(stream: &mut Reader<impl Read>) -> Result<Option<Self>, Stop> {
        let Some(sort) = stream.next()? else {
            return Ok(None);
        };
        let mut case = Self::of(sort)?;
        case.pass(stream)?;
        Ok(Some(case))
    }

    /// The case that these words are.
    pub fn of_words(words: &[u64]) -> Option<Self> {
        let bytes: Vec<u8> = words.iter().flat_map(|word| word.to_le_bytes()).collect();
        Self::read(&mut Reader(&bytes[..])).ok()?
    }

    /// The case as a stream of its own.
    pub fn bytes(&self) -> Vec<u8> {
        self.written().expect("a case that was made can be written")
    }

    /// The same, or nothing where it is over a bound of the format.
    pub fn written(&self) -> Option<Vec<u8>> {
        let mut tape = Writer::default();
        tape.word(&mut self.sort()).and_then(|()| self.clone().pass(&mut tape)).ok()?;
        Some(tape.0)
    }
}

#[cfg(test)]
mod tests {
    use super::*;

    #[test]
    fn a_case_that_is_read_is_the_case_that_was_written() {
        for &sort in SORTS {
            for number in 0..200 {
                let bytes = Case::random(sort, 1, number, number % 2 == 1).bytes();
                let mut stream = Reader(&bytes[..]);
                let case = Case::read(&mut stream).unwrap().unwrap();
                assert!(Case::read(&mut stream).unwrap().is_none(), "sort {sort}, case {number}");
                assert_eq!(case.bytes().len(), bytes.len(), "sort {sort}, case {number}");
            }
        }
    }
}
