//! Words: eight bytes, low byte first. A format is said once, as a walk along a tape that is either read or written.

use std::io::Read;
use std::mem;

/// The stream ended inside a case, or holds a word that means nothing where it stands.
#[derive(Debug)]
pub struct Stop;

pub type Passed = Result<(), Stop>;

pub trait Tape {
    /// Reads the next word into `word`, or writes `word`.
    fn word(&mut self, word: &mut u64) -> Passed;
}

/// Whole numbers and f64 numbers, each as its word.
pub trait Word {
    fn word(self) -> u64;
}

impl Word for i32 {
    fn word(self) -> u64 {
        self as u64
    }
}

impl Word for u64 {
    fn word(self) -> u64 {
        self
    }
}

impl Word for f64 {
    fn word(self) -> u64 {
        self.to_bits()
    }
}

/// A list of words.
macro_rules! words {
    ($($word:expr),* $(,)?) => { vec![$($crate::words::Word::word($word)),*] };
}

pub(crate) use words;

/// What passes along a tape behind a count.
pub trait Pass {
    fn pass(&mut self, tape: &mut dyn Tape) -> Passed;
}

impl<'t> dyn Tape + 't {
    /// A word that is at most `most`.
    pub fn at_most(&mut self, word: &mut u64, most: u64) -> Passed {
        self.word(word)?;
        if *word <= most { Ok(()) } else { Err(Stop) }
    }

    pub fn flag(&mut self, flag: &mut bool) -> Passed {
        let mut word = u64::from(*flag);
        self.word(&mut word)?;
        *flag = word != 0;
        Ok(())
    }

    /// An f64 by its bits. A NaN that is read becomes the one NaN, whose sign is clear.
    pub fn number(&mut self, number: &mut f64) -> Passed {
        let mut bits = number.to_bits();
        self.word(&mut bits)?;
        *number = f64::from_bits(bits);
        if number.is_nan() {
            *number = f64::NAN;
        }
        Ok(())
    }

    /// Some numbers, whose count has passed before.
    pub fn numbers(&mut self, numbers: &mut Vec<f64>, count: u64) -> Passed {
        self.items(numbers, count, |number, tape| tape.number(number))
    }

    /// A count, then that many.
    pub fn list<T: Pass + Default>(&mut self, items: &mut Vec<T>) -> Passed {
        let mut count = items.len() as u64;
        self.word(&mut count)?;
        self.items(items, count, T::pass)
    }

    /// Some items, whose count has passed before. The list grows as they are read, so that a stream that promises more
    /// than it holds takes no room.
    pub fn items<T: Default>(
        &mut self,
        items: &mut Vec<T>,
        count: u64,
        mut pass: impl FnMut(&mut T, &mut dyn Tape) -> Passed,
    ) -> Passed {
        for k in 0..count as usize {
            if k == items.len() {
                items.push(T::default());
            }
            pass(&mut items[k], self)?;
        }
        Ok(())
    }

    /// The number of a variant in `variants`. What the variant holds does not pass here: where another one is read, it
    /// comes with what `variants` holds.
    pub fn variant<T: Clone>(&mut self, value: &mut T, variants: &[T]) -> Passed {
        let same = |variant: &T| mem::discriminant(variant) == mem::discriminant(value);
        let here = variants.iter().position(same).ok_or(Stop)?;
        let mut number = here as u64;
        self.at_most(&mut number, variants.len() as u64 - 1)?;
        if number != here as u64 {
            *value = variants[number as usize].clone();
        }
        Ok(())
    }
}

/// A tape that is read.
pub struct Reader<R>(pub R);

impl<R: Read> Reader<R> {
    /// The next word, or nothing where the stream has ended before it.
    pub fn next(&mut self) -> Result<Option<u64>, Stop> {
        let mut bytes = [0; 8];
        let mut filled = 0;
        while filled < 8 {
            match self.0.read(&mut bytes[filled..]) {
                Ok(0) if filled == 0 => return Ok(None),
                Ok(0) | Err(_) => return Err(Stop),
                Ok(more) => filled += more,
            }
        }
        Ok(Some(u64::from_le_bytes(bytes)))
    }
}

impl<R: Read> Tape for Reader<R> {
    fn word(&mut self, word: &mut u64) -> Passed {
        *word = self.next()?.ok_or(Stop)?;
        Ok(())
    }
}

/// A tape that is written.
#[derive(Default)]
pub struct Writer(pub Vec<u8>);

impl Writer {
    pub fn words(&self) -> impl Iterator<Item = u64> {
        of_bytes(&self.0)
    }
}

/// The whole words that some bytes hold.
pub fn of_bytes(bytes: &[u8]) -> impl Iterator<Item = u64> {
    bytes.as_chunks().0.iter().map(|bytes| u64::from_le_bytes(*bytes))
}

impl Tape for Writer {
    fn word(&mut self, word: &mut u64) -> Passed {
        self.0.extend(word.to_le_bytes());
        Ok(())
    }
}
