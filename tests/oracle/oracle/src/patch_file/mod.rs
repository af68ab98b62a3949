//! Sort 10: a patch file. The Rust has no such files: the answers are those of a second reading of document 02, in `read`.

mod random;
pub mod read;
mod show;
mod smaller;
pub mod spell;

use read::Due;
use read::Fault;
use read::Item;
use read::Items;

use crate::answer::Answer;
use crate::answer::Answered;
use crate::case::Sort;
use crate::lengths::MOST_FILE;
use crate::session::kind::KINDS;
use crate::values::Values;
use crate::words::Pass;
use crate::words::Passed;
use crate::words::Tape;

#[derive(Clone, Debug, Default)]
pub struct PatchFile {
    bytes: Vec<u8>,
    /// What is left of the last word. Nobody looks at it.
    behind: Vec<u8>,
}

impl From<Vec<u8>> for PatchFile {
    fn from(bytes: Vec<u8>) -> Self {
        Self { bytes, behind: Vec::new() }
    }
}

impl Pass for PatchFile {
    fn pass(&mut self, tape: &mut dyn Tape) -> Passed {
        let mut length = self.bytes.len() as u64;
        tape.at_most(&mut length, MOST_FILE)?;
        let count = length.div_ceil(8);
        self.bytes.append(&mut self.behind);
        self.bytes.resize(8 * count as usize, 0);
        for bytes in self.bytes.as_chunks_mut().0 {
            let mut word = u64::from_le_bytes(*bytes);
            tape.word(&mut word)?;
            *bytes = word.to_le_bytes();
        }
        self.behind = self.bytes.split_off(length as usize);
        Ok(())
    }
}

impl Sort for PatchFile {
    const WAYS: &'static [fn(&Self) -> Vec<Self>] = smaller::WAYS;

    fn answer(&self, answer: &mut Answer) -> Answered {
        let items: Result<Vec<Item>, Fault> = Items::new(&self.bytes).collect();
        let fault = items.as_ref().err();
        answer.outcome("number, offset", fault.map_or([0, 0], |fault| [fault.number, fault.offset as u64]));
        answer.tally.meet("patch files", fault.map_or("accepted", |fault| fault.name()));
        for item in items.into_iter().flatten() {
            item.answer(answer);
        }
        Ok(())
    }

    fn random(values: &mut Values, refused: bool) -> Self {
        random::file(values, refused)
    }

    fn show(&self) -> String {
        show::show(self)
    }
}

/// The words of sort 1 stand in the order of the file.
impl Item {
    fn answer(&self, answer: &mut Answer) {
        match self.due {
            Due::Version => return,
            Due::Count => answer.part("stage count"),
            Due::Kind => {
                answer.part("stage");
                answer.tally.meet("kinds in patch files", KINDS[self.word as usize].family());
            }
            Due::Mark => answer.tally.meet("parameters in patch files", PARAMETERS[self.word as usize]),
            Due::Bits if f64::from_bits(self.word).is_nan() => answer.tally.meet("parameters in patch files", "NaN"),
            _ => (),
        }
        answer.word(self.word);
    }
}

const PARAMETERS: [&str; 4] = ["absent", "fixed", "slot", "secs"];
