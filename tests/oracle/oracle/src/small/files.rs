//! Small patch files: all of up to three bytes, and files of one stage of each kind that are cut, changed or too long in every
//! place. tests/oracle/README.md has a table of what is enumerated.

use crate::case::Case;
use crate::patch_file::read::Due;
use crate::patch_file::read::MARKS;
use crate::patch_file::spell;
use crate::patch_file::spell::Spelled;
use crate::refusals::MOST_STAGES;
use crate::session::kind::KINDS;

/// A file by the bytes of its parts.
fn file(parts: &[&[u8]]) -> Case {
    Case::PatchFile(parts.concat().into())
}

/// Every file of up to so many bytes.
pub fn shortest(most: u32) -> impl Iterator<Item = Case> {
    (0..=most)
        .flat_map(|length| (0..1u64 << (8 * length)).map(move |bytes| file(&[&bytes.to_le_bytes()[..length as usize]])))
}

/// What is picked for a file of some kinds of stages, one after the other. In turn t parameter k of each stage has the mark
/// t + k, so that after as many turns as there are marks each parameter of each kind has had each of them.
struct Picks<'k> {
    turn: u64,
    kinds: &'k [u64],
    stage: usize,
    parameter: u64,
    plain: u64,
}

impl Picks<'_> {
    fn word(&mut self, due: Due) -> u64 {
        match due {
            Due::Version => 1,
            Due::Count => self.kinds.len() as u64,
            Due::Kind => {
                (self.stage, self.parameter) = (self.stage + 1, 0);
                self.kinds[self.stage - 1]
            }
            Due::Choice(count) => self.turn % count,
            // No two are alike, and some take two bytes or five.
            Due::Plain => {
                self.plain += 1;
                self.plain + [0, 0, 0, 1 << 7, 0, 0, 0, 1 << 28][self.plain as usize % 8]
            }
            Due::Mark => {
                self.parameter += 1;
                (self.turn + self.parameter) % MARKS
            }
            // A NaN's, no two bytes alike: each tells its place, and none may be lost.
            Due::Bits => 0xfff1_0203_0405_0607 + self.plain,
        }
    }
}

/// A file of some kinds of stages.
fn of_kinds(kinds: &[u64], turn: u64) -> Spelled {
    let mut picks = Picks { turn, kinds, stage: 0, parameter: 0, plain: 0 };
    spell::items(|due| picks.word(due))
}

/// Files of one stage of each kind, in which each parameter has each mark.
fn of_each_kind() -> impl Iterator<Item = Spelled> {
    let kinds: Vec<u64> = (0..KINDS.len() as u64).collect();
    (0..MARKS).map(move |turn| of_kinds(&kinds, turn))
}

/// Cut at every place, and with each byte changed to each other.
pub fn cut_or_changed() -> impl Iterator<Item = Case> {
    of_each_kind().map(|items| spell::bytes(&items)).flat_map(|bytes| {
        let places = 0..bytes.len();
        places.flat_map(move |place| {
            let (before, after) = (bytes[..place].to_vec(), bytes[place..].to_vec());
            let others =
                (0..=u8::MAX).filter(|byte| *byte != after[0]).map(|byte| file(&[&before, &[byte], &after[1..]]));
            [file(&[&before])].into_iter().chain(others.collect::<Vec<_>>())
        })
    })
}

/// A hostile number in the place of each number, and the file cut inside a number that goes on.
pub fn hostile_numbers() -> impl Iterator<Item = Case> {
    let hostile = spell::hostile();
    of_each_kind().flat_map(move |items| {
        let hostile = hostile.clone();
        spell::numbers(&items).into_iter().flat_map(move |place| {
            let [before, after] = [&items[..place], &items[place + 1..]].map(spell::bytes);
            let cut = (1..=5).flat_map(|length| [0x80, 0xff].map(|group| vec![group; length]));
            let cut: Vec<_> = cut.map(|number| file(&[&before, &number])).collect();
            let whole: Vec<_> = hostile.iter().map(|number| file(&[&before, number, &after])).collect();
            whole.into_iter().chain(cut)
        })
    })
}

/// Versions, counts of stages and leftovers at their bounds.
pub fn bounds() -> impl Iterator<Item = Case> {
    versions().chain(counts()).chain(leftovers())
}

/// Each with nothing behind it, with an empty patch, and with stages.
fn versions() -> impl Iterator<Item = Case> {
    (0..3).flat_map(|version| {
        let empty = [Vec::new(), vec![0]].into_iter();
        let stages = of_each_kind().map(|items| spell::bytes(&items[1..]));
        empty.chain(stages).map(move |behind| file(&[&[version], &behind]))
    })
}

/// Each kind so often, behind a count that says so or another.
fn counts() -> impl Iterator<Item = Case> {
    let around = MOST_STAGES - 1..=MOST_STAGES + 1;
    let said = around.clone().flat_map(move |said| around.clone().map(move |stages| (said, stages)));
    let kinds = (0..KINDS.len() as u64).flat_map(|kind| (0..MARKS).map(move |turn| (kind, turn)));
    kinds.flat_map(move |(kind, turn)| {
        said.clone().map(move |(said, stages)| {
            let items = of_kinds(&vec![kind; stages as usize], turn);
            file(&[&[1], &spell::number(said, 1), &spell::bytes(&items[2..])])
        })
    })
}

/// One to nine bytes of different sorts behind an empty patch and behind stages.
fn leftovers() -> impl Iterator<Item = Case> {
    let patches = [vec![1, 0]].into_iter().chain(of_each_kind().map(|items| spell::bytes(&items)));
    patches.flat_map(|patch| {
        let lengths = (1..10).flat_map(|length| [0, 1, 0x80, 0xff].map(|byte| vec![byte; length]));
        lengths.map(move |leftover| file(&[&patch, &leftover]))
    })
}
