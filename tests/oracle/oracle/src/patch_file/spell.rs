//! Patch files as they are written: numbers in groups of seven bits, and files item by item. It rests on what is due where, as
//! `read` has it.

use super::read::Agenda;
use super::read::Due;

/// The items of a file: what is due, and its bytes.
pub type Spelled = Vec<(Due, Vec<u8>)>;

/// The file whose items are picked one after the other, each spelled shortest.
pub fn items(mut pick: impl FnMut(Due) -> u64) -> Spelled {
    let (mut agenda, mut items) = (Agenda::new(), Vec::new());
    while let Some(due) = agenda.take() {
        let word = pick(due);
        items.push((due, item(due, word)));
        agenda.add(due, word);
    }
    items
}

/// An item spelled shortest.
fn item(due: Due, word: u64) -> Vec<u8> {
    match due {
        Due::Bits => word.to_le_bytes().to_vec(),
        _ => number(word, 1),
    }
}

/// A number in no fewer bytes than are asked for: the groups on top are empty where it needs less.
pub fn number(word: u64, least: usize) -> Vec<u8> {
    let mut bytes = Vec::new();
    let mut rest = word;
    while rest > 0x7f || bytes.len() + 1 < least {
        bytes.push(0x80 | rest as u8);
        rest >>= 7;
    }
    bytes.push(rest as u8);
    bytes
}

pub fn bytes(items: &[(Due, Vec<u8>)]) -> Vec<u8> {
    items.iter().flat_map(|(_, bytes)| bytes).copied().collect()
}

/// Which items are numbers.
pub fn numbers(items: &[(Due, Vec<u8>)]) -> Vec<usize> {
    (0..items.len()).filter(|&place| items[place].0 != Due::Bits).collect()
}

/// At the edges of a group, of five groups and of a number's bound: their neighbours are hostile too.
const EDGES: [u64; 7] = [1 << 7, 1 << 14, 1 << 21, 1 << 28, 1 << 32, 1 << 35, 1 << 63];

/// How many bytes a number is padded to at the most. With the sixth it is none.
const PADDED: usize = 6;

/// Numbers that a reader may take for others: every fifth byte; small ones, at which kinds, choices, marks and versions end, and
/// neighbours of edges, each spelled shortest and padded.
pub fn hostile() -> Vec<Vec<u8>> {
    let fifth = (0..=u8::MAX).flat_map(|fifth| [0x80, 0xff].map(|group| vec![group, group, group, group, fifth]));
    let edges = EDGES.into_iter().flat_map(|edge| edge - 1..=edge + 1);
    let padded = (0..16).chain(edges).flat_map(|word| (1..=PADDED).map(move |least| number(word, least)));
    let mut all: Vec<_> = fifth.chain(padded).collect();
    all.sort();
    all.dedup();
    all
}
