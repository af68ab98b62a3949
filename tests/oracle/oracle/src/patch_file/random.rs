//! Random patch files: patches of every kind and mark, with numbers spelled shortest or padded; and files with faults.

use super::PatchFile;
use super::read::Due;
use super::read::MARKS;
use super::spell;
use super::spell::Spelled;
use crate::lengths::MOST_FILE;
use crate::random::Random;
use crate::refusals::MOST_STAGES;
use crate::session::kind::KINDS;
use crate::values::Role;
use crate::values::Values;

/// Whatever bits are set besides these, they are a NaN's.
const NAN: u64 = 0x7ff0_0000_0000_0001;

pub fn file(values: &mut Values, refused: bool) -> PatchFile {
    let mut items = spell::items(|due| word(values, due));
    if values.random.once_in(3) {
        pad(&mut values.random, &mut items);
    }
    let bytes = if refused { faulty(&mut values.random, items) } else { spell::bytes(&items) };
    let behind = (0..7).map(|_| values.random.next() as u8).collect();
    PatchFile { bytes, behind }
}

/// A word that is accepted where it is due.
fn word(values: &mut Values, due: Due) -> u64 {
    match due {
        Due::Version => 1,
        Due::Count => match values.random.below(16) {
            0 => 0,
            1..10 => values.random.between(1, 5),
            10..15 => values.random.between(6, MOST_STAGES),
            _ => MOST_STAGES,
        },
        Due::Kind => values.random.below(KINDS.len() as u64),
        Due::Choice(count) => values.random.below(count),
        Due::Plain => plain(&mut values.random),
        Due::Mark => values.random.below(MARKS),
        Due::Bits => bits(values),
    }
}

/// As small as in most patches, or of any length in bits.
fn plain(random: &mut Random) -> u64 {
    match random.below(4) {
        0 => random.next() >> random.between(32, 63),
        _ => random.below(40),
    }
}

fn bits(values: &mut Values) -> u64 {
    match values.random.below(4) {
        0 => values.random.next(),
        1 => values.random.next() | NAN,
        2 => values.hostile().to_bits(),
        _ => values.number(Role::Sample).to_bits(),
    }
}

/// Some numbers with empty groups on top.
fn pad(random: &mut Random, items: &mut Spelled) {
    let often = random.pick(&[1, 4, 20]);
    for (_, bytes) in items.iter_mut().filter(|(due, _)| *due != Due::Bits) {
        let last = bytes.len() - 1;
        if last < 4 && random.once_in(often) {
            bytes[last] |= 0x80;
            bytes.resize(random.between(last as u64 + 1, 4) as usize, 0x80);
            bytes.push(0);
        }
    }
}

/// The file after something was done to it that is likely to be a fault.
fn faulty(random: &mut Random, mut items: Spelled) -> Vec<u8> {
    if random.once_in(2) {
        // Version and count are few among so many.
        let place = if random.once_in(4) { random.below(2) as usize } else { random.pick(&spell::numbers(&items)) };
        items[place].1 = match random.below(3) {
            0 => spell::number(random.below(40), 1),
            _ => random.pick(&spell::hostile()),
        };
        return spell::bytes(&items);
    }
    let mut file = spell::bytes(&items);
    let place = random.below(file.len() as u64) as usize;
    let byte = random.next() as u8;
    match random.below(8) {
        0..2 => file.truncate(place),
        2..4 => file[place] ^= byte.max(1),
        4 => file.insert(place, byte),
        5 => drop(file.remove(place)),
        6 => file.resize(file.len() + random.between(1, 9) as usize, byte),
        _ if random.once_in(20) => file.resize(MOST_FILE as usize, byte),
        _ => drop(file.drain(place..file.len().min(place + random.between(1, 40) as usize))),
    }
    file
}
