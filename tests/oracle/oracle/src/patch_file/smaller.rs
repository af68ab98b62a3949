//! Ways to make a patch file a little less: without a stage, shorter, with a byte at zero.

use super::PatchFile;
use super::read::Due;
use super::read::Item;
use super::read::Items;
use super::spell;
use crate::shrink::fewer;

pub const WAYS: &[fn(&PatchFile) -> Vec<PatchFile>] = &[fewer_stages, shorter, plainer_bytes, nothing_behind];

/// Without each stage in turn, as far as the file can be read, and the count less by one.
fn fewer_stages(file: &PatchFile) -> Vec<PatchFile> {
    let items: Vec<Item> = Items::new(&file.bytes).map_while(Result::ok).collect();
    let [_, Item { offset: count, word: stages @ 1.., .. }, ..] = items[..] else {
        return Vec::new();
    };
    let mut starts: Vec<usize> = items.iter().filter(|item| item.due == Due::Kind).map(|item| item.offset).collect();
    let Some(&first) = starts.first() else {
        return Vec::new();
    };
    starts.push(file.bytes.len());
    let without = |stage: &[usize]| {
        let (before, after) = (&file.bytes[first..stage[0]], &file.bytes[stage[1]..]);
        [&file.bytes[..count], &spell::number(stages - 1, 1), before, after].concat().into()
    };
    starts.windows(2).map(without).collect()
}

fn shorter(file: &PatchFile) -> Vec<PatchFile> {
    fewer(&file.bytes).into_iter().map(PatchFile::from).collect()
}

/// Each byte in turn at zero, or without its top bit, or with that alone.
fn plainer_bytes(file: &PatchFile) -> Vec<PatchFile> {
    let places = file.bytes.iter().enumerate();
    let plainer = places.flat_map(|(place, &byte)| [0, byte & 0x7f, byte & 0x80].map(|plain| (place, byte, plain)));
    let others = plainer.filter(|(_, byte, plain)| plain < byte);
    others
        .map(|(place, _, plain)| {
            let mut bytes = file.bytes.clone();
            bytes[place] = plain;
            bytes.into()
        })
        .collect()
}

fn nothing_behind(file: &PatchFile) -> Vec<PatchFile> {
    let plain = file.behind.iter().all(|&byte| byte == 0);
    if plain { Vec::new() } else { vec![file.bytes.clone().into()] }
}
