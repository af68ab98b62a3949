//! What it costs to read a patch file of so many strings. The Rust has no such files; beside it stands a copy of the record that is
//! answered.

use std::hint::black_box;
use std::time::Duration;

use crate::ENGINE;
use crate::records::FlatPatch;
use crate::time;

/// Strings of the longest ring, each parameter a fixed number.
fn strings(count: usize) -> Vec<u8> {
    let fixed = [[1].as_slice(), &440.0_f64.to_le_bytes()].concat().repeat(4);
    let string = [[12, 0, 0xff, 0xff, 1, 1, 0].as_slice(), &fixed].concat();
    [[1, count as u8].as_slice(), &string.repeat(count)].concat()
}

pub fn table(budget: Duration) {
    let read = |bytes: &[u8]| unsafe { (ENGINE.read_patch)(bytes.as_ptr(), bytes.len()) };
    println!("\n## Reading a patch file (ns)\n");
    println!("| strings | bytes | read | copy of a patch |\n|---|---|---|---|");
    for count in [0, 1, 8, 32] {
        let bytes = strings(count);
        let answer = read(&bytes);
        assert_eq!((answer.number, answer.patch.count), (0, count), "the file of {count} strings");
        let mut copy: FlatPatch = answer.patch;
        let times = time::fastest(
            budget,
            [&mut || _ = black_box(read(black_box(&bytes))), &mut || *black_box(&mut copy) = *black_box(&answer.patch)],
        );
        println!("| {count} | {} | {:.0} | {:.0} |", bytes.len(), times[0], times[1]);
    }
}
