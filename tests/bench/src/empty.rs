//! What a run takes before its first stage, by the capacity, which is how many zeros are looked at.

use std::hint::black_box;
use std::time::Duration;

use crate::ENGINE;
use crate::cases::Case;
use crate::sides::Engine;
use crate::sides::Rust;
use crate::time;

pub fn table(budget: Duration) {
    println!("\n## A run with an empty order, and the scan of the zeros (ns)\n");
    print!("| capacity | run | the Rust's run | prepare | check of a read |");
    println!(" zeros: all of `x.to_bits() == 0` | zeros: or of all bits |\n|---|---|---|---|---|---|---|");
    for capacity in [0, 64, 512, 4_096] {
        let empty = || Engine::new(&ENGINE, &Case::empty(), capacity);
        let (mut run, mut prepared, checked) = (empty(), empty(), empty());
        let mut rust = Rust::new(&Case::empty(), capacity);
        let zeros = vec![0.0_f64; capacity];
        let times = time::fastest(
            budget,
            [
                &mut || _ = black_box(run.run()),
                &mut || _ = black_box(rust.run()),
                &mut || prepared.prepare(),
                &mut || _ = black_box(checked.check_read(0)),
                &mut || _ = black_box(black_box(&zeros).iter().all(|zero| zero.to_bits() == 0)),
                &mut || _ = black_box(black_box(&zeros).iter().fold(0, |bits, zero| bits | zero.to_bits()) == 0),
            ],
        );
        print!("| {capacity} |");
        times.iter().for_each(|nanoseconds| print!(" {nanoseconds:.0} |"));
        println!();
    }
}
