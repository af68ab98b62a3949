//! Times by turns: what is measured side by side is called by turns, in batches, and the fastest batch of each counts. What else
//! goes on at the machine makes a batch slower and none faster. It is measured from each place that the stack can have in a line of
//! the cache, for a run copies records there, and from one place to another its time moves by some hundredths, of each engine in
//! its own way.

use std::collections::BTreeSet;
use std::hint::black_box;
use std::time::Duration;
use std::time::Instant;

/// A batch takes about this long, so that reading the clock does not show.
const BATCH: Duration = Duration::from_micros(20);

/// So long each is called before it is measured: by then what a string has heard has come round its ring. Before that windows take
/// some hundredths less, and the fastest would be one of those.
const WARMING: Duration = Duration::from_millis(3);

fn batch(work: &mut dyn FnMut(), calls: u32) -> Duration {
    let began = Instant::now();
    for _ in 0..calls {
        work();
    }
    began.elapsed()
}

/// How many calls make a batch.
fn calls(work: &mut dyn FnMut()) -> u32 {
    let mut calls = 1;
    while batch(work, calls) < BATCH {
        calls *= 2;
    }
    calls
}

/// The nanoseconds that a call of each takes, at the fastest, with the stack where it is. Another begins each round, so that none
/// always comes after the same one, and finds the caches as that one leaves them.
fn fastest_here<const COUNT: usize>(budget: Duration, mut works: [&mut dyn FnMut(); COUNT]) -> [f64; COUNT] {
    let sizes = works.each_mut().map(|work| calls(*work));
    let mut turns: [usize; COUNT] = std::array::from_fn(|turn| turn);
    let mut best = [f64::INFINITY; COUNT];
    let began = Instant::now();
    while began.elapsed() < budget {
        for turn in turns {
            let took = batch(works[turn], sizes[turn]).as_nanos() as f64 / f64::from(sizes[turn]);
            best[turn] = best[turn].min(took);
        }
        turns.rotate_left(1);
    }
    best
}

/// The bytes of a line of the cache. The stack begins at one of four places in it, for it is kept at multiples of 16.
const LINE: usize = 64;
const PLACES: [fn(&mut dyn FnMut()); 4] = [lower::<16>, lower::<32>, lower::<48>, lower::<64>];

/// Does something with the stack lower by so many bytes and some, the same for each.
#[inline(never)]
fn lower<const BYTES: usize>(work: &mut dyn FnMut()) {
    let room = [0_u8; BYTES];
    black_box(&room);
    work();
    black_box(&room);
}

/// The nanoseconds that a call of each takes, at the fastest from all places of the stack.
pub fn fastest<const COUNT: usize>(budget: Duration, mut works: [&mut dyn FnMut(); COUNT]) -> [f64; COUNT] {
    for work in &mut works {
        let began = Instant::now();
        while began.elapsed() < WARMING {
            work();
        }
    }
    let mut best = [f64::INFINITY; COUNT];
    let mut met = BTreeSet::new();
    for place in PLACES {
        let mut timed = || {
            let here = 0_u8;
            met.insert(black_box(&raw const here).addr() % LINE);
            let works = works.each_mut().map(|work| &mut **work as &mut dyn FnMut());
            let times = fastest_here(budget / PLACES.len() as u32, works);
            best.iter_mut().zip(times).for_each(|(best, time)| *best = best.min(time));
        };
        // Hidden from the compiler, which would put what is done into `lower`, and lay out the stack of both together.
        place(black_box(&mut timed as &mut dyn FnMut()));
    }
    assert_eq!(met.len(), PLACES.len(), "places that the stack had in a line of the cache: {met:?}");
    best
}
